//! The text of a reason: one line, in plain words, with the numbers.

use super::{Cause, Double, File, Reason};
use crate::kind;
use std::fmt::{self, Display, Formatter};

impl Display for Reason {
    fn fmt(&self, f: &mut Formatter<'_>) -> fmt::Result {
        match self.record {
            0 => f.write_str(&self.phrase()),
            record => write!(f, "record {record}: {}", self.phrase()),
        }
    }
}

impl Reason {
    fn phrase(&self) -> String {
        let (record, file, at) = (self.record, self.file, self.offset);
        match self.cause {
            Cause::ShortFile { bytes } => {
                format!("the {file} has {}; a header has 100", count(bytes, "byte"))
            }
            Cause::FileCode { found } => {
                format!("the file code of the {file} is {found}; it should be 9994")
            }
            Cause::Unused { found } => {
                format!("byte {at} of the {file} is {found}; bytes 4 to 23 should be 0")
            }
            Cause::Version { found } => {
                format!("the version of the {file} is {found}; it should be 1000")
            }
            Cause::HeaderKind { found } => match kind::name(found) {
                Some(name) => format!("the header's kind is {found}, a {name}, which is not taken"),
                None => format!("the header's kind is {found}; there is no such kind"),
            },
            Cause::FileLength { words, bytes } => {
                let (says, has) = (length(words), count(bytes, "byte"));
                format!("the header of the {file} says {says}; the file has {has}")
            }
            Cause::HeaderBox { side, found } => {
                format!("{side} of the header is {found}; it should be finite")
            }
            Cause::HeadersDiffer { field, shx, shp } => {
                format!("byte {at} of the .shx ({field}) is {shx}; that of the .shp is {shp}")
            }
            Cause::HalfEntry { bytes } => {
                let behind = count(bytes, "byte");
                format!("{behind} behind the header of the .shx; an entry has 8 bytes")
            }
            Cause::Stump { bytes } => {
                let left = count(bytes, "byte");
                format!("{left} left at byte {at}; a record's header has 8")
            }
            Cause::RecordNumber { found } => {
                format!("its number is {found}; it should be {record}")
            }
            Cause::ContentLength { words, .. } if words < 2 => {
                format!(
                    "its length is {}; it should be at least 2",
                    count(words, "word")
                )
            }
            Cause::ContentLength { words, left } => {
                let (says, left) = (length(words), count(left, "byte"));
                format!("its length is {says}; the file has {left} left")
            }
            Cause::NoEntry { entries } => {
                format!(
                    "the index has {}, and none for this record",
                    count(entries, "entry")
                )
            }
            Cause::EntryOffset { found, wanted } => {
                format!("the index says byte {found}, the record stands at byte {wanted}")
            }
            Cause::EntryLength { found, wanted } => {
                let says = count(found, "word");
                format!("the index says {says}, the record's header says {wanted}")
            }
            Cause::RecordKind { found, wanted } => {
                format!(
                    "its kind is {}; the header's is {}",
                    named(found),
                    named(wanted)
                )
            }
            Cause::FixedLength {
                kind,
                words,
                wanted,
            } => {
                let least = if kind::has_several(kind) {
                    "at least "
                } else {
                    ""
                };
                format!(
                    "{}; a {} has {least}{wanted}",
                    count(words, "word"),
                    name(kind)
                )
            }
            Cause::NegativeParts { found } => {
                format!("its number of parts is {found}; it should not be below 0")
            }
            Cause::NegativePoints { found } => {
                format!("its number of points is {found}; it should not be below 0")
            }
            Cause::CountedLength {
                kind,
                words,
                parts,
                points,
                wanted,
                with_m,
            } => {
                let parts = if kind::has_parts(kind) {
                    format!("{} and ", count(parts, "part"))
                } else {
                    String::new()
                };
                let with_m = with_m.map_or(String::new(), |words| format!(", or {words} with m"));
                let (words, points) = (count(words, "word"), count(points, "point"));
                let name = name(kind);
                format!("{words}; a {name} of {parts}{points} has {wanted}{with_m}")
            }
            Cause::NoPart { kind } => format!("0 parts; a {} has at least 1", name(kind)),
            Cause::NoPoint { kind } => format!("0 points; a {} has at least 1", name(kind)),
            Cause::FirstStart { found } => {
                format!("its first part starts at point {found}; it should start at point 0")
            }
            Cause::ShortPart {
                kind,
                part,
                from,
                to,
                least,
            } => {
                let points = count(i64::from(to) - i64::from(from), "point");
                let name = name(kind);
                format!("part {part} has {points}, from {from} to {to}; a {name}'s has at least {least}")
            }
            Cause::OpenRing { ring, first, last } => {
                let [first_at, last_at] = [place(first), place(last)];
                let is_nan = first.iter().chain(&last).any(|c| c.is_nan());
                let wanted = if is_nan {
                    "NaN equals nothing"
                } else {
                    "it should end where it begins"
                };
                format!("ring {ring} begins at {first_at} and ends at {last_at}; {wanted}")
            }
            Cause::NotFinite { what, found } => format!("{what} is {found}; it should be finite"),
            Cause::LeftOver { entries } => {
                let (entries, records) = (count(entries, "entry"), count(record - 1, "record"));
                format!("the index has {entries}, the .shp has {records}")
            }
        }
    }
}

impl Display for File {
    fn fmt(&self, f: &mut Formatter<'_>) -> fmt::Result {
        f.write_str(match self {
            File::Shp => ".shp",
            File::Shx => ".shx",
        })
    }
}

impl Display for Double {
    fn fmt(&self, f: &mut Formatter<'_>) -> fmt::Result {
        match self {
            Double::Box(side) => write!(f, "{side} of its box"),
            Double::Range(end) => write!(f, "{end} of its range"),
            Double::Of(c, point) => write!(f, "{c} of point {point}"),
        }
    }
}

/// So many things: "1 entry", "2 entries".
fn count(n: impl Display, thing: &str) -> String {
    match (n.to_string().as_str(), thing.strip_suffix('y')) {
        ("1", _) => format!("1 {thing}"),
        (n, Some(entr)) => format!("{n} {entr}ies"),
        (n, None) => format!("{n} {thing}s"),
    }
}

/// A length in words, with what that is in bytes.
fn length(words: i32) -> String {
    format!(
        "{}, which is {} bytes",
        count(words, "word"),
        2 * i64::from(words)
    )
}

fn name(kind: i32) -> &'static str {
    kind::name(kind).unwrap_or("shape")
}

/// A kind's code with its name.
fn named(kind: i32) -> String {
    match kind::name(kind) {
        Some(name) => format!("{kind}, a {name}"),
        None => format!("{kind}, which is no kind"),
    }
}

fn place(xy: [f64; 2]) -> String {
    format!("({}, {})", number(xy[0]), number(xy[1]))
}

/// A coordinate with every digit that tells it from another, and no row of zeros.
fn number(double: f64) -> String {
    let size = double.abs();
    if size == 0.0 || (1e-5..1e16).contains(&size) || !size.is_finite() {
        double.to_string()
    } else {
        format!("{double:e}")
    }
}
