//! Looking up what breaks a rule. Every number is taken from the bytes where it stands, and where they
//! end too early there is nothing to find.

use super::{Cause, Double, File, Reason};
use crate::kind;
use crate::rings::is_part_closed;

impl Reason {
    /// What breaks this rule in this record; none, where these two files do not break it there.
    pub(crate) fn find(rule: u32, record: usize, shp: &[u8], shx: &[u8]) -> Option<Reason> {
        let (file, offset, cause) = match (rule, record) {
            (1..=8, 0) => in_headers(rule, shp, shx),
            (9..=16, 1..) => Place::of(record, shp, shx)?.broken(rule),
            (17, 1..) => left_over(record, shp, shx),
            _ => None,
        }?;
        Some(Reason {
            rule,
            record,
            file,
            offset,
            cause,
        })
    }
}

/// The field and its cause.
type Broken = (File, usize, Cause);

// ---- numbers in the bytes; none, where the bytes end

fn four(bytes: &[u8], at: usize) -> Option<[u8; 4]> {
    bytes.get(at..)?.get(..4)?.try_into().ok()
}

fn big(bytes: &[u8], at: usize) -> Option<i32> {
    four(bytes, at).map(i32::from_be_bytes)
}

fn little(bytes: &[u8], at: usize) -> Option<i32> {
    four(bytes, at).map(i32::from_le_bytes)
}

fn double(bytes: &[u8], at: usize) -> Option<f64> {
    let eight = bytes.get(at..)?.get(..8)?.try_into().ok()?;
    Some(f64::from_le_bytes(eight))
}

fn in_bytes(words: i32) -> i64 {
    2 * i64::from(words)
}

// ---- the headers

const SIDES: [&str; 8] = [
    "Xmin", "Ymin", "Xmax", "Ymax", "Zmin", "Zmax", "Mmin", "Mmax",
];

fn in_headers(rule: u32, shp: &[u8], shx: &[u8]) -> Option<Broken> {
    match rule {
        1 => short(File::Shp, shp),
        2 => short(File::Shx, shx),
        3 => first_fields(shp),
        4 => header_kind(shp),
        5 => file_length(File::Shp, shp),
        6 => header_box(shp),
        7 => headers_differ(shp, shx),
        _ => file_length(File::Shx, shx).or_else(|| half_entry(shx)),
    }
}

fn short(file: File, bytes: &[u8]) -> Option<Broken> {
    let bytes = bytes.len();
    (bytes < 100).then_some((file, bytes, Cause::ShortFile { bytes }))
}

fn first_fields(shp: &[u8]) -> Option<Broken> {
    let found = big(shp, 0)?;
    if found != 9994 {
        return Some((File::Shp, 0, Cause::FileCode { found }));
    }
    if let Some(at) = (4..24).find(|&at| shp.get(at) != Some(&0)) {
        let found = *shp.get(at)?;
        return Some((File::Shp, at, Cause::Unused { found }));
    }
    let found = little(shp, 28)?;
    (found != 1000).then_some((File::Shp, 28, Cause::Version { found }))
}

fn header_kind(shp: &[u8]) -> Option<Broken> {
    let found = little(shp, 32)?;
    (!kind::is_taken(found)).then_some((File::Shp, 32, Cause::HeaderKind { found }))
}

fn file_length(file: File, bytes: &[u8]) -> Option<Broken> {
    let words = big(bytes, 24)?;
    let bytes = bytes.len();
    let wrong = in_bytes(words) != bytes as i64;
    wrong.then_some((file, 24, Cause::FileLength { words, bytes }))
}

fn header_box(shp: &[u8]) -> Option<Broken> {
    SIDES.iter().enumerate().find_map(|(i, side)| {
        let (at, found) = (36 + 8 * i, double(shp, 36 + 8 * i)?);
        (!found.is_finite()).then_some((File::Shp, at, Cause::HeaderBox { side, found }))
    })
}

fn headers_differ(shp: &[u8], shx: &[u8]) -> Option<Broken> {
    let at = (0..24)
        .chain(28..100)
        .find(|&at| shp.get(at) != shx.get(at))?;
    let field = match at {
        0..=3 => "the file code",
        4..=23 => "the unused bytes",
        28..=31 => "the version",
        32..=35 => "the kind",
        _ => SIDES[(at - 36) / 8],
    };
    let (shp, shx) = (*shp.get(at)?, *shx.get(at)?);
    Some((File::Shx, at, Cause::HeadersDiffer { field, shx, shp }))
}

fn half_entry(shx: &[u8]) -> Option<Broken> {
    let bytes = shx.len().checked_sub(100)?;
    (bytes % 8 != 0).then_some((File::Shx, 100, Cause::HalfEntry { bytes }))
}

fn entries(shx: &[u8]) -> usize {
    shx.len().saturating_sub(100) / 8
}

fn left_over(record: usize, shp: &[u8], shx: &[u8]) -> Option<Broken> {
    let entries = entries(shx);
    if behind(record - 1, shp)? != shp.len() || entries < record {
        return None;
    }
    let at = 100 + 8 * (record - 1);
    Some((File::Shx, at, Cause::LeftOver { entries }))
}

/// The byte behind so many records, which are passed over by their lengths.
fn behind(records: usize, shp: &[u8]) -> Option<usize> {
    let mut at = 100;
    for _ in 0..records {
        let words = usize::try_from(big(shp, at + 4)?).ok()?;
        at += 8 + 2 * words;
    }
    Some(at)
}

// ---- a record

/// Where a record stands in the two files, with what its own header and the file's say.
struct Place<'a> {
    record: usize,
    shp: &'a [u8],
    shx: &'a [u8],
    /// The record's first byte.
    at: usize,
    /// The kind that the header of the .shp names.
    header_kind: i32,
    /// The kind by which the content is judged: Null where the record says so, else the header's.
    kind: i32,
}

impl<'a> Place<'a> {
    /// There is no such record where the bytes end before it.
    fn of(record: usize, shp: &'a [u8], shx: &'a [u8]) -> Option<Place<'a>> {
        let (at, header_kind) = (behind(record - 1, shp)?, little(shp, 32)?);
        let is_null = little(shp, at + 8) == Some(kind::NULL);
        (at < shp.len()).then_some(Place {
            record,
            shp,
            shx,
            at,
            header_kind,
            kind: if is_null { kind::NULL } else { header_kind },
        })
    }

    fn broken(&self, rule: u32) -> Option<Broken> {
        match rule {
            9 => self.head(),
            10 => self.content_length(),
            11 => self.entry(),
            12 => self.record_kind(),
            13 => self.length(),
            14 => self.counts(),
            15 => self.rings(),
            _ => self.doubles(),
        }
    }

    fn words(&self) -> Option<i32> {
        big(self.shp, self.at + 4)
    }

    /// The cause, with the field so many bytes behind the record's first.
    fn shp(&self, behind: usize, cause: Cause) -> Option<Broken> {
        Some((File::Shp, self.at + behind, cause))
    }

    fn head(&self) -> Option<Broken> {
        let bytes = self.shp.len() - self.at;
        if bytes < 8 {
            return self.shp(0, Cause::Stump { bytes });
        }
        let found = big(self.shp, self.at)?;
        if i64::from(found) == self.record as i64 {
            return None;
        }
        self.shp(0, Cause::RecordNumber { found })
    }

    fn content_length(&self) -> Option<Broken> {
        let words = self.words()?;
        let left = self.shp.len() - self.at - 8;
        if words >= 2 && in_bytes(words) <= left as i64 {
            return None;
        }
        self.shp(4, Cause::ContentLength { words, left })
    }

    fn entry(&self) -> Option<Broken> {
        let entries = entries(self.shx);
        if entries < self.record {
            return Some((File::Shx, self.shx.len(), Cause::NoEntry { entries }));
        }
        let at = 100 + 8 * (self.record - 1);
        let (found, wanted) = (in_bytes(big(self.shx, at)?), self.at);
        if found != wanted as i64 {
            return Some((File::Shx, at, Cause::EntryOffset { found, wanted }));
        }
        let (found, wanted) = (big(self.shx, at + 4)?, self.words()?);
        (found != wanted).then_some((File::Shx, at + 4, Cause::EntryLength { found, wanted }))
    }

    fn record_kind(&self) -> Option<Broken> {
        let (found, wanted) = (little(self.shp, self.at + 8)?, self.header_kind);
        if found == wanted || found == kind::NULL {
            return None;
        }
        self.shp(8, Cause::RecordKind { found, wanted })
    }

    // ---- the content's length

    fn length(&self) -> Option<Broken> {
        let (kind, words) = (self.kind, self.words()?);
        // with fewer words the counts are not there
        if kind::has_several(kind) && words >= front_words(kind) {
            return self.counted_length(words);
        }
        let wanted = fixed_words(kind);
        if i64::from(words) == wanted as i64 {
            return None;
        }
        let cause = Cause::FixedLength {
            kind,
            words,
            wanted,
        };
        self.shp(4, cause)
    }

    fn counted_length(&self, words: i32) -> Option<Broken> {
        let kind = self.kind;
        let (parts, points) = (self.part_count()?, self.point_count()?);
        if parts < 0 {
            return self.shp(44, Cause::NegativeParts { found: parts });
        }
        if points < 0 {
            return self.shp(
                self.point_count_at(),
                Cause::NegativePoints { found: points },
            );
        }
        let wanted = counted_words(kind, false, parts, points);
        let with_m = kind::has_m(kind).then(|| counted_words(kind, true, parts, points));
        if words as u64 == wanted || Some(words as u64) == with_m {
            return None;
        }
        let cause = Cause::CountedLength {
            kind,
            words,
            parts,
            points,
            wanted,
            with_m,
        };
        self.shp(4, cause)
    }

    // ---- the counts of parts and points, and where each part starts and ends

    /// A multipoint does not say how many parts it has, which are 0.
    fn part_count(&self) -> Option<i32> {
        if kind::is_multipoint(self.kind) {
            return Some(0);
        }
        little(self.shp, self.at + 44)
    }

    fn point_count(&self) -> Option<i32> {
        little(self.shp, self.at + self.point_count_at())
    }

    /// Behind the count of parts, where there is one.
    fn point_count_at(&self) -> usize {
        if kind::is_multipoint(self.kind) {
            44
        } else {
            48
        }
    }

    fn start_of(&self, part: usize) -> Option<i32> {
        little(self.shp, self.at + 52 + 4 * part)
    }

    /// Each part's points, from its start to the next one's, the last to the end.
    fn runs(&self) -> Option<impl Iterator<Item = (i32, i32)> + '_> {
        let parts = usize::try_from(self.part_count()?).ok()?;
        let points = self.point_count()?;
        let end = move |part| {
            if part + 1 < parts {
                self.start_of(part + 1)
            } else {
                Some(points)
            }
        };
        Some((0..parts).map_while(move |part| Some((self.start_of(part)?, end(part)?))))
    }

    fn counts(&self) -> Option<Broken> {
        let kind = self.kind;
        if kind::is_multipoint(kind) && self.point_count()? == 0 {
            return self.shp(self.point_count_at(), Cause::NoPoint { kind });
        }
        if !kind::has_parts(kind) {
            return None;
        }
        if self.part_count()? == 0 {
            return self.shp(44, Cause::NoPart { kind });
        }
        let found = self.start_of(0)?;
        if found != 0 {
            return self.shp(52, Cause::FirstStart { found });
        }
        let least = if kind::has_rings(kind) { 4 } else { 2 };
        let short = |&(_, (from, to)): &(usize, (i32, i32))| {
            i64::from(to) - i64::from(from) < i64::from(least)
        };
        let (part, (from, to)) = (1..).zip(self.runs()?).find(short)?;
        let cause = Cause::ShortPart {
            kind,
            part,
            from,
            to,
            least,
        };
        self.shp(52 + 4 * (part - 1), cause)
    }

    /// Where the points stand, behind the counts and the starts.
    fn points_at(&self) -> Option<usize> {
        let starts = 4 * usize::try_from(self.part_count()?).ok()?;
        Some(self.at + self.point_count_at() + 4 + starts)
    }

    fn rings(&self) -> Option<Broken> {
        if !kind::has_rings(self.kind) {
            return None;
        }
        let points_at = self.points_at()?;
        for (ring, (from, to)) in (1..).zip(self.runs()?) {
            let at = |point: i32| Some(points_at + 16 * usize::try_from(point).ok()?);
            let point = |at| Some([double(self.shp, at)?, double(self.shp, at + 8)?]);
            let last_at = at(to.checked_sub(1)?)?;
            let (first, last) = (point(at(from)?)?, point(last_at)?);
            // what the checker asks of a ring, whatever the floating-point mode
            let [x, y] = [0, 1].map(|axis| [first[axis], last[axis]]);
            if is_part_closed(&x, &y, 2) == Ok(false) {
                let cause = Cause::OpenRing { ring, first, last };
                return Some((File::Shp, last_at, cause));
            }
        }
        None
    }

    // ---- doubles

    fn doubles(&self) -> Option<Broken> {
        if self.kind == kind::NULL {
            return None;
        }
        let end = self.at + 8 + usize::try_from(in_bytes(self.words()?)).ok()?;
        let several = kind::has_several(self.kind);
        let fields: Box<dyn Iterator<Item = (usize, Double)>> = if several {
            let sides = (0..4).map(|i| (self.at + 12 + 8 * i, Double::Box(SIDES[i])));
            Box::new(sides.chain(self.point_doubles()?))
        } else {
            let names = ['x', 'y'].into_iter().chain(measures(self.kind));
            let from = self.at + 12;
            Box::new(
                names
                    .enumerate()
                    .map(move |(i, c)| (from + 8 * i, Double::Of(c, 1))),
            )
        };
        for (at, what) in fields.take_while(|&(at, _)| at + 8 <= end) {
            let found = double(self.shp, at)?;
            if !found.is_finite() {
                return Some((File::Shp, at, Cause::NotFinite { what, found }));
            }
        }
        None
    }

    /// Behind the counts and the starts: x and y of each point; then, for z and for m, a range and a
    /// value for each point. m may lack, which shows in where the content ends.
    fn point_doubles(&self) -> Option<impl Iterator<Item = (usize, Double)>> {
        let from = self.points_at()?;
        let n = usize::try_from(self.point_count()?).ok()?;
        let xy = (1..=n).flat_map(|i| [Double::Of('x', i), Double::Of('y', i)]);
        let run = move |c: char| {
            let range = if c == 'z' {
                ["Zmin", "Zmax"]
            } else {
                ["Mmin", "Mmax"]
            };
            let values = (1..=n).map(move |i| Double::Of(c, i));
            range.into_iter().map(Double::Range).chain(values)
        };
        let all = xy.chain(measures(self.kind).flat_map(run));
        Some(all.enumerate().map(move |(i, what)| (from + 8 * i, what)))
    }
}

/// z and m, where the kind has them.
fn measures(kind: i32) -> impl Iterator<Item = char> {
    let z = kind::has_z(kind).then_some('z');
    let m = kind::has_m(kind).then_some('m');
    z.into_iter().chain(m)
}

/// The words of a point or of nothing, and those that a shape with parts or a multipoint has at least.
fn fixed_words(kind: i32) -> u64 {
    match kind {
        kind::NULL => 2,
        _ if kind::has_several(kind) => counted_words(kind, false, 0, 0),
        _ => 10 + 4 * measures(kind).count() as u64,
    }
}

/// The words of a shape with parts or of a multipoint up to its counts: the kind's field, a box, and two
/// counts or one.
fn front_words(kind: i32) -> i32 {
    if kind::is_multipoint(kind) {
        20
    } else {
        22
    }
}

/// All its words: behind the counts stand a start for each part and x and y for each point; with z, and
/// with m, a range and a value for each point.
fn counted_words(kind: i32, m: bool, parts: i32, points: i32) -> u64 {
    let (parts, points) = (parts as u64, points as u64);
    let measure = |there: bool| if there { 8 + 4 * points } else { 0 };
    front_words(kind) as u64 + 2 * parts + 8 * points + measure(kind::has_z(kind)) + measure(m)
}
