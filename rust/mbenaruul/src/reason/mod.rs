//! Why a pair is refused: the field that breaks the rule, what stands there and what should.
//!
//! The verdict is the proved library's. What is here looks up the numbers behind a no, in plain
//! Rust, and is tested: where it finds nothing it says so, and the no stands.

mod find;
mod text;

/// Which file of a pair.
#[derive(Debug, Clone, Copy, PartialEq, Eq, Hash)]
pub enum File {
    /// The main file, with the records.
    Shp,
    /// The index.
    Shx,
}

/// Why a pair is refused. Its text is one line for a person to read:
/// `record 12: the index says byte 9316, the record stands at byte 4212`.
#[derive(Debug, Clone, Copy, PartialEq)]
#[non_exhaustive]
pub struct Reason {
    /// The rule that is broken: 11 for P11.
    pub rule: u32,
    /// The number of the record that breaks it, from 1; 0 for the headers.
    pub record: usize,
    /// The file that holds the field.
    pub file: File,
    /// Where the field stands in that file, in bytes; its length, where the file ends too early.
    pub offset: usize,
    /// What stands there, and what should.
    pub cause: Cause,
}

/// What stands in the field that breaks a rule, and what should. Lengths in words are as the file
/// states them, of 16 bits each.
#[derive(Debug, Clone, Copy, PartialEq)]
#[non_exhaustive]
pub enum Cause {
    /// P1, P2: the file has so many bytes, and a header has 100.
    ShortFile {
        /// The bytes that are there.
        bytes: usize,
    },
    /// P3: the file code is not 9994.
    FileCode {
        /// The code.
        found: i32,
    },
    /// P3: one of the unused bytes is not 0.
    Unused {
        /// The byte.
        found: u8,
    },
    /// P3: the version is not 1000.
    Version {
        /// The version.
        found: i32,
    },
    /// P4: there is no such kind, or it is not taken.
    HeaderKind {
        /// The kind's code.
        found: i32,
    },
    /// P5, P8: the header states another length than the file has.
    FileLength {
        /// What the header says, in words.
        words: i32,
        /// What the file has, in bytes.
        bytes: usize,
    },
    /// P6: a number of the header's box is not finite.
    HeaderBox {
        /// Which one: Xmin, Ymin, Xmax, Ymax, Zmin, Zmax, Mmin or Mmax.
        side: &'static str,
        /// The number.
        found: f64,
    },
    /// P7: the two headers differ in a byte.
    HeadersDiffer {
        /// The field that the byte belongs to.
        field: &'static str,
        /// The byte in the .shx.
        shx: u8,
        /// The byte in the .shp.
        shp: u8,
    },
    /// P8: the bytes behind the header of the .shx are no whole entries of 8.
    HalfEntry {
        /// The bytes behind the header.
        bytes: usize,
    },
    /// P9: the .shp ends inside the record's header of 8 bytes.
    Stump {
        /// The bytes that are left.
        bytes: usize,
    },
    /// P9: the record has another number than its place.
    RecordNumber {
        /// The number.
        found: i32,
    },
    /// P10: the content is under 2 words, or does not lie in the file.
    ContentLength {
        /// What the record's header says, in words.
        words: i32,
        /// The bytes that are left behind that header.
        left: usize,
    },
    /// P11: the index has no entry for the record.
    NoEntry {
        /// The entries that there are.
        entries: usize,
    },
    /// P11: the entry names another place.
    EntryOffset {
        /// The byte that the entry names.
        found: i64,
        /// The byte at which the record stands.
        wanted: usize,
    },
    /// P11: the entry states another length.
    EntryLength {
        /// What the entry says, in words.
        found: i32,
        /// What the record's header says, in words.
        wanted: i32,
    },
    /// P12: the record has another kind than the header, and is no Null.
    RecordKind {
        /// The record's kind.
        found: i32,
        /// The header's.
        wanted: i32,
    },
    /// P13: the content is too short to have counts, or a point or a Null has another length than
    /// its kind.
    FixedLength {
        /// The record's kind.
        kind: i32,
        /// What the record's header says, in words.
        words: i32,
        /// What the kind has, or at least has where it has parts or is a multipoint, in words.
        wanted: u64,
    },
    /// P13: the number of parts is negative.
    NegativeParts {
        /// The number.
        found: i32,
    },
    /// P13: the number of points is negative.
    NegativePoints {
        /// The number.
        found: i32,
    },
    /// P13: a shape of so many parts and points, or a multipoint of so many points, has another
    /// length.
    CountedLength {
        /// The record's kind.
        kind: i32,
        /// What the record's header says, in words.
        words: i32,
        /// The number of parts; 0 for a multipoint.
        parts: i32,
        /// The number of points.
        points: i32,
        /// What the shape has without m, in words.
        wanted: u64,
        /// And with m, where the kind has m.
        with_m: Option<u64>,
    },
    /// P14: the shape has no part.
    NoPart {
        /// The record's kind.
        kind: i32,
    },
    /// P14: the multipoint has no point.
    NoPoint {
        /// The record's kind.
        kind: i32,
    },
    /// P14: the first part does not start at point 0.
    FirstStart {
        /// Where it starts.
        found: i32,
    },
    /// P14: a part has too few points.
    ShortPart {
        /// The record's kind.
        kind: i32,
        /// Which part, from 1.
        part: usize,
        /// The point it starts at, from 0.
        from: i32,
        /// The point before which it ends.
        to: i32,
        /// The points that a part of this kind has at least.
        least: i32,
    },
    /// P15: a ring is not closed.
    OpenRing {
        /// Which ring, from 1.
        ring: usize,
        /// Its first point, x and y.
        first: [f64; 2],
        /// Its last point.
        last: [f64; 2],
    },
    /// P16: a number of the shape is not finite.
    NotFinite {
        /// Which number.
        what: Double,
        /// The number.
        found: f64,
    },
    /// P17: the index has more entries than the .shp has records.
    LeftOver {
        /// The entries.
        entries: usize,
    },
}

/// A number of a shape.
#[derive(Debug, Clone, Copy, PartialEq, Eq)]
pub enum Double {
    /// One of its box: Xmin, Ymin, Xmax or Ymax.
    Box(&'static str),
    /// The lower or upper end of the range of z or of m.
    Range(&'static str),
    /// x, y, z or m of a point, which is counted from 1 over all parts.
    Of(char, usize),
}
