//! What an evening knows of its two files without asking the library: all that the accepted shapes
//! make of their headers, their lengths and their counts.

use crate::common::{has_m, has_z, header, is_multipoint, is_point, totals};
use mbenaruul::{check_pair, kind, BBoxZ, Record, Totals};
use std::slice;

/// The words of a record with its header, by the formulas in docs/RULES.md.
pub fn words(kind: i32, parts: usize, points: usize) -> usize {
    let measures = usize::from(has_z(kind)) + usize::from(has_m(kind));
    let front = match kind {
        _ if kind == kind::NULL || is_point(kind) => 2,
        _ if is_multipoint(kind) => 20 + 8 * measures,
        _ => 22 + 8 * measures + 2 * parts,
    };
    4 + front + points * (8 + 4 * measures)
}

/// What is known of the files so far.
pub struct Known {
    /// The kind of the first accepted shape; before it that of Null.
    pub kind: i32,
    /// The words of the .shp, with its header.
    pub words: usize,
    pub totals: Totals,
    /// In the order of the header: x and y, low and high; z, low and high; m, low and high.
    sides: [f64; 8],
}

impl Known {
    /// Of two files without a record.
    pub fn new() -> Known {
        Known {
            kind: kind::NULL,
            words: 50,
            totals: totals(&[]),
            sides: [0.0; 8],
        }
    }

    pub fn is_empty(&self) -> bool {
        self.totals.records == 0
    }

    /// One more record, which was accepted.
    pub fn add(&mut self, record: &Record) {
        let own = totals(slice::from_ref(record));
        self.words += words(record.kind(), own.parts, own.points);
        if *record != Record::Null {
            self.widen(sides(record));
            self.kind = record.kind();
        }
        self.totals.records += 1;
        self.totals.parts += own.parts;
        self.totals.points += own.points;
    }

    /// The first shape gives its own box. Behind it a side stays as it was, unless the shape's own
    /// lies outside: so of -0 and 0, which are equal, the first stays.
    fn widen(&mut self, own: [f64; 8]) {
        if self.is_empty() {
            self.sides = own;
        }
        for low in [0, 1, 4, 6] {
            if own[low] < self.sides[low] {
                self.sides[low] = own[low];
            }
        }
        for high in [2, 3, 5, 7] {
            if own[high] > self.sides[high] {
                self.sides[high] = own[high];
            }
        }
    }

    /// The two files are those of the accepted shapes, as far as it can be known without their
    /// records: a pair with their counts, and both headers and lengths.
    pub fn assert_is(&self, shp: &[u8], shx: &[u8], at: &str) {
        assert_eq!(check_pair(shp, shx), Ok(self.totals), "{at}");
        let index = 50 + 4 * self.totals.records;
        let lengths = [2 * self.words, 2 * index];
        assert_eq!([shp.len(), shx.len()], lengths, "{at}");
        assert_eq!(shp[..100], self.header(self.words), "the .shp, {at}");
        assert_eq!(shx[..100], self.header(index), "the .shx, {at}");
    }

    /// The header of a file of so many words: the kind stands in front of the box.
    fn header(&self, words: usize) -> Vec<u8> {
        let mut bytes = header(9994, words as i32, self.kind);
        bytes.truncate(36);
        bytes.extend(self.sides.iter().flat_map(|side| side.to_le_bytes()));
        bytes
    }
}

/// A shape's own box and ranges: those of a point are its own values; 0 without z or m.
fn sides(record: &Record) -> [f64; 8] {
    match *record {
        Record::Point { x, y, z, m, .. } => {
            let (z, m) = (z.unwrap_or_default(), m.unwrap_or_default());
            [x, y, x, y, z, z, m, m]
        }
        _ => numbers(record.tables().bbox),
    }
}

/// The eight numbers of a box, in the order of the header.
pub fn numbers(bbox: BBoxZ) -> [f64; 8] {
    let BBoxZ {
        xmin,
        ymin,
        xmax,
        ymax,
        zmin,
        zmax,
        mmin,
        mmax,
    } = bbox;
    [xmin, ymin, xmax, ymax, zmin, zmax, mmin, mmax]
}
