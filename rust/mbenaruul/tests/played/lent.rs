//! What the adds of an evening lend: well-formed shapes, codes of no kind, and tables that are
//! spoiled, so that it is known without the library what has to be said of them.

use crate::common::{self, has_m, has_z, is_multipoint, is_point, Random, KINDS};
use mbenaruul::{kind, BBoxZ, Record, Tables};

/// The one kind of the paper that is not taken.
pub const MULTIPATCH: i32 = 31;

/// A well-formed shape of a kind; now and then one with many points.
pub fn shape(kind: i32, random: &mut Random) -> Record {
    if is_point(kind) || random.below(64) > 0 {
        return common::record(kind, random);
    }
    let many = 1 + random.below(60);
    if is_multipoint(kind) {
        Record::Multipoint(common::multipoint(kind, 5 * many, random))
    } else {
        Record::Parts(common::shape(kind, many, random))
    }
}

/// Any of the twelve kinds.
pub fn any_kind(random: &mut Random) -> i32 {
    KINDS[random.below(KINDS.len())]
}

/// A code that is not in the table of kinds: near them, one of theirs with a bit more, an end of
/// the range, or any.
pub fn no_kind(random: &mut Random) -> i32 {
    loop {
        let code = match random.below(4) {
            0 => random.below(80) as i32 - 40,
            1 => any_kind(random) | 1 << random.below(32),
            2 => [i32::MIN, i32::MAX][random.below(2)],
            _ => random.next() as i32,
        };
        if !KINDS.contains(&code) && ![kind::NULL, MULTIPATCH].contains(&code) {
            return code;
        }
    }
}

/// The tables of an add, which can be spoiled.
pub struct Lent {
    pub kind: i32,
    bbox: BBoxZ,
    counts: Vec<u32>,
    x: Vec<f64>,
    y: Vec<f64>,
    z: Vec<f64>,
    m: Vec<f64>,
}

impl Lent {
    /// Those of a well-formed record.
    pub fn of(record: &Record) -> Lent {
        let tables = record.tables();
        Lent {
            kind: tables.kind,
            bbox: tables.bbox,
            counts: tables.counts.to_vec(),
            x: tables.x.to_vec(),
            y: tables.y.to_vec(),
            z: tables.z.to_vec(),
            m: tables.m.to_vec(),
        }
    }

    pub fn tables(&self) -> Tables<'_> {
        Tables {
            kind: self.kind,
            bbox: self.bbox,
            counts: &self.counts,
            x: &self.x,
            y: &self.y,
            z: &self.z,
            m: &self.m,
        }
    }

    /// Makes tables that agree, of a shape or of a Null, disagree in one of the ways that there
    /// are: one table has another length than the others, or is there where the kind has none; the
    /// part counts are others, or there where the kind has none; or there are more points or less
    /// than the kind or the part counts have.
    pub fn disagree(&mut self, random: &mut Random) {
        match random.below(6) {
            0 => other_length(&mut self.x, random),
            1 => other_length(&mut self.y, random),
            2 => other_length(&mut self.z, random),
            3 => other_length(&mut self.m, random),
            // any number of points is a multipoint
            4 if !is_multipoint(self.kind) => self.other_points(random),
            _ => self.other_counts(random),
        }
    }

    /// Another number of points, in all tables that the kind has: a point kind with two or with
    /// none, parts with more points or less than their counts have, a Null with some.
    fn other_points(&mut self, random: &mut Random) {
        other_length(&mut self.x, random);
        let points = self.x.len();
        let where_it_has = |has: bool| if has { points } else { 0 };
        self.y.resize(points, 0.5);
        self.z.resize(where_it_has(has_z(self.kind)), 0.5);
        self.m.resize(where_it_has(has_m(self.kind)), 0.5);
    }

    /// Part counts for what has none, also such as sum to the points; else counts with another sum.
    fn other_counts(&mut self, random: &mut Random) {
        if self.counts.is_empty() {
            let points = self.x.len() as u32;
            let counts = [&[points][..], &[0], &[points, 0], &[u32::MAX, 1]];
            self.counts = counts[random.below(4)].to_vec();
            return;
        }
        let k = random.below(self.counts.len());
        match random.below(5) {
            0 => self.counts[k] += 1,
            1 => self.counts[k] -= 1,
            2 => self.counts.push(1 + random.below(9) as u32),
            // no part of a well-formed shape is empty
            3 => self.counts.truncate(k),
            // with 32 bits it would be the sum that it was
            _ => self.counts.extend([u32::MAX, 1]),
        }
    }
}

/// Any other length than the table has, up to nine more.
fn other_length(table: &mut Vec<f64>, random: &mut Random) {
    let length = table.len();
    let other = (length + 1 + random.below(length + 9)) % (length + 10);
    table.resize(other, 0.5);
}
