//! What several tests share: the kinds, numbers that look random and are the same in each run,
//! records of every kind, damage, files field by field, and the pairs of crates/pairs.

// Each test file is a program of its own and uses a part of this.
#![allow(dead_code)]

use mbenaruul::{points, BBox, Multipoint, Plan, Range, Record, Shape, Totals, Writer};
use std::fs;
use std::path::PathBuf;

/// The twelve kinds of a file that can be written.
pub const KINDS: [i32; 12] = [1, 21, 11, 3, 23, 13, 5, 25, 15, 8, 28, 18];

pub fn has_z(kind: i32) -> bool {
    [11, 13, 15, 18].contains(&kind)
}

pub fn has_m(kind: i32) -> bool {
    [21, 23, 25, 28].contains(&kind) || has_z(kind)
}

pub fn is_point(kind: i32) -> bool {
    [1, 21, 11].contains(&kind)
}

pub fn is_multipoint(kind: i32) -> bool {
    [8, 28, 18].contains(&kind)
}

pub fn is_polygon(kind: i32) -> bool {
    [5, 25, 15].contains(&kind)
}

/// Marsaglia's xorshift; where it is so made, one coordinate in thirty or so is one of the two zeros.
pub struct Random {
    state: u64,
    zeros: bool,
}

impl Random {
    pub fn new(seed: u64) -> Random {
        Random {
            state: seed.wrapping_mul(0x9e37_79b9_7f4a_7c15) | 1,
            zeros: false,
        }
    }

    pub fn with_zeros(seed: u64) -> Random {
        Random {
            zeros: true,
            ..Random::new(seed)
        }
    }

    pub fn next(&mut self) -> u64 {
        self.state ^= self.state << 13;
        self.state ^= self.state >> 7;
        self.state ^= self.state << 17;
        self.state
    }

    pub fn below(&mut self, n: usize) -> usize {
        (self.next() % n as u64) as usize
    }

    /// A coordinate: of any size now and then, else a small one.
    pub fn double(&mut self) -> f64 {
        let any = f64::from_bits(self.next());
        if any.is_finite() && any.abs() < 1e30 && self.below(4) == 0 {
            return any;
        }
        let small = self.below(2_000_001);
        match small % 64 {
            0 if self.zeros => 0.0,
            1 if self.zeros => -0.0,
            _ => (small as f64 - 1e6) / 64.0,
        }
    }

    pub fn doubles(&mut self, n: usize) -> Vec<f64> {
        (0..n).map(|_| self.double()).collect()
    }

    pub fn bbox(&mut self) -> BBox {
        BBox {
            xmin: self.double(),
            ymin: self.double(),
            xmax: self.double(),
            ymax: self.double(),
        }
    }

    pub fn range(&mut self) -> Range {
        Range {
            low: self.double(),
            high: self.double(),
        }
    }
}

/// A well-formed record of a kind.
pub fn record(kind: i32, random: &mut Random) -> Record {
    if is_point(kind) {
        Record::Point {
            kind,
            x: random.double(),
            y: random.double(),
            z: has_z(kind).then(|| random.double()),
            m: has_m(kind).then(|| random.double()),
        }
    } else if is_multipoint(kind) {
        let points = 1 + random.below(6);
        Record::Multipoint(multipoint(kind, points, random))
    } else {
        let parts = 1 + random.below(3);
        Record::Parts(shape(kind, parts, random))
    }
}

/// So many records of a file of a kind: well-formed ones, and behind the first now and then a Null.
pub fn records(kind: i32, length: usize, random: &mut Random) -> Vec<Record> {
    let next = |i| match random.below(4) {
        0 if i > 0 => Record::Null,
        _ => record(kind, random),
    };
    (0..length).map(next).collect()
}

/// A copy of the list with a Null behind each record.
pub fn with_nulls(records: &[Record]) -> Vec<Record> {
    let and_null = |record: &Record| [record.clone(), Record::Null];
    records.iter().flat_map(and_null).collect()
}

/// A multipoint of so many points.
pub fn multipoint(kind: i32, points: usize, random: &mut Random) -> Multipoint {
    Multipoint {
        kind,
        bbox: random.bbox(),
        z_range: has_z(kind).then(|| random.range()),
        m_range: has_m(kind).then(|| random.range()),
        x: random.doubles(points),
        y: random.doubles(points),
        z: random.doubles(if has_z(kind) { points } else { 0 }),
        m: random.doubles(if has_m(kind) { points } else { 0 }),
    }
}

/// A shape of so many parts.
pub fn shape(kind: i32, parts: usize, random: &mut Random) -> Shape {
    let (mut counts, mut x, mut y) = (Vec::new(), Vec::new(), Vec::new());
    for _ in 0..parts {
        let least = if is_polygon(kind) { 4 } else { 2 };
        let points = least + random.below(4);
        counts.push(points as u32);
        for store in [&mut x, &mut y] {
            let mut part = random.doubles(points);
            if is_polygon(kind) {
                part[points - 1] = part[0];
            }
            store.extend(part);
        }
    }
    let points = x.len();
    Shape {
        kind,
        bbox: random.bbox(),
        z_range: has_z(kind).then(|| random.range()),
        m_range: has_m(kind).then(|| random.range()),
        counts,
        x,
        y,
        z: random.doubles(if has_z(kind) { points } else { 0 }),
        m: random.doubles(if has_m(kind) { points } else { 0 }),
    }
}

/// What the checker has to count in these records. There may be more variants one day: were `Record`
/// exhaustive, the last arm would be unreachable, and this would not build.
#[deny(unreachable_patterns)]
pub fn totals(records: &[Record]) -> Totals {
    let mut totals = Totals {
        records: records.len(),
        parts: 0,
        points: 0,
    };
    for record in records {
        match record {
            Record::Null => {}
            Record::Point { .. } => totals.points += 1,
            Record::Multipoint(set) => totals.points += set.points().len(),
            Record::Parts(shape) => {
                totals.parts += shape.counts.len();
                totals.points += shape.points().len();
            }
            other => panic!("a kind of record that there was not: {other:?}"),
        }
    }
    totals
}

/// All records of a plan, which must all be readable.
pub fn read_all(plan: &Plan<'_>) -> Vec<Record> {
    plan.records()
        .map(|r| r.expect("a record of an accepted pair"))
        .collect()
}

/// Whether the parts are all points in turn. By bits: a double that was read may be a NaN.
pub fn is_divided(record: &Record) -> bool {
    match record {
        Record::Parts(shape) => {
            let lengths = shape.parts().map(|(x, y)| [x.len(), y.len()]);
            let counts = shape.counts.iter().map(|&count| [count as usize; 2]);
            let of_parts = shape.parts().flat_map(|(x, y)| points(x, y));
            let bits = |point: [f64; 2]| point.map(f64::to_bits);
            lengths.eq(counts)
                && of_parts.map(bits).eq(shape.points().map(bits))
                && [&shape.x, &shape.y].map(Vec::len) == [shape.points().len(); 2]
        }
        _ => true,
    }
}

/// The two files of these records.
pub fn written(records: &[Record]) -> (Vec<u8>, Vec<u8>) {
    let mut writer = Writer::new();
    for record in records {
        writer.add_record(record).expect("a well-formed record");
    }
    writer.finish().expect("a writer")
}

/// A parts record's content, field by field: kind, box, counts, starts, then the doubles.
pub fn content(kind: i32, p: i32, n: i32, starts: &[i32], doubles: &[f64]) -> Vec<u8> {
    fields(kind, &[&[p, n][..], starts].concat(), doubles)
}

/// A multipoint's content: kind, box, the number of points, then the doubles.
pub fn set(kind: i32, n: i32, doubles: &[f64]) -> Vec<u8> {
    fields(kind, &[n], doubles)
}

fn fields(kind: i32, numbers: &[i32], doubles: &[f64]) -> Vec<u8> {
    let mut bytes = kind.to_le_bytes().to_vec();
    for side in [1.0f64, 2.0, 3.0, 4.0] {
        bytes.extend(side.to_le_bytes());
    }
    for number in numbers {
        bytes.extend(number.to_le_bytes());
    }
    for double in doubles {
        bytes.extend(double.to_le_bytes());
    }
    bytes
}

/// A header, field by field.
pub fn header(code: i32, words: i32, kind: i32) -> Vec<u8> {
    let mut bytes = code.to_be_bytes().to_vec();
    bytes.extend([0; 20]);
    bytes.extend(words.to_be_bytes());
    bytes.extend(1000i32.to_le_bytes());
    bytes.extend(kind.to_le_bytes());
    for side in [1.0f64, 2.0, 3.0, 4.0, 5.0, 6.0, 7.0, 8.0] {
        bytes.extend(side.to_le_bytes());
    }
    bytes
}

/// Exchanges two entries of an index; records are counted from 1.
pub fn exchange(shx: &mut [u8], one: usize, other: usize) {
    for i in 0..8 {
        shx.swap(100 + 8 * (one - 1) + i, 100 + 8 * (other - 1) + i);
    }
}

/// Numbers that a field has, or must not have.
const NUMBERS: [i32; 14] = [
    0,
    1,
    2,
    3,
    4,
    5,
    15,
    40,
    50,
    1000,
    -1,
    -2,
    i32::MIN,
    i32::MAX,
];

fn overwrite(bytes: &mut [u8], at: usize, with: &[u8]) {
    let end = bytes.len().min(at + with.len());
    bytes[at..end].copy_from_slice(&with[..end - at]);
}

/// Damages a place of the bytes, of which there are some.
pub fn damage(bytes: &mut Vec<u8>, random: &mut Random) {
    let at = random.below(bytes.len());
    let number = NUMBERS[random.below(NUMBERS.len())];
    match random.below(8) {
        0 => bytes[at] ^= 1 << random.below(8),
        1 => overwrite(bytes, at / 4 * 4, &number.to_be_bytes()),
        2 => overwrite(bytes, at / 4 * 4, &number.to_le_bytes()),
        3 => overwrite(bytes, at / 4 * 4, &f64::NAN.to_le_bytes()),
        4 => bytes.truncate(at),
        5 => bytes.insert(at, number as u8),
        6 => bytes.extend([0; 8]),
        _ => bytes.swap(at, at / 2),
    }
}

fn folder() -> PathBuf {
    PathBuf::from(env!("CARGO_MANIFEST_DIR")).join("../../crates/pairs")
}

/// The bytes of a file of crates/pairs/data.
pub fn bytes(name: &str) -> Vec<u8> {
    fs::read(folder().join("data").join(name)).expect(name)
}

/// The lines of a file of crates/pairs.
pub fn lines(name: &str) -> Vec<String> {
    let text = fs::read_to_string(folder().join(name)).expect(name);
    text.lines().map(str::to_string).collect()
}

/// The name of each .shp, its bytes and those of its .shx, and the line for them.
pub fn pairs() -> Vec<(String, Vec<u8>, Vec<u8>, String)> {
    let (names, said) = (lines("args"), lines("stdout"));
    assert_eq!(names.len(), 2 * said.len());
    let pair = |(names, said): (&[String], &String)| {
        let (name, line) = said.split_once(": ").expect("a name and a line");
        assert_eq!(name, names[0]);
        (
            name.to_string(),
            bytes(&names[0]),
            bytes(&names[1]),
            line.to_string(),
        )
    };
    names.chunks(2).zip(&said).map(pair).collect()
}
