//! What the crate answers to an input, as bytes, in document 01's terms.
//!
//! Where the two differ on purpose the answer is ours, by the name that docs/DIFFERENCES.md has for it: `nan-payload` (a NaN that is read or written
//! is 7FF8000000000000) and `signalling-m` (an m that is a signalling NaN becomes -10e38). How often each was used is counted.
use crate::values::{double_at, has_z_m, int_at, is_multipoint, is_point, z_m_multipoint, NAN};
use shapefile::driver::{self, Body, Header, Refusal, Run, Shape};

/// The crate may reserve so much for a body; what would take more is left out.
const RESERVED: u64 = 1 << 20;

/// How often a difference was used.
#[derive(Default)]
pub struct Notes {
    pub nan_payload: u64,
    pub signalling_m: u64,
}

/// A growing answer, and the differences that it used.
#[derive(Default)]
pub struct Answer(pub Vec<u8>, pub Notes);

impl Answer {
    fn byte(&mut self, b: u8) {
        self.0.push(b);
    }

    fn word(&mut self, n: u32) {
        self.0.extend(n.to_le_bytes());
    }

    fn double(&mut self, x: f64) {
        let bits = if x.is_nan() { NAN } else { x.to_bits() };
        self.1.nan_payload += (bits != x.to_bits()) as u64;
        self.0.extend(bits.to_le_bytes());
    }

    fn doubles(&mut self, xs: &[f64]) {
        xs.iter().for_each(|&x| self.double(x));
    }

    /// Bytes that the crate wrote, each double as ours writes it. At `ints` stand words.
    fn written(&mut self, bytes: &[u8], ints: std::ops::Range<usize>) {
        let mut at = 0;
        while at < bytes.len() {
            if ints.contains(&at) {
                self.0.extend(&bytes[at..at + 4]);
                at += 4;
            } else {
                self.double(double_at(bytes, at));
                at += 8;
            }
        }
    }

    /// A refusal of the domain. Any other is a fault of the inputs made here, and ends the run.
    fn refusal(&mut self, r: Refusal) {
        let (number, value) = match r {
            Refusal::Short(at) => (1, at as u64),
            Refusal::Code(code) => (2, code as u32 as u64),
            Refusal::Size(at) => (3, at as u64),
            Refusal::Unknown(code) => (4, code as u32 as u64),
            other => panic!("the crate answers {other:?}"),
        };
        self.byte(number);
        self.0.extend(value.to_le_bytes());
    }
}

fn header(s: &[u8], a: &mut Answer) {
    match driver::read_header(s) {
        Ok(h) => {
            a.byte(0);
            [h.file_length, h.version, h.kind].iter().for_each(|&n| a.word(n as u32));
            a.doubles(&h.bbox);
        }
        Err(e) => a.refusal(e),
    }
}

fn header_bytes(s: &[u8], a: &mut Answer) {
    let bbox: [f64; 8] = std::array::from_fn(|i| double_at(s, 12 + 8 * i));
    let h = Header { file_length: int_at(s, 0), version: int_at(s, 4), kind: int_at(s, 8), bbox };
    match driver::write_header(&h) {
        Some(bytes) => a.written(&bytes, 0..36),
        None => a.refusal(Refusal::Unknown(h.kind)),
    }
}

fn record_header(s: &[u8], a: &mut Answer) {
    match driver::read_record_header(s) {
        Ok((number, words)) => {
            a.byte(0);
            a.word(number as u32);
            a.word(words as u32);
        }
        Err(e) => a.refusal(e),
    }
}

fn part(s: &[u8], a: &mut Answer) {
    match driver::part_count(int_at(s, 0), int_at(s, 4)) {
        Some(n) => {
            a.byte(0);
            a.word(n as u32);
        }
        None => a.byte(3),
    }
}

/// A body with parts, or of a multipoint, which has none.
fn body(s: &[u8], z: bool, m: bool, multipoint: bool, a: &mut Answer) -> bool {
    let reserves = if multipoint { driver::multipoint_reserves(s) } else { driver::reserves(s, z, m) };
    if reserves > RESERVED {
        return false;
    }
    let b = match if multipoint { driver::read_multipoint(s, z, m) } else { driver::read_body(s, z, m) } {
        Ok(b) => b,
        Err(e) => {
            a.refusal(e);
            return true;
        }
    };
    let (p, n) = (b.counts.len(), b.x.len());
    let none = Run { range: [0.0; 2], values: Vec::new() };
    let (zs, ms) = (b.z.as_ref().unwrap_or(&none), b.m.as_ref().unwrap_or(&none));
    a.byte(0);
    a.doubles(&b.bbox);
    a.doubles(&zs.range);
    a.doubles(&ms.range);
    a.word(p as u32);
    a.word(n as u32);
    b.counts.iter().for_each(|&c| a.word(c as u32));
    a.doubles(&b.x);
    a.doubles(&b.y);
    a.doubles(&zs.values);
    let front = if multipoint { 36 } else { 40 + 4 * p };
    let ms_at = front + 16 * n + if z { 16 + 8 * n } else { 0 } + 16;
    for (i, &v) in ms.values.iter().enumerate() {
        let signalling = v.is_nan() && driver::is_signalling(double_at(s, ms_at + 8 * i));
        a.1.signalling_m += signalling as u64;
        a.double(if signalling { -10e38 } else { v });
    }
    true
}

/// A run: all its x, then all its y.
fn rings(s: &[u8], a: &mut Answer) {
    let n = s.len() / 16;
    let axis = |from: usize| (from..from + n).map(|i| double_at(s, 8 * i)).collect::<Vec<f64>>();
    let (x, y) = (axis(0), axis(n));
    a.byte(driver::ring_closed(&x, &y) as u8);
    a.byte(driver::ring_inner(&x, &y) as u8);
    let (x, y) = driver::ring_close(&x, &y);
    a.word(x.len() as u32);
    a.doubles(&x);
    a.doubles(&y);
}

/// The shape whose tables stand at a place, which moves on: the box, then the part counts, x, y, z and m, each with its number of entries in front.
fn tables(s: &[u8], at: &mut usize, z: bool, m: bool) -> Body {
    let start = *at;
    let b = |i: usize| double_at(s, start + 8 * i);
    *at += 64;
    let mut list = |width: usize| {
        let (n, from) = (int_at(s, *at) as usize, *at + 4);
        *at = from + width * n;
        (0..n).map(move |i| from + width * i)
    };
    let counts = list(4).map(|i| int_at(s, i) as usize).collect();
    let mut run = || list(8).map(|i| double_at(s, i)).collect::<Vec<f64>>();
    let (x, y, zs, ms) = (run(), run(), run(), run());
    Body {
        bbox: [b(0), b(1), b(2), b(3)],
        counts,
        x,
        y,
        z: z.then(|| Run { range: [b(4), b(5)], values: zs }),
        m: m.then(|| Run { range: [b(6), b(7)], values: ms }),
    }
}

fn body_bytes(s: &[u8], z: bool, m: bool, multipoint: bool, a: &mut Answer) {
    let body = tables(s, &mut 0, z, m);
    let bytes = if multipoint { driver::write_multipoint(&body) } else { driver::write_body(&body) };
    a.written(&bytes.expect("tables that agree"), ints_in(&body, multipoint));
}

/// Where the counts and the starts of a body stand.
fn ints_in(body: &Body, multipoint: bool) -> std::ops::Range<usize> {
    if multipoint { 32..36 } else { 32..40 + 4 * body.counts.len() }
}

/// The first 36 bytes of both headers, and all that follows the headers.
fn files(s: &[u8], a: &mut Answer) {
    let (kind, mut at) = (int_at(s, 0), 8);
    let (z, m) = has_z_m(kind);
    let shapes: Vec<Shape> = (0..int_at(s, 4)).map(|_| Shape { kind, body: tables(s, &mut at, z, m) }).collect();
    let files = driver::write_files(&shapes).expect("shapes that the crate can hold");
    a.0.extend(&files.shp[..36]);
    let mut at = 100;
    for shape in &shapes {
        let words = i32::from_be_bytes(files.shp[at + 4..at + 8].try_into().unwrap()) as usize;
        a.0.extend(&files.shp[at..at + 12]);
        let ints = if is_point(kind) { 0..0 } else { ints_in(&shape.body, is_multipoint(kind)) };
        a.written(&files.shp[at + 12..at + 8 + 2 * words], ints);
        at += 8 + 2 * words;
    }
    assert_eq!(at, files.shp.len());
    a.0.extend(&files.shx[..36]);
    a.0.extend(&files.shx[100..]);
}

/// False where the input is left out.
pub fn answer(part_number: usize, flags: u8, s: &[u8], a: &mut Answer) -> bool {
    let (z, m, multipoint) = z_m_multipoint(flags);
    match part_number {
        1 => header(s, a),
        2 => header_bytes(s, a),
        3 => record_header(s, a),
        4 => {
            a.0.extend(driver::write_record_header(int_at(s, 0), int_at(s, 4)));
            a.0.extend(driver::write_index_entry(int_at(s, 0), int_at(s, 4)));
        }
        5 => part(s, a),
        6 => return body(s, z, m, multipoint, a),
        7 => rings(s, a),
        8 => body_bytes(s, z, m, multipoint, a),
        9 => files(s, a),
        _ => {
            a.double(driver::f64_min(double_at(s, 0), double_at(s, 8)));
            a.double(driver::f64_max(double_at(s, 0), double_at(s, 8)));
        }
    }
    true
}
