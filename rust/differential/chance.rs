//! Inputs by chance: good ones, ones near a limit, and damaged ones.
use crate::lists::{file_of, header_of, points_in, LAYOUTS};
use crate::values::{doubles, flags_of, has_z_m, ints, is_multipoint, is_point, z_m_multipoint, DOUBLES, LIMITS, WRITTEN};

pub struct Random(pub u64);

impl Random {
    fn next(&mut self) -> u64 {
        self.0 ^= self.0 << 13;
        self.0 ^= self.0 >> 7;
        self.0 ^= self.0 << 17;
        self.0.wrapping_mul(0x2545_f491_4f6c_dd1d)
    }

    fn below(&mut self, n: u64) -> u64 {
        (self.next() >> 11) % n
    }

    fn pick<T: Copy>(&mut self, from: &[T]) -> T {
        from[self.below(from.len() as u64) as usize]
    }

    /// An i32 near a limit, a small one, a kind's code or near one, or any.
    fn int(&mut self) -> i32 {
        match self.below(4) {
            0 => self.pick(&LIMITS),
            1 => self.below(40) as i32 - 20,
            2 => self.below(34) as i32 - 1,
            _ => self.next() as i32,
        }
    }

    /// The bits of a double: a special one, a small whole number, or any.
    fn double(&mut self) -> u64 {
        match self.below(3) {
            0 => self.pick(&DOUBLES),
            1 => (self.below(9) as f64 - 4.0).to_bits(),
            _ => self.next(),
        }
    }

    fn doubles(&mut self, n: usize) -> Vec<u8> {
        doubles((0..n).map(|_| self.double()))
    }

    /// Bytes that were changed in a few places, or cut, or left as they are.
    fn damaged(&mut self, mut bytes: Vec<u8>) -> Vec<u8> {
        for _ in 0..self.below(3) {
            if !bytes.is_empty() {
                let at = self.below(bytes.len() as u64) as usize;
                let any = self.next() as u8;
                bytes[at] = self.pick(&[0, 1, 2, 127, 128, 255, any]);
            }
        }
        if self.below(3) == 0 {
            bytes.truncate(self.below(bytes.len() as u64 + 1) as usize);
        }
        bytes
    }

    fn header(&mut self) -> Vec<u8> {
        let code = if self.below(8) == 0 { self.int() } else { 9994 };
        let words = if self.below(4) == 0 { self.int() } else { self.below(1 << 31) as i32 };
        let (version, kind) = (self.int(), if self.below(4) == 0 { self.int() } else { self.pick(&[0, 1, 3, 5, 8, 11, 13, 15, 18, 21, 23, 25, 28, 31]) });
        let mut s = header_of(code, words, version, kind, 0);
        s[4 + self.below(20) as usize] = self.next() as u8;
        s.truncate(36);
        s.extend(self.doubles(8));
        self.damaged(s)
    }

    /// Part counts of a small shape.
    fn counts(&mut self) -> Vec<i32> {
        (0..self.below(5)).map(|_| self.below(6) as i32).collect()
    }

    /// Starts that are running sums, or nearly so, or anything.
    fn body(&mut self, z: bool, m: bool) -> Vec<u8> {
        let counts = self.counts();
        let n: i32 = counts.iter().sum();
        let mut s = self.doubles(4);
        s.extend(ints(&[counts.len() as i32, if self.below(9) == 0 { self.int() } else { n }]));
        let mut at = 0;
        for c in &counts {
            let start = match self.below(12) {
                0 => self.int(),
                1 => at + self.below(5) as i32 - 2,
                _ => at,
            };
            s.extend(start.to_le_bytes());
            at += c;
        }
        let more = 2 * n + if z { 2 + n } else { 0 } + if m { 2 + n } else { 0 } + self.below(9) as i32;
        s.extend(self.doubles(more as usize));
        self.damaged(s)
    }

    /// A multipoint, with a few doubles more.
    fn set(&mut self, z: bool, m: bool) -> Vec<u8> {
        let n = self.below(9) as i32;
        let mut s = self.doubles(4);
        s.extend(ints(&[if self.below(9) == 0 { self.int() } else { n }]));
        let more = 2 * n + if z { 2 + n } else { 0 } + if m { 2 + n } else { 0 } + self.below(5) as i32;
        s.extend(self.doubles(more as usize));
        self.damaged(s)
    }

    /// A run of points that is closed half the time.
    fn run(&mut self) -> Vec<u8> {
        let n = self.below(9) as usize;
        let mut s = self.doubles(2 * n);
        if n > 1 && self.below(2) == 0 {
            [0, 8 * n].into_iter().for_each(|axis| s.copy_within(axis..axis + 8, axis + 8 * (n - 1)));
        }
        s
    }

    /// The tables of a point, of a multipoint or of a shape with parts.
    fn shape(&mut self, point: bool, multipoint: bool, z: bool, m: bool) -> Vec<u8> {
        let counts = if point || multipoint { Vec::new() } else { self.counts() };
        let n = if point {
            1
        } else if multipoint {
            self.below(9) as usize
        } else {
            points_in(&counts)
        };
        let mut s = self.doubles(8);
        s.extend(ints(&[counts.len() as i32]));
        s.extend(ints(&counts));
        for k in [n, n, if z { n } else { 0 }, if m { n } else { 0 }] {
            s.extend(ints(&[k as i32]));
            s.extend(self.doubles(k));
        }
        s
    }

    pub fn input(&mut self, part_number: usize) -> (u8, Vec<u8>) {
        match part_number {
            1 => (0, self.header()),
            2 => (0, [ints(&[self.int(), self.int(), self.int()]), self.doubles(8)].concat()),
            3 => {
                let s = self.next().to_le_bytes().to_vec();
                (0, self.damaged(s))
            }
            4 | 5 => (0, ints(&[self.int(), self.int()])),
            6 => {
                let flags = self.below(8) as u8;
                let (z, m, multipoint) = z_m_multipoint(flags);
                (flags, if multipoint { self.set(z, m) } else { self.body(z, m) })
            }
            7 => (0, self.run()),
            8 => {
                let (z, m) = self.pick(&LAYOUTS);
                let multipoint = self.below(3) == 0;
                (flags_of(z, m, multipoint), self.shape(false, multipoint, z, m))
            }
            9 => {
                let kind = self.pick(&WRITTEN);
                let (z, m) = has_z_m(kind);
                let shapes: Vec<Vec<u8>> = (0..1 + self.below(3)).map(|_| self.shape(is_point(kind), is_multipoint(kind), z, m)).collect();
                (0, file_of(kind, &shapes))
            }
            _ => (0, self.doubles(2)),
        }
    }
}
