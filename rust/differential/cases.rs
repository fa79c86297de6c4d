//! Makes cases for the differential run: inputs, and what the crate answers to each, in document 01's terms.
//!
//!     make-cases PART COUNT SEED     every input of the part's list, then COUNT random and damaged ones
//!     make-cases all COUNT SEED      the same for every part, in one stream
//!     make-cases fixed               a sample of every part, the same one each time, a block for each
//!     make-cases spoiled             that sample with wrong answers: each case once for each byte of its answer, with that byte changed, and
//!                                    with a byte less and one more. Every one must be found wrong
//!     make-cases parts               prints the names of the parts
//!
//! PART is one of `PARTS`. The stream goes to standard output, and a line for each part to standard error. All numbers are little-endian.
//!
//! The stream is blocks, each a length (u32, at most a mebibyte) and whole cases, and ends with a block of length 0. A case is the length of what
//! follows (u32), the part's number (u8), flags (u8: 1 for z, 2 for m, 4 for a multipoint), two bytes of nothing, the input's length (u32), the input, and the answer
//! that is expected. crates/replay reads it.
mod answers;
mod chance;
mod lists;
mod values;

use answers::{answer, Answer, Notes};
use chance::Random;
use lists::{examples, list};
use std::collections::HashSet;
use std::io::Write;
use values::{int_at, is_multipoint};

const PARTS: [&str; 10] =
    ["header", "header-bytes", "record-header", "entries", "part", "body", "rings", "body-bytes", "files", "min-max"];
const BLOCK: usize = 1 << 20;

#[derive(Default)]
struct Stream {
    spoiled: bool,
    block: Vec<u8>,
    made: u64,
    left_out: u64,
    notes: Notes,
}

impl Stream {
    /// The block so far. An empty one ends the stream.
    fn flush(&mut self) {
        let bytes = [&(self.block.len() as u32).to_le_bytes(), &self.block[..]].concat();
        std::io::stdout().write_all(&bytes).expect("standard output takes the stream");
        self.block.clear();
    }

    fn write(&mut self, part_number: usize, flags: u8, input: &[u8], expected: &[u8]) {
        let size = 8 + input.len() + expected.len();
        if self.block.len() + 4 + size > BLOCK {
            self.flush();
        }
        self.block.extend((size as u32).to_le_bytes());
        self.block.extend([part_number as u8, flags, 0, 0]);
        self.block.extend((input.len() as u32).to_le_bytes());
        self.block.extend(input);
        self.block.extend(expected);
        self.made += 1;
    }

    /// The case of an input, unless it is left out; where cases are to be spoiled, every wrong case that one byte of its answer can make.
    fn put(&mut self, part_number: usize, flags: u8, input: &[u8]) {
        let mut a = Answer::default();
        if !answer(part_number, flags, input, &mut a) || 12 + input.len() + a.0.len() > BLOCK {
            self.left_out += 1;
            return;
        }
        self.notes.nan_payload += a.1.nan_payload;
        self.notes.signalling_m += a.1.signalling_m;
        if !self.spoiled {
            return self.write(part_number, flags, input, &a.0);
        }
        for i in 0..a.0.len() {
            a.0[i] ^= 1 << (i % 8);
            self.write(part_number, flags, input, &a.0);
            a.0[i] ^= 1 << (i % 8);
        }
        self.write(part_number, flags, input, &a.0[..a.0.len() - 1]);
        self.write(part_number, flags, input, &[&a.0[..], &[0]].concat());
    }

    /// So many inputs by chance, and the part's line. Before them stand those of the list.
    fn finish(&mut self, part_number: usize, count: u64, seed: u64) {
        let listed = self.made;
        let mut r = Random((seed ^ (part_number as u64) << 32).wrapping_mul(0x9e37_79b9_7f4a_7c15) | 1);
        for _ in 0..count {
            let before = self.made;
            while self.made == before {
                let (flags, input) = r.input(part_number);
                self.put(part_number, flags, &input);
            }
        }
        let Notes { nan_payload, signalling_m } = std::mem::take(&mut self.notes);
        let (name, made, left_out) = (PARTS[part_number - 1], std::mem::take(&mut self.made), std::mem::take(&mut self.left_out));
        eprintln!("{name}: made={made} exhaustive={listed} left-out={left_out} nan-payload={nan_payload} signalling-m={signalling_m}");
    }

    fn part(&mut self, part_number: usize, count: u64, seed: u64) {
        list(part_number, &mut |flags, input| self.put(part_number, flags, &input));
        self.finish(part_number, count, seed);
    }

    /// The examples; of the small inputs of the list those whose answers differ in length or at the front, files also in kind, and of these about 30, and
    /// about 15 multipoints; then 25 by chance.
    fn sample(&mut self, part_number: usize) {
        examples(part_number, &mut |flags, input| self.put(part_number, flags, &input));
        let (mut seen, mut chosen) = (HashSet::new(), Vec::new());
        list(part_number, &mut |flags, input| {
            let mut a = Answer::default();
            if input.len() < 2000 && answer(part_number, flags, &input, &mut a) {
                let size = a.0.len();
                a.0.truncate(13);
                if seen.insert((flags, file_kind(part_number, &input), size, a.0)) {
                    chosen.push((flags, input));
                }
            }
        });
        let is_set = |(flags, input): &(u8, Vec<u8>)| flags / 4 == 1 || file_kind(part_number, input).map_or(false, is_multipoint);
        let (sets, others): (Vec<_>, Vec<_>) = chosen.into_iter().partition(is_set);
        for (some, most) in [(others, 30), (sets, 15)] {
            let every = ((some.len() + most - 1) / most).max(1); // rounded up
            some.iter().step_by(every).for_each(|(flags, input)| self.put(part_number, *flags, input));
        }
        self.finish(part_number, 25, 1);
        self.flush();
    }
}

/// The kind of the file that a case writes.
fn file_kind(part_number: usize, input: &[u8]) -> Option<i32> {
    (PARTS[part_number - 1] == "files").then(|| int_at(input, 0))
}

fn main() {
    let words: Vec<String> = std::env::args().skip(1).collect();
    let number = |i: usize| words[i].parse::<u64>().expect("a number");
    let all = 1..=PARTS.len();
    let mut stream = Stream { spoiled: words[0] == "spoiled", ..Stream::default() };
    match words[0].as_str() {
        "parts" => return PARTS.iter().for_each(|p| println!("{p}")),
        "fixed" | "spoiled" => all.for_each(|p| stream.sample(p)),
        "all" => all.for_each(|p| stream.part(p, number(1), number(2))),
        name => stream.part(1 + PARTS.iter().position(|p| *p == name).expect("one of the parts"), number(1), number(2)),
    }
    if !stream.block.is_empty() {
        stream.flush();
    }
    stream.flush();
}
