//! Inputs by list: every short one where that is possible, and limits.
use crate::values::{doubles, filler, flags_of, has_z_m, ints, is_multipoint, is_point, DOUBLES, KINDS, LIMITS, NAN, WRITTEN};

/// What takes an input: its flags and its bytes.
pub type Put<'a> = &'a mut dyn FnMut(u8, Vec<u8>);

pub fn header_of(code: i32, words: i32, version: i32, kind: i32, fill: usize) -> Vec<u8> {
    let mut s = code.to_be_bytes().to_vec();
    s.extend((0..20).map(|i| if fill == 0 { 0 } else { 7 * i as u8 }));
    s.extend(words.to_be_bytes());
    s.extend(ints(&[version, kind]));
    s.extend(doubles((0..8).map(|i| filler(fill + i))));
    s
}

/// Cut at every length, and a byte longer than whole: each kind; right and wrong codes, among them the right one's bytes reversed, with a length and
/// a kind that are wrong too. Each limit in each number.
fn list_headers(put: Put) {
    let cuts = |mut s: Vec<u8>, put: Put| {
        s.push(9);
        (0..=s.len()).for_each(|n| put(0, s[..n].to_vec()));
    };
    KINDS.for_each(|kind| cuts(header_of(9994, 50, 1000, kind, (kind + 2) as usize), put));
    for code in [9994, 9993, 9995, 9994i32.swap_bytes(), 0, -1, i32::MIN, i32::MAX] {
        cuts(header_of(code, -1, 0, 2, 1), put);
    }
    for n in LIMITS {
        put(0, header_of(9994, n, 1000, 31, 3));
        put(0, header_of(9994, 0, n, 0, 4));
        put(0, header_of(9994, 0, 1000, n, 5));
        put(0, header_of(n, 0, 1000, 1, 6));
    }
}

/// Every kind and limit as kind beside every limit as the other two; every special double at each place of the box.
fn list_header_bytes(put: Put) {
    for kind in KINDS.chain(LIMITS) {
        for n in LIMITS {
            put(0, [ints(&[n, n.wrapping_add(1), kind]), doubles((0..8).map(filler))].concat());
        }
    }
    for d in DOUBLES {
        for at in 0..8 {
            put(0, [ints(&[50, 1000, 5]), doubles((0..8).map(|i| if i == at { d } else { filler(i) }))].concat());
        }
    }
}

/// Every pair of limits, high byte first; some of them cut at every length, and longer than whole.
fn list_record_headers(put: Put) {
    for a in LIMITS {
        for b in LIMITS {
            let s = [a.to_be_bytes(), b.to_be_bytes()].concat();
            put(0, s.clone());
            if a == b || a == b.wrapping_add(1) {
                (0..=8).for_each(|n| put(0, s[..n].to_vec()));
                put(0, [&s[..], &[1, 2]].concat());
            }
        }
    }
}

fn list_pairs(put: Put) {
    LIMITS.iter().for_each(|&a| LIMITS.iter().for_each(|&b| put(0, ints(&[a, b]))));
}

/// A box, the counts, the starts, and so many doubles.
fn body_of(p: i32, n: i32, starts: &[i32], more: usize) -> Vec<u8> {
    [doubles((0..4).map(filler)), ints(&[p, n]), ints(starts), doubles((4..4 + more).map(filler))].concat()
}

/// A multipoint: a box, the number of points, and so many doubles.
fn set_of(n: i32, more: usize) -> Vec<u8> {
    [doubles((0..4).map(filler)), ints(&[n]), doubles((4..4 + more).map(filler))].concat()
}

/// Every list of so many entries, each one of these.
fn lists<T: Copy>(of: &[T], length: usize) -> Vec<Vec<T>> {
    if length == 0 {
        return vec![Vec::new()];
    }
    lists(of, length - 1).into_iter().flat_map(|l| of.iter().map(move |&x| [&l[..], &[x]].concat())).collect()
}

/// p and n from -1 to 3 and every list of starts from -1 to 3, with all flags, cut at every length; one part with each limit as start and as n;
/// the largest bodies that a block holds and the crate reserves for, and larger ones.
fn list_bodies(put: Put) {
    const SMALL: [i32; 5] = [-1, 0, 1, 2, 3];
    for p in SMALL {
        for starts in lists(&SMALL, p.max(0) as usize) {
            for n in SMALL {
                for flags in 0..4u8 {
                    let s = body_of(p, n, &starts, 8 + if flags % 2 == 1 { 6 } else { 0 } + if flags / 2 == 1 { 6 } else { 0 });
                    (0..=s.len()).for_each(|k| put(flags, s[..k].to_vec()));
                }
            }
        }
    }
    for start in LIMITS {
        for n in LIMITS {
            (0..4).for_each(|flags| put(flags, body_of(1, n, &[start], 30)));
            put(0, body_of(2, n, &[start, n], 30));
            put(3, body_of(3, 4, &[start, n, 2], 30));
        }
    }
    for p in [37448, 37449, 37450, 1 << 24, i32::MAX] {
        put(0, body_of(p, 0, &vec![0; p.min(37450) as usize], 0));
        put(3, body_of(p, 0, &[0, 0], 0));
    }
    for (flags, n, more) in [(0, 32000, 64000), (1, 21000, 63002), (2, 21000, 63002), (3, 16000, 64004)] {
        put(flags, body_of(1, n, &[0], more));
        put(flags, body_of(2, n, &[0, n / 2], more));
    }
    for (flags, n) in [(0, 65534), (0, 65535), (3, 32767), (3, 32768)] {
        put(flags, body_of(1, n, &[0], 64000));
    }
}

/// Multipoints, with all flags: n from -1 to 3, cut at every length, and longer than whole; each limit as n; the largest that a block holds and the
/// crate reserves for, and larger ones.
fn list_multipoints(put: Put) {
    for (z, m) in [(false, false), (true, false), (false, true), (true, true)] {
        let flags = flags_of(z, m, true);
        let measures = z as usize + m as usize;
        for n in -1..=3 {
            let points = n.max(0) as usize;
            let s = set_of(n, 2 * points + measures * (2 + points) + 1);
            (0..=s.len()).for_each(|k| put(flags, s[..k].to_vec()));
        }
        LIMITS.iter().for_each(|&n| put(flags, set_of(n, 30)));
        let most = [32000, 21000, 16000][measures];
        put(flags, set_of(most, 2 * most as usize + measures * (2 + most as usize)));
        [32767, 32768, 32769].iter().for_each(|&n| put(flags, set_of(n, 64000)));
    }
}

/// All x of a run, then all its y.
fn run_of(points: &[[f64; 2]]) -> Vec<u8> {
    doubles((0..2).flat_map(|axis| points.iter().map(move |point| point[axis].to_bits())))
}

/// Every run of up to 3 points over these coordinates; runs of 4 that turn, open and closed; long ones.
fn list_rings(put: Put) {
    const COORDINATES: [u64; 7] = [0, 1 << 63, 1, 0x3ff0_0000_0000_0000, NAN, 0x7ff0_0000_0000_0000, 0xfff0_0000_0000_0000];
    for points in 0..=3 {
        lists(&COORDINATES, 2 * points).into_iter().for_each(|run| put(0, doubles(run)));
    }
    let corners = [[0.0, 0.0], [0.0, 1.0], [1.0, 1.0], [-0.0, 0.0]];
    lists(&corners, 4).iter().for_each(|run| put(0, run_of(run)));
    put(0, doubles((0..64000).map(filler)));
    put(0, doubles((0..64000).map(|i| (i as f64).to_bits())));
}

/// A shape's tables, its doubles filled from a number on.
fn shape_of(counts: &[i32], n: usize, z: bool, m: bool, fill: usize) -> Vec<u8> {
    let run = |k: usize, from: usize| [ints(&[k as i32]), doubles((0..k).map(|i| filler(from + i)))].concat();
    let mut s = doubles((0..8).map(|i| filler(fill + i)));
    s.extend(ints(&[counts.len() as i32]));
    s.extend(ints(counts));
    s.extend(run(n, fill + 8));
    s.extend(run(n, fill + 8 + n));
    s.extend(run(if z { n } else { 0 }, fill + 9));
    s.extend(run(if m { n } else { 0 }, fill + 11));
    s
}

pub fn points_in(counts: &[i32]) -> usize {
    counts.iter().map(|&c| c as usize).sum()
}

pub const LAYOUTS: [(bool, bool); 3] = [(false, false), (false, true), (true, true)];

/// Every shape of up to 3 parts of 0 to 2 points, and every multipoint of 0 to 4 points, in the three layouts, filled three ways; the largest that a
/// block holds.
fn list_body_bytes(put: Put) {
    for (z, m) in LAYOUTS {
        let flags = flags_of(z, m, false);
        for counts in (0..=3).flat_map(|p| lists(&[0, 1, 2], p)) {
            (0..3).for_each(|fill| put(flags, shape_of(&counts, points_in(&counts), z, m, fill)));
        }
        put(flags, shape_of(&[16000], 16000, z, m, 0));
        put(flags, shape_of(&vec![0; 60000], 0, z, m, 0));
        let flags = flags_of(z, m, true);
        for n in 0..=4 {
            (0..3).for_each(|fill| put(flags, shape_of(&[], n, z, m, fill)));
        }
        put(flags, shape_of(&[], 16000, z, m, 0));
    }
}

pub fn file_of(kind: i32, shapes: &[Vec<u8>]) -> Vec<u8> {
    [ints(&[kind, shapes.len() as i32]), shapes.concat()].concat()
}

/// Each kind: every one or two records of up to 2 parts of 0 to 2 points, or of multipoints of 0 to 4 points; a thousand records; one large record.
fn list_files(put: Put) {
    for kind in WRITTEN {
        let (z, m) = has_z_m(kind);
        let shapes: Vec<Vec<u8>> = if is_point(kind) {
            (0..16).map(|fill| shape_of(&[], 1, z, m, fill)).collect()
        } else if is_multipoint(kind) {
            (0..=4).flat_map(|n| (0..3).map(move |fill| shape_of(&[], n, z, m, fill))).collect()
        } else {
            let all = (0..=2).flat_map(|p| lists(&[0, 1, 2], p));
            all.map(|counts| shape_of(&counts, points_in(&counts), z, m, counts.len())).collect()
        };
        let numbers: Vec<usize> = (0..shapes.len()).collect();
        for chosen in (1..=2).flat_map(|k| lists(&numbers, k)) {
            put(0, file_of(kind, &chosen.iter().map(|&i| shapes[i].clone()).collect::<Vec<_>>()));
        }
        put(0, file_of(kind, &vec![shapes[1].clone(); 1000]));
        if is_multipoint(kind) {
            put(0, file_of(kind, &[shape_of(&[], 14000, z, m, 0)]));
        } else if !is_point(kind) {
            put(0, file_of(kind, &[shape_of(&[7000, 0, 7000], 14000, z, m, 0)]));
        }
    }
}

fn list_min_max(put: Put) {
    DOUBLES.iter().for_each(|&a| DOUBLES.iter().for_each(|&b| put(0, doubles([a, b]))));
}

/// Document 01's examples, and what it calls easy to get wrong.
pub fn examples(part_number: usize, put: Put) {
    match part_number {
        1 => {
            put(0, header_of(9994, 50, 1000, 3, 0)[..27].to_vec());
            put(0, 9995i32.to_be_bytes().to_vec());
            put(0, header_of(9994, -1, 1000, 3, 0));
            put(0, header_of(9994, 0, 1000, 3, 0));
        }
        5 => {
            for pair in [[0, 5], [3, 5], [-2, 5], [4, 2], [-1, i32::MAX], [0, i32::MAX], [i32::MIN, -1], [i32::MIN, 0]] {
                put(0, ints(&pair));
            }
        }
        6 => {
            for starts in [&[0, 2][..], &[3], &[-2], &[], &[0, 4, 2]] {
                (0..4).for_each(|flags| put(flags, body_of(starts.len() as i32, 5, starts, 40)));
            }
            put(0, body_of(3, 5, &[0, 4, 2], 7));
            put(0, body_of(1, i32::MAX, &[-1], 7));
        }
        7 => {
            let square = [[0.0, 0.0], [0.0, 1.0], [1.0, 1.0], [1.0, 0.0], [0.0, 0.0]];
            let reversed: Vec<[f64; 2]> = square.iter().rev().copied().collect();
            for run in [&square[..], &reversed, &[], &[[0.0, 0.0], [-5e-324, 1.0]]] {
                put(0, run_of(run));
            }
        }
        _ => {}
    }
}

pub fn list(part_number: usize, put: Put) {
    examples(part_number, put);
    match part_number {
        1 => list_headers(put),
        2 => list_header_bytes(put),
        3 => list_record_headers(put),
        4 | 5 => list_pairs(put),
        6 => {
            list_bodies(put);
            list_multipoints(put)
        }
        7 => list_rings(put),
        8 => list_body_bytes(put),
        9 => list_files(put),
        _ => list_min_max(put),
    }
}
