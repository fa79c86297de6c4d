//! The oracle's self-test: what document 01 says of the Rust, asked of the Rust through the driver.
//!
//! It covers the document's "Examples" and "Easy to get wrong", and one or more cases for each
//! function of the driver; and what docs/DIFFERENCES.md says of Null records, which the driver does
//! not reach. Bytes are put together here by hand, not by the code under test.

use shapefile::driver::*;
use shapefile::record::{EsriShape, WritableShape};
use shapefile::{HasShapeType, ShapeReader, ShapeType, ShapeWriter};
use std::fmt::Debug;
use std::io::{Cursor, Write};
use std::marker::PhantomData;
use std::process::ExitCode;

const NO_DATA: f64 = -10e38;
const MAX: i32 = i32::MAX;
const MIN: i32 = i32::MIN;
/// The least double above zero, 2^-1074.
const LEAST: f64 = 5e-324;
const SIGNALLING_BITS: u64 = 0xfff0_0000_0000_0001;

fn signalling() -> f64 {
    f64::from_bits(SIGNALLING_BITS)
}

#[derive(Default)]
struct Checks {
    run: u32,
    failed: u32,
}

impl Checks {
    fn same<T: PartialEq + Debug>(&mut self, what: &str, found: T, expected: T) {
        self.run += 1;
        if found != expected {
            self.failed += 1;
            println!("FAILED {what}: found {found:?}, expected {expected:?}");
        }
    }

    fn holds(&mut self, what: &str, found: bool) {
        self.same(what, found, true);
    }

    fn same_bits(&mut self, what: &str, found: &[f64], expected: &[f64]) {
        self.same(what, bits(found), bits(expected));
    }
}

fn bits(doubles: &[f64]) -> Vec<u64> {
    doubles.iter().map(|double| double.to_bits()).collect()
}

fn doubles(values: &[f64]) -> Vec<u8> {
    values
        .iter()
        .flat_map(|value| value.to_le_bytes())
        .collect()
}

fn numbers(values: &[i32]) -> Vec<u8> {
    values
        .iter()
        .flat_map(|value| value.to_le_bytes())
        .collect()
}

fn big_numbers(values: &[i32]) -> Vec<u8> {
    values
        .iter()
        .flat_map(|value| value.to_be_bytes())
        .collect()
}

/// 1, 2, 3 .. as doubles.
fn rising(count: usize) -> Vec<f64> {
    (1..=count).map(|i| i as f64).collect()
}

/// The x and the y of so many points: 1 and 2, 3 and 4 ..
fn rising_points(count: usize) -> (Vec<f64>, Vec<f64>) {
    let pairs = rising(2 * count);
    pairs.chunks(2).map(|pair| (pair[0], pair[1])).unzip()
}

fn header_bytes(code: i32, file_length: i32, kind: i32) -> Vec<u8> {
    let mut bytes = big_numbers(&[code, 1, 2, 3, 4, 5, file_length]);
    bytes.extend(numbers(&[7, kind]));
    bytes.extend(doubles(&rising(8)));
    bytes
}

/// A body: box, p, n, starts, then these doubles.
fn body_bytes(n: i32, starts: &[i32], rest: &[f64]) -> Vec<u8> {
    let mut bytes = doubles(&[0.5, 1.5, 2.5, 3.5]);
    bytes.extend(numbers(&[starts.len() as i32, n]));
    bytes.extend(numbers(starts));
    bytes.extend(doubles(rest));
    bytes
}

fn headers(checks: &mut Checks) {
    let bytes = header_bytes(9994, 50, 15);
    let expected = Header {
        file_length: 50,
        version: 7,
        kind: 15,
        bbox: [1.0, 2.0, 3.0, 4.0, 5.0, 6.0, 7.0, 8.0],
    };
    checks.same("header", read_header(&bytes), Ok(expected));
    checks.same(
        "27 bytes",
        read_header(&bytes[..27]),
        Err(Refusal::Short(24)),
    );
    checks.same(
        "4 bytes, code 9995",
        read_header(&big_numbers(&[9995])),
        Err(Refusal::Code(9995)),
    );
    checks.same(
        "file length -1",
        read_header(&header_bytes(9994, -1, 15)),
        Err(Refusal::Size(24)),
    );
    checks.same(
        "file length 0",
        read_header(&header_bytes(9994, 0, 15)).map(|header| header.file_length),
        Ok(0),
    );
    checks.same(
        "unknown kind",
        read_header(&header_bytes(9994, 50, 2)),
        Err(Refusal::Unknown(2)),
    );
    for length in 0..100 {
        let fields = [0, 4, 24, 28, 32, 36, 44, 52, 60, 68, 76, 84, 92];
        let cut = fields.into_iter().rev().find(|field| *field <= length);
        checks.same(
            "cut header",
            read_header(&bytes[..length]),
            Err(Refusal::Short(cut.unwrap())),
        );
    }
    for code in -1..=40 {
        let known = [0, 1, 3, 5, 8, 11, 13, 15, 18, 21, 23, 25, 28, 31].contains(&code);
        checks.same("kind", kind(code).is_some(), known);
        checks.same(
            "kind in a header",
            read_header(&header_bytes(9994, 50, code)).is_ok(),
            known,
        );
    }
    let mut written = bytes.clone();
    written[4..24].fill(0);
    checks.same("written header", write_header(&expected), Some(written));
    checks.same(
        "unknown kind written",
        write_header(&Header {
            kind: 2,
            ..expected
        }),
        None,
    );
}

fn record_headers(checks: &mut Checks) {
    let bytes = [0, 0, 0, 2, 0xff, 0xff, 0xff, 0xfe];
    checks.same("record header", read_record_header(&bytes), Ok((2, -2)));
    checks.same(
        "cut number",
        read_record_header(&bytes[..3]),
        Err(Refusal::Short(0)),
    );
    checks.same(
        "cut length",
        read_record_header(&bytes[..7]),
        Err(Refusal::Short(4)),
    );
    checks.same(
        "written record header",
        write_record_header(2, -2),
        bytes.to_vec(),
    );
    checks.same("written entry", write_index_entry(2, -2), bytes.to_vec());
}

fn parts(checks: &mut Checks) {
    checks.same("0 to 5", part_count(0, 5), Some(5));
    checks.same("5 to 5", part_count(5, 5), Some(0));
    checks.same("5 to 4", part_count(5, 4), None);
    checks.same("-2 to 5", part_count(-2, 5), Some(7));
    checks.same("-7 to -2", part_count(-7, -2), Some(5));
    checks.same("-2 to -7", part_count(-2, -7), None);
    checks.same("0 to MAX", part_count(0, MAX), Some(MAX));
    checks.same("-1 to MAX", part_count(-1, MAX), None);
    checks.same("MIN to MIN", part_count(MIN, MIN), Some(0));
    checks.same("MIN to -1", part_count(MIN, -1), Some(MAX));
    checks.same("MIN to 0", part_count(MIN, 0), None);
    checks.same("MAX to MIN", part_count(MAX, MIN), None);
}

/// Part counts, x and y.
type Apart = (Vec<usize>, Vec<f64>, Vec<f64>);

fn counts_x_y(n: i32, starts: &[i32], pairs: usize) -> Result<Apart, Refusal> {
    let bytes = body_bytes(n, starts, &rising(2 * pairs));
    read_body(&bytes, false, false).map(|body| (body.counts, body.x, body.y))
}

/// These counts, and the first so many points.
fn counts_and_first(counts: &[usize], points: usize) -> Result<Apart, Refusal> {
    let (x, y) = rising_points(points);
    Ok((counts.to_vec(), x, y))
}

fn body_examples(checks: &mut Checks) {
    checks.same(
        "starts 0, 2",
        counts_x_y(5, &[0, 2], 5),
        counts_and_first(&[2, 3], 5),
    );
    checks.same("start 3", counts_x_y(5, &[3], 5), counts_and_first(&[2], 2));
    checks.same(
        "start -2",
        counts_x_y(5, &[-2], 7),
        counts_and_first(&[7], 7),
    );
    checks.same("no part", counts_x_y(5, &[], 5), counts_and_first(&[], 0));
    checks.same(
        "starts 0, 4, 2",
        counts_x_y(5, &[0, 4, 2], 5),
        Err(Refusal::Size(44)),
    );
    checks.same(
        "starts 0, 4, 2 with part 0 cut",
        counts_x_y(5, &[0, 4, 2], 3),
        Err(Refusal::Short(52 + 3 * 16)),
    );
    checks.same(
        "start -1, n MAX",
        counts_x_y(MAX, &[-1], 0),
        Err(Refusal::Size(40)),
    );
    checks.same(
        "empty parts",
        counts_x_y(2, &[1, 1, 1], 1),
        counts_and_first(&[0, 0, 1], 1),
    );
}

fn body_refusals(checks: &mut Checks) {
    let signs = |p: i32, n: i32| {
        let mut bytes = doubles(&[0.0; 4]);
        bytes.extend(numbers(&[p, n]));
        bytes
    };
    let read = |bytes: &[u8]| read_body(bytes, false, false).map(|body| body.counts);
    checks.same("p -1", read(&signs(-1, 0)), Err(Refusal::Size(32)));
    checks.same("n -1", read(&signs(0, -1)), Err(Refusal::Size(36)));
    checks.same("p and n -1", read(&signs(-1, -1)), Err(Refusal::Size(32)));
    checks.same(
        "p -1, n cut",
        read(&signs(-1, 0)[..39]),
        Err(Refusal::Short(36)),
    );

    // Two parts of 1 and 2 points, with z and m, cut at every byte.
    let bytes = body_bytes(3, &[0, 1], &rising(6 + 2 + 3 + 2 + 3));
    let mut fields: Vec<usize> = (0..4).map(|i| 8 * i).collect();
    fields.extend((0..4).map(|i| 32 + 4 * i));
    fields.extend((0..16).map(|i| 48 + 8 * i));
    for length in 0..bytes.len() {
        let cut = fields.iter().rev().find(|field| **field <= length);
        let found = read_body(&bytes[..length], true, true);
        checks.same("cut body", found, Err(Refusal::Short(*cut.unwrap())));
    }
    checks.holds("whole body", read_body(&bytes, true, true).is_ok());
}

fn body_runs(checks: &mut Checks) {
    let bytes = body_bytes(3, &[0, 1], &rising(6 + 2 + 3 + 2 + 3));
    let run = |range: [f64; 2], values: [f64; 3]| {
        Some(Run {
            range,
            values: values.to_vec(),
        })
    };
    let body = |z: Option<Run>, m: Option<Run>| {
        Ok(Body {
            bbox: [0.5, 1.5, 2.5, 3.5],
            counts: vec![1, 2],
            x: vec![1.0, 3.0, 5.0],
            y: vec![2.0, 4.0, 6.0],
            z,
            m,
        })
    };
    let first = run([7.0, 8.0], [9.0, 10.0, 11.0]);
    let second = run([12.0, 13.0], [14.0, 15.0, 16.0]);
    checks.same("x, y", read_body(&bytes, false, false), body(None, None));
    checks.same(
        "x, y, m",
        read_body(&bytes, false, true),
        body(None, first.clone()),
    );
    checks.same(
        "x, y, z",
        read_body(&bytes, true, false),
        body(first.clone(), None),
    );
    checks.same(
        "x, y, z, m",
        read_body(&bytes, true, true),
        body(first, second),
    );
}

fn m_rule(checks: &mut Checks) {
    let quiet = f64::from_bits(0x7ff8_0000_0000_0000);
    let loaded = f64::from_bits(0xfff8_0000_0000_0001);
    let low = -1e40;
    let above = f64::from_bits(NO_DATA.to_bits() - 1);
    let raised = [
        (quiet, NO_DATA),
        (loaded, NO_DATA),
        (f64::NEG_INFINITY, NO_DATA),
        (low, NO_DATA),
        (NO_DATA, NO_DATA),
        (above, above),
        (-0.0, -0.0),
        (f64::INFINITY, f64::INFINITY),
    ];
    for (value, expected) in raised {
        checks.same_bits("m rule", &[read_m(value)], &[expected]);
    }
    checks.holds(
        "f64_max with -10e38 first keeps NaN",
        f64_max(NO_DATA, quiet).is_nan(),
    );
    checks.same_bits("f64_max with NaN first", &[f64_max(quiet, 1.0)], &[1.0]);
    checks.same_bits("f64_min with NaN first", &[f64_min(quiet, 1.0)], &[1.0]);
    checks.same_bits("f64_min of zeros", &[f64_min(0.0, -0.0)], &[-0.0]);

    let m_run = [quiet, low, loaded, low, 7.0];
    let z_run = [low, quiet, low, loaded, signalling()];
    for z in [false, true] {
        let mut rest = rising(6);
        rest.extend(z_run.iter().filter(|_| z));
        rest.extend(m_run);
        let body = read_body(&body_bytes(3, &[0], &rest), z, true).unwrap();
        let m = body.m.unwrap();
        checks.same_bits("m range is kept", &m.range, &m_run[..2]);
        checks.same_bits("m values are raised", &m.values, &[NO_DATA, NO_DATA, 7.0]);
        if let Some(z) = body.z {
            checks.same_bits("z range is kept", &z.range, &z_run[..2]);
            checks.same_bits("z values are kept", &z.values, &z_run[2..]);
        }
    }
}

/// Document 01 says that NaN becomes -10e38. For a signalling NaN the crate's `f64::max` leaves it
/// to the processor, so either answer passes here, and the other one than 01's is said aloud.
fn signalling_m(checks: &mut Checks) {
    checks.holds("signalling", is_signalling(signalling()));
    checks.holds(
        "quiet",
        !is_signalling(f64::NAN) && !is_signalling(f64::INFINITY),
    );
    let found = read_m(signalling());
    checks.holds("m rule, signalling NaN", found.is_nan() || found == NO_DATA);
    if found.is_nan() {
        println!("oracle: differs from 01: m {SIGNALLING_BITS:x} (a signalling NaN) is read as {:x}, not as -10e38", found.to_bits());
    }
}

fn reserved(checks: &mut Checks) {
    let small = body_bytes(5, &[0, 2], &rising(10));
    checks.same(
        "two parts of five points",
        reserves(&small, false, false),
        2 * 28 + 5 * 16,
    );
    checks.same("with m", reserves(&small, false, true), 2 * 28 + 5 * 24);
    checks.same("with z", reserves(&small, true, false), 2 * 28 + 5 * 32);
    let silly = body_bytes(MAX, &[0], &[]);
    checks.same(
        "n MAX",
        reserves(&silly, false, false),
        28 + 16 * MAX as u64,
    );
    let refused = body_bytes(MAX, &[-1], &[]);
    checks.same("refused part", reserves(&refused, false, false), 28);
    let mut content = numbers(&[3]);
    content.extend(small);
    checks.same("record", record_reserves(&content), 2 * 28 + 5 * 16);
}

fn rings(checks: &mut Checks) {
    let (x, y) = ([0.0, 0.0, 1.0, 1.0, 0.0], [0.0, 1.0, 1.0, 0.0, 0.0]);
    checks.holds("square is outer", !ring_inner(&x, &y));
    checks.holds("reversed square is inner", ring_inner(&y, &x));
    checks.holds("empty run is outer", !ring_inner(&[], &[]));
    let up = [0.0, 1.0];
    checks.holds("halving", !ring_inner(&[0.0, -LEAST], &up));
    checks.holds("twice as much", ring_inner(&[0.0, -2.0 * LEAST], &up));
    checks.holds("NaN is outer", !ring_inner(&[0.0, f64::NAN], &up));

    let nan = f64::NAN;
    checks.holds("square is closed", ring_closed(&x, &y));
    checks.holds("open", !ring_closed(&x[..4], &y[..4]));
    checks.holds("empty run is not closed", !ring_closed(&[], &[]));
    checks.holds("one point is closed", ring_closed(&[1.0], &[2.0]));
    checks.holds("one point with NaN is not", !ring_closed(&[nan], &[0.0]));
    checks.holds("x alone closes nothing", !ring_closed(&[0.0; 2], &up));
    checks.holds("nor y", !ring_closed(&up, &[0.0; 2]));
    checks.holds(
        "zeros of both signs",
        ring_closed(&[0.0, 5.0, -0.0], &[1.0, 5.0, 1.0]),
    );

    let mut closes = |of: &str, x: &[f64], y: &[f64], closed_x: &[f64], closed_y: &[f64]| {
        let (found_x, found_y) = ring_close(x, y);
        checks.same_bits(of, &found_x, closed_x);
        checks.same_bits(of, &found_y, closed_y);
    };
    closes("closing", &x[..4], &y[..4], &x, &y);
    closes("closing a closed run", &x, &y, &x, &y);
    closes("closing no run", &[], &[], &[], &[]);
    closes("closing NaN", &[nan], &[0.0], &[nan; 2], &[0.0; 2]);
}

/// A body with these counts, box 0.5 .. 3.5 and rising numbers.
fn rising_body(counts: &[usize], z: bool, m: bool) -> Body {
    let points = counts.iter().sum();
    let (x, y) = rising_points(points);
    let run = || Run {
        range: [-1.0, -2.0],
        values: rising(points),
    };
    Body {
        bbox: [0.5, 1.5, 2.5, 3.5],
        counts: counts.to_vec(),
        x,
        y,
        z: z.then(run),
        m: m.then(run),
    }
}

fn written_bodies(checks: &mut Checks) {
    let cases: [&[usize]; 6] = [&[], &[0], &[1], &[2], &[2, 3], &[0, 2, 0, 1]];
    for counts in cases {
        for (z, m) in [(false, false), (false, true), (true, true)] {
            let body = rising_body(counts, z, m);
            let points: usize = counts.iter().sum();
            let starts: Vec<i32> = (0..counts.len())
                .map(|part| counts[..part].iter().sum::<usize>() as i32)
                .collect();
            let mut rest = rising(2 * points);
            for _ in 0..u32::from(z) + u32::from(m) {
                rest.extend([-1.0, -2.0]);
                rest.extend(rising(points));
            }
            let bytes = body_bytes(points as i32, &starts, &rest);
            checks.same("written body", write_body(&body), Some(bytes.clone()));
            checks.same("read back", read_body(&bytes, z, m), Ok(body));
        }
    }
    checks.same(
        "z without m",
        write_body(&rising_body(&[2], true, false)),
        None,
    );
    let mut odd = rising_body(&[2], false, false);
    odd.counts = vec![3];
    checks.same("counts that disagree", write_body(&odd), None);
    for counts in [2, 3] {
        odd.counts = vec![counts];
        odd.x = rising(3);
        checks.same("more x than y", write_body(&odd), None);
    }
}

/// A shape with these counts; for a point kind one point and no counts.
fn rising_shape(code: i32, counts: &[usize]) -> Shape {
    let Kind { z, m, parts } = kind(code).unwrap();
    let body = if parts {
        rising_body(counts, z, m)
    } else {
        Body {
            counts: vec![],
            ..rising_body(&[1], z, m)
        }
    };
    Shape { kind: code, body }
}

/// Document 01's content length in words.
fn words(code: i32, p: i32, n: i32, with_m: bool) -> i32 {
    match (code, with_m) {
        (1, _) => 10,
        (21, _) => 14,
        (11, _) => 18,
        (3 | 5, _) | (23 | 25, false) => 22 + 2 * p + 8 * n,
        (23 | 25, true) | (13 | 15, false) => 30 + 2 * p + 12 * n,
        _ => 38 + 2 * p + 16 * n,
    }
}

fn file_of_lines(checks: &mut Checks) {
    let line = rising_shape(3, &[2]);
    let files = write_files(&[line.clone()]).unwrap();
    checks.same("one line", (files.shp.len(), files.shx.len()), (188, 108));
    checks.same(
        "record header",
        read_record_header(&files.shp[100..]),
        Ok((1, 40)),
    );
    checks.same("entry", &files.shx[100..], &big_numbers(&[50, 40])[..]);

    let files = write_files(&[line.clone(), line]).unwrap();
    checks.same(
        "second record header",
        read_record_header(&files.shp[188..]),
        Ok((2, 40)),
    );
    checks.same(
        "second entry",
        &files.shx[108..],
        &big_numbers(&[94, 40])[..],
    );
    checks.same(
        "index",
        read_index(&files.shx),
        Ok(vec![Some(100), Some(188)]),
    );
}

fn files_of_all_kinds(checks: &mut Checks) {
    let cases: [&[usize]; 5] = [&[5], &[], &[0, 1], &[2, 3, 4], &[1]];
    for code in [1, 21, 11, 3, 23, 13, 5, 25, 15] {
        let Kind { z, m, parts } = kind(code).unwrap();
        let shapes: Vec<Shape> = cases
            .iter()
            .map(|counts| rising_shape(code, counts))
            .collect();
        let files = write_files(&shapes).unwrap();
        let mut at = 100;
        for (i, shape) in shapes.iter().enumerate() {
            let p = shape.body.counts.len() as i32;
            let n = shape.body.x.len() as i32;
            let expected = words(code, p, n, true);
            let number = i as i32 + 1;
            checks.same(
                "number and words",
                read_record_header(&files.shp[at..]),
                Ok((number, expected)),
            );
            let entry = &files.shx[100 + 8 * i..108 + 8 * i];
            checks.same("entry", entry, &big_numbers(&[at as i32 / 2, expected])[..]);
            let end = at + 8 + 2 * expected as usize;
            let content = &files.shp[at + 8..end];
            checks.same("kind", &content[..4], &numbers(&[code])[..]);
            if parts {
                checks.same("body", Some(content[4..].to_vec()), write_body(&shape.body));
                checks.same(
                    "body read",
                    read_body(&content[4..], z, m),
                    Ok(shape.body.clone()),
                );
            } else {
                let values = [vec![1.0, 2.0], vec![1.0; usize::from(z) + usize::from(m)]].concat();
                checks.same("point", &content[4..], &doubles(&values)[..]);
            }
            let read = read_record(content, 2 * expected).map(|record| record.kind);
            checks.same("record", read, Ok(code));
            at = end;
        }
        checks.same("end of .shp", at, files.shp.len());
        let lengths = [&files.shp, &files.shx].map(|file| read_header(file).unwrap().file_length);
        checks.same(
            "file lengths",
            lengths,
            [at as i32 / 2, 50 + 4 * shapes.len() as i32],
        );
    }
}

fn writer_states(checks: &mut Checks) {
    let (line, point) = (rising_shape(3, &[2]), rising_shape(1, &[]));
    let empty = write_files(&[]).unwrap();
    let header = Header {
        file_length: 50,
        version: 1000,
        kind: 0,
        bbox: [0.0, 0.0, 0.0, 0.0, 0.0, 0.0, NO_DATA, NO_DATA],
    };
    checks.same("empty .shp", read_header(&empty.shp), Ok(header));
    checks.same(
        "empty .shx",
        (&empty.shx, empty.shp.len()),
        (&empty.shp, 100),
    );

    let mut writer = FileWriter::new();
    checks.same("line", writer.add(&line), Ok(()));
    let mismatch = Refusal::Mismatch {
        wanted: 3,
        found: 1,
    };
    checks.same("point among lines", writer.add(&point), Err(mismatch));
    writer.finalize();
    checks.same(
        "the refused one left no trace",
        Ok(writer.files()),
        write_files(&[line.clone()]),
    );
    checks.same("line after finalize", writer.add(&line), Ok(()));
    writer.finalize();
    let twice = write_files(&[line.clone(), line.clone()]);
    checks.same("finalize halfway", Ok(writer.files()), twice);

    let mut writer = FileWriter::new();
    writer.finalize();
    checks.same("line after an empty finalize", writer.add(&line), Ok(()));
    writer.finalize();
    let files = writer.files();
    checks.same(
        "second header at byte 100",
        &files.shp[100..104],
        &big_numbers(&[9994])[..],
    );
    // The index has its second header too, so its entry stands at byte 200.
    checks.same(
        "while its entry says 50",
        &files.shx[200..204],
        &big_numbers(&[50])[..],
    );

    // no such kind of a writable type; and a multipoint has no parts
    for code in [0, 2, 31, 8, 18, 28] {
        let shape = Shape {
            kind: code,
            ..line.clone()
        };
        checks.same(
            "not writable",
            write_files(&[shape]),
            Err(Refusal::Inexpressible),
        );
    }
}

/// The bytes of a multipoint's body: box, n, then these doubles.
fn set_bytes(n: i32, rest: &[f64]) -> Vec<u8> {
    [doubles(&[0.5, 1.5, 2.5, 3.5]), numbers(&[n]), doubles(rest)].concat()
}

/// Its fields, with z and with m: for so many points rising numbers, with the ranges -1 to -2.
fn rising_set(points: usize, z: bool, m: bool) -> (Body, Vec<u8>) {
    let mut rest = rising(2 * points);
    for _ in 0..u32::from(z) + u32::from(m) {
        rest.extend([-1.0, -2.0]);
        rest.extend(rising(points));
    }
    let body = Body {
        counts: vec![],
        ..rising_body(&[points], z, m)
    };
    (body, set_bytes(points as i32, &rest))
}

/// Multipoints: 20 + 8n words, with z 8 + 4n more, with m 8 + 4n more; written with m, read without it too.
fn multipoints(checks: &mut Checks) {
    let kinds = [(8, false, false), (28, false, true), (18, true, true)];
    for points in 0..4 {
        for (z, m) in [(false, false), (false, true), (true, false), (true, true)] {
            let (body, bytes) = rising_set(points, z, m);
            checks.same("read", read_multipoint(&bytes, z, m), Ok(body.clone()));
            let longer = [&bytes[..], &[1, 2, 3]].concat();
            checks.same("read on", read_multipoint(&longer, z, m), Ok(body.clone()));
            let written = write_multipoint(&body);
            let expected = if z && !m { None } else { Some(bytes.clone()) };
            checks.same("written", written, expected);
            // cut at every byte: it ends inside the field that begins at or before it
            let mut fields: Vec<usize> = (0..4).map(|i| 8 * i).collect();
            fields.extend((0..(bytes.len() - 36) / 8).map(|i| 36 + 8 * i));
            fields.push(32);
            for length in 0..bytes.len() {
                let cut = fields.iter().filter(|field| **field <= length).max();
                let found = read_multipoint(&bytes[..length], z, m);
                checks.same("cut", found, Err(Refusal::Short(*cut.unwrap())));
            }
        }
        for (code, z, m) in kinds {
            let (body, bytes) = rising_set(points, z, m);
            let shape = Shape {
                kind: code,
                body: body.clone(),
            };
            let n = points as i32;
            let measure = |there: bool| if there { 8 + 4 * n } else { 0 };
            let words = 20 + 8 * n + measure(z) + measure(m);
            let files = write_files(&[shape.clone(), shape]).unwrap();
            let content = [numbers(&[code]), bytes].concat();
            checks.same("length", content.len(), 2 * words as usize);
            let record = |number: i32| [big_numbers(&[number, words]), content.clone()].concat();
            checks.same(
                "records",
                &files.shp[100..],
                &[record(1), record(2)].concat()[..],
            );
            let entries = big_numbers(&[50, words, 54 + words, words]);
            checks.same("entries", &files.shx[100..], &entries[..]);
            checks.same("kind", read_header(&files.shp).map(|h| h.kind), Ok(code));
            let read = |size: i32| read_record(&content, size).map(|record| record.body.unwrap());
            checks.same("record", read(2 * words), Ok(body.clone()));
            checks.same(
                "typed",
                read_record_as(code, &content, 2 * words).map(|r| r.kind),
                Ok(code),
            );
            checks.same(
                "a size above is taken",
                read(2 * words + 2),
                Ok(body.clone()),
            );
            let least = 20 + 8 * n + measure(z);
            checks.same("a size below", read(2 * least - 2), Err(Refusal::Size(0)));
            if m {
                let lacks = read(2 * least).unwrap();
                checks.same("x", lacks.x, body.x.clone());
                checks.same("y", lacks.y, body.y.clone());
                checks.same("z", lacks.z, body.z.clone());
                let m = lacks.m.unwrap();
                checks.same("no m", m.values, vec![NO_DATA; points]);
            }
        }
    }
    for n in [-1, MIN] {
        for (z, m) in [(false, false), (false, true), (true, false), (true, true)] {
            let found = read_multipoint(&set_bytes(n, &rising(20)), z, m);
            checks.same("n below 0", found, Err(Refusal::Size(32)));
        }
        for (code, _, _) in kinds {
            let content = [numbers(&[code]), set_bytes(n, &rising(20))].concat();
            let read = read_record(&content, 40).map(|record| record.kind);
            checks.same("of a record", read, Err(Refusal::Size(36)));
        }
    }
    let (low, nan) = (-1e40, f64::NAN);
    let bytes = set_bytes(2, &[1.0, 2.0, 3.0, 4.0, low, nan, low, nan]);
    let m = read_multipoint(&bytes, false, true).unwrap().m.unwrap();
    checks.same_bits("m range is kept", &m.range, &[low, nan]);
    checks.same_bits("m values are raised", &m.values, &[NO_DATA; 2]);
    checks.same("reserved", multipoint_reserves(&bytes), 2 * 32);
    checks.same(
        "n MAX",
        multipoint_reserves(&set_bytes(MAX, &[])),
        32 * MAX as u64,
    );
    checks.same("no n", multipoint_reserves(&bytes[..35]), 0);

    let (body, _) = rising_set(2, true, true);
    let made = constructed(&Shape { kind: 18, body }).unwrap().body;
    checks.same("box of the points", made.bbox, [1.0, 2.0, 3.0, 4.0]);
    checks.same("z range of the points", made.z.unwrap().range, [1.0, 2.0]);
    let (body, _) = rising_set(0, false, false);
    checks.same("no point", constructed(&Shape { kind: 8, body }), None);
}

/// Whether the crate's writer takes this type: the constant of the type itself, where it is
/// writable, comes before that of the trait.
struct Writer<S>(PhantomData<S>);

impl<S: EsriShape> Writer<S> {
    const TAKES: bool = true;
}

trait OfAnything {
    const TAKES: bool = false;
}

impl<S> OfAnything for Writer<S> {}

/// A type of a user's own whose kind is NullShape. The crate has none that is writable.
struct NoShape;

impl HasShapeType for NoShape {
    fn shapetype() -> ShapeType {
        ShapeType::NullShape
    }
}

impl WritableShape for NoShape {
    fn size_in_bytes(&self) -> usize {
        0
    }

    fn write_to<T: Write>(&self, _: &mut T) -> Result<(), shapefile::Error> {
        Ok(())
    }
}

impl EsriShape for NoShape {
    fn x_range(&self) -> [f64; 2] {
        [0.0; 2]
    }

    fn y_range(&self) -> [f64; 2] {
        [0.0; 2]
    }
}

/// The files of the crate's `ShapeWriter` for these records, true for a polyline of two points and
/// false for `NoShape`; and the errors that it gave.
fn with_nulls(records: &[bool]) -> (Files, Vec<String>) {
    let (mut shp, mut shx) = (Cursor::new(Vec::new()), Cursor::new(Vec::new()));
    let mut writer = ShapeWriter::with_shx(&mut shp, &mut shx);
    let [from, to] = [[1.0, 2.0], [3.0, 4.0]].map(|[x, y]| shapefile::Point::new(x, y));
    let line = shapefile::Polyline::new(vec![from, to]);
    let mut errors = Vec::new();
    for is_line in records {
        let written = match is_line {
            true => writer.write_shape(&line),
            false => writer.write_shape(&NoShape),
        };
        errors.extend(written.err().map(|error| format!("{error:?}")));
    }
    writer.finalize().expect("a file in memory takes all bytes");
    drop(writer);
    let (shp, shx) = (shp.into_inner(), shx.into_inner());
    (Files { shp, shx }, errors)
}

/// How many shapes the crate's own reader finds in the two files, or what it says.
fn shapes_in(files: &Files) -> Result<usize, String> {
    let [shp, shx] = [&files.shp, &files.shx].map(Cursor::new);
    let reader = ShapeReader::with_shx(shp, shx).map_err(|error| error.to_string())?;
    let shapes = reader.read().map_err(|error| error.to_string())?;
    Ok(shapes.len())
}

/// What docs/DIFFERENCES.md says under null-among-others.
fn null_shapes(checks: &mut Checks) {
    checks.holds(
        "a Polyline is writable",
        Writer::<shapefile::Polyline>::TAKES,
    );
    checks.holds("a Shape is not", !Writer::<shapefile::Shape>::TAKES);

    // Behind a line it is refused, and leaves no trace.
    let (line, errors) = with_nulls(&[true]);
    checks.same("a line", errors, vec![]);
    let (behind, errors) = with_nulls(&[true, false]);
    let mismatch = "MismatchShapeType { requested: Polyline, actual: NullShape }";
    checks.same("Null behind a line", errors, vec![mismatch.to_string()]);
    checks.same("it left no trace", behind, line);

    // Alone it is a record of 2 words in a file of kind 0.
    let (alone, errors) = with_nulls(&[false]);
    checks.same("Null alone", (errors, shapes_in(&alone)), (vec![], Ok(1)));
    let record = [big_numbers(&[1, 2]), numbers(&[0])].concat();
    checks.same("its record", &alone.shp[100..], &record[..]);
    checks.same("its entry", &alone.shx[100..], &big_numbers(&[50, 2])[..]);
    let header = Header {
        file_length: 56,
        version: 1000,
        kind: 0,
        bbox: [0.0; 8],
    };
    checks.same("its header", read_header(&alone.shp), Ok(header));

    // What follows, a line or another Null, gets a second header in front of it, in both files; the
    // entry behind that header names the place of the header, and the lengths do not count it.
    for (second, kind, words) in [(true, 3, 40), (false, 0, 2)] {
        let (files, errors) = with_nulls(&[false, second]);
        checks.same("no error", errors, vec![]);
        let Files { shp, shx } = &files;
        checks.same(
            "lengths of the files",
            (shp.len(), shx.len()),
            (100 + 12 + 100 + 8 + 2 * words as usize, 100 + 8 + 100 + 8),
        );
        checks.same("Null's record", &shp[100..112], &record[..]);
        checks.same("Null's entry", &shx[100..108], &big_numbers(&[50, 2])[..]);
        let headers = [&shp[..], &shp[112..], &shx[..], &shx[108..]];
        let kinds_and_lengths = headers.map(|bytes| {
            let header = read_header(bytes).unwrap();
            (header.kind, header.file_length)
        });
        let length = 50 + 6 + 4 + words;
        let expected = [(kind, length), (kind, 56), (kind, 58), (kind, 56)];
        checks.same("the four headers", kinds_and_lengths, expected);
        checks.same("record 2", read_record_header(&shp[212..]), Ok((2, words)));
        checks.same("its entry", &shx[208..], &big_numbers(&[56, words])[..]);
        checks.holds("the crate cannot read it", shapes_in(&files).is_err());
    }
    let (_, errors) = with_nulls(&[false, true, false]);
    checks.same("then Null is refused", errors, vec![mismatch.to_string()]);
}

fn constructors(checks: &mut Checks) {
    let mut line = rising_shape(23, &[2, 2]);
    line.body.x = vec![4.0, 2.0, 3.0, 9.0];
    line.body.y = vec![-1.0, 7.0, 3.0, 0.0];
    let made = constructed(&line).unwrap().body;
    checks.same("box of the points", made.bbox, [2.0, -1.0, 9.0, 7.0]);
    checks.same("m range of the points", made.m.unwrap().range, [1.0, 4.0]);
    checks.same(
        "line untouched",
        (made.counts, made.x, made.y),
        (vec![2, 2], line.body.x, line.body.y),
    );
    checks.same("no part", constructed(&rising_shape(3, &[])), None);
    checks.same(
        "part of one point",
        constructed(&rising_shape(3, &[2, 1])),
        None,
    );
    checks.same(
        "first ring empty",
        constructed(&rising_shape(5, &[0, 3])),
        None,
    );
    checks.same(
        "second ring empty",
        constructed(&rising_shape(5, &[3, 0])).map(|shape| shape.body.counts),
        Some(vec![4, 0]),
    );
    // Closing turns this outer run into an inner one, so it is reversed.
    let mut ring = rising_shape(5, &[3]);
    ring.body.x = vec![0.0, 1.0, 1.0];
    ring.body.y = vec![1.0, 1.0, 3.0];
    let (x, y) = ring_close(&ring.body.x, &ring.body.y);
    checks.holds("open: outer", !ring_inner(&ring.body.x, &ring.body.y));
    checks.holds("closed: inner", ring_inner(&x, &y));
    let made = constructed(&ring).unwrap().body;
    checks.same(
        "closed and reversed",
        (made.x, made.y),
        (vec![0.0, 1.0, 1.0, 0.0], vec![1.0, 3.0, 1.0, 1.0]),
    );
}

fn record_of(code: i32, body: Vec<u8>) -> Vec<u8> {
    [numbers(&[code]), body].concat()
}

fn records(checks: &mut Checks) {
    // PolygonZ with p = 1 and n = 5: 92 words without m, 120 with.
    let with_m = record_of(15, body_bytes(5, &[0], &rising(10 + 7 + 7)));
    let without_m = &with_m[..with_m.len() - 56];
    checks.same("words", (with_m.len(), without_m.len()), (2 * 120, 2 * 92));
    let read =
        |content: &[u8], size: i32| read_record(content, size).map(|record| record.body.unwrap());
    let m = |content: &[u8], size: i32| read(content, size).map(|body| body.m.unwrap().values);
    checks.same(
        "120 words",
        m(&with_m, 240),
        Ok(vec![20.0, 21.0, 22.0, 23.0, 24.0]),
    );
    checks.same("92 words", m(without_m, 184), Ok(vec![NO_DATA; 5]));
    checks.same(
        "a size between is taken, without m",
        m(&with_m, 238),
        Ok(vec![NO_DATA; 5]),
    );
    checks.same(
        "a size above is taken",
        read(&with_m, 1000),
        read(&with_m, 240),
    );
    checks.same("a size below", read(&with_m, 182), Err(Refusal::Size(0)));
    checks.same("size MIN", read(&with_m, MIN), Err(Refusal::Size(0)));

    let refused = |starts: &[i32], size: i32| {
        read_record(&record_of(3, body_bytes(5, starts, &rising(10))), size)
            .map(|record| record.kind)
    };
    checks.same(
        "starts 0, 4, 2",
        refused(&[0, 4, 2], 1000),
        Err(Refusal::Size(48)),
    );
    checks.same(
        "size before starts",
        refused(&[0, 4, 2], 20),
        Err(Refusal::Size(0)),
    );
    let signs = |p: i32, n: i32| record_of(3, [doubles(&[0.0; 4]), numbers(&[p, n])].concat());
    checks.same("p -1", read(&signs(-1, 0), 48), Err(Refusal::Size(36)));
    checks.same("n -1", read(&signs(0, -1), 48), Err(Refusal::Size(40)));

    let point = record_of(11, doubles(&[1.0, 2.0, 3.0, f64::NEG_INFINITY]));
    checks.same(
        "m of a point is kept",
        m(&point, 36),
        Ok(vec![f64::NEG_INFINITY]),
    );
    checks.same("point of 14 words", m(&point, 28), Ok(vec![NO_DATA]));
    checks.same("point of 13 words", read(&point, 26), Err(Refusal::Size(0)));

    let null = Ok(Record {
        kind: 0,
        body: None,
    });
    checks.same("Null at any size", read_record(&numbers(&[0]), -7), null);
    let mismatch = Err(Refusal::Mismatch {
        wanted: 3,
        found: 0,
    });
    checks.same(
        "Null, typed",
        read_record_as(3, &numbers(&[0]), 4),
        mismatch,
    );
    checks.same(
        "cut kind",
        read_record(&[3, 0, 0], 48),
        Err(Refusal::Short(0)),
    );
    checks.same(
        "unknown kind",
        read_record(&numbers(&[2]), 48),
        Err(Refusal::Unknown(2)),
    );
    checks.same(
        "size before mismatch",
        read_record_as(3, &point, MIN),
        Err(Refusal::Size(0)),
    );
    let mismatch = Err(Refusal::Mismatch {
        wanted: 3,
        found: 11,
    });
    checks.same("mismatch", read_record_as(3, &point, 36), mismatch);
    checks.same(
        "typed",
        read_record_as(11, &point, 36),
        read_record(&point, 36),
    );
    checks.same(
        "Null wanted",
        read_record_as(0, &point, 36),
        Err(Refusal::Inexpressible),
    );
}

fn index(checks: &mut Checks) {
    let shx = |file_length: i32, entries: &[i32]| {
        [header_bytes(9994, file_length, 3), big_numbers(entries)].concat()
    };
    let entries = shx(62, &[50, 1, -1, 2, MAX, 3]);
    checks.same(
        "offsets",
        read_index(&entries),
        Ok(vec![Some(100), None, None]),
    );
    checks.same(
        "cut entry",
        read_index(&entries[..115]),
        Err(Refusal::Short(112)),
    );
    checks.same(
        "length 49",
        read_index(&shx(49, &[])),
        Err(Refusal::Size(24)),
    );
    checks.same(
        "length MAX",
        read_index(&shx(MAX, &[])),
        Err(Refusal::Size(24)),
    );
}

fn main() -> ExitCode {
    let mut checks = Checks::default();
    for section in [
        headers,
        record_headers,
        parts,
        body_examples,
        body_refusals,
        body_runs,
        m_rule,
        signalling_m,
        reserved,
        rings,
        written_bodies,
        file_of_lines,
        files_of_all_kinds,
        writer_states,
        multipoints,
        null_shapes,
        constructors,
        records,
        index,
    ] {
        section(&mut checks);
    }
    println!("oracle: {} checks, {} failed", checks.run, checks.failed);
    ExitCode::from(u8::from(checks.failed > 0))
}
