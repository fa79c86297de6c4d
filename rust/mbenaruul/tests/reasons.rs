//! Why a pair is refused: the text for every pair of crates/pairs as a whole, the fields, and that a reason
//! is found for whatever is refused, and for nothing else.

mod common;

use common::{content, exchange, pairs, record, records, set, written, Random, KINDS};
use mbenaruul::{
    check_pair, kind, BBoxZ, Cause, Error, File, Reason, Record, Tables, Verdict, Writer,
};

/// The pair's no and its reason.
fn refused(shp: &[u8], shx: &[u8]) -> (Error, Reason) {
    let fault = check_pair(shp, shx).expect_err("a pair that is refused");
    let why = fault.why(shp, shx);
    (
        fault,
        why.unwrap_or_else(|| panic!("no reason for: {fault}")),
    )
}

#[test]
fn each_refused_pair_has_its_text() {
    let said = common::lines("why");
    let mut expected = said.iter().map(String::as_str);
    let mut rules = [0; 18];
    for (name, shp, shx, line) in pairs() {
        assert_eq!(expected.next(), Some(&*format!("{name}: {line}")));
        let verdict = Verdict::of(&shp, &shx);
        match verdict {
            Verdict::Yes(_) => assert_eq!(verdict.why(&shp, &shx), None, "{name}"),
            Verdict::No { rule, record } => {
                let (fault, reason) = refused(&shp, &shx);
                assert_eq!(expected.next(), Some(&*format!("{name}: {reason}")));
                assert_eq!((reason.rule, reason.record), (rule, record), "{name}");
                let again = verdict.why(&shp, &shx).map(|reason| reason.to_string());
                assert_eq!(again, Some(reason.to_string()), "{fault}");
                rules[rule as usize] += 1;
            }
        }
    }
    assert_eq!(expected.next(), None);
    assert!(rules[1..].iter().all(|&pairs| pairs > 0), "{rules:?}");
}

#[test]
fn two_entries_exchanged() {
    let mut writer = Writer::new();
    for k in 0..31u32 {
        let coordinates = vec![f64::from(k); k as usize + 2];
        writer
            .add(&Tables {
                kind: kind::POLYLINE,
                counts: &[k + 2],
                x: &coordinates,
                y: &coordinates,
                ..Tables::default()
            })
            .unwrap();
    }
    let (shp, mut shx) = writer.finish().unwrap();
    exchange(&mut shx, 12, 31);
    let (fault, reason) = refused(&shp, &shx);
    assert_eq!(
        fault,
        Error::Fault {
            rule: 11,
            record: 12
        }
    );
    // a record of n points has 8 + 48 + 16n bytes
    let at = |record: usize| 100 + (2..record + 1).map(|n| 56 + 16 * n).sum::<usize>();
    assert_eq!((reason.file, reason.offset), (File::Shx, 100 + 8 * 11));
    let cause = Cause::EntryOffset {
        found: at(31) as i64,
        wanted: at(12),
    };
    assert_eq!(reason.cause, cause);
    assert_eq!(
        reason.to_string(),
        format!(
            "record 12: the index says byte {}, the record stands at byte {}",
            at(31),
            at(12)
        )
    );
}

/// One record with this content, in a pair that is right for the rest.
fn one(kind: i32, content: &[u8]) -> (Vec<u8>, Vec<u8>) {
    let words = content.len() as i32 / 2;
    let mut shp = common::header(9994, 54 + words, kind);
    shp.extend([1i32, words].iter().flat_map(|n| n.to_be_bytes()));
    shp.extend(content);
    let mut shx = common::header(9994, 54, kind);
    shx.extend([50i32, words].iter().flat_map(|n| n.to_be_bytes()));
    (shp, shx)
}

#[test]
fn a_point_z_without_m() {
    let mut content = kind::POINT_Z.to_le_bytes().to_vec();
    content.extend([1.0f64, 2.0, 3.0].iter().flat_map(|d| d.to_le_bytes()));
    let (shp, shx) = one(kind::POINT_Z, &content);
    let (_, reason) = refused(&shp, &shx);
    assert_eq!(reason.to_string(), "record 1: 14 words; a PointZ has 18");
    assert_eq!((reason.file, reason.offset), (File::Shp, 104));
    let cause = Cause::FixedLength {
        kind: kind::POINT_Z,
        words: 14,
        wanted: 18,
    };
    assert_eq!(reason.cause, cause);
}

#[test]
fn of_a_null_the_length_is_judged_and_nothing_else() {
    // its content is that of a polyline, with counts, starts and doubles that no shape may have
    let nothing_is_right = content(kind::NULL, -1, i32::MIN, &[7], &[f64::NAN; 4]);
    for kind in KINDS {
        for words in 3..=40 {
            let (shp, shx) = one(kind, &nothing_is_right[..2 * words]);
            let (_, reason) = refused(&shp, &shx);
            let text = format!("record 1: {words} words; a Null has 2");
            assert_eq!(reason.to_string(), text);
            assert_eq!((reason.file, reason.offset), (File::Shp, 104));
            let cause = Cause::FixedLength {
                kind: kind::NULL,
                words: words as i32,
                wanted: 2,
            };
            assert_eq!(reason.cause, cause);
            for rule in [12, 14, 15, 16] {
                let fault = Error::Fault { rule, record: 1 };
                assert_eq!(fault.why(&shp, &shx), None, "{fault}");
            }
        }
        let (shp, shx) = one(kind, &nothing_is_right[..4]);
        assert!(check_pair(&shp, &shx).is_ok());
    }
}

#[test]
fn in_a_file_of_nulls_every_other_kind_is_another() {
    for found in KINDS.into_iter().chain([2, 8, 256, -1]) {
        let (shp, shx) = one(kind::NULL, &content(found, 1, 2, &[0], &[0.0; 4]));
        let (_, reason) = refused(&shp, &shx);
        assert_eq!((reason.file, reason.offset), (File::Shp, 108));
        let wanted = kind::NULL;
        assert_eq!(reason.cause, Cause::RecordKind { found, wanted });
    }
}

#[test]
fn lengths_without_m_and_with_it() {
    let texts = [
        (
            kind::POLYLINE_M,
            "42 words; a PolylineM of 1 part and 2 points has 40, or 56 with m",
        ),
        (
            kind::POLYGON_Z,
            "42 words; a PolygonZ of 1 part and 2 points has 56, or 72 with m",
        ),
    ];
    for (kind, text) in texts {
        let (shp, shx) = one(kind, &content(kind, 1, 2, &[0, 0], &[0.0; 4]));
        assert_eq!(
            refused(&shp, &shx).1.to_string(),
            format!("record 1: {text}")
        );
    }
    // behind m's range there is a place for m of each point, and behind z's for z
    let mut doubles = [0.0; 12];
    doubles[11] = f64::NAN;
    let (shp, shx) = one(
        kind::POLYLINE_Z,
        &content(kind::POLYLINE_Z, 1, 2, &[0], &doubles),
    );
    assert_eq!(
        refused(&shp, &shx).1.to_string(),
        "record 1: m of point 2 is NaN; it should be finite"
    );
    let z_alone = [0.0, 0.0, 1.0, 1.0, f64::INFINITY, 0.0, 5.0, 5.0];
    let (shp, shx) = one(
        kind::POLYLINE_Z,
        &content(kind::POLYLINE_Z, 1, 2, &[0], &z_alone),
    );
    assert_eq!(
        refused(&shp, &shx).1.to_string(),
        "record 1: Zmin of its range is inf; it should be finite"
    );
}

#[test]
fn a_multipoint() {
    let said = |kind: i32, content: &[u8]| {
        let (shp, shx) = one(kind, content);
        let (_, reason) = refused(&shp, &shx);
        (reason.file, reason.offset - 100, reason.to_string())
    };
    let is = |at: usize, text: &str| (File::Shp, at, format!("record 1: {text}"));
    assert_eq!(
        said(kind::MULTIPOINT, &set(kind::MULTIPOINT, 0, &[])),
        is(44, "0 points; a Multipoint has at least 1")
    );
    let below = is(44, "its number of points is -7; it should not be below 0");
    assert_eq!(
        said(kind::MULTIPOINT_M, &set(kind::MULTIPOINT_M, -7, &[])),
        below
    );
    let texts = [
        (
            kind::MULTIPOINT,
            "40 words; a Multipoint of 2 points has 36",
        ),
        (
            kind::MULTIPOINT_M,
            "40 words; a MultipointM of 2 points has 36, or 52 with m",
        ),
        (
            kind::MULTIPOINT_Z,
            "40 words; a MultipointZ of 2 points has 52, or 68 with m",
        ),
    ];
    for (kind, text) in texts {
        assert_eq!(said(kind, &set(kind, 2, &[0.0; 5])), is(4, text));
    }
    // each double has its name, in the order of the file; the last seven are m, without which it is one too
    let names = [
        "x of point 1",
        "y of point 1",
        "x of point 2",
        "y of point 2",
        "x of point 3",
        "y of point 3",
        "Zmin of its range",
        "Zmax of its range",
        "z of point 1",
        "z of point 2",
        "z of point 3",
        "Mmin of its range",
        "Mmax of its range",
        "m of point 1",
        "m of point 2",
        "m of point 3",
    ];
    for (i, name) in names.iter().enumerate() {
        for length in [11, 16] {
            if i < length {
                let mut doubles = vec![0.0; length];
                doubles[i] = f64::NEG_INFINITY;
                let content = set(kind::MULTIPOINT_Z, 3, &doubles);
                let text = format!("{name} is -inf; it should be finite");
                assert_eq!(said(kind::MULTIPOINT_Z, &content), is(48 + 8 * i, &text));
            }
        }
    }
    let mut content = set(kind::MULTIPOINT, 1, &[0.0; 2]);
    content[12..20].copy_from_slice(&f64::NAN.to_le_bytes());
    let text = "Ymin of its box is NaN; it should be finite";
    assert_eq!(said(kind::MULTIPOINT, &content), is(20, text));
}

#[test]
fn coordinates_are_told_apart() {
    let open = |x: f64| {
        let doubles = [1e300, 0.0, 0.0, 1.0, 1.0, 1.0, x, 0.0];
        let (shp, shx) = one(kind::POLYGON, &content(kind::POLYGON, 1, 4, &[0], &doubles));
        refused(&shp, &shx).1.to_string()
    };
    let text = |x: &str| {
        format!("record 1: ring 1 begins at (1e300, 0) and ends at ({x}, 0); it should end where it begins")
    };
    assert_eq!(open(0.1), text("0.1"));
    assert_eq!(
        open(f64::from_bits(0.1f64.to_bits() + 1)),
        text("0.10000000000000002")
    );
    assert_eq!(open(5e-324), text("5e-324"));
}

#[test]
fn whatever_is_refused_has_a_reason_and_its_number_mends_it() {
    let (mut refusals, mut mended) = (0, 0);
    for kind in KINDS {
        let mut random = Random::new(7 + kind as u64);
        for _ in 0..1500 {
            let (mut shp, mut shx) = written(&records(kind, 3, &mut random));
            let either = if random.below(3) == 0 {
                &mut shx
            } else {
                &mut shp
            };
            common::damage(either, &mut random);
            if check_pair(&shp, &shx).is_ok() {
                continue;
            }
            let (fault, reason) = refused(&shp, &shx);
            let line = reason.to_string();
            assert!(!line.contains('\n') && line.is_ascii(), "{line}");
            assert_eq!(line.starts_with("record "), reason.record > 0, "{line}");
            refusals += 1;
            if mend(&reason, &mut shp, &mut shx) {
                let same = check_pair(&shp, &shx) == Err(fault);
                assert!(!same || refused(&shp, &shx).1 != reason, "{line}");
                mended += 1;
            }
        }
    }
    assert!(refusals > 5000 && mended > 1000, "{refusals} {mended}");
}

/// Puts the number that should stand in a field there, where it is one number.
fn mend(reason: &Reason, shp: &mut [u8], shx: &mut [u8]) -> bool {
    let big = |n: usize| (n as i32).to_be_bytes();
    let number = match reason.cause {
        Cause::FileCode { .. } => big(9994),
        Cause::Version { .. } => 1000i32.to_le_bytes(),
        Cause::FileLength { bytes, .. } => big(bytes / 2),
        Cause::RecordNumber { .. } => big(reason.record),
        Cause::EntryOffset { wanted, .. } => big(wanted / 2),
        Cause::EntryLength { wanted, .. } => big(wanted as usize),
        Cause::RecordKind { wanted, .. } => wanted.to_le_bytes(),
        _ => return false,
    };
    let file = match reason.file {
        File::Shp => shp,
        File::Shx => shx,
    };
    // an odd number of bytes has no length in words that is right
    if matches!(reason.cause, Cause::FileLength { bytes, .. } if bytes % 2 == 1) {
        return false;
    }
    file[reason.offset..reason.offset + 4].copy_from_slice(&number);
    true
}

#[test]
fn a_fault_of_other_files_has_no_reason() {
    for kind in [5, 8, 28, 18] {
        has_no_reason(kind);
    }
}

fn has_no_reason(kind: i32) {
    let good = written(&[
        record(kind, &mut Random::new(1)),
        Record::Null,
        record(kind, &mut Random::new(2)),
        Record::Null,
    ]);
    let nothing = (Vec::new(), Vec::new());
    let header = (
        common::header(9994, 50, kind),
        common::header(9994, 50, kind),
    );
    for rule in (0..=20).chain([u32::MAX]) {
        for record in (0..=5).chain([1 << 31, 1 << 62, usize::MAX]) {
            let fault = Error::Fault { rule, record };
            assert_eq!(fault.why(&good.0, &good.1), None, "{fault}");
            for (shp, shx) in [&nothing, &header, &good] {
                for (a, b) in [(shp, shx), (shx, shp), (&good.0, shx), (shp, &good.1)] {
                    let _ = fault.why(a, b).map(|reason| reason.to_string());
                }
            }
        }
    }
    assert_eq!(Error::Tables.why(&good.0, &good.1), None);
    assert_eq!(Error::Tables.why(&[], &[]), None);
}

#[test]
fn a_reason_is_found_in_bytes_of_any_kind() {
    let mut random = Random::new(3);
    for _ in 0..20_000 {
        let kind = KINDS[random.below(KINDS.len())];
        let (mut shp, shx) = written(&records(kind, 2, &mut random));
        for _ in 0..1 + random.below(4) {
            common::damage(&mut shp, &mut random);
            if shp.is_empty() {
                break;
            }
        }
        let fault = Error::Fault {
            rule: 1 + random.below(17) as u32,
            record: random.below(3),
        };
        let _ = fault.why(&shp, &shx).map(|reason| reason.to_string());
        let _ = fault.why(&shx, &shp).map(|reason| reason.to_string());
    }
}

#[test]
fn boxes_are_not_judged() {
    let mut writer = Writer::new();
    writer
        .add(&Tables {
            kind: kind::POLYLINE,
            bbox: BBoxZ {
                xmin: 7.0,
                ..BBoxZ::default()
            },
            counts: &[2],
            x: &[0.0, 1.0],
            y: &[0.0, 1.0],
            ..Tables::default()
        })
        .unwrap();
    let (shp, shx) = writer.finish().unwrap();
    assert!(check_pair(&shp, &shx).is_ok());
}
