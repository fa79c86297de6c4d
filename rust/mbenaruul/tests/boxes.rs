//! The true box of tables: the least and the greatest of their values, and what stands where there
//! is none.

mod common;

use common::{record, Random, KINDS};
use mbenaruul::{check_pair, kind, read_header, BBoxZ, Record, Tables, Writer, NO_DATA};

/// The eight numbers, by their bits: == does not tell the zeros apart.
fn bits(bbox: BBoxZ) -> [u64; 8] {
    let BBoxZ {
        xmin,
        ymin,
        xmax,
        ymax,
        zmin,
        zmax,
        mmin,
        mmax,
    } = bbox;
    [xmin, ymin, xmax, ymax, zmin, zmax, mmin, mmax].map(f64::to_bits)
}

fn assert_bbox(tables: Tables<'_>, numbers: [f64; 8]) {
    assert_eq!(
        bits(tables.true_bbox()),
        numbers.map(f64::to_bits),
        "{tables:?}"
    );
}

#[test]
fn each_side_is_a_value_of_its_own_table() {
    let tables = Tables {
        kind: kind::POLYLINE_Z,
        counts: &[2, 1],
        x: &[3.0, 1.0, 2.0],
        y: &[-20.0, -40.0, -30.0],
        z: &[500.0, 700.0, 600.0],
        m: &[-7000.0, -9000.0, -8000.0],
        ..Tables::default()
    };
    let numbers = [1.0, -40.0, 3.0, -20.0, 500.0, 700.0, -9000.0, -7000.0];
    assert_bbox(tables, numbers);
    let boxed = tables.with_true_bbox();
    assert_eq!(boxed.bbox, tables.true_bbox());
    let same = Tables {
        bbox: tables.bbox,
        ..boxed
    };
    assert_eq!(same, tables);
}

#[test]
fn nan_is_passed_over_and_minus_zero_lies_below_zero() {
    let nan = f64::NAN;
    for (x, y) in [
        ([0.0, -0.0, nan], [nan, 5.0, 5.0]),
        ([-0.0, 0.0, -nan], [5.0, nan, 5.0]),
    ] {
        let tables = Tables {
            x: &x,
            y: &y,
            z: &[nan, f64::INFINITY, 1.0],
            ..Tables::default()
        };
        let numbers = [-0.0, 5.0, 0.0, 5.0, 1.0, f64::INFINITY, 0.0, 0.0];
        assert_bbox(tables, numbers);
    }
    let none = Tables {
        x: &[nan],
        y: &[1.0],
        z: &[nan],
        ..Tables::default()
    };
    assert_bbox(none, [0.0, 1.0, 0.0, 1.0, 0.0, 0.0, 0.0, 0.0]);
    // each table by itself, also where they disagree in length
    let uneven = Tables {
        x: &[3.0, 1.0, 2.0],
        y: &[5.0],
        ..Tables::default()
    };
    assert_bbox(uneven, [1.0, 5.0, 3.0, 5.0, 0.0, 0.0, 0.0, 0.0]);
    assert_bbox(Tables::default(), [0.0; 8]);
}

#[test]
fn of_m_those_count_that_are_data() {
    let range = |m: &[f64]| {
        let BBoxZ { mmin, mmax, .. } = Tables {
            m,
            ..Tables::default()
        }
        .true_bbox();
        (mmin, mmax)
    };
    assert_eq!(range(&[NO_DATA, 4.0, f64::NAN, 3.0, -1e300]), (3.0, 4.0));
    assert_eq!(range(&[-1e38, 2.0, -1.0000001e38]), (-1e38, 2.0));
    for none in [&[NO_DATA][..], &[f64::NAN, f64::NEG_INFINITY]] {
        assert_eq!(range(none), (NO_DATA, NO_DATA));
    }
    assert_eq!(range(&[]), (0.0, 0.0));
}

#[test]
fn a_pair_with_true_boxes_has_the_true_box_in_its_header() {
    for kind in KINDS {
        let mut random = Random::new(kind as u64);
        let mut writer = Writer::new();
        let (mut x, mut y) = (Vec::new(), Vec::new());
        let (mut z, mut m) = (Vec::new(), Vec::new());
        for _ in 0..20 {
            let record: Record = record(kind, &mut random);
            let tables = record.tables().with_true_bbox();
            writer.add(&tables).unwrap();
            // an empty place, whose own box is one of zeros
            let null = Record::Null.tables().with_true_bbox();
            writer.add(&null).unwrap();
            x.extend(tables.x);
            y.extend(tables.y);
            z.extend(tables.z);
            m.extend(tables.m);
        }
        let (shp, shx) = writer.finish().unwrap();
        assert!(check_pair(&shp, &shx).is_ok());
        let all = Tables {
            x: &x,
            y: &y,
            z: &z,
            m: &m,
            ..Tables::default()
        };
        assert_eq!(read_header(&shp).unwrap().bbox, all.true_bbox());
    }
}
