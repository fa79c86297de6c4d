//! The points that are written so far: what each add makes of them, and what leaves them as they are.

mod common;

use common::{records, totals, Random, KINDS};
use mbenaruul::{check_pair, kind, Error, Record, Tables, Writer};

/// The points that one shape adds to a writer, behind one of the same kind.
fn raise(tables: &Tables<'_>) -> usize {
    let mut writer = Writer::new();
    writer.add(tables).unwrap();
    let first = writer.points();
    writer.add(tables).unwrap();
    assert_eq!(writer.points(), 2 * first);
    first
}

#[test]
fn a_fresh_writer_has_no_points() {
    assert_eq!(Writer::new().points(), 0);
    assert_eq!(Writer::default().points(), 0);
}

#[test]
fn a_shape_of_any_kind_counts_with_its_points() {
    for kind in KINDS {
        // a point, and else what the counts sum to, or the length of x where there are none
        let shapes: &[(&[u32], usize)] = match kind {
            _ if common::is_point(kind) => &[(&[], 1)],
            _ if common::is_multipoint(kind) => &[(&[], 0), (&[], 1), (&[], 9)],
            _ => &[
                (&[], 0),
                (&[0], 0),
                (&[9], 9),
                (&[4, 5], 9),
                (&[1, 0, 2], 3),
            ],
        };
        for &(counts, n) in shapes {
            let where_it_has = |has: bool| &[0.5; 9][..if has { n } else { 0 }];
            let tables = Tables {
                kind,
                counts,
                x: &[0.5; 9][..n],
                y: &[0.5; 9][..n],
                z: where_it_has(common::has_z(kind)),
                m: where_it_has(common::has_m(kind)),
                ..Tables::default()
            };
            assert_eq!(raise(&tables), n, "{tables:?}");
        }
    }
}

#[test]
fn it_is_the_sum_of_all_records_and_that_of_the_pair() {
    for kind in KINDS {
        let records = records(kind, 30, &mut Random::new(80 + kind as u64));
        assert!(records.contains(&Record::Null));
        let mut writer = Writer::new();
        for (k, record) in (1..).zip(&records) {
            let before = writer.points();
            writer.add_record(record).unwrap();
            assert_eq!(writer.points(), totals(&records[..k]).points);
            assert_eq!(writer.points() == before, *record == Record::Null);

            // a clone that is finished halfway says the same, and takes nothing from the writer
            let halfway = writer.clone();
            assert_eq!(halfway.points(), writer.points());
            let (shp, shx) = halfway.finish().unwrap();
            assert_eq!(check_pair(&shp, &shx).unwrap().points, writer.points());
        }
        let points = writer.points();
        let (shp, shx) = writer.finish().unwrap();
        assert_eq!(check_pair(&shp, &shx).unwrap().points, points);
    }
}

/// A run of two parts, of 2 points and of 3.
fn run() -> Tables<'static> {
    Tables {
        kind: kind::POLYLINE,
        counts: &[2, 3],
        x: &[0.0; 5],
        y: &[0.0; 5],
        ..Tables::default()
    }
}

/// Adds that are refused, whatever is written before them, leave the points as they are.
fn refused(writer: &mut Writer) {
    let before = writer.points();
    let of = |kind| Tables { kind, ..run() };
    let tables = [
        (of(2), Error::Unknown(2)),
        (of(31), Error::NotTaken(31)),
        (Tables { y: &[], ..run() }, Error::Tables),
        (
            Tables {
                counts: &[5, 5],
                ..run()
            },
            Error::Tables,
        ),
    ];
    for (tables, why) in &tables {
        assert_eq!(writer.add(tables), Err(*why));
        assert_eq!(writer.points(), before);
    }
}

#[test]
fn a_refused_add_leaves_it() {
    let mut writer = Writer::new();
    refused(&mut writer);
    assert_eq!(writer.add(&Tables::default()), Err(Error::NotTaken(0)));
    assert_eq!(writer.points(), 0);

    writer.add(&run()).unwrap();
    refused(&mut writer);
    let polygon = Tables {
        kind: kind::POLYGON,
        ..run()
    };
    let (wanted, found) = (kind::POLYLINE, kind::POLYGON);
    let mismatch = Error::Mismatch { wanted, found };
    assert_eq!(writer.add(&polygon), Err(mismatch));
    let not_empty = Tables {
        kind: kind::NULL,
        ..run()
    };
    assert_eq!(writer.add(&not_empty), Err(Error::Tables));
    assert_eq!(writer.points(), 5);

    // and the accepted ones behind them count on
    writer.add(&Tables::default()).unwrap();
    assert_eq!(writer.points(), 5);
    writer.add(&run()).unwrap();
    assert_eq!(writer.points(), 10);
    let (shp, shx) = writer.finish().unwrap();
    let said = check_pair(&shp, &shx).unwrap();
    assert_eq!(said.to_string(), "records=3 parts=4 points=10");
}
