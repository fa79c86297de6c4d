//! What was read is written again: the tables of every record, and the m that lacks.

mod common;

use common::{bytes, read_all, record, with_nulls, written, Random, KINDS};
use mbenaruul::{
    kind, BBoxZ, Error, Multipoint, Plan, Range, Record, Shape, Tables, Writer, NO_DATA,
};

fn shape_of(record: &Record) -> &Shape {
    match record {
        Record::Parts(shape) => shape,
        other => panic!("{other:?}"),
    }
}

#[test]
fn the_tables_of_every_kind_are_taken() {
    for kind in KINDS {
        let mut random = Random::new(kind as u64);
        let record = record(kind, &mut random);
        assert_eq!((record.kind(), record.lacks_m()), (kind, false));
        assert_eq!(record.clone().with_no_data(), record);
        let mut writer = Writer::new();
        writer.add(&record.tables()).unwrap();
        assert_eq!(writer.finish().unwrap(), written(&[record]));
    }
}

#[test]
fn a_null_is_taken_behind_another_record() {
    assert_eq!((Record::Null.kind(), Record::Null.lacks_m()), (0, false));
    assert_eq!(Record::Null.with_no_data(), Record::Null);
    assert_eq!(Record::Null.tables(), Tables::default());
    for kind in KINDS {
        let record = record(kind, &mut Random::new(20 + kind as u64));
        let mut writer = Writer::new();
        for _ in 0..2 {
            let refused = writer.add_record(&Record::Null);
            assert_eq!(refused, Err(Error::NotTaken(kind::NULL)));
        }
        writer.add_record(&record).unwrap();
        writer.add_record(&Record::Null).unwrap();
        writer.add(&Record::Null.tables().with_true_bbox()).unwrap();
        writer.add_record(&record).unwrap();
        let (shp, shx) = writer.finish().unwrap();
        let all = [record.clone(), Record::Null, Record::Null, record];
        assert_eq!((&shp, &shx), (&written(&all).0, &written(&all).1));
        assert_eq!(read_all(&Plan::check(&shp, &shx).unwrap()), all);
    }
}

#[test]
fn the_box_of_a_null_plays_no_part() {
    let sides = BBoxZ {
        xmin: f64::NEG_INFINITY,
        ymin: f64::NAN,
        xmax: f64::INFINITY,
        ymax: 1e300,
        zmin: -1e300,
        zmax: 1e300,
        mmin: -1e300,
        mmax: f64::NAN,
    };
    let boxed = Tables {
        bbox: sides,
        ..Tables::default()
    };
    for kind in KINDS {
        let record = record(kind, &mut Random::new(40 + kind as u64));
        let mut writer = Writer::new();
        writer.add_record(&record).unwrap();
        writer.add(&boxed).unwrap();
        assert_eq!(writer.finish().unwrap(), written(&with_nulls(&[record])));
    }
}

#[test]
fn tables_can_be_changed_before_they_are_written() {
    let read = record(kind::POLYLINE_Z, &mut Random::new(3));
    let mut writer = Writer::new();
    let flat = Tables {
        kind: kind::POLYLINE,
        z: &[],
        m: &[],
        ..read.tables()
    };
    writer.add(&flat).unwrap();
    let (shp, shx) = writer.finish().unwrap();
    let again = read_all(&Plan::check(&shp, &shx).unwrap());
    assert_eq!(shape_of(&again[0]).x, shape_of(&read).x);
    assert_eq!(shape_of(&again[0]).y, shape_of(&read).y);
    assert_eq!(again[0].kind(), kind::POLYLINE);
}

/// The record with m as it has to come back.
fn filled(record: Record) -> Record {
    let m_range = Some(Range {
        low: NO_DATA,
        high: NO_DATA,
    });
    match record {
        Record::Parts(shape) if shape.m_range.is_none() => Record::Parts(Shape {
            m_range,
            m: vec![NO_DATA; shape.x.len()],
            ..shape
        }),
        Record::Multipoint(set) if set.m_range.is_none() => Record::Multipoint(Multipoint {
            m_range,
            m: vec![NO_DATA; set.x.len()],
            ..set
        }),
        whole => whole,
    }
}

#[test]
fn m_that_lacks_is_filled_with_no_data() {
    for kind in [13, 15, 23, 25, 28, 18] {
        let [shp, shx] = ["shp", "shx"].map(|end| bytes(&format!("lacks_m_{kind}.{end}")));
        let plan = Plan::check(&shp, &shx).unwrap();
        let mut writer = Writer::new();
        let mut lacking = 0;
        for record in &plan {
            let record = record.unwrap();
            if record.lacks_m() {
                assert_eq!(writer.add_record(&record), Err(Error::Tables));
                assert_eq!(record.kind(), kind);
                lacking += 1;
            }
            writer.add_record(&record.with_no_data()).unwrap();
        }
        assert!(lacking > 0);
        let (own_shp, own_shx) = writer.finish().unwrap();
        let own = Plan::check(&own_shp, &own_shx).unwrap();
        assert_eq!(own.totals(), plan.totals());
        let expected: Vec<Record> = read_all(&plan).into_iter().map(filled).collect();
        assert_eq!(read_all(&own), expected);
    }
}

#[test]
fn an_m_that_is_there_is_not_filled() {
    let shape = Shape {
        m_range: None,
        ..shape_of(&record(kind::POLYGON_M, &mut Random::new(5))).clone()
    };
    let set = Multipoint {
        m_range: None,
        ..common::multipoint(kind::MULTIPOINT_M, 3, &mut Random::new(5))
    };
    for put_together in [Record::Parts(shape), Record::Multipoint(set)] {
        assert!(!put_together.lacks_m());
        assert_eq!(put_together.clone().with_no_data(), put_together);
    }
}

#[test]
fn a_record_put_together_of_x_and_y_that_differ_in_length_is_10() {
    let changes: [fn(&mut Vec<f64>); 2] = [|store| store.push(1.0), |store| store.clear()];
    for kind in KINDS {
        for change in changes {
            for axis in 0..2 {
                let mut uneven = record(kind, &mut Random::new(70 + kind as u64));
                let (x, y) = match &mut uneven {
                    Record::Parts(shape) => (&mut shape.x, &mut shape.y),
                    Record::Multipoint(set) => (&mut set.x, &mut set.y),
                    _ => continue, // a point has one of each
                };
                change([x, y][axis]);
                let uneven = uneven.with_no_data();
                let mut writer = Writer::new();
                assert_eq!(writer.add_record(&uneven), Err(Error::Tables));
                let boxed = uneven.tables().with_true_bbox();
                assert_eq!(writer.add(&boxed), Err(Error::Tables));
                assert_eq!(writer.finish(), Writer::new().finish());
            }
        }
    }
}
