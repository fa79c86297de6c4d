//! The pairs of crates/pairs, which were packed by hand: each gets its line, and what is a pair is
//! read and written again.

mod common;

use common::{bytes, pairs, read_all};
use mbenaruul::{BBox, Error, Multipoint, Plan, Range, Record, Shape, Verdict, Writer};

#[test]
fn each_pair_gets_its_line() {
    let pairs = pairs();
    assert!(pairs.len() >= 223);
    for (name, shp, shx, line) in pairs {
        assert_eq!(Verdict::of(&shp, &shx).to_string(), line, "{name}");
    }
}

#[test]
fn what_is_a_pair_is_written_again_byte_for_byte_behind_the_headers() {
    let mut again = 0;
    for (name, shp, shx, line) in pairs() {
        if !line.starts_with("yes") || shp.len() == 100 {
            continue;
        }
        let plan = Plan::check(&shp, &shx).expect(&name);
        let mut writer = Writer::new();
        let added: Result<(), Error> = plan
            .records()
            .try_for_each(|record| writer.add_record(&record.expect(&name)));
        let records = read_all(&plan);
        if records[0] == Record::Null {
            assert_eq!(added, Err(Error::NotTaken(0)), "{name}");
        } else if records.iter().any(Record::lacks_m) {
            assert_eq!(added, Err(Error::Tables), "{name}");
        } else {
            assert_eq!(added, Ok(()), "{name}");
            let (own_shp, own_shx) = writer.finish().unwrap();
            assert_eq!(own_shp[100..], shp[100..], "{name}");
            assert_eq!(own_shx[100..], shx[100..], "{name}");
            again += 1;
        }
    }
    assert!(again >= 39, "only {again} were written again");
}

#[test]
fn a_record_has_the_values_that_were_packed() {
    let (shp, shx) = (bytes("good_13.shp"), bytes("good_13.shx"));
    let plan = Plan::check(&shp, &shx).unwrap();
    let range = Some(Range {
        low: 0.0,
        high: 9.0,
    });
    let expected = Shape {
        kind: 13,
        bbox: BBox {
            xmin: 0.0,
            ymin: 0.0,
            xmax: 9.0,
            ymax: 9.0,
        },
        z_range: range,
        m_range: range,
        counts: vec![2, 3],
        x: vec![0.0, 1.0, 2.0, 3.0, 4.0],
        y: vec![0.0, 1.0, 0.0, 1.0, 0.0],
        z: vec![5.0; 5],
        m: vec![6.0; 5],
    };
    assert_eq!(plan.record(1), Some(Ok(Record::Parts(expected))));
}

#[test]
fn a_multipoint_has_the_values_that_were_packed() {
    let range = Some(Range {
        low: 0.0,
        high: 9.0,
    });
    let bbox = BBox {
        xmin: 0.0,
        ymin: 0.0,
        xmax: 9.0,
        ymax: 9.0,
    };
    let expected = |kind: i32, z: bool, m: bool, x: &[f64], y: &[f64]| {
        let points = x.len();
        Some(Ok(Record::Multipoint(Multipoint {
            kind,
            bbox,
            z_range: if z { range } else { None },
            m_range: if m { range } else { None },
            x: x.to_vec(),
            y: y.to_vec(),
            z: vec![5.0; if z { points } else { 0 }],
            m: vec![6.0; if m { points } else { 0 }],
        })))
    };
    let (bend_x, bend_y) = ([2.0, 3.0, 4.0], [0.0, 1.0, 0.0]);
    for (kind, z, m) in [(8, false, false), (28, false, true), (18, true, true)] {
        let [shp, shx] = ["shp", "shx"].map(|end| bytes(&format!("good_{kind}.{end}")));
        let plan = Plan::check(&shp, &shx).unwrap();
        assert_eq!(plan.record(1), expected(kind, z, m, &bend_x, &bend_y));
        assert_eq!(plan.record(2), expected(kind, z, m, &[1.0], &[2.0]));
    }
    // each record for itself has m or not
    for (kind, z) in [(28, false), (18, true)] {
        let [shp, shx] = ["shp", "shx"].map(|end| bytes(&format!("lacks_m_{kind}.{end}")));
        let plan = Plan::check(&shp, &shx).unwrap();
        let segment = [0.0, 1.0]; // x, and y
        assert_eq!(plan.record(1), expected(kind, z, false, &segment, &segment));
        assert_eq!(plan.record(2), Some(Ok(Record::Null)));
        assert_eq!(plan.record(3), expected(kind, z, true, &segment, &segment));
    }
}
