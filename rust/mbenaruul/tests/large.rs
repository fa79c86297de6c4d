//! A plan of 60,000 shelf runs: written, checked, read, and its entries exchanged.

mod common;

use common::exchange;
use mbenaruul::{check_pair, kind, BBoxZ, Error, Plan, Record, Tables, Totals, Writer};

const RUNS: usize = 60_000;

/// The x and the y of shelf run k: one part of two points, so that all records have the same length.
fn run(k: usize) -> ([f64; 2], [f64; 2]) {
    let (aisle, place) = ((k / 100) as f64, (k % 100) as f64);
    ([aisle, aisle + 0.5], [place; 2])
}

fn plan() -> (Vec<u8>, Vec<u8>) {
    let mut writer = Writer::new();
    for k in 1..=RUNS {
        let (x, y) = run(k);
        writer
            .add(&Tables {
                kind: kind::POLYLINE,
                bbox: BBoxZ {
                    xmin: x[0],
                    ymin: y[0],
                    xmax: x[1],
                    ymax: y[1],
                    ..BBoxZ::default()
                },
                counts: &[2],
                x: &x,
                y: &y,
                ..Tables::default()
            })
            .unwrap();
    }
    writer.finish().unwrap()
}

#[test]
fn a_plan_of_60_000_runs() {
    let (shp, mut shx) = plan();
    let plan = Plan::check(&shp, &shx).unwrap();
    let totals = Totals {
        records: RUNS,
        parts: RUNS,
        points: 2 * RUNS,
    };
    assert_eq!(plan.totals(), totals);
    for (k, record) in plan.records().enumerate() {
        match record.unwrap() {
            Record::Parts(shape) => {
                let (x, y) = run(k + 1);
                assert_eq!((&shape.x[..], &shape.y[..]), (&x[..], &y[..]));
            }
            other => panic!("{other:?}"),
        }
    }

    for (one, other) in [(1, 2), (12, 31), (29_999, 45_000), (RUNS - 1, RUNS)] {
        exchange(&mut shx, one, other);
        let fault = Error::Fault {
            rule: 11,
            record: one,
        };
        assert_eq!(check_pair(&shp, &shx), Err(fault));
        exchange(&mut shx, one, other);
    }
    assert_eq!(check_pair(&shp, &shx), Ok(totals));
}
