//! Writing, checking and reading give back what was written, for every kind that can be written.

mod common;

use common::{multipoint, read_all, record, totals, with_nulls, written, Random, KINDS};
use mbenaruul::{points, read_index_entry, Plan, Record, Records, Verdict, Words};

#[test]
fn what_is_written_is_a_pair_and_reads_back() {
    for kind in KINDS {
        let mut random = Random::new(kind as u64);
        for length in 1..40 {
            let records = common::records(kind, length, &mut random);
            let (shp, shx) = written(&records);
            let plan = Plan::check(&shp, &shx).expect("a pair");
            assert_eq!(plan.totals(), totals(&records));
            assert_eq!((plan.len(), plan.is_empty()), (length, false));
            assert_eq!(plan.header().shape_type, kind);

            let read = read_all(&plan);
            assert_eq!(read, records);
            // Bit by bit, which == on doubles does not see.
            assert_eq!(written(&read), (shp, shx));
        }
    }
}

/// The kind and the box of a header, as its bytes.
fn kind_and_box(header: &[u8]) -> &[u8] {
    &header[32..100]
}

#[test]
fn an_empty_place_takes_12_bytes_and_8_and_leaves_kind_and_box() {
    for kind in KINDS {
        let mut random = Random::new(60 + kind as u64);
        for length in 1..8 {
            let records: Vec<Record> = (0..length).map(|_| record(kind, &mut random)).collect();
            let (shp, shx) = written(&records);
            let empty = with_nulls(&records);
            let (empty_shp, empty_shx) = written(&empty);
            assert_eq!(empty_shp.len(), shp.len() + 12 * length);
            assert_eq!(empty_shx.len(), shx.len() + 8 * length);
            for header in [&empty_shp, &empty_shx, &shx] {
                assert_eq!(kind_and_box(header), kind_and_box(&shp));
            }

            let plan = Plan::check(&empty_shp, &empty_shx).expect("a pair");
            assert_eq!(plan.totals(), totals(&empty));
            assert_eq!(plan.len(), 2 * length);
            let parts_and_points = (plan.totals().parts, plan.totals().points);
            let without = totals(&records);
            assert_eq!(parts_and_points, (without.parts, without.points));
            assert_eq!(read_all(&plan), empty);

            let mut at = 100;
            for (k, record) in (1..).zip(&empty) {
                let entry = read_index_entry(&empty_shx[100 + 8 * (k - 1)..]).unwrap();
                assert_eq!(entry.offset.in_bytes().0 as usize, at);
                if *record == Record::Null {
                    assert_eq!(entry.content_length, Words(2));
                    let number = (k as i32).to_be_bytes();
                    let bytes = [&number[..], &[0, 0, 0, 2], &[0; 4]].concat();
                    assert_eq!(empty_shp[at..at + 12], bytes);
                }
                at += 8 + entry.content_length.in_bytes().0 as usize;
            }
            assert_eq!(at, empty_shp.len());
        }
    }
}

#[test]
fn a_record_is_found_by_its_number_from_1() {
    let mut random = Random::new(7);
    let mut records: Vec<Record> = (0..5).map(|_| record(13, &mut random)).collect();
    records[2] = Record::Null;
    let (shp, shx) = written(&records);
    let plan = Plan::check(&shp, &shx).unwrap();
    for k in [5, 1, 3, 2, 4] {
        assert_eq!(plan.record(k), Some(Ok(records[k - 1].clone())));
    }
    for k in [0, 6, usize::MAX] {
        assert_eq!(plan.record(k), None);
    }
}

/// The records borrow the bytes; the plan is gone.
fn records<'a>((shp, shx): &'a (Vec<u8>, Vec<u8>)) -> Records<'a> {
    Plan::check(shp, shx).unwrap().records()
}

#[test]
fn records_come_from_both_ends_and_are_counted() {
    let mut random = Random::new(8);
    let mut all: Vec<Record> = (0..6).map(|_| record(5, &mut random)).collect();
    all[3] = Record::Null;
    let pair = written(&all);
    let mut left = records(&pair);
    let mut expected = all.iter();
    assert_eq!(left.len(), 6);
    // from the front, the back, the front behind one, the back before one
    assert_eq!(left.next().unwrap().as_ref(), Ok(expected.next().unwrap()));
    let back = left.next_back().unwrap();
    assert_eq!(back.as_ref(), Ok(expected.next_back().unwrap()));
    assert_eq!(left.nth(1).unwrap().as_ref(), Ok(expected.nth(1).unwrap()));
    assert_eq!((left.len(), left.size_hint()), (2, (2, Some(2))));
    let back = left.nth_back(1).unwrap();
    assert_eq!(back.as_ref(), Ok(expected.nth_back(1).unwrap()));
    assert_eq!(left.len(), 0);
    assert_eq!((left.next(), left.next_back()), (None, None));

    let back: Vec<Record> = records(&pair).rev().map(Result::unwrap).collect();
    assert!(back.iter().rev().eq(&all));
    let mut times = 0;
    for record in &Plan::check(&pair.0, &pair.1).unwrap() {
        assert_eq!(record.as_ref(), Ok(&all[times]));
        times += 1;
    }
    assert_eq!(times, 6);
}

#[test]
fn points_are_pairs_of_a_shape_and_of_each_part() {
    for kind in [3, 5, 13, 15] {
        if let Record::Parts(shape) = record(kind, &mut Random::new(kind as u64)) {
            assert_pairs(shape.points(), &shape.x, &shape.y);
            let of_parts = shape.parts().flat_map(|(x, y)| points(x, y));
            assert!(of_parts.eq(shape.points()));
            assert_eq!(shape.parts().len(), shape.counts.len());
        }
    }
    for kind in [8, 28, 18] {
        let set = multipoint(kind, 3, &mut Random::new(kind as u64));
        assert_eq!(set.points().len(), 3);
        assert_pairs(set.points(), &set.x, &set.y);
    }
}

#[test]
fn points_go_as_far_as_the_shorter_store() {
    let (x, y) = ([1.0, 2.0, 3.0], [4.0, 5.0, 6.0]);
    for x in (0..=3).map(|length| &x[..length]) {
        for y in (0..=3).map(|length| &y[..length]) {
            assert_pairs(points(x, y), x, y);
        }
    }
}

/// The points are the zip of both stores, from both ends, and counted.
fn assert_pairs<P>(points: P, x: &[f64], y: &[f64])
where
    P: DoubleEndedIterator<Item = [f64; 2]> + ExactSizeIterator + Clone,
{
    let pair = |(&x, &y): (&f64, &f64)| [x, y];
    let zip: Vec<[f64; 2]> = x.iter().zip(y).map(pair).collect();
    assert_eq!(points.len(), zip.len());
    assert!(points.clone().eq(zip.iter().copied()));
    assert!(points.clone().rev().eq(zip.iter().copied().rev()));
    assert_eq!(points.clone().nth(1), zip.get(1).copied());
    assert_eq!(points.clone().next_back(), zip.last().copied());
}

#[test]
fn a_pair_without_a_record_is_a_pair() {
    let (shp, shx) = written(&[]);
    let plan = Plan::check(&shp, &shx).unwrap();
    assert!(plan.is_empty());
    assert_eq!((plan.record(1), plan.records().len()), (None, 0));
    assert_eq!(
        Verdict::of(&shp, &shx).to_string(),
        "yes records=0 parts=0 points=0"
    );
}
