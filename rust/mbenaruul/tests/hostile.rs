//! Bytes and numbers that were made to do harm: counts that the bytes do not hold, sizes at the ends
//! of their range, nothing at all. No call takes more memory than twice what it was handed.

mod common;

use common::{content, set};
use mbenaruul::{
    check_pair, close_points_if_not_already, is_part_closed, points, read_header, read_index_entry,
    read_record, read_record_header, ring_type_from_points_ordering, Bytes, Error, Plan, Record,
    Tables, Writer,
};
use std::alloc::{GlobalAlloc, Layout, System};
use std::cell::Cell;

/// Counts the bytes that each thread asks for.
struct Counting;

thread_local! {
    static ASKED: Cell<usize> = const { Cell::new(0) };
}

unsafe impl GlobalAlloc for Counting {
    unsafe fn alloc(&self, layout: Layout) -> *mut u8 {
        ASKED.with(|asked| asked.set(asked.get() + layout.size()));
        System.alloc(layout)
    }

    unsafe fn dealloc(&self, pointer: *mut u8, layout: Layout) {
        System.dealloc(pointer, layout)
    }
}

#[global_allocator]
static COUNTING: Counting = Counting;

/// A record read, with the memory that it took held to twice its content.
fn read(content: &[u8], size: i64, wanted: Option<i32>) -> Result<Record, Error> {
    let before = ASKED.with(Cell::get);
    let read = read_record(content, Bytes(size), wanted);
    let asked = ASKED.with(Cell::get) - before;
    assert!(
        asked <= 2 * content.len(),
        "{asked} bytes for {}",
        content.len()
    );
    read
}

#[test]
fn the_memory_is_counted() {
    let before = ASKED.with(Cell::get);
    assert_eq!(vec![0u8; 1000].len(), 1000);
    assert_eq!(ASKED.with(Cell::get) - before, 1000);
}

/// The size that a polyline's counts ask for.
fn size(p: i64, n: i64) -> i64 {
    2 * (22 + 2 * p + 8 * n)
}

#[test]
fn counts_that_the_bytes_do_not_hold() {
    // half a billion parts, and not one start
    let parts = content(3, 500_000_000, 0, &[], &[]);
    assert_eq!(
        read(&parts, size(500_000_000, 0), None),
        Err(Error::Short { at: 44, present: 0 })
    );
    // a hundred million points, and not one pair
    let points = content(3, 1, 100_000_000, &[0], &[]);
    assert_eq!(
        read(&points, size(1, 100_000_000), None),
        Err(Error::Short { at: 48, present: 0 })
    );
    // a part that starts far below 0 has more points than the count says
    let below = content(3, 1, 5, &[-1_000_000_000], &[0.0; 10]);
    assert_eq!(
        read(&below, size(1, 5), None),
        Err(Error::Short {
            at: 128,
            present: 0
        })
    );
    // no size fits these counts
    let most = content(3, i32::MAX, i32::MAX, &[0], &[]);
    for size in [
        i64::MIN,
        i64::from(i32::MIN),
        0,
        i64::from(i32::MAX),
        i64::MAX,
    ] {
        assert_eq!(read(&most, size, None), Err(Error::Size { at: 0 }));
    }
}

#[test]
fn a_number_of_points_that_the_bytes_do_not_hold() {
    // a hundred million points, in the sizes without m and with it, and not one pair
    let n = 100_000_000;
    for (kind, words) in [
        (8, vec![20 + 8 * n]),
        (28, vec![20 + 8 * n, 28 + 12 * n]),
        (18, vec![28 + 12 * n]),
    ] {
        let points = set(kind, n as i32, &[]);
        for words in words {
            let read = read(&points, 2 * words, None);
            // over 2,147,483,647 bytes no size is one
            let refused = if 2 * words <= i64::from(i32::MAX) {
                Error::Short { at: 40, present: 0 }
            } else {
                Error::Size { at: 0 }
            };
            assert_eq!(read, Err(refused), "{kind}");
        }
        let most = set(kind, i32::MAX, &[]);
        for size in [i64::MIN, 0, 40, i64::from(i32::MAX), i64::MAX] {
            assert_eq!(read(&most, size, None), Err(Error::Size { at: 0 }));
        }
    }
}

#[test]
fn the_largest_multipoint_for_its_bytes_takes_twice_their_memory() {
    for (kind, doubles, words) in [
        (8, 2, 20 + 80_000),
        (28, 2, 20 + 80_000),
        (18, 3, 28 + 120_000),
    ] {
        let extra = if kind == 18 { 2 } else { 0 };
        let points = set(kind, 10_000, &vec![0.5; 10_000 * doubles + extra]);
        match read(&points, 2 * words, None) {
            Ok(Record::Multipoint(set)) => {
                assert_eq!(set.x, [0.5; 10_000]);
                assert_eq!(set.y, set.x);
            }
            other => panic!("{other:?}"),
        }
    }
}

#[test]
fn points_of_no_part_take_no_memory() {
    let none = content(3, 0, 100_000_000, &[], &[]);
    match read(&none, size(0, 100_000_000), None) {
        Ok(Record::Parts(shape)) => {
            assert!(shape.counts.is_empty() && shape.x.is_empty() && shape.y.is_empty())
        }
        other => panic!("{other:?}"),
    }
}

#[test]
fn parts_of_no_point_take_four_bytes_each() {
    let parts = content(3, 10_000, 0, &[0; 10_000], &[]);
    match read(&parts, size(10_000, 0), None) {
        Ok(Record::Parts(shape)) => assert_eq!(shape.counts, [0; 10_000]),
        other => panic!("{other:?}"),
    }
}

#[test]
fn the_largest_shape_for_its_bytes_takes_twice_their_memory() {
    let points = content(3, 1, 10_000, &[0], &[0.5; 20_000]);
    match read(&points, size(1, 10_000), None) {
        Ok(Record::Parts(shape)) => {
            assert_eq!(shape.x, [0.5; 10_000]);
            assert_eq!(shape.y, shape.x);
        }
        other => panic!("{other:?}"),
    }
}

#[test]
fn going_over_points_takes_no_memory() {
    let content = content(3, 2, 10_000, &[0, 5_000], &[0.5; 20_000]);
    let shape = match read(&content, size(2, 10_000), None) {
        Ok(Record::Parts(shape)) => shape,
        other => panic!("{other:?}"),
    };
    let before = ASKED.with(Cell::get);
    let of_parts = shape.parts().flat_map(|(x, y)| points(x, y));
    assert!(of_parts.eq(shape.points()) && shape.points().rev().eq([[0.5; 2]; 10_000]));
    let tables = shape.tables().with_true_bbox();
    assert!(points(tables.x, tables.y).eq(shape.points()));
    assert_eq!(ASKED.with(Cell::get), before);
}

#[test]
fn a_record_that_is_skipped_is_not_read() {
    let mut writer = Writer::new();
    for _ in 0..100 {
        let run = Tables {
            kind: 3,
            counts: &[2],
            x: &[0.0, 1.0],
            y: &[0.0, 1.0],
            ..Tables::default()
        };
        writer.add(&run).unwrap();
    }
    let (shp, shx) = writer.finish().unwrap();
    let plan = Plan::check(&shp, &shx).unwrap();
    let before = ASKED.with(Cell::get);
    assert!(plan.records().nth(98).is_some() && plan.records().nth_back(98).is_some());
    let asked = ASKED.with(Cell::get) - before;
    // two records, each with a content of 80 bytes
    assert!(asked <= 2 * 2 * 80, "{asked} bytes");
}

#[test]
fn a_null_takes_no_memory_whatever_its_content_says() {
    let long = content(0, 500_000_000, 100_000_000, &[-1; 100], &[f64::NAN; 100]);
    for size in [4, 5, 1_000_000_000, i64::from(i32::MAX)] {
        let before = ASKED.with(Cell::get);
        assert_eq!(read(&long, size, None), Ok(Record::Null));
        assert_eq!(ASKED.with(Cell::get), before);
    }
}

#[test]
fn every_size_and_wanted_kind_is_answered() {
    let sizes = [
        i64::MIN,
        -2_147_483_649,
        -1,
        0,
        3,
        4,
        44,
        2_147_483_648,
        i64::MAX,
    ];
    for kind in -2..40 {
        for wanted in [None, Some(kind), Some(3), Some(i32::MIN), Some(i32::MAX)] {
            for size in sizes {
                let _ = read(&content(kind, 1, 2, &[0], &[0.0; 4]), size, wanted);
                let _ = read(&content(kind, i32::MAX, i32::MIN, &[], &[]), size, wanted);
                let _ = read(&set(kind, i32::MAX, &[0.0; 4]), size, wanted);
                let _ = read(&kind.to_le_bytes(), size, wanted);
            }
        }
    }
}

#[test]
fn nothing_at_all_is_answered_by_every_call() {
    let short = Error::Short { at: 0, present: 0 };
    assert_eq!(read_header(&[]), Err(short));
    assert_eq!(read_record_header(&[]), Err(short));
    assert_eq!(read_index_entry(&[]), Err(short));
    assert_eq!(read(&[], 0, None), Err(short));
    assert_eq!(read(&[], i64::MIN, Some(3)), Err(short));
    assert_eq!(check_pair(&[], &[]).unwrap_err().number(), 8);
    assert_eq!(is_part_closed(&[], &[], 0), Ok(false));
    assert!(ring_type_from_points_ordering(&[], &[], 0).is_ok());
    let nothing = (Vec::new(), Vec::new());
    assert_eq!(
        close_points_if_not_already(Vec::new(), Vec::new(), 0),
        Ok(nothing)
    );
    assert_eq!(
        Writer::new().add(&Tables::default()),
        Err(Error::NotTaken(0))
    );
    // a polyline without a part, and a multipoint without a point, can be written, and no pair may hold
    // one; a Null may stand behind it
    for kind in [3, 8, 28, 18] {
        let mut writer = Writer::new();
        let nothing = Tables {
            kind,
            ..Tables::default()
        };
        writer.add(&nothing).unwrap();
        writer.add(&Tables::default()).unwrap();
        let (shp, shx) = writer.finish().unwrap();
        assert_eq!(
            check_pair(&shp, &shx),
            Err(Error::Fault {
                rule: 14,
                record: 1
            })
        );
    }
}
