//! The worked examples of the format: headers, lengths, part starts and rings.

mod common;

use common::{content, header, multipoint, Random};
use mbenaruul::{
    close_points_if_not_already, is_part_closed, read_header, read_index_entry, read_record,
    read_record_header, ring_type_from_points_ordering, BBox, BBoxZ, Bytes, Header, IndexEntry,
    Multipoint, Range, Record, RecordHeader, RingType, Shape, Tables, Words, Writer,
};

#[test]
fn a_header_has_each_field_in_its_place() {
    let read = read_header(&header(9994, 94, 13)).unwrap();
    let bbox = BBoxZ {
        xmin: 1.0,
        ymin: 2.0,
        xmax: 3.0,
        ymax: 4.0,
        zmin: 5.0,
        zmax: 6.0,
        mmin: 7.0,
        mmax: 8.0,
    };
    let expected = Header {
        file_length: Words(94),
        version: 1000,
        shape_type: 13,
        bbox,
    };
    assert_eq!(read, expected);
    assert_eq!(read.file_length.in_bytes(), Bytes(188));
    assert_eq!(Words(i32::MIN).in_bytes(), Bytes(-4_294_967_296));
}

#[test]
fn two_numbers_stand_in_front_of_a_record_and_in_an_entry() {
    let bytes = [0, 0, 0, 7, 0xff, 0xff, 0xff, 0xfe, 99];
    let record = RecordHeader {
        record_number: 7,
        content_length: Words(-2),
    };
    let entry = IndexEntry {
        offset: Words(7),
        content_length: Words(-2),
    };
    assert_eq!(read_record_header(&bytes), Ok(record));
    assert_eq!(read_index_entry(&bytes), Ok(entry));
}

fn run(kind: i32, points: usize) -> Record {
    let measured = |has: bool| vec![0.0; if has { points } else { 0 }];
    Record::Parts(Shape {
        kind,
        bbox: BBox::default(),
        z_range: None,
        m_range: None,
        counts: vec![points as u32],
        x: vec![0.0; points],
        y: vec![0.0; points],
        z: measured(common::has_z(kind)),
        m: measured(common::has_m(kind)),
    })
}

#[test]
fn a_polyline_of_two_points_takes_40_words_and_the_next_starts_at_94() {
    let (shp, shx) = common::written(&[run(3, 2), run(3, 2)]);
    let entry = |offset| IndexEntry {
        offset: Words(offset),
        content_length: Words(40),
    };
    assert_eq!(read_index_entry(&shx[100..]), Ok(entry(50)));
    assert_eq!(read_index_entry(&shx[108..]), Ok(entry(94)));
    assert_eq!((shp.len(), shx.len()), (276, 116));
}

#[test]
fn a_polygon_z_of_five_points_takes_92_words_or_120_with_m() {
    let (_, shx) = common::written(&[run(15, 5)]);
    let entry = read_index_entry(&shx[100..]).unwrap();
    assert_eq!(entry.content_length, Words(120));
    let mut doubles = vec![0.0; 10]; // x and y
    doubles.extend([1.0, 2.0]); // the range of z
    doubles.extend([1.5; 5]); // z
    let content = content(15, 1, 5, &[0], &doubles);
    assert_eq!(content.len(), 2 * 92);
    match read_record(&content, Bytes(2 * 92), None) {
        Ok(Record::Parts(shape)) => {
            assert_eq!(
                shape.z_range,
                Some(Range {
                    low: 1.0,
                    high: 2.0
                })
            );
            assert_eq!(shape.z, [1.5; 5]);
            assert_eq!((shape.m_range, shape.m.len()), (None, 0));
        }
        other => panic!("{other:?}"),
    }
}

#[test]
fn a_multipoint_takes_20_words_and_8_for_each_point_with_z_and_m_8_and_4_more() {
    for n in 0..5 {
        for (kind, words) in [(8, 20 + 8 * n), (28, 28 + 12 * n), (18, 36 + 16 * n)] {
            let set = multipoint(kind, n, &mut Random::new(n as u64));
            let (shp, shx) = common::written(&[Record::Multipoint(set.clone())]);
            let entry = IndexEntry {
                offset: Words(50),
                content_length: Words(words as i32),
            };
            assert_eq!(read_index_entry(&shx[100..]), Ok(entry));
            assert_eq!(shp.len(), 108 + 2 * words);
            // kind, box, n, points, then z and m, each with its range
            let mut doubles: Vec<f64> = set.points().flatten().collect();
            for (range, values) in [(set.z_range, &set.z), (set.m_range, &set.m)] {
                doubles.extend(range.iter().flat_map(|range| [range.low, range.high]));
                doubles.extend(values);
            }
            let mut bytes = common::set(kind, n as i32, &doubles);
            let bbox = [set.bbox.xmin, set.bbox.ymin, set.bbox.xmax, set.bbox.ymax];
            for (at, side) in (4..).step_by(8).zip(bbox) {
                bytes[at..at + 8].copy_from_slice(&side.to_le_bytes());
            }
            assert_eq!(shp[108..], bytes);
            // without the m of its kind it is read, each for itself
            let whole = Bytes(bytes.len() as i64);
            let read = |size: Bytes| read_record(&bytes[..size.0 as usize], size, Some(kind));
            assert_eq!(read(whole), Ok(Record::Multipoint(set.clone())));
            if common::has_m(kind) {
                let lacks = Multipoint {
                    m_range: None,
                    m: Vec::new(),
                    ..set
                };
                let without = Bytes(whole.0 - 2 * (8 + 4 * n as i64));
                assert_eq!(read(without), Ok(Record::Multipoint(lacks)));
            }
        }
    }
}

/// What is read of a polyline that says five points, with eight pairs behind its starts.
fn counts_and_first_x(starts: &[i32]) -> (Vec<u32>, Vec<f64>) {
    let doubles: Vec<f64> = (0..16).map(f64::from).collect();
    let content = content(3, starts.len() as i32, 5, starts, &doubles);
    let size = Bytes(2 * (22 + 2 * starts.len() as i64 + 8 * 5));
    match read_record(&content, size, None) {
        Ok(Record::Parts(shape)) => {
            let firsts = shape.parts().map(|(x, _)| x[0]).collect();
            (shape.counts, firsts)
        }
        other => panic!("{other:?}"),
    }
}

#[test]
fn a_part_runs_from_its_start_to_the_next_one() {
    assert_eq!(counts_and_first_x(&[0, 2]), (vec![2, 3], vec![0.0, 4.0]));
    assert_eq!(counts_and_first_x(&[3]), (vec![2], vec![0.0]));
    assert_eq!(counts_and_first_x(&[-2]), (vec![7], vec![0.0]));
    assert_eq!(counts_and_first_x(&[]), (vec![], vec![]));
}

#[test]
fn a_shape_put_together_has_no_more_parts_than_points() {
    let mut shape = match run(3, 2) {
        Record::Parts(shape) => shape,
        other => panic!("{other:?}"),
    };
    shape.counts = vec![1, u32::MAX, 1];
    let lengths = |shape: &Shape| -> Vec<_> {
        let both = |(x, y): (&[f64], &[f64])| [x.len(), y.len()];
        shape.parts().map(both).collect()
    };
    assert_eq!(lengths(&shape), [[1; 2], [1; 2], [0; 2]]);
    // as many as the shorter store has
    shape.x.extend([0.0; 3]);
    assert_eq!(lengths(&shape), [[1; 2], [1; 2], [0; 2]]);
    shape.y.clear();
    assert_eq!(lengths(&shape), [[0; 2]; 3]);
}

#[test]
fn an_m_that_is_no_data_stands_as_the_least() {
    let doubles = [0.0, 0.0, 1.0, 1.0, -1e40, f64::NAN, f64::NAN, 5.0];
    let content = content(23, 1, 2, &[0], &doubles);
    match read_record(&content, Bytes(content.len() as i64), Some(23)) {
        Ok(Record::Parts(shape)) => {
            assert_eq!(shape.m, [-10e38, 5.0]);
            let range = shape.m_range.unwrap();
            assert!(range.low == -1e40 && range.high.is_nan());
        }
        other => panic!("{other:?}"),
    }
    let content = common::set(28, 2, &doubles);
    match read_record(&content, Bytes(content.len() as i64), Some(28)) {
        Ok(Record::Multipoint(set)) => {
            assert_eq!(set.m, [-10e38, 5.0]);
            let range = set.m_range.unwrap();
            assert!(range.low == -1e40 && range.high.is_nan());
        }
        other => panic!("{other:?}"),
    }
}

#[test]
fn points_have_the_values_of_their_kind() {
    let read = |kind: i32, doubles: usize| {
        let mut content = kind.to_le_bytes().to_vec();
        (1..=doubles).for_each(|d| content.extend((d as f64).to_le_bytes()));
        read_record(&content, Bytes(content.len() as i64), None).unwrap()
    };
    let point = |kind, z, m| Record::Point {
        kind,
        x: 1.0,
        y: 2.0,
        z,
        m,
    };
    assert_eq!(read(1, 2), point(1, None, None));
    assert_eq!(read(21, 3), point(21, None, Some(3.0)));
    assert_eq!(read(11, 4), point(11, Some(3.0), Some(4.0)));
    assert_eq!(read(0, 0), Record::Null);
}

#[test]
fn rings_turn_and_close() {
    let (x, y) = ([0.0, 0.0, 1.0, 1.0, 0.0], [0.0, 1.0, 1.0, 0.0, 0.0]);
    let back = |store: [f64; 5]| -> Vec<f64> { store.into_iter().rev().collect() };
    let turning = ring_type_from_points_ordering;
    assert_eq!(turning(&x, &y, 5), Ok(RingType::OuterRing));
    assert_eq!(turning(&back(x), &back(y), 5), Ok(RingType::InnerRing));
    assert_eq!(turning(&[], &[], 0), Ok(RingType::OuterRing));
    // the sum is the least negative double, and halves to minus zero
    let least = [0.0, -f64::from_bits(1)];
    assert_eq!(turning(&least, &[0.0, 1.0], 2), Ok(RingType::OuterRing));

    assert_eq!(is_part_closed(&x, &y, 5), Ok(true));
    assert_eq!(is_part_closed(&x, &y, 4), Ok(false));
    assert_eq!(is_part_closed(&[0.0], &[-0.0], 1), Ok(true));
    assert_eq!(is_part_closed(&[0.0; 2], &[0.0, -0.0], 2), Ok(true));
    // one of the two does not close a ring
    assert_eq!(is_part_closed(&[0.0; 2], &[0.0, 1.0], 2), Ok(false));
    assert_eq!(is_part_closed(&[0.0, 1.0], &[0.0; 2], 2), Ok(false));
    for (x, y) in [(f64::NAN, 0.0), (0.0, f64::NAN)] {
        assert_eq!(is_part_closed(&[x], &[y], 1), Ok(false));
    }
    assert_eq!(is_part_closed(&[], &[], 0), Ok(false));

    let closed = Ok((x.to_vec(), y.to_vec()));
    let close = |x: &[f64], y: &[f64], n| close_points_if_not_already(x.to_vec(), y.to_vec(), n);
    assert_eq!(close(&x, &y, 5), closed);
    // with room behind the run in neither store, in one of them, in both
    for (x_n, y_n) in [(4, 4), (4, 5), (5, 4), (5, 5)] {
        assert_eq!(close(&x[..x_n], &y[..y_n], 4), closed);
    }
    // what stands behind the run is not of it
    assert_eq!(close(&[7.0, 8.0], &[9.0], 1), Ok((vec![7.0], vec![9.0])));
    assert_eq!(close(&x, &y, 0), Ok((vec![], vec![])));
    assert_eq!(close(&[], &[], 0), Ok((vec![], vec![])));
}

#[test]
fn the_header_box_grows_and_a_writer_can_be_finished_halfway() {
    let mut writer = Writer::new();
    let (shp, shx) = writer.clone().finish().unwrap();
    assert_eq!((shp.len(), &shp), (100, &shx));
    assert_eq!(read_header(&shp).unwrap().shape_type, 0);

    let point = |x, y, z, m, writer: &mut Writer| {
        let tables = Tables {
            kind: 11,
            x: &[x],
            y: &[y],
            z: &[z],
            m: &[m],
            ..Tables::default()
        };
        writer.add(&tables).unwrap();
    };
    point(5.0, -6.0, 7.0, -8.0, &mut writer);
    let halfway = writer.clone().finish().unwrap();
    point(-1.0, 2.0, -3.0, 4.0, &mut writer);
    let (shp, _) = writer.finish().unwrap();
    let bbox = BBoxZ {
        xmin: -1.0,
        ymin: -6.0,
        xmax: 5.0,
        ymax: 2.0,
        zmin: -3.0,
        zmax: 7.0,
        mmin: -8.0,
        mmax: 4.0,
    };
    assert_eq!(read_header(&shp).unwrap().bbox, bbox);
    assert_eq!(halfway.0[100..], shp[100..halfway.0.len()]);
}
