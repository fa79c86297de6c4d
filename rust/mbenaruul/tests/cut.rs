//! Files that are cut at every length: refusal 1 names the field in which the bytes end, and how many
//! of its bytes are there.

mod common;

use common::{content, has_m, has_z, is_multipoint, is_point, record, set, written, Random, KINDS};
use mbenaruul::{
    read_header, read_index_entry, read_record, read_record_header, Bytes, Error, Record,
};

/// How wide the fields are, in file order.
type Widths = Vec<usize>;

/// The code, the unused bytes, the length, the version, the kind and the box.
fn header_widths() -> Widths {
    [&[4, 20, 4, 4, 4][..], &[8; 8]].concat()
}

/// The kind, and a point's doubles; or the box, the counts, of which a multipoint has one, the starts and
/// the other doubles.
fn content_widths(kind: i32, parts: usize, points: usize) -> Widths {
    let measures = usize::from(has_z(kind)) + usize::from(has_m(kind));
    if is_point(kind) {
        return [vec![4], vec![8; 2 + measures]].concat();
    }
    let numbers = if is_multipoint(kind) { 1 } else { 2 + parts };
    let doubles = 2 * points + measures * (2 + points);
    [vec![4], vec![8; 4], vec![4; numbers], vec![8; doubles]].concat()
}

/// What each number of bytes that is less than all of these fields has to be refused with.
fn cuts(widths: &Widths) -> Vec<Error> {
    let mut cuts = Vec::new();
    for &width in widths {
        let at = cuts.len();
        cuts.extend((0..width).map(|present| Error::Short { at, present }));
    }
    cuts
}

/// At every length the call refuses as it has to, and it takes the whole.
fn cut_everywhere<T>(bytes: &[u8], widths: &Widths, call: impl Fn(&[u8]) -> Result<T, Error>) {
    let cuts = cuts(widths);
    assert_eq!(cuts.len(), bytes.len());
    for (length, refused) in cuts.iter().enumerate() {
        assert_eq!(call(&bytes[..length]).err(), Some(*refused), "{length}");
    }
    assert!(call(bytes).is_ok());
}

fn counts(record: &Record) -> (usize, usize) {
    match record {
        Record::Parts(shape) => (shape.counts.len(), shape.points().len()),
        Record::Multipoint(set) => (0, set.points().len()),
        _ => (0, 1),
    }
}

#[test]
fn both_files_of_every_kind() {
    for kind in KINDS {
        let mut random = Random::new(500 + kind as u64);
        for _ in 0..20 {
            let record = record(kind, &mut random);
            let (shp, shx) = written(std::slice::from_ref(&record));
            for header in [&shp[..100], &shx[..100]] {
                cut_everywhere(header, &header_widths(), read_header);
            }
            cut_everywhere(&shp[100..108], &vec![4; 2], read_record_header);
            cut_everywhere(&shx[100..], &vec![4; 2], read_index_entry);
            let (parts, points) = counts(&record);
            let widths = content_widths(kind, parts, points);
            let size = Bytes((shp.len() - 108) as i64);
            for wanted in [None, Some(kind)] {
                cut_everywhere(&shp[108..], &widths, |content| {
                    read_record(content, size, wanted)
                });
            }
        }
    }
}

#[test]
fn a_null() {
    for size in [4, 6, 80] {
        cut_everywhere(&[0; 4], &vec![4], |content| {
            read_record(content, Bytes(size), None)
        });
    }
}

#[test]
fn a_body_without_the_m_that_its_kind_has() {
    let whole = content(23, 1, 2, &[0], &[0.0; 4]);
    let widths = content_widths(3, 1, 2);
    cut_everywhere(&whole, &widths, |content| {
        read_record(content, Bytes(whole.len() as i64), None)
    });
    // a MultipointM as a Multipoint; a MultipointZ as a MultipointM, whose m stands where z does
    for (kind, alike, doubles) in [(28, 8, 4), (18, 28, 8)] {
        let whole = set(kind, 2, &vec![0.0; doubles]);
        cut_everywhere(&whole, &content_widths(alike, 0, 2), |content| {
            read_record(content, Bytes(whole.len() as i64), None)
        });
    }
}

#[test]
fn a_part_that_begins_below_0_is_cut_where_the_bytes_end() {
    // 7 points are read, where the count says 5
    let whole = content(3, 1, 5, &[-2], &[0.0; 14]);
    let size = Bytes(2 * (22 + 2 + 8 * 5));
    cut_everywhere(&whole, &content_widths(3, 1, 7), |content| {
        read_record(content, size, None)
    });
}

#[test]
fn a_wrong_value_comes_before_a_cut_behind_it() {
    let mut header = common::header(9994, -1, 3);
    header.truncate(28);
    assert_eq!(read_header(&header), Err(Error::Size { at: 24 }));
    // a number of points below 0, and nothing behind it
    let below = set(8, -1, &[]);
    let read = |bytes: usize| read_record(&below[..bytes], Bytes(40), None);
    assert_eq!(read(40), Err(Error::Size { at: 36 }));
    let short = Error::Short { at: 36, present: 3 };
    assert_eq!(read(39), Err(short));
    assert_eq!(
        read_header(&header[..27]),
        Err(Error::Short { at: 24, present: 3 })
    );
}

#[test]
fn support_can_read_it_out() {
    let header = common::header(9994, 50, 3);
    let said = |length: usize| read_header(&header[..length]).unwrap_err().to_string();
    assert_eq!(
        said(27),
        "short: the bytes end inside the field at offset 24: 3 of its bytes are there, 27 in all"
    );
    assert_eq!(
        said(24),
        "short: the bytes end inside the field at offset 24: none of its bytes is there, 24 in all"
    );
}
