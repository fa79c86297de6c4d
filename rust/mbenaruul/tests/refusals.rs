//! Every refusal but the first, which is in cut.rs, asked for through the safe calls, with its number
//! and values.

mod common;

use common::{content, header, set, KINDS};
use mbenaruul::{
    check_pair, close_points_if_not_already, is_part_closed, read_header, read_index_entry,
    read_record, ring_type_from_points_ordering, Bytes, Error, Record, Tables, Writer,
};
use std::collections::HashSet;

/// A polyline of one part and two points, and its size: 40 words.
fn segment() -> Vec<u8> {
    content(3, 1, 2, &[0], &[0.0, 0.0, 1.0, 1.0])
}

const SEGMENT_SIZE: Bytes = Bytes(80);

const SEGMENT: Tables<'_> = Tables {
    kind: 3,
    bbox: mbenaruul::BBoxZ {
        xmin: 0.0,
        ymin: 0.0,
        xmax: 1.0,
        ymax: 1.0,
        zmin: 0.0,
        zmax: 0.0,
        mmin: 0.0,
        mmax: 0.0,
    },
    counts: &[2],
    x: &[0.0, 1.0],
    y: &[0.0, 1.0],
    z: &[],
    m: &[],
};

#[test]
fn code_2_comes_before_a_cut() {
    assert_eq!(read_header(&9995i32.to_be_bytes()), Err(Error::Code(9995)));
    assert_eq!(
        read_header(&(-9994i32).to_be_bytes()),
        Err(Error::Code(-9994))
    );
    assert_eq!(
        read_header(&header(i32::MIN, 50, 3)),
        Err(Error::Code(i32::MIN))
    );
}

#[test]
fn size_3_of_a_header() {
    assert_eq!(
        read_header(&header(9994, -1, 3)),
        Err(Error::Size { at: 24 })
    );
    assert!(read_header(&header(9994, 0, 3)).is_ok());
}

#[test]
fn size_3_of_a_record() {
    let at = |content: &[u8], size| read_record(content, Bytes(size), None);
    for size in [
        i64::MIN,
        i64::from(i32::MIN),
        -1,
        0,
        79,
        81,
        i64::from(i32::MAX),
        i64::MAX,
    ] {
        assert_eq!(
            at(&segment(), size),
            Err(Error::Size { at: 0 }),
            "size {size}"
        );
    }
    assert_eq!(
        at(&content(3, -1, 2, &[], &[]), 80),
        Err(Error::Size { at: 36 })
    );
    assert_eq!(
        at(&content(3, 1, -2, &[0], &[]), 80),
        Err(Error::Size { at: 40 })
    );
    // starts 0, 4, 2 of 5 points: the second part has -2
    let falls = content(3, 3, 5, &[0, 4, 2], &[0.0; 10]);
    assert_eq!(at(&falls, 2 * (22 + 6 + 40)), Err(Error::Size { at: 48 }));
    let point = [1i32.to_le_bytes().to_vec(), vec![0; 16]].concat();
    assert_eq!(at(&point, 24), Err(Error::Size { at: 0 }));
    assert!(at(&point, 20).is_ok());
}

#[test]
fn size_3_of_a_multipoint() {
    let at = |content: &[u8], size| read_record(content, Bytes(size), None);
    let size = |at| Err(Error::Size { at });
    // of two points: without m and with it, in words
    for (kind, words) in [(8, vec![36]), (28, vec![36, 52]), (18, vec![52, 68])] {
        let whole = set(kind, 2, &[0.0; 12]);
        for given in 0..2 * 80 {
            if words.contains(&(given / 2)) && given % 2 == 0 {
                assert!(at(&whole, given).is_ok(), "{kind}: {given}");
            } else {
                assert_eq!(at(&whole, given), size(0), "{kind}: {given}");
            }
        }
        for given in [
            i64::MIN,
            i64::from(i32::MIN),
            -1,
            i64::from(i32::MAX),
            i64::MAX,
        ] {
            assert_eq!(at(&whole, given), size(0), "{kind}: {given}");
        }
        // the number of points is judged before the size, and stands behind the kind and the box
        for below in [-1, i32::MIN] {
            assert_eq!(at(&set(kind, below, &[]), 0), size(36));
        }
        assert_eq!(at(&set(kind, i32::MAX, &[0.0; 12]), 2 * words[0]), size(0));
    }
}

#[test]
fn unknown_4() {
    assert_eq!(read_header(&header(9994, 50, 2)), Err(Error::Unknown(2)));
    assert_eq!(read_header(&header(9994, 50, -1)), Err(Error::Unknown(-1)));
    assert_eq!(
        read_record(&2i32.to_le_bytes(), Bytes(4), None),
        Err(Error::Unknown(2))
    );
    assert_eq!(
        read_record(&segment(), SEGMENT_SIZE, Some(-3)),
        Err(Error::Unknown(-3))
    );
    let add = |kind| Writer::new().add(&Tables { kind, ..SEGMENT });
    assert_eq!(add(2), Err(Error::Unknown(2)));
    assert_eq!(add(i32::MIN), Err(Error::Unknown(i32::MIN)));
}

#[test]
fn mismatch_5() {
    let read = |wanted| read_record(&segment(), SEGMENT_SIZE, Some(wanted));
    assert!(read(3).is_ok());
    assert_eq!(
        read(5),
        Err(Error::Mismatch {
            wanted: 5,
            found: 3
        })
    );
    let mut writer = Writer::new();
    writer.add(&SEGMENT).unwrap();
    let other = writer.add(&Tables { kind: 5, ..SEGMENT });
    assert_eq!(
        other,
        Err(Error::Mismatch {
            wanted: 3,
            found: 5
        })
    );
    // as another kind of multipoint is
    let mut drops = Writer::new();
    drops.add(&DROPS).unwrap();
    for found in [8, 28, 3] {
        let other = drops.add(&Tables {
            kind: found,
            ..DROPS
        });
        assert_eq!(other, Err(Error::Mismatch { wanted: 18, found }));
    }
    // a Null behind a record is of no other kind, and changes nothing for those behind it
    writer.add(&Tables::default()).unwrap();
    let other = writer.add(&Tables { kind: 5, ..SEGMENT });
    assert_eq!(
        other,
        Err(Error::Mismatch {
            wanted: 3,
            found: 5
        })
    );
}

#[test]
fn mismatch_5_of_a_null_that_is_read_where_a_kind_is_wanted() {
    for kind in KINDS {
        for size in [4, 6, 80] {
            let read = |wanted| read_record(&[0; 80], Bytes(size), wanted);
            assert_eq!(read(None), Ok(Record::Null));
            assert_eq!(
                read(Some(kind)),
                Err(Error::Mismatch {
                    wanted: kind,
                    found: 0
                })
            );
        }
    }
}

#[test]
fn fault_8() {
    assert_eq!(
        check_pair(&[], &[]),
        Err(Error::Fault { rule: 1, record: 0 })
    );
    let said = check_pair(&[], &[]).unwrap_err().to_string();
    assert_eq!(said, "fault: rule P1 is broken in the headers");
    let shp = header(9994, 50, 3);
    assert_eq!(
        check_pair(&shp, &shp[..99]),
        Err(Error::Fault { rule: 2, record: 0 })
    );
    let mut shx = header(9994, 54, 3);
    shx.extend([0; 8]);
    assert_eq!(
        check_pair(&shp, &shx),
        Err(Error::Fault {
            rule: 17,
            record: 1
        })
    );
    assert!(check_pair(&shp, &shp).is_ok());
}

#[test]
fn not_taken_9() {
    assert!(read_header(&header(9994, 50, 31)).is_ok());
    let refused = Err(Error::NotTaken(31));
    assert_eq!(read_record(&31i32.to_le_bytes(), Bytes(80), None), refused);
    assert_eq!(read_record(&segment(), SEGMENT_SIZE, Some(31)), refused);
    for kind in KINDS {
        let read = read_record(&segment(), SEGMENT_SIZE, Some(kind));
        assert_ne!(read, Err(Error::NotTaken(kind)));
    }
    assert_eq!(
        read_record(&segment(), SEGMENT_SIZE, Some(0)),
        Err(Error::NotTaken(0))
    );
    let mut behind = Writer::new();
    behind.add(&SEGMENT).unwrap();
    for writer in [&mut Writer::new(), &mut behind] {
        let patch = Tables {
            kind: 31,
            ..SEGMENT
        };
        assert_eq!(writer.add(&patch), Err(Error::NotTaken(31)));
    }
    // a Null is not taken as the first record, whatever its tables hold
    for tables in [Tables { kind: 0, ..SEGMENT }, Tables::default()] {
        assert_eq!(Writer::new().add(&tables), Err(Error::NotTaken(0)));
    }
    assert_eq!(behind.add(&Tables::default()), Ok(()));
}

#[test]
fn tables_10_of_a_run_of_points() {
    // past x, past y, past both
    for (x_n, y_n, n) in [(1, 2, 2), (2, 1, 2), (2, 2, 3), (0, 0, usize::MAX)] {
        let (x, y) = (&[0.0; 2][..x_n], &[0.0; 2][..y_n]);
        assert_eq!(is_part_closed(x, y, n), Err(Error::Tables));
        let turning = ring_type_from_points_ordering(x, y, n);
        assert_eq!(turning, Err(Error::Tables));
        let closing = close_points_if_not_already(x.to_vec(), y.to_vec(), n);
        assert_eq!(closing, Err(Error::Tables));
    }
    assert_eq!(is_part_closed(&[0.0], &[0.0; 2], 1), Ok(true));
}

#[test]
fn tables_10_of_a_shape() {
    let point = Tables {
        kind: 1,
        counts: &[],
        x: &[1.0],
        y: &[2.0],
        ..SEGMENT
    };
    assert_eq!(Writer::new().add(&point), Ok(()));
    let wrong = [
        Tables {
            counts: &[],
            ..SEGMENT
        },
        Tables {
            counts: &[3],
            ..SEGMENT
        },
        Tables {
            counts: &[1, 2],
            ..SEGMENT
        },
        Tables {
            counts: &[u32::MAX, u32::MAX],
            ..SEGMENT
        },
        Tables {
            x: &[0.0],
            ..SEGMENT
        },
        Tables {
            y: &[0.0],
            ..SEGMENT
        },
        Tables {
            x: &[0.0; 3],
            ..SEGMENT
        },
        Tables {
            y: &[0.0; 3],
            ..SEGMENT
        },
        // as many coordinates as two points have
        Tables {
            x: &[0.0; 3],
            y: &[0.0],
            ..SEGMENT
        },
        Tables {
            x: &[0.0; 4],
            y: &[],
            ..SEGMENT
        },
        // the other point counts agree
        Tables {
            counts: &[3],
            x: &[0.0; 3],
            ..SEGMENT
        },
        Tables {
            z: &[0.0, 0.0],
            ..SEGMENT
        },
        Tables {
            m: &[0.0],
            ..SEGMENT
        },
        Tables {
            kind: 23,
            ..SEGMENT
        },
        Tables {
            kind: 13,
            m: &[0.0, 0.0],
            ..SEGMENT
        },
        Tables {
            kind: 13,
            z: &[0.0, 0.0],
            ..SEGMENT
        },
        Tables {
            counts: &[1],
            ..point
        },
        Tables {
            x: &[1.0, 3.0],
            y: &[2.0, 4.0],
            ..point
        },
        Tables { x: &[], ..point },
        Tables { y: &[], ..point },
        Tables {
            x: &[1.0, 2.0],
            y: &[],
            ..point
        },
        Tables { kind: 21, ..point },
        Tables {
            kind: 11,
            z: &[0.0],
            ..point
        },
    ];
    for tables in &wrong {
        assert_eq!(Writer::new().add(tables), Err(Error::Tables), "{tables:?}");
    }
}

/// Three points, with z and with m.
const DROPS: Tables<'_> = Tables {
    kind: 18,
    counts: &[],
    x: &[0.0; 3],
    y: &[0.0; 3],
    z: &[0.0; 3],
    m: &[0.0; 3],
    ..SEGMENT
};

#[test]
fn tables_10_of_a_multipoint() {
    let with_m = Tables {
        kind: 28,
        z: &[],
        ..DROPS
    };
    let flat = Tables {
        kind: 8,
        m: &[],
        ..with_m
    };
    for tables in [DROPS, with_m, flat] {
        assert_eq!(Writer::new().add(&tables), Ok(()));
        let wrong = [
            // part counts, whatever they sum to
            Tables {
                counts: &[3],
                ..tables
            },
            Tables {
                counts: &[0],
                ..tables
            },
            // one more, or less, than the others have
            Tables {
                x: &[0.0; 2],
                ..tables
            },
            Tables {
                x: &[0.0; 4],
                ..tables
            },
            Tables {
                y: &[0.0; 2],
                ..tables
            },
            Tables {
                y: &[0.0; 4],
                ..tables
            },
            Tables {
                z: &[0.0; 2],
                ..tables
            },
            Tables {
                m: &[0.0; 4],
                ..tables
            },
        ];
        for tables in &wrong {
            assert_eq!(Writer::new().add(tables), Err(Error::Tables), "{tables:?}");
        }
    }
    for tables in [DROPS, with_m] {
        for xy in [&[0.0; 2][..], &[0.0; 4], &[]] {
            let other = Tables {
                x: xy,
                y: xy,
                ..tables
            };
            assert_eq!(Writer::new().add(&other), Err(Error::Tables));
        }
        // m is always written
        let lacks = Tables { m: &[], ..tables };
        assert_eq!(Writer::new().add(&lacks), Err(Error::Tables));
    }
}

#[test]
fn tables_10_of_a_null() {
    let mut writer = Writer::new();
    writer.add(&SEGMENT).unwrap();
    let null = Tables::default();
    let not_empty = [
        Tables { kind: 0, ..SEGMENT },
        Tables {
            counts: &[0],
            ..null
        },
        Tables {
            counts: &[u32::MAX, u32::MAX],
            ..null
        },
        Tables { x: &[0.0], ..null },
        Tables { y: &[0.0], ..null },
        Tables {
            x: &[0.0],
            y: &[0.0],
            ..null
        },
        Tables { z: &[0.0], ..null },
        Tables { m: &[0.0], ..null },
    ];
    for tables in &not_empty {
        assert_eq!(writer.add(tables), Err(Error::Tables), "{tables:?}");
    }
    assert_eq!(writer.add(&null), Ok(()));
}

/// There may be more refusals one day: were `Error` exhaustive, the last arm would be unreachable, and
/// this would not build.
#[deny(unreachable_patterns)]
fn has_values(refused: &Error) -> bool {
    match refused {
        Error::Short { .. } | Error::Size { .. } | Error::Room { .. } => true,
        Error::Code(_) | Error::Unknown(_) | Error::NotTaken(_) => true,
        Error::Mismatch { .. } | Error::Fault { .. } => true,
        Error::Long | Error::Tables => false,
        other => panic!("a refusal that there was not: {other}"),
    }
}

#[test]
fn refusals_can_be_kept_in_a_set() {
    let refused = [
        read_header(&[]).unwrap_err(),
        read_index_entry(&[]).unwrap_err(),
        read_index_entry(&[0; 4]).unwrap_err(),
        is_part_closed(&[], &[], 1).unwrap_err(),
    ];
    let set = HashSet::from(refused);
    assert_eq!(set.len(), 3);
    assert!(set.contains(&Error::Short { at: 4, present: 0 }));
    assert_eq!(set.iter().filter(|refused| has_values(refused)).count(), 2);
}
