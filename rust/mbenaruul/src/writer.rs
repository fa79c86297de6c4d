//! Writing a pair, record by record.

use crate::error::Error;
use crate::ffi;
use crate::header::BBoxZ;
use crate::record::{Range, Record};

/// A shape to write, in flat tables. The part counts sum to the number of points, n; x and y hold n
/// doubles each; z and m hold n where the kind has them, else none. A point kind has no parts and n
/// is 1; a multipoint has no parts and any n. A Null has nothing in any table: the default is one.
///
/// The tables of a record that was read are [`Record::tables`].
#[derive(Debug, Clone, Copy, Default, PartialEq)]
pub struct Tables<'a> {
    /// The kind's code: any of [`kind`](crate::kind); Null behind another record only.
    pub kind: i32,
    /// The shape's box and ranges, which are written as given; [`Tables::with_true_bbox`] puts the
    /// true ones here. A point has none: its own values count. A Null has none either, and what
    /// stands here plays no part.
    pub bbox: BBoxZ,
    /// The number of points of each part; none for a point or a multipoint.
    pub counts: &'a [u32],
    /// The x of each point; with y, [`points`](crate::points) gives them as pairs.
    pub x: &'a [f64],
    /// The y of each point.
    pub y: &'a [f64],
    /// One z for each point.
    pub z: &'a [f64],
    /// One m for each point.
    pub m: &'a [f64],
}

impl Tables<'_> {
    /// The box and the ranges that these tables have: the least and the greatest x, y, z and m.
    ///
    /// NaN is passed over, and -0 lies below 0. Of m those values count that are data: not below
    /// -10^38. Where no value is left, both ends are 0; but where there are m, and none is data, both
    /// are [`NO_DATA`](crate::NO_DATA).
    pub fn true_bbox(&self) -> BBoxZ {
        let range = |values: &[f64]| range_of(values.iter()).unwrap_or_default();
        let (x, y, z) = (range(self.x), range(self.y), range(self.z));
        let none = if self.m.is_empty() {
            Range::default()
        } else {
            Range::NO_DATA
        };
        let m = range_of(self.m.iter().filter(|m| is_data(**m))).unwrap_or(none);
        BBoxZ {
            xmin: x.low,
            ymin: y.low,
            xmax: x.high,
            ymax: y.high,
            zmin: z.low,
            zmax: z.high,
            mmin: m.low,
            mmax: m.high,
        }
    }

    /// The same tables with their [true box](Tables::true_bbox), in the place of the one that they
    /// came with.
    pub fn with_true_bbox(self) -> Self {
        Tables {
            bbox: self.true_bbox(),
            ..self
        }
    }
}

/// By ESRI's paper; NaN is no data, as it is for the reader.
fn is_data(m: f64) -> bool {
    m >= -1e38
}

/// The least and the greatest of the values that are numbers, where there are any. They are ordered
/// by their bits, so that it does not matter which of two zeros comes first.
fn range_of<'a>(values: impl Iterator<Item = &'a f64> + Clone) -> Option<Range> {
    let numbers = values.copied().filter(|value| !value.is_nan());
    Some(Range {
        low: numbers.clone().min_by(f64::total_cmp)?,
        high: numbers.max_by(f64::total_cmp)?,
    })
}

/// The two files of a pair, while records are added. All records have the kind of the first, or are
/// Null; the first is not Null. A clone can be finished halfway.
///
/// The writer judges kinds and the lengths of tables. It does not judge what the tables hold: a ring
/// that is not closed, NaN or an infinity, a part of one point or of none, a multipoint of no point,
/// and a box that is not the true one are written as given. Of the pair that comes out,
/// [`check_pair`](crate::check_pair) judges all of these but the boxes.
///
/// Whatever is refused in between, and however often a clone is finished: the files hold the shapes
/// that were accepted, in order, and where these are all well-formed, `check_pair` says yes to them,
/// with their counts. Of the library's calls that is proved, for every series of them
/// (crates/evening).
///
/// For a progress bar, [`Writer::points`] says how many points are written so far.
///
/// A plan with an empty place, where a shelf run was taken down. The runs behind it keep their
/// numbers:
///
/// ```
/// use mbenaruul::{kind, Plan, Record, Tables, Writer};
///
/// # fn main() -> Result<(), mbenaruul::Error> {
/// let run = Tables {
///     kind: kind::POLYLINE,
///     counts: &[2],
///     x: &[0.0, 9.0],
///     y: &[0.0, 0.0],
///     ..Tables::default()
/// };
/// let mut writer = Writer::new();
/// writer.add(&run.with_true_bbox())?;
/// writer.add_record(&Record::Null)?;
/// writer.add(&run.with_true_bbox())?;
/// let (shp, shx) = writer.finish()?;
///
/// let plan = Plan::check(&shp, &shx)?;
/// assert_eq!(plan.totals().to_string(), "records=3 parts=2 points=4");
/// assert_eq!(plan.record(2), Some(Ok(Record::Null)));
/// # Ok(())
/// # }
/// ```
#[derive(Debug, Clone)]
pub struct Writer {
    state: ffi::State,
    /// Both files, with a hundred bytes in front for a header.
    shp: Vec<u8>,
    shx: Vec<u8>,
}

impl Default for Writer {
    fn default() -> Writer {
        Writer::new()
    }
}

impl Writer {
    /// A pair without a record.
    pub fn new() -> Writer {
        Writer {
            state: ffi::new(),
            shp: vec![0; 100],
            shx: vec![0; 100],
        }
    }

    /// Adds a shape as the next record. Refusals, which leave the writer as it was: 4, 9, 5, 10,
    /// 7.
    ///
    /// A Null is 9 as the first record, since the file has no kind yet. Behind another it is taken,
    /// and the header keeps its kind and its box.
    pub fn add(&mut self, tables: &Tables<'_>) -> Result<(), Error> {
        let before = self.shp.len();
        let after = self.bytes_with(tables)?;
        self.shp.resize(after, 0);
        let mut entry = [0; 8];
        let added = ffi::add_record(self.state, tables, &mut self.shp, before, &mut entry);
        if let Err(refused) = added.refusal.into_result() {
            panic!("the library refused a record for which it had asked the room: {refused}");
        }
        self.shx.extend(entry);
        self.state = added.state;
        Ok(())
    }

    /// Adds what was read as the next record. Refusals as those of [`add`](Writer::add): a Null
    /// record is 9 as the first one, and one that [lacks m](Record::lacks_m) is 10, unless its m is
    /// filled in by [`Record::with_no_data`].
    pub fn add_record(&mut self, record: &Record) -> Result<(), Error> {
        self.add(&record.tables())
    }

    /// The points of all records so far: a point counts 1, a Null 0, a multipoint and a shape with
    /// parts as many as they have. A refused add leaves it as it was. At the end it is what
    /// [`Totals::points`](crate::Totals::points) says of the pair.
    ///
    /// A line after each shelf run, for a progress bar:
    ///
    /// ```
    /// use mbenaruul::{kind, Tables, Writer};
    ///
    /// # fn main() -> Result<(), mbenaruul::Error> {
    /// let rows = [0.0, 4.0, 8.0];
    /// let all = 2 * rows.len(); // each run has two points
    /// let mut writer = Writer::new();
    /// let mut lines = Vec::new();
    /// for y in rows {
    ///     let run = Tables {
    ///         kind: kind::POLYLINE,
    ///         counts: &[2],
    ///         x: &[0.0, 9.0],
    ///         y: &[y, y],
    ///         ..Tables::default()
    ///     };
    ///     writer.add(&run.with_true_bbox())?;
    ///     lines.push(format!("{} of {all} points", writer.points()));
    /// }
    /// assert_eq!(lines, ["2 of 6 points", "4 of 6 points", "6 of 6 points"]);
    ///
    /// // a point among polylines is refused, and not counted
    /// let point = Tables {
    ///     kind: kind::POINT,
    ///     x: &[5.0],
    ///     y: &[5.0],
    ///     ..Tables::default()
    /// };
    /// assert!(writer.add(&point).is_err());
    /// assert_eq!(writer.points(), 6);
    /// # Ok(())
    /// # }
    /// ```
    pub fn points(&self) -> usize {
        self.state.points as usize
    }

    /// The .shp and the .shx, whole. A writer of this crate is never refused.
    pub fn finish(mut self) -> Result<(Vec<u8>, Vec<u8>), Error> {
        let finished = ffi::finish(self.state);
        finished.refusal.into_result()?;
        self.shp[..100].copy_from_slice(&finished.shp);
        self.shx[..100].copy_from_slice(&finished.shx);
        Ok((self.shp, self.shx))
    }

    /// How many bytes the .shp has with one more record: what the library says when it is lent an
    /// empty output, since it judges the room last.
    fn bytes_with(&self, tables: &Tables<'_>) -> Result<usize, Error> {
        let asked = ffi::add_record(self.state, tables, &mut [], self.shp.len(), &mut []);
        match asked.refusal.into_result() {
            Err(Error::Room { first: bytes, .. }) => Ok(bytes),
            Err(refused) => Err(refused),
            Ok(()) => panic!("the library wrote a record into no room"),
        }
    }
}

#[cfg(test)]
mod tests {
    use super::*;
    use crate::kind;

    const SEGMENT: Tables<'_> = Tables {
        kind: kind::POLYLINE,
        bbox: BBoxZ {
            xmin: 0.0,
            ymin: 0.0,
            xmax: 1.0,
            ymax: 1.0,
            zmin: 0.0,
            zmax: 0.0,
            mmin: 0.0,
            mmax: 0.0,
        },
        counts: &[2],
        x: &[0.0, 1.0],
        y: &[0.0, 1.0],
        z: &[],
        m: &[],
    };

    /// A writer after so many words, which would be four gigabytes to write in earnest.
    fn writer_at(words: i32) -> Writer {
        let mut writer = Writer::new();
        writer.add(&SEGMENT).unwrap();
        writer.state.words = words;
        writer
    }

    #[test]
    fn a_file_of_more_words_than_its_header_holds_is_long() {
        // a segment takes 44 words
        let mut fits = writer_at(i32::MAX - 44);
        assert_eq!(fits.add(&SEGMENT), Ok(()));
        assert_eq!(fits.state.words, i32::MAX);
        let mut long = writer_at(i32::MAX - 43);
        assert_eq!(long.add(&SEGMENT), Err(Error::Long));
        assert_eq!((fits.points(), long.points()), (4, 2));
    }

    #[test]
    fn no_state_of_a_writer_is_refused_with_3() {
        let mut writer = writer_at(49);
        assert_eq!(writer.add(&SEGMENT), Err(Error::Size { at: 0 }));
        assert_eq!(writer.finish().unwrap_err(), Error::Size { at: 0 });
    }

    /// What is in no table.
    const NULL: Tables<'_> = Tables {
        kind: kind::NULL,
        counts: &[],
        x: &[],
        y: &[],
        ..SEGMENT
    };

    /// The same with one entry in one of the five tables.
    const NOT_EMPTY: [Tables<'_>; 5] = [
        Tables {
            counts: &[0],
            ..NULL
        },
        Tables { x: &[0.0], ..NULL },
        Tables { y: &[0.0], ..NULL },
        Tables { z: &[0.0], ..NULL },
        Tables { m: &[0.0], ..NULL },
    ];

    #[test]
    fn a_null_takes_6_words_and_leaves_kind_and_box() {
        let mut writer = writer_at(i32::MAX - 6);
        let before = writer.clone();
        assert_eq!(writer.add(&NULL), Ok(()));
        let state = ffi::State {
            words: i32::MAX,
            number: before.state.number + 1,
            ..before.state
        };
        assert_eq!(writer.state, state);
        // number 2, 2 words, kind 0; where it stands, 2 words
        let record = [0, 0, 0, 2, 0, 0, 0, 2, 0, 0, 0, 0];
        assert_eq!(writer.shp, [&before.shp[..], &record].concat());
        let entry = [0x7f, 0xff, 0xff, 0xf9, 0, 0, 0, 2];
        assert_eq!(writer.shx, [&before.shx[..], &entry].concat());
    }

    /// What the library says of these tables on a state, with this much room for the record from
    /// byte 5 on, and for the entry.
    fn said(state: ffi::State, tables: &Tables<'_>, room: usize, entry: usize) -> Error {
        let (mut out, mut entry) = (vec![9; room], vec![9; entry]);
        let added = ffi::add_record(state, tables, &mut out, 5, &mut entry);
        assert_eq!((added.state, added.bytes), (state, 0));
        assert!(out.iter().chain(&entry).all(|&byte| byte == 9));
        added.refusal.into_result().unwrap_err()
    }

    #[test]
    fn a_null_is_refused_in_the_order_of_the_refusals() {
        let (fresh, set) = (ffi::new(), writer_at(94).state);
        let full = ffi::State {
            words: i32::MAX - 5,
            ..set
        };
        let no_state = ffi::State { words: 49, ..set };
        for tables in NOT_EMPTY {
            assert_eq!(said(no_state, &tables, 0, 0), Error::Size { at: 0 });
            assert_eq!(said(fresh, &tables, 0, 0), Error::NotTaken(0));
            assert_eq!(said(full, &tables, 0, 0), Error::Tables);
            assert_eq!(said(set, &tables, 17, 8), Error::Tables);
        }
        assert_eq!(said(no_state, &NULL, 17, 8), Error::Size { at: 0 });
        assert_eq!(said(fresh, &NULL, 17, 8), Error::NotTaken(0));
        assert_eq!(said(full, &NULL, 0, 0), Error::Long);
        let room = |first| Error::Room { first, second: 0 };
        assert_eq!(said(set, &NULL, 16, 0), room(17));
        assert_eq!(said(set, &NULL, 17, 7), room(8));
        let (mut out, mut entry) = ([9; 18], [9; 9]);
        let added = ffi::add_record(set, &NULL, &mut out, 5, &mut entry);
        assert_eq!(added.refusal.into_result(), Ok(()));
        assert_eq!((added.bytes, out[4], out[17], entry[8]), (12, 9, 9, 9));
    }

    /// The state of a file of polylines with so many words and points.
    fn state_of(words: i32, points: u32) -> ffi::State {
        ffi::State {
            words,
            points,
            ..writer_at(94).state
        }
    }

    /// A fresh state, but for its points.
    fn fresh_with(points: u32) -> ffi::State {
        ffi::State {
            points,
            ..ffi::new()
        }
    }

    #[test]
    fn a_total_of_points_may_reach_the_words() {
        let most = (i32::MAX - 44) as u32; // words with which one more segment just fits
        for state in [
            state_of(94, 0),
            state_of(94, 93),
            state_of(94, 94),
            state_of(i32::MAX - 44, most - 1),
            state_of(i32::MAX - 44, most),
            fresh_with(1),
            fresh_with(50),
        ] {
            let (mut out, mut entry) = ([9; 88], [9; 8]);
            let added = ffi::add_record(state, &SEGMENT, &mut out, 0, &mut entry);
            assert_eq!(added.refusal.into_result(), Ok(()), "{state:?}");
            assert_eq!(added.state.points, state.points + 2);
            let finished = ffi::finish(state);
            assert_eq!(finished.refusal.into_result(), Ok(()), "{state:?}");
            // no header has it
            let other = ffi::finish(ffi::State { points: 2, ..state });
            assert_eq!((finished.shp, finished.shx), (other.shp, other.shx));
        }
        let last = state_of(i32::MAX, i32::MAX as u32);
        assert_eq!(ffi::finish(last).refusal.into_result(), Ok(()));
        assert_eq!(said(last, &SEGMENT, 100, 8), Error::Long);
    }

    #[test]
    fn a_total_of_points_over_the_words_is_3() {
        for words in [94, 95, i32::MAX - 44, i32::MAX] {
            let limit = words as u32;
            for points in [limit + 1, limit + 2, i32::MAX as u32 + 1, u32::MAX] {
                assert_no_state(state_of(words, points));
            }
        }
        for points in [51, 52, i32::MAX as u32, u32::MAX] {
            assert_no_state(fresh_with(points));
        }
    }

    /// Adding and finishing refuse the state with 3, before all else that could be said.
    fn assert_no_state(state: ffi::State) {
        let of = |kind| Tables { kind, ..SEGMENT };
        let uneven = Tables { y: &[], ..SEGMENT };
        for tables in [SEGMENT, NULL, of(2), of(31), of(kind::POLYGON), uneven] {
            for (room, entry) in [(0, 0), (100, 8)] {
                let refused = said(state, &tables, room, entry);
                assert_eq!(refused, Error::Size { at: 0 }, "{state:?}, {tables:?}");
            }
        }
        let finished = ffi::finish(state);
        let refused = finished.refusal.into_result();
        assert_eq!(refused, Err(Error::Size { at: 0 }), "{state:?}");
        assert_eq!((finished.shp, finished.shx), ([0; 100], [0; 100]));
    }

    #[test]
    fn a_refused_call_returns_the_total_that_it_was_given() {
        let (set, full) = (state_of(94, 7), state_of(i32::MAX - 43, 7));
        let of = |kind| Tables { kind, ..SEGMENT };
        // `said` holds the state that comes back to the one that was given
        assert_eq!(said(set, &of(2), 100, 8), Error::Unknown(2));
        assert_eq!(said(set, &of(31), 100, 8), Error::NotTaken(31));
        let (wanted, found) = (kind::POLYLINE, kind::POLYGON);
        let mismatch = Error::Mismatch { wanted, found };
        assert_eq!(said(set, &of(found), 100, 8), mismatch);
        let uneven = Tables { y: &[], ..SEGMENT };
        assert_eq!(said(set, &uneven, 100, 8), Error::Tables);
        assert_eq!(said(full, &SEGMENT, 100, 8), Error::Long);
        let room = |first| Error::Room { first, second: 0 };
        assert_eq!(said(set, &SEGMENT, 92, 8), room(93));
        assert_eq!(said(set, &SEGMENT, 93, 7), room(8));
        assert_eq!(said(fresh_with(7), &NULL, 100, 8), Error::NotTaken(0));
    }

    #[test]
    fn x_and_y_of_other_lengths_are_10_and_touch_nothing() {
        let set = Tables {
            kind: kind::MULTIPOINT,
            counts: &[],
            ..SEGMENT
        };
        let point = Tables {
            kind: kind::POINT,
            counts: &[],
            x: &[0.0],
            y: &[0.0],
            ..SEGMENT
        };
        for tables in [SEGMENT, set, point] {
            let n = tables.x.len();
            for lengths in (0..4).flat_map(|x| (0..4).map(move |y| (x, y))) {
                let (x, y) = (&[0.0; 3][..lengths.0], &[0.0; 3][..lengths.1]);
                let other = Tables { x, y, ..tables };
                // a multipoint has as many points as it has x
                let agree = if tables.kind == kind::MULTIPOINT {
                    lengths.0 == lengths.1
                } else {
                    lengths == (n, n)
                };
                if agree {
                    assert_eq!(Writer::new().add(&other), Ok(()), "{other:?}");
                } else {
                    let refused = said(ffi::new(), &other, 200, 8);
                    assert_eq!(refused, Error::Tables, "{other:?}");
                    assert_eq!(said(ffi::new(), &other, 0, 0), Error::Tables);
                }
            }
        }
    }

    #[test]
    fn a_refusal_leaves_the_writer_as_it_was() {
        let mut writer = Writer::new();
        writer.add(&SEGMENT).unwrap();
        let before = writer.clone();
        let refused = [
            Tables { kind: 2, ..SEGMENT },
            Tables {
                kind: kind::NULL,
                ..SEGMENT
            },
            Tables {
                kind: kind::POLYGON,
                ..SEGMENT
            },
            Tables {
                counts: &[3],
                ..SEGMENT
            },
        ];
        for tables in &refused {
            assert!(writer.add(tables).is_err());
            assert_eq!(writer.state, before.state);
            assert_eq!((&writer.shp, &writer.shx), (&before.shp, &before.shx));
        }
    }
}
