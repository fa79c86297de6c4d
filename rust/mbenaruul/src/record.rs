//! Reading a record: what it holds, and stores that are large enough for it.

use crate::error::Error;
use crate::ffi::{self, Stores};
use crate::header::{BBoxZ, Bytes};
use crate::kind;
use crate::rings;
use crate::writer::Tables;
use std::slice;

/// An m that is no data: what [`read_record`] gives for a lesser m and for NaN, and what
/// [`Record::with_no_data`] fills in. (By ESRI's paper any number below -10^38 is no data.)
pub const NO_DATA: f64 = -10e38;

/// What a record holds.
#[derive(Debug, Clone, PartialEq)]
#[non_exhaustive]
pub enum Record {
    /// No shape: an empty place, which may stand in a file of any kind.
    Null,
    /// A point.
    Point {
        /// One of the three point kinds.
        kind: i32,
        /// x, as in the file.
        x: f64,
        /// y, as in the file.
        y: f64,
        /// As in the file, where the kind has z.
        z: Option<f64>,
        /// As in the file, where the kind has m.
        m: Option<f64>,
    },
    /// A set of points.
    Multipoint(Multipoint),
    /// A shape with parts.
    Parts(Shape),
}

/// A set of points, in one record, without parts.
///
/// The book drops of a campus, a record for each building. The second building has two:
///
/// ```
/// use mbenaruul::{kind, Plan, Record, Tables, Writer};
///
/// # fn main() -> Result<(), mbenaruul::Error> {
/// let mut writer = Writer::new();
/// for (x, y) in [(&[1.0][..], &[2.0][..]), (&[5.0, 7.0], &[2.0, 4.0])] {
///     let drops = Tables {
///         kind: kind::MULTIPOINT,
///         x, // no part counts: as many points as there are x, and as many y
///         y,
///         ..Tables::default()
///     };
///     writer.add(&drops.with_true_bbox())?;
/// }
/// let (shp, shx) = writer.finish()?;
///
/// let plan = Plan::check(&shp, &shx)?;
/// assert_eq!(plan.totals().to_string(), "records=2 parts=0 points=3");
/// match plan.record(2) {
///     Some(Ok(Record::Multipoint(drops))) => assert!(drops.points().eq([[5.0, 2.0], [7.0, 4.0]])),
///     other => panic!("record 2 is a set of book drops, and not {:?}", other),
/// }
/// # Ok(())
/// # }
/// ```
#[derive(Debug, Clone, PartialEq)]
pub struct Multipoint {
    /// One of the three multipoint kinds.
    pub kind: i32,
    /// The box of the points, as in the file.
    pub bbox: BBox,
    /// The range of z, as in the file, where the kind has z.
    pub z_range: Option<Range>,
    /// The range of m, as in the file, where the record has m.
    pub m_range: Option<Range>,
    /// The x of each point.
    pub x: Vec<f64>,
    /// The y of each point.
    pub y: Vec<f64>,
    /// One z for each point, where the kind has z; else none.
    pub z: Vec<f64>,
    /// One m for each point, where the record has m; else none. A value below [`NO_DATA`], or one
    /// that is not a number, stands as `NO_DATA`.
    pub m: Vec<f64>,
}

/// A polyline or a polygon.
#[derive(Debug, Clone, PartialEq)]
pub struct Shape {
    /// One of the six kinds with parts.
    pub kind: i32,
    /// The shape's box, as in the file.
    pub bbox: BBox,
    /// The range of z, as in the file, where the kind has z.
    pub z_range: Option<Range>,
    /// The range of m, as in the file, where the record has m.
    pub m_range: Option<Range>,
    /// The number of points of each part.
    pub counts: Vec<u32>,
    /// The x of each point, of all parts in turn.
    pub x: Vec<f64>,
    /// The y of each point, of all parts in turn.
    pub y: Vec<f64>,
    /// One z for each point, where the kind has z; else none.
    pub z: Vec<f64>,
    /// One m for each point, where the record has m; else none. A value below [`NO_DATA`], or one
    /// that is not a number, stands as `NO_DATA`.
    pub m: Vec<f64>,
}

/// The box of a multipoint or of a shape with parts.
#[repr(C)]
#[derive(Debug, Clone, Copy, Default, PartialEq)]
pub struct BBox {
    /// The least x.
    pub xmin: f64,
    /// The least y.
    pub ymin: f64,
    /// The greatest x.
    pub xmax: f64,
    /// The greatest y.
    pub ymax: f64,
}

/// The range of a shape's z or m.
#[repr(C)]
#[derive(Debug, Clone, Copy, Default, PartialEq)]
pub struct Range {
    /// The least value.
    pub low: f64,
    /// The greatest value.
    pub high: f64,
}

impl Range {
    /// The range of values none of which is data.
    pub(crate) const NO_DATA: Range = Range {
        low: NO_DATA,
        high: NO_DATA,
    };
}

impl Record {
    /// The kind's code; that of Null for a record without a shape.
    pub fn kind(&self) -> i32 {
        match self {
            Record::Null => kind::NULL,
            Record::Point { kind, .. } => *kind,
            Record::Multipoint(points) => points.kind,
            Record::Parts(shape) => shape.kind,
        }
    }

    /// Whether m lacks: a multipoint or a shape with parts may be of a kind with m and have none. The
    /// writer always writes the m of such a kind, and refuses the record with [`Error::Tables`];
    /// [`with_no_data`](Record::with_no_data) gives one that it takes.
    pub fn lacks_m(&self) -> bool {
        match self {
            Record::Multipoint(points) => points.lacks_m(),
            Record::Parts(shape) => shape.lacks_m(),
            Record::Null | Record::Point { .. } => false,
        }
    }

    /// The record with m: where it lacks, each point has [`NO_DATA`], and so has the range. A record
    /// that does not [lack m](Record::lacks_m) is as it was.
    pub fn with_no_data(mut self) -> Record {
        if self.lacks_m() {
            match &mut self {
                Record::Multipoint(points) => {
                    fill_m(points.x.len(), &mut points.m_range, &mut points.m)
                }
                Record::Parts(shape) => fill_m(shape.x.len(), &mut shape.m_range, &mut shape.m),
                Record::Null | Record::Point { .. } => {}
            }
        }
        self
    }

    /// The record as the writer takes it, and as it stands here: one that [lacks
    /// m](Record::lacks_m) has no m in its tables either, and a Null record has none that is not
    /// empty.
    pub fn tables(&self) -> Tables<'_> {
        match self {
            Record::Null => Tables::default(),
            Record::Point { kind, x, y, z, m } => Tables {
                kind: *kind,
                x: slice::from_ref(x),
                y: slice::from_ref(y),
                z: z.as_ref().map_or(&[], slice::from_ref),
                m: m.as_ref().map_or(&[], slice::from_ref),
                ..Tables::default()
            },
            Record::Multipoint(points) => points.tables(),
            Record::Parts(shape) => shape.tables(),
        }
    }
}

impl Multipoint {
    /// The points, as pairs of x and y: [`points`](crate::points) of both stores, which costs
    /// nothing.
    pub fn points(
        &self,
    ) -> impl DoubleEndedIterator<Item = [f64; 2]> + ExactSizeIterator + Clone + '_ {
        rings::points(&self.x, &self.y)
    }

    /// As [`Record::lacks_m`].
    pub fn lacks_m(&self) -> bool {
        kind::has_m(self.kind) && self.m_range.is_none() && self.m.is_empty()
    }

    /// As [`Record::tables`].
    pub fn tables(&self) -> Tables<'_> {
        Tables {
            kind: self.kind,
            bbox: sides(self.bbox, self.z_range, self.m_range),
            counts: &[],
            x: &self.x,
            y: &self.y,
            z: &self.z,
            m: &self.m,
        }
    }
}

impl Shape {
    /// The points of all parts in turn, as pairs of x and y: [`points`](crate::points) of both
    /// stores, which costs nothing.
    pub fn points(
        &self,
    ) -> impl DoubleEndedIterator<Item = [f64; 2]> + ExactSizeIterator + Clone + '_ {
        rings::points(&self.x, &self.y)
    }

    /// The x and the y of each part in turn, which [`points`](crate::points) gives as pairs: as many
    /// of each as the part's count says, or as are left in a shape that was not read but put
    /// together. Both are slices of the stores, and of one length.
    pub fn parts(&self) -> impl ExactSizeIterator<Item = (&[f64], &[f64])> + Clone + '_ {
        let points = self.points().len();
        let (mut x, mut y) = (&self.x[..points], &self.y[..points]);
        self.counts.iter().map(move |&count| {
            let count = x.len().min(count as usize);
            let (part_x, part_y) = (&x[..count], &y[..count]);
            (x, y) = (&x[count..], &y[count..]);
            (part_x, part_y)
        })
    }

    /// As [`Record::lacks_m`].
    pub fn lacks_m(&self) -> bool {
        kind::has_m(self.kind) && self.m_range.is_none() && self.m.is_empty()
    }

    /// As [`Record::tables`].
    pub fn tables(&self) -> Tables<'_> {
        Tables {
            kind: self.kind,
            bbox: sides(self.bbox, self.z_range, self.m_range),
            counts: &self.counts,
            x: &self.x,
            y: &self.y,
            z: &self.z,
            m: &self.m,
        }
    }
}

/// Each of the points has no data, and so has the range.
fn fill_m(points: usize, m_range: &mut Option<Range>, m: &mut Vec<f64>) {
    *m = vec![NO_DATA; points];
    *m_range = Some(Range::NO_DATA);
}

/// A box and ranges as the writer takes them: 0 for a range that is not there.
fn sides(bbox: BBox, z_range: Option<Range>, m_range: Option<Range>) -> BBoxZ {
    let (z, m) = (z_range.unwrap_or_default(), m_range.unwrap_or_default());
    BBoxZ {
        xmin: bbox.xmin,
        ymin: bbox.ymin,
        xmax: bbox.xmax,
        ymax: bbox.ymax,
        zmin: z.low,
        zmax: z.high,
        mmin: m.low,
        mmax: m.high,
    }
}

/// A record, from its content (the bytes behind its header) and the size that its header gives;
/// where a kind is wanted, a record of that kind. Refusals: 1, 3, 4, 5, 9.
///
/// It takes no more memory than twice the content's length, whatever the content says.
pub fn read_record(content: &[u8], size: Bytes, wanted: Option<i32>) -> Result<Record, Error> {
    let mut stores = Stores::default();
    let mut read = ask(content, size, wanted, &mut stores);
    if let Err(Error::Room { first, second }) = read.refusal.into_result() {
        stores = stores_for(content, first, second);
        read = ask(content, size, wanted, &mut stores);
    }
    read.refusal.into_result()?;
    Ok(record_of(read, stores))
}

fn ask(content: &[u8], size: Bytes, wanted: Option<i32>, stores: &mut Stores) -> ffi::RecordRead {
    match wanted {
        None => ffi::read_record(content, size, stores),
        Some(kind) => ffi::read_record_of(kind, content, size, stores),
    }
}

/// Room is judged last, when every field has been found in the content: four bytes for each part
/// and sixteen for each point. So a count that is too large for the bytes was refused before.
fn stores_for(content: &[u8], parts: usize, points: usize) -> Stores {
    assert!(
        parts <= content.len() / 4 && points <= content.len() / 16,
        "the library asked for {parts} parts and {points} points of {} bytes",
        content.len()
    );
    Stores {
        counts: vec![0; parts],
        x: vec![0.0; points],
        y: vec![0.0; points],
        z: vec![0.0; points],
        m: vec![0.0; points],
    }
}

fn record_of(read: ffi::RecordRead, stores: Stores) -> Record {
    match read.form {
        0 => Record::Null,
        1 => point_of(read.code, read.point),
        2 => Record::Parts(shape_of(read, stores)),
        3 => Record::Multipoint(multipoint_of(read, stores)),
        other => panic!("the library gave form {other}, and there are four"),
    }
}

fn point_of(kind: i32, point: ffi::Point) -> Record {
    Record::Point {
        kind,
        x: point.x,
        y: point.y,
        z: kind::has_z(kind).then_some(point.z),
        m: kind::has_m(kind).then_some(point.m),
    }
}

fn multipoint_of(read: ffi::RecordRead, stores: Stores) -> Multipoint {
    let shape = shape_of(read, stores);
    Multipoint {
        kind: shape.kind,
        bbox: shape.bbox,
        z_range: shape.z_range,
        m_range: shape.m_range,
        x: shape.x,
        y: shape.y,
        z: shape.z,
        m: shape.m,
    }
}

fn shape_of(read: ffi::RecordRead, stores: Stores) -> Shape {
    let (kind, body) = (read.code, read.body);
    let (z_range, z) = measure(kind::has_z(kind), body.z_range, stores.z);
    let has_m = ffi::flag(read.has_m as usize);
    let (m_range, m) = measure(has_m, body.m_range, stores.m);
    Shape {
        kind,
        bbox: body.bbox,
        z_range,
        m_range,
        counts: stores.counts,
        x: stores.x,
        y: stores.y,
        z,
        m,
    }
}

/// A range and its values, where they are there.
fn measure(there: bool, range: Range, values: Vec<f64>) -> (Option<Range>, Vec<f64>) {
    if there {
        (Some(range), values)
    } else {
        (None, Vec::new())
    }
}

#[cfg(test)]
mod tests {
    use super::*;
    use crate::writer::Writer;

    /// Stands in every entry of a store before a call, and in no record here.
    const UNTOUCHED: f64 = 77.0;

    /// Stores of these lengths: counts, x, y, z, m.
    fn stores([counts, x, y, z, m]: [usize; 5]) -> Stores {
        Stores {
            counts: vec![UNTOUCHED as u32; counts],
            x: vec![UNTOUCHED; x],
            y: vec![UNTOUCHED; y],
            z: vec![UNTOUCHED; z],
            m: vec![UNTOUCHED; m],
        }
    }

    /// What stands in each store behind its first so many entries is as it was.
    fn is_untouched_behind(stores: &Stores, used: [usize; 5]) -> bool {
        let Stores { counts, x, y, z, m } = stores;
        let doubles = |values: &[f64], used| values[used..].iter().all(|&v| v == UNTOUCHED);
        counts[used[0]..].iter().all(|&c| c == UNTOUCHED as u32)
            && [x, y, z, m]
                .into_iter()
                .zip(&used[1..])
                .all(|(values, &used)| doubles(values, used))
    }

    /// The content of a record of three points, in two parts where the kind has parts, and how many
    /// entries each store takes of it.
    fn three_points(kind: i32) -> (Vec<u8>, [usize; 5]) {
        let measure = |there| if there { &[1.0, 2.0, 3.0][..] } else { &[] };
        let tables = Tables {
            kind,
            counts: if kind::has_parts(kind) { &[2, 1] } else { &[] },
            x: &[4.0, 5.0, 6.0],
            y: &[7.0, 8.0, 9.0],
            z: measure(kind::has_z(kind)),
            m: measure(kind::has_m(kind)),
            ..Tables::default()
        };
        let mut writer = Writer::new();
        writer.add(&tables).unwrap();
        let (shp, _) = writer.finish().unwrap();
        let used = [
            tables.counts.len(),
            tables.x.len(),
            tables.y.len(),
            tables.z.len(),
            tables.m.len(),
        ];
        (shp[108..].to_vec(), used)
    }

    #[test]
    fn each_store_needs_its_own_room_and_a_refusal_touches_none() {
        for kind in [3, 23, 13, 5, 25, 15, 8, 28, 18] {
            let (content, used) = three_points(kind);
            let size = Bytes(content.len() as i64);
            for wanted in [None, Some(kind)] {
                let said = |lengths| {
                    let mut lent = stores(lengths);
                    let read = ask(&content, size, wanted, &mut lent);
                    (read.refusal.into_result(), lent)
                };
                let (taken, just) = said(used);
                assert_eq!(taken, Ok(()), "{kind}");
                assert_eq!((just.x, just.y), (vec![4., 5., 6.], vec![7., 8., 9.]));
                let (taken, behind) = said(used.map(|length| length + 1));
                assert_eq!(taken, Ok(()), "{kind}");
                assert!(is_untouched_behind(&behind, used), "{kind}");
                let room = Err(Error::Room {
                    first: used[0],
                    second: 3,
                });
                // one too short alone, and with more than enough in all others
                for short in (0..5).filter(|&short| used[short] > 0) {
                    for more in [0, 1, 9] {
                        let mut lengths = used.map(|length| length + more);
                        lengths[short] = used[short] - 1;
                        let (refused, lent) = said(lengths);
                        assert_eq!(refused, room, "{kind}: {lengths:?}");
                        assert!(is_untouched_behind(&lent, [0; 5]), "{kind}: {lengths:?}");
                    }
                }
            }
        }
    }
}
