//! The oracle's driver: a module inside the crate `shapefile` 0.9.0 that asks the crate's own code
//! the questions of document 01's domain of equality and hands back plain numbers and bytes, so
//! that a differential test needs no knowledge of the crate's types.
//!
//! The build script puts this file beside the crate's lib.rs, from where it reaches what is public
//! or pub(crate). Private things stay out of reach:
//! - `PartIndexIter` of record/io.rs; [`part_count`] asks the body reader in its place.
//! - `read_index_file` of reader.rs; [`read_index`] goes through `ShapeReader`, which shows the
//!   number of entries and their offsets but never their content lengths.
//! - the fields of `GenericPolygon`; `From<GenericPolyline>` is public and keeps box and runs as
//!   they are, so no input is lost.
//! - the fields of `ShapeWriter`; [`FileWriter`] keeps the two destinations in its own hands.
//!
//! Refusals come back in document 01's numbers. The crate's errors carry no offsets. That of a
//! field is seen from outside: `Source` stands still where the bytes end, and one field is one
//! `read_exact`. That of a refused size is worked out here, after the crate has refused.

use std::cell::RefCell;
use std::io::{self, Cursor, ErrorKind, Read, Seek, SeekFrom, Write};
use std::mem::size_of;
use std::rc::Rc;

use crate::header;
use crate::reader::{ShapeIndex, ShapeReader};
use crate::record::io::{read_ms_into, MultiPartShapeReader, MultiPartShapeWriter};
use crate::record::multipoint::GenericMultipoint;
use crate::record::polygon::GenericPolygon;
use crate::record::polyline::GenericPolyline;
use crate::record::traits::HasXY;
use crate::record::{
    self, ConcreteReadableShape, EsriShape, GenericBBox, Multipatch, Multipoint, MultipointM,
    MultipointZ, Patch, Point, PointM, PointZ, Polygon, PolygonM, PolygonRing, PolygonZ, Polyline,
    PolylineM, PolylineZ, ReadableShape, RingType, WritableShape,
};
use crate::writer::{self, ShapeWriter};
use crate::{Error, ShapeType};

// ---------------------------------------------------------------------------------------------
// Refusals

/// Why the crate gave no value, with document 01's numbers. Offsets count from the start of the
/// slice handed to the call.
#[derive(Debug, Clone, PartialEq)]
pub enum Refusal {
    /// 1: the bytes end inside the field at this offset.
    Short(usize),
    /// 2: the file code is this and not 9994.
    Code(i32),
    /// 3: the crate's `InvalidShapeRecordSize`, at the offset that document 01 names.
    Size(usize),
    /// 4: no kind has this code.
    Unknown(i32),
    /// 5: another kind than the one wanted.
    Mismatch { wanted: i32, found: i32 },
    /// The crate's `AllocationLimitExceeded` with its number of bytes: outside the domain.
    Allocation(usize),
    /// The crate's types cannot hold this input, so the crate was not asked.
    Inexpressible,
    /// Any other error of the crate, in its own words: outside the domain.
    Other(String),
}

/// The crate's error as a refusal, `at` being where the source stands and `size_at` the offset for
/// a refused size.
fn refusal(error: Error, at: usize, size_at: usize) -> Refusal {
    match error {
        Error::IoError(e) if e.kind() == ErrorKind::UnexpectedEof => Refusal::Short(at),
        Error::InvalidFileCode(code) => Refusal::Code(code),
        Error::InvalidShapeRecordSize => Refusal::Size(size_at),
        Error::InvalidShapeType(code) => Refusal::Unknown(code),
        Error::MismatchShapeType { requested, actual } => Refusal::Mismatch {
            wanted: requested as i32,
            found: actual as i32,
        },
        Error::AllocationLimitExceeded { requested_bytes } => Refusal::Allocation(requested_bytes),
        other => Refusal::Other(other.to_string()),
    }
}

// ---------------------------------------------------------------------------------------------
// Sources and destinations

/// Lent bytes to read from. Where too few are left for a field it takes none of them, so that `at`
/// is still the offset of that field.
struct Source<'a> {
    bytes: &'a [u8],
    at: usize,
}

impl<'a> Source<'a> {
    fn new(bytes: &'a [u8]) -> Self {
        Source { bytes, at: 0 }
    }
}

impl Read for Source<'_> {
    fn read(&mut self, buffer: &mut [u8]) -> io::Result<usize> {
        let rest = self.bytes.get(self.at..).unwrap_or(&[]);
        let count = rest.len().min(buffer.len());
        buffer[..count].copy_from_slice(&rest[..count]);
        self.at += count;
        Ok(count)
    }

    fn read_exact(&mut self, buffer: &mut [u8]) -> io::Result<()> {
        let end = self.at + buffer.len();
        let field = self.bytes.get(self.at..end);
        buffer.copy_from_slice(field.ok_or(ErrorKind::UnexpectedEof)?);
        self.at = end;
        Ok(())
    }
}

/// The crate seeks over bytes left in a record; like a file, this may go past the end.
impl Seek for Source<'_> {
    fn seek(&mut self, to: SeekFrom) -> io::Result<u64> {
        let at = match to {
            SeekFrom::Start(offset) => i128::from(offset),
            SeekFrom::Current(distance) => self.at as i128 + i128::from(distance),
            SeekFrom::End(distance) => self.bytes.len() as i128 + i128::from(distance),
        };
        let at = u64::try_from(at).map_err(|_| ErrorKind::InvalidInput)?;
        self.at = at as usize;
        Ok(at)
    }
}

/// A file in memory with two holders: the crate, which takes its files for good, and the driver.
#[derive(Clone, Default)]
struct Shared(Rc<RefCell<Cursor<Vec<u8>>>>);

impl Shared {
    fn holding(bytes: Vec<u8>) -> Self {
        Shared(Rc::new(RefCell::new(Cursor::new(bytes))))
    }

    fn contents(&self) -> Vec<u8> {
        self.0.borrow().get_ref().clone()
    }

    fn position(&self) -> u64 {
        self.0.borrow().position()
    }
}

impl Read for Shared {
    fn read(&mut self, buffer: &mut [u8]) -> io::Result<usize> {
        self.0.borrow_mut().read(buffer)
    }
}

impl Write for Shared {
    fn write(&mut self, bytes: &[u8]) -> io::Result<usize> {
        self.0.borrow_mut().write(bytes)
    }

    fn flush(&mut self) -> io::Result<()> {
        Ok(())
    }
}

impl Seek for Shared {
    fn seek(&mut self, to: SeekFrom) -> io::Result<u64> {
        self.0.borrow_mut().seek(to)
    }
}

const MEMORY: &str = "a file in memory takes all bytes";

// ---------------------------------------------------------------------------------------------
// Kinds

/// What the crate says of a kind.
#[derive(Debug, Clone, Copy, PartialEq)]
pub struct Kind {
    pub z: bool,
    pub m: bool,
    pub parts: bool,
}

/// The crate's flags of a kind, `None` for an unknown code. `m` is false for Multipatch (31),
/// although its records may carry m, and `parts` is true for Null (0): the crate says so.
pub fn kind(code: i32) -> Option<Kind> {
    ShapeType::from(code).map(|kind| Kind {
        z: kind.has_z(),
        m: kind.has_m(),
        parts: kind.is_multipart(),
    })
}

fn is_point(kind: i32) -> bool {
    matches!(kind, 1 | 11 | 21)
}

fn is_multipoint(kind: i32) -> bool {
    matches!(kind, 8 | 18 | 28)
}

/// Polylines and polygons: the kinds with parts that document 01 takes.
fn has_parts(kind: i32) -> bool {
    matches!(kind, 3 | 13 | 23 | 5 | 15 | 25)
}

// ---------------------------------------------------------------------------------------------
// The header of a file

/// The values of a header. The box is in file order: Xmin, Ymin, Xmax, Ymax, Zmin, Zmax, Mmin,
/// Mmax. Equality is that of IEEE numbers; compare the bits where that matters.
#[derive(Debug, Clone, Copy, PartialEq)]
pub struct Header {
    /// In words of 16 bits.
    pub file_length: i32,
    pub version: i32,
    pub kind: i32,
    pub bbox: [f64; 8],
}

/// `Header::read_from`. The one size that it refuses is a negative file length, at 24.
pub fn read_header(bytes: &[u8]) -> Result<Header, Refusal> {
    let mut source = Source::new(bytes);
    match header::Header::read_from(&mut source) {
        Ok(read) => Ok(Header {
            file_length: read.file_length,
            version: read.version,
            kind: read.shape_type as i32,
            bbox: file_order(&read.bbox),
        }),
        Err(error) => Err(refusal(error, source.at, 24)),
    }
}

/// `Header::write_to`: 100 bytes, `None` for an unknown kind, which the crate cannot express.
pub fn write_header(given: &Header) -> Option<Vec<u8>> {
    let [xmin, ymin, xmax, ymax, zmin, zmax, mmin, mmax] = given.bbox;
    let header = header::Header {
        file_length: given.file_length,
        bbox: GenericBBox {
            min: PointZ::new(xmin, ymin, zmin, mmin),
            max: PointZ::new(xmax, ymax, zmax, mmax),
        },
        shape_type: ShapeType::from(given.kind)?,
        version: given.version,
    };
    let mut bytes = Vec::new();
    header.write_to(&mut bytes).expect(MEMORY);
    Some(bytes)
}

fn file_order(bbox: &GenericBBox<PointZ>) -> [f64; 8] {
    let GenericBBox { min, max } = bbox;
    [min.x, min.y, max.x, max.y, min.z, max.z, min.m, max.m]
}

// ---------------------------------------------------------------------------------------------
// Record headers and index entries

/// `RecordHeader::read_from`: the record's number and its content length in words.
pub fn read_record_header(bytes: &[u8]) -> Result<(i32, i32), Refusal> {
    let mut source = Source::new(bytes);
    match record::RecordHeader::read_from(&mut source) {
        Ok(read) => Ok((read.record_number, read.record_size)),
        Err(error) => Err(refusal(error, source.at, 0)),
    }
}

/// `RecordHeader::write_to`: 8 bytes.
pub fn write_record_header(number: i32, words: i32) -> Vec<u8> {
    let header = record::RecordHeader {
        record_number: number,
        record_size: words,
    };
    let mut bytes = Vec::new();
    header.write_to(&mut bytes).expect(MEMORY);
    bytes
}

/// `ShapeIndex::write_to`: 8 bytes. Offset and content length are in words.
pub fn write_index_entry(offset: i32, words: i32) -> Vec<u8> {
    let entry = ShapeIndex {
        offset,
        record_size: words,
    };
    let mut bytes = Vec::new();
    entry.write_to(&mut bytes).expect(MEMORY);
    bytes
}

/// A whole .shx as `ShapeReader::with_shx` reads it: for each entry the byte at which the crate
/// then looks for the record, or `None` where twice the offset is negative or leaves i32. The
/// content lengths are read by the crate but cannot be seen from outside.
///
/// The number of entries is taken from the header's file length, not from the bytes. Twice that
/// length less 100 must not be negative or leave i32 (3 at 24). The crate reserves as many bytes.
pub fn read_index(shx: &[u8]) -> Result<Vec<Option<u64>>, Refusal> {
    let shp = Shared::holding(empty_shp());
    let mut source = Source::new(shx);
    let mut reader = match ShapeReader::with_shx(shp.clone(), &mut source) {
        Ok(reader) => reader,
        Err(error) => return Err(refusal(error, source.at, 24)),
    };
    let count = reader.shape_count().expect("the index is there");
    Ok((0..count)
        .map(|index| reader.seek(index).ok().map(|()| shp.position()))
        .collect())
}

fn empty_shp() -> Vec<u8> {
    let mut bytes = Vec::new();
    let header = header::Header::default();
    header.write_to(&mut bytes).expect(MEMORY);
    bytes
}

// ---------------------------------------------------------------------------------------------
// Bodies of shapes with parts and of multipoints, in flat form

/// A range and one value for each point, of z or of m.
#[derive(Debug, Clone, PartialEq)]
pub struct Run {
    pub range: [f64; 2],
    pub values: Vec<f64>,
}

/// The body of a shape with parts, or of a multipoint: the bytes of a record's content after the kind.
/// Equality is that of IEEE numbers; compare the bits where that matters.
#[derive(Debug, Clone, PartialEq)]
pub struct Body {
    /// Xmin, Ymin, Xmax, Ymax.
    pub bbox: [f64; 4],
    /// The number of points of each part; none for a multipoint.
    pub counts: Vec<usize>,
    /// The x of each point.
    pub x: Vec<f64>,
    /// The y of each point.
    pub y: Vec<f64>,
    pub z: Option<Run>,
    pub m: Option<Run>,
}

/// A point of the crate as four numbers. Those that it lacks are 0 and are dropped on the way in.
trait Coordinates: Copy {
    fn from_values(x: f64, y: f64, z: f64, m: f64) -> Self;
    fn values(&self) -> [f64; 4];
}

impl Coordinates for Point {
    fn from_values(x: f64, y: f64, _z: f64, _m: f64) -> Self {
        Point { x, y }
    }

    fn values(&self) -> [f64; 4] {
        [self.x, self.y, 0.0, 0.0]
    }
}

impl Coordinates for PointM {
    fn from_values(x: f64, y: f64, _z: f64, m: f64) -> Self {
        PointM { x, y, m }
    }

    fn values(&self) -> [f64; 4] {
        [self.x, self.y, 0.0, self.m]
    }
}

impl Coordinates for PointZ {
    fn from_values(x: f64, y: f64, z: f64, m: f64) -> Self {
        PointZ { x, y, z, m }
    }

    fn values(&self) -> [f64; 4] {
        [self.x, self.y, self.z, self.m]
    }
}

/// The crate's box, runs of points and choice of z and m in flat form: the points are taken apart.
fn flat<'a, P, I>(bbox: &GenericBBox<P>, parts: I, z: bool, m: bool) -> Body
where
    P: Coordinates + 'a,
    I: Iterator<Item = &'a [P]> + Clone,
{
    let (min, max) = (bbox.min.values(), bbox.max.values());
    let points = parts.clone().flatten().map(P::values);
    let all = |axis: usize| points.clone().map(|values| values[axis]).collect();
    let run = |axis: usize| Run {
        range: [min[axis], max[axis]],
        values: all(axis),
    };
    Body {
        bbox: [min[0], min[1], max[0], max[1]],
        counts: parts.map(<[P]>::len).collect(),
        x: all(0),
        y: all(1),
        z: z.then(|| run(2)),
        m: m.then(|| run(3)),
    }
}

/// Whether the stores hold `points` points each.
fn holds(body: &Body, points: usize) -> bool {
    let run_holds = |run: &Option<Run>| run.as_ref().map_or(true, |run| run.values.len() == points);
    [body.x.len(), body.y.len()] == [points; 2] && run_holds(&body.z) && run_holds(&body.m)
}

/// Whether the counts sum to the number of points in the stores.
fn counts_agree(body: &Body) -> bool {
    let sum = body
        .counts
        .iter()
        .try_fold(0usize, |sum, count| sum.checked_add(*count));
    sum.map_or(false, |points| holds(body, points))
}

fn points_of<P: Coordinates>(body: &Body) -> Vec<P> {
    let value = |run: &Option<Run>, i: usize| run.as_ref().map_or(0.0, |run| run.values[i]);
    let pairs = body.x.iter().zip(&body.y).enumerate();
    pairs
        .map(|(i, (&x, &y))| P::from_values(x, y, value(&body.z, i), value(&body.m, i)))
        .collect()
}

fn parts_of<P: Coordinates>(body: &Body) -> Vec<Vec<P>> {
    let mut points = points_of(body).into_iter();
    body.counts
        .iter()
        .map(|count| points.by_ref().take(*count).collect())
        .collect()
}

fn bbox_of<P: Coordinates>(body: &Body) -> GenericBBox<P> {
    let range = |run: &Option<Run>| run.as_ref().map_or([0.0; 2], |run| run.range);
    let ([zmin, zmax], [mmin, mmax]) = (range(&body.z), range(&body.m));
    let [xmin, ymin, xmax, ymax] = body.bbox;
    GenericBBox {
        min: P::from_values(xmin, ymin, zmin, mmin),
        max: P::from_values(xmax, ymax, zmax, mmax),
    }
}

// ---------------------------------------------------------------------------------------------
// Reading a body

/// `MultiPartShapeReader` over a body: `new`, `read_xy`, then `read_zs` with z and `read_ms` with
/// m. The instance with `PointZ` serves z with and without m, the one with `PointM` m alone, the
/// one with `Point` neither. Ask [`reserves`] first if the counts may be silly.
pub fn read_body(bytes: &[u8], z: bool, m: bool) -> Result<Body, Refusal> {
    let mut source = Source::new(bytes);
    let read = match (z, m) {
        (false, false) => read_with_xy(&mut source),
        (false, true) => read_with_m(&mut source),
        (true, _) => read_with_z(&mut source, m),
    };
    read.map_err(|error| refuse_body(error, bytes, source.at))
}

fn read_with_xy(source: &mut Source) -> Result<Body, Error> {
    let read = MultiPartShapeReader::<Point, _>::new(source)?.read_xy()?;
    Ok(flat(&read.bbox, slices(&read.parts), false, false))
}

fn read_with_m(source: &mut Source) -> Result<Body, Error> {
    let read = MultiPartShapeReader::<PointM, _>::new(source)?;
    let read = read.read_xy()?.read_ms()?;
    Ok(flat(&read.bbox, slices(&read.parts), false, true))
}

fn read_with_z(source: &mut Source, m: bool) -> Result<Body, Error> {
    let read = MultiPartShapeReader::<PointZ, _>::new(source)?;
    let read = read.read_xy()?.read_zs()?.read_ms_if(m)?;
    Ok(flat(&read.bbox, slices(&read.parts), true, m))
}

fn slices<P>(parts: &[Vec<P>]) -> impl Iterator<Item = &[P]> + Clone {
    parts.iter().map(Vec::as_slice)
}

fn refuse_body(error: Error, bytes: &[u8], at: usize) -> Refusal {
    let size_at = match error {
        Error::InvalidShapeRecordSize => body_size_offset(bytes, at),
        _ => 0,
    };
    refusal(error, at, size_at)
}

/// Where document 01 places the size that the crate refused with the source at `at`: p at 32, n at
/// 36, or the start of the first part whose difference is refused.
fn body_size_offset(bytes: &[u8], at: usize) -> usize {
    let (p, n) = (le_i32(bytes, 32), le_i32(bytes, 36));
    if p < 0 {
        return 32;
    }
    if n < 0 {
        return 36;
    }
    let (part, points_before) = first_bad_part(&starts_of(bytes, p), n);
    let expected = 40 + 4 * p as usize + 16 * points_before;
    assert_eq!(at, expected, "the crate refused a size at another place");
    40 + 4 * part
}

/// The first part whose difference is negative or leaves i32, and the points of those before it.
/// With no such part, the number of parts.
fn first_bad_part(starts: &[i32], n: i32) -> (usize, usize) {
    let mut points = 0;
    for (part, start) in starts.iter().enumerate() {
        let end = starts.get(part + 1).copied().unwrap_or(n);
        match end.checked_sub(*start) {
            Some(count) if count >= 0 => points += count as usize,
            _ => return (part, points),
        }
    }
    (starts.len(), points)
}

fn starts_of(bytes: &[u8], p: i32) -> Vec<i32> {
    (0..p as usize).map(|i| le_i32(bytes, 40 + 4 * i)).collect()
}

fn le_i32(bytes: &[u8], at: usize) -> i32 {
    i32::from_le_bytes([bytes[at], bytes[at + 1], bytes[at + 2], bytes[at + 3]])
}

/// At most how many bytes of memory the crate reserves while it reads this body. A declared count
/// is reserved before its points are read, and the system may grant many GB that nobody touches,
/// or not (`Allocation`): leave out inputs for which this is large.
pub fn reserves(bytes: &[u8], z: bool, m: bool) -> u64 {
    let point = match (z, m) {
        (false, false) => size_of::<Point>(),
        (false, true) => size_of::<PointM>(),
        (true, _) => size_of::<PointZ>(),
    };
    reserves_of(bytes, point as u64)
}

fn reserves_of(bytes: &[u8], point: u64) -> u64 {
    if bytes.len() < 40 || le_i32(bytes, 32) < 0 || le_i32(bytes, 36) < 0 {
        return 0;
    }
    let (p, n) = (le_i32(bytes, 32), le_i32(bytes, 36));
    let parts = p as u64 * (size_of::<i32>() + size_of::<Vec<Point>>()) as u64;
    let mut at = 40 + 4 * p as u64;
    if at > bytes.len() as u64 {
        return parts;
    }
    let starts = starts_of(bytes, p);
    let mut points = 0;
    for (part, start) in starts.iter().enumerate() {
        let end = starts.get(part + 1).copied().unwrap_or(n);
        let count = match end.checked_sub(*start).and_then(|n| u64::try_from(n).ok()) {
            Some(count) => count,
            None => break,
        };
        points += count;
        at += 16 * count;
        if at > bytes.len() as u64 {
            break;
        }
    }
    parts + point * points
}

/// `read_shape_content` over a multipoint's body: that of `Multipoint`, of `MultipointM` with m, and of
/// `MultipointZ` with z, with m or without. The crate reads m where the size has room for it, so it is
/// given the size that the number of points asks for. The one size that it then refuses is a negative
/// number of points, at 32. Ask [`multipoint_reserves`] first if the number may be silly.
pub fn read_multipoint(bytes: &[u8], z: bool, m: bool) -> Result<Body, Refusal> {
    let mut source = Source::new(bytes);
    let size = multipoint_size(bytes, z, m);
    let read = match (z, m) {
        (false, false) => content_of::<Point>(&mut source, size, z, m),
        (false, true) => content_of::<PointM>(&mut source, size, z, m),
        (true, _) => content_of::<PointZ>(&mut source, size, z, m),
    };
    read.map_err(|error| refusal(error, source.at, 32))
}

fn content_of<P>(source: &mut Source, size: i32, z: bool, m: bool) -> Result<Body, Error>
where
    P: Coordinates,
    GenericMultipoint<P>: ConcreteReadableShape,
{
    let read = GenericMultipoint::<P>::read_shape_content(source, size)?;
    Ok(multipoint_body(&read, z, m))
}

/// The bytes of a body with the number of points that stands in it; 0 where there is none, and for one
/// that is over what [`multipoint_reserves`] should let through.
fn multipoint_size(bytes: &[u8], z: bool, m: bool) -> i32 {
    if bytes.len() < 36 {
        return 0;
    }
    let points = i64::from(le_i32(bytes, 32).max(0));
    let measure = |there: bool| if there { 16 + 8 * points } else { 0 };
    i32::try_from(36 + 16 * points + measure(z) + measure(m)).unwrap_or(0)
}

/// At most how many bytes of memory the crate reserves while it reads this body of a multipoint.
pub fn multipoint_reserves(body: &[u8]) -> u64 {
    if body.len() < 36 {
        return 0;
    }
    let points = u64::try_from(le_i32(body, 32)).unwrap_or(0);
    points * size_of::<PointZ>() as u64
}

/// How many points [`part_count`] lets the crate read.
const COUNTED: usize = 4096;

/// The points of a part that runs from `start` to `end`, or `None` if the crate refuses it.
///
/// The crate does this in `PartIndexIter` and `read_xy` only, so it is asked through a body whose
/// first part is this one, and no other part of which is refused: an end that is not negative is n
/// of a body of one part; a negative one is the second start of three, the third being -1 with
/// n = 0. The refusal is always the crate's. The count is the length of the part that the crate
/// read if all parts have at most 4096 points together, and else the difference of the two.
pub fn part_count(start: i32, end: i32) -> Option<i32> {
    let (starts, n) = if end >= 0 {
        (vec![start], end)
    } else {
        (vec![start, end, -1], 0)
    };
    let mut bytes = vec![0; 32];
    bytes.extend((starts.len() as i32).to_le_bytes());
    bytes.extend(n.to_le_bytes());
    bytes.extend(starts.iter().flat_map(|start| start.to_le_bytes()));
    bytes.resize(bytes.len() + 16 * COUNTED, 0);
    let mut source = Source::new(&bytes);
    match MultiPartShapeReader::<Point, _>::new(&mut source).and_then(|read| read.read_xy()) {
        Ok(read) => Some(read.parts[0].len() as i32),
        Err(Error::InvalidShapeRecordSize) => None,
        Err(_) => Some(end - start),
    }
}

/// An m value after reading: `read_ms_into` over one point.
///
/// The crate says `f64::max(value, -10e38)`, which for a signalling NaN depends on the processor:
/// on AArch64, whose `fmaxnm` follows IEEE 754-2008, it is that NaN made quiet and not -10e38. For
/// all else, quiet NaNs too, it is document 01's m rule. See [`is_signalling`].
pub fn read_m(value: f64) -> f64 {
    let bytes = value.to_le_bytes();
    let mut points = [PointM::default()];
    read_ms_into(&mut Source::new(&bytes), &mut points).expect("eight bytes are there");
    points[0].m
}

/// Whether the value is a signalling NaN, which as an m value the crate leaves to the processor.
pub fn is_signalling(value: f64) -> bool {
    const QUIET: u64 = 1 << 51;
    value.is_nan() && value.to_bits() & QUIET == 0
}

// ---------------------------------------------------------------------------------------------
// Writing a body

/// `MultiPartShapeWriter`: `write_point_shape` without z and m, `write_point_m_shape` with m,
/// `write_point_z_shape` with both; any number of parts of any length. Box and ranges are written
/// as given. `None` where the crate has no such input: z without m, or counts and stores that
/// disagree.
pub fn write_body(body: &Body) -> Option<Vec<u8>> {
    if !counts_agree(body) {
        return None;
    }
    let mut bytes = Vec::new();
    match (&body.z, &body.m) {
        (None, None) => {
            let (bbox, parts) = (bbox_of::<Point>(body), parts_of(body));
            let writer = MultiPartShapeWriter::new(&bbox, slices(&parts), &mut bytes);
            writer.write_point_shape().expect(MEMORY);
        }
        (None, Some(_)) => {
            let (bbox, parts) = (bbox_of::<PointM>(body), parts_of(body));
            let writer = MultiPartShapeWriter::new(&bbox, slices(&parts), &mut bytes);
            writer.write_point_m_shape().expect(MEMORY);
        }
        (Some(_), Some(_)) => {
            let (bbox, parts) = (bbox_of::<PointZ>(body), parts_of(body));
            let writer = MultiPartShapeWriter::new(&bbox, slices(&parts), &mut bytes);
            writer.write_point_z_shape().expect(MEMORY);
        }
        (Some(_), None) => return None,
    }
    Some(bytes)
}

/// `write_to` of `Multipoint`, of `MultipointM` with m, of `MultipointZ` with both; any number of points.
/// Box and ranges are written as given. `None` where the crate has no such input: z without m, counts,
/// or stores that disagree.
pub fn write_multipoint(body: &Body) -> Option<Vec<u8>> {
    if !is_set(body) {
        return None;
    }
    let mut bytes = Vec::new();
    match (&body.z, &body.m) {
        (None, None) => multipoint_of::<Point>(body).write_to(&mut bytes),
        (None, Some(_)) => multipoint_of::<PointM>(body).write_to(&mut bytes),
        (Some(_), Some(_)) => multipoint_of::<PointZ>(body).write_to(&mut bytes),
        (Some(_), None) => return None,
    }
    .expect(MEMORY);
    Some(bytes)
}

/// Whether there are no counts, and the stores hold the same number of points.
fn is_set(body: &Body) -> bool {
    body.counts.is_empty() && holds(body, body.x.len())
}

fn multipoint_of<P: Coordinates>(body: &Body) -> GenericMultipoint<P> {
    GenericMultipoint {
        bbox: bbox_of(body),
        points: points_of(body),
    }
}

fn multipoint_body<P: Coordinates>(read: &GenericMultipoint<P>, z: bool, m: bool) -> Body {
    Body {
        counts: Vec::new(),
        ..flat(&read.bbox, std::iter::once(&read.points[..]), z, m)
    }
}

// ---------------------------------------------------------------------------------------------
// Rings, on x and y
//
// A run is its x and its y, as many of each. The crate is asked with `Point`. Its polygons with m or
// z ask the same functions with `PointM` and `PointZ`: there closed means that m and z are equal
// too. The turning looks at x and y alone for all three.

/// `is_part_closed`.
pub fn ring_closed(x: &[f64], y: &[f64]) -> bool {
    record::is_part_closed(&run_of(x, y))
}

/// `close_points_if_not_already`: x and y of the run after closing.
pub fn ring_close(x: &[f64], y: &[f64]) -> (Vec<f64>, Vec<f64>) {
    let mut points = run_of(x, y);
    record::close_points_if_not_already(&mut points);
    points.iter().map(|point| (point.x, point.y)).unzip()
}

/// `ring_type_from_points_ordering`: true for an inner ring, false for an outer one.
pub fn ring_inner(x: &[f64], y: &[f64]) -> bool {
    record::ring_type_from_points_ordering(&run_of(x, y)) == RingType::InnerRing
}

fn run_of(x: &[f64], y: &[f64]) -> Vec<Point> {
    assert_eq!(x.len(), y.len(), "a run has as many x as y");
    let pairs = x.iter().zip(y);
    pairs.map(|(&x, &y)| Point::new(x, y)).collect()
}

// ---------------------------------------------------------------------------------------------
// Whole files

/// The writer's `f64_min`.
pub fn f64_min(a: f64, b: f64) -> f64 {
    writer::f64_min(a, b)
}

/// The writer's `f64_max`.
pub fn f64_max(a: f64, b: f64) -> f64 {
    writer::f64_max(a, b)
}

/// A shape to write, or one that was read. For a point kind (1, 21, 11) the body has no counts and
/// one point, and its box and ranges play no part; for a multipoint (8, 28, 18) it has no counts. A
/// body has z exactly for 11, 13, 15 and 18, and m exactly for those and 21, 23, 25 and 28.
#[derive(Debug, Clone, PartialEq)]
pub struct Shape {
    pub kind: i32,
    pub body: Body,
}

/// Whether the crate's types can hold the shape: one of the twelve kinds, z and m as the kind has
/// them, and counts and stores that agree. Nothing else is asked of it: no parts, empty parts, no
/// points, rings that are open or turn the wrong way and boxes that are wrong all go in.
pub fn expressible(shape: &Shape) -> bool {
    let Shape { kind: code, body } = shape;
    let agree = if is_point(*code) {
        body.counts.is_empty() && holds(body, 1)
    } else if is_multipoint(*code) {
        is_set(body)
    } else {
        has_parts(*code) && counts_agree(body)
    };
    agree
        && kind(*code).map_or(false, |kind| {
            (kind.z, kind.m) == (body.z.is_some(), body.m.is_some())
        })
}

/// The two files of a writer.
#[derive(Debug, Clone, PartialEq)]
pub struct Files {
    pub shp: Vec<u8>,
    pub shx: Vec<u8>,
}

/// `ShapeWriter` with both files in memory.
///
/// Shapes are put together from their fields and not by the crate's constructors, so the crate
/// changes nothing on the way: box and ranges stand in each record as given, at bytes 4 to 36 of
/// the content and before the z and m values. Polygons go in by `From<GenericPolyline>`, which
/// labels each ring inner or outer by its turning; the label is not written. What the constructors
/// would have made of a shape is said by [`constructed`].
///
/// The crate does arithmetic on lengths in i32 without checks, and its `write_shape` on a writer
/// that was finalized empty puts a second header at byte 100: both are outside the domain.
pub struct FileWriter {
    writer: ShapeWriter<Shared>,
    shp: Shared,
    shx: Shared,
}

impl FileWriter {
    pub fn new() -> Self {
        let (shp, shx) = (Shared::default(), Shared::default());
        FileWriter {
            writer: ShapeWriter::with_shx(shp.clone(), shx.clone()),
            shp,
            shx,
        }
    }

    /// `ShapeWriter::write_shape`.
    pub fn add(&mut self, shape: &Shape) -> Result<(), Refusal> {
        if !expressible(shape) {
            return Err(Refusal::Inexpressible);
        }
        let body = &shape.body;
        match shape.kind {
            1 => self.put(&points_of::<Point>(body)[0]),
            21 => self.put(&points_of::<PointM>(body)[0]),
            11 => self.put(&points_of::<PointZ>(body)[0]),
            3 => self.put(&polyline_of::<Point>(body)),
            23 => self.put(&polyline_of::<PointM>(body)),
            13 => self.put(&polyline_of::<PointZ>(body)),
            5 => self.put(&Polygon::from(polyline_of::<Point>(body))),
            25 => self.put(&PolygonM::from(polyline_of::<PointM>(body))),
            15 => self.put(&PolygonZ::from(polyline_of::<PointZ>(body))),
            8 => self.put(&multipoint_of::<Point>(body)),
            28 => self.put(&multipoint_of::<PointM>(body)),
            18 => self.put(&multipoint_of::<PointZ>(body)),
            _ => Err(Refusal::Inexpressible),
        }
    }

    fn put<S: EsriShape>(&mut self, shape: &S) -> Result<(), Refusal> {
        self.writer
            .write_shape(shape)
            .map_err(|error| refusal(error, 0, 0))
    }

    /// `ShapeWriter::finalize`. More shapes may follow.
    pub fn finalize(&mut self) {
        self.writer.finalize().expect(MEMORY);
    }

    /// The bytes of both files as they are now.
    pub fn files(&self) -> Files {
        Files {
            shp: self.shp.contents(),
            shx: self.shx.contents(),
        }
    }
}

impl Default for FileWriter {
    fn default() -> Self {
        Self::new()
    }
}

/// All the shapes through one writer, then `finalize`; the first refusal ends it.
pub fn write_files(shapes: &[Shape]) -> Result<Files, Refusal> {
    let mut writer = FileWriter::new();
    for shape in shapes {
        writer.add(shape)?;
    }
    writer.finalize();
    Ok(writer.files())
}

fn polyline_of<P: Coordinates>(body: &Body) -> GenericPolyline<P> {
    GenericPolyline {
        bbox: bbox_of(body),
        parts: parts_of(body),
    }
}

/// The shape that the crate's own constructors make of the same points: `Polyline::with_parts`,
/// `Polygon::with_rings` over rings labelled by `PolygonRing::from`, or `Multipoint::new`. The box and
/// the ranges given are dropped, and those of the points come in. Point kinds come back as they are.
///
/// The rings of a polygon are closed. A ring was labelled by its turning before it was closed; if
/// closing changes the turning, it is reversed to turn as labelled.
///
/// `None` where the shape is not [`expressible`] or the constructor panics: no part at all, a part
/// of a polyline with fewer than 2 points, a first ring that is empty, a multipoint without a point.
/// Later rings may be empty.
pub fn constructed(shape: &Shape) -> Option<Shape> {
    if !expressible(shape) || constructor_panics(shape) {
        return None;
    }
    let body = &shape.body;
    let made = match shape.kind {
        1 | 11 | 21 => body.clone(),
        3 => line_body(&Polyline::with_parts(parts_of(body)), false, false),
        23 => line_body(&PolylineM::with_parts(parts_of(body)), false, true),
        13 => line_body(&PolylineZ::with_parts(parts_of(body)), true, true),
        5 => rings_body(&Polygon::with_rings(rings_of(body)), false, false),
        25 => rings_body(&PolygonM::with_rings(rings_of(body)), false, true),
        15 => rings_body(&PolygonZ::with_rings(rings_of(body)), true, true),
        8 => multipoint_body(&Multipoint::new(points_of(body)), false, false),
        28 => multipoint_body(&MultipointM::new(points_of(body)), false, true),
        18 => multipoint_body(&MultipointZ::new(points_of(body)), true, true),
        _ => return None,
    };
    Some(Shape {
        kind: shape.kind,
        body: made,
    })
}

fn constructor_panics(shape: &Shape) -> bool {
    let counts = &shape.body.counts;
    match shape.kind {
        3 | 13 | 23 => counts.is_empty() || counts.iter().any(|count| *count < 2),
        5 | 15 | 25 => counts.first().map_or(true, |count| *count == 0),
        8 | 18 | 28 => shape.body.x.is_empty(),
        _ => false,
    }
}

fn rings_of<P: Coordinates + HasXY>(body: &Body) -> Vec<PolygonRing<P>> {
    parts_of(body).into_iter().map(PolygonRing::from).collect()
}

fn line_body<P: Coordinates>(line: &GenericPolyline<P>, z: bool, m: bool) -> Body {
    flat(line.bbox(), slices(line.parts()), z, m)
}

fn rings_body<P: Coordinates>(polygon: &GenericPolygon<P>, z: bool, m: bool) -> Body {
    let rings = polygon.rings().iter().map(PolygonRing::points);
    flat(polygon.bbox(), rings, z, m)
}

fn point_body<P: Coordinates>(point: &P, z: bool, m: bool) -> Body {
    let bbox = GenericBBox {
        min: *point,
        max: *point,
    };
    Body {
        counts: Vec::new(),
        ..flat(&bbox, std::iter::once(std::slice::from_ref(point)), z, m)
    }
}

// ---------------------------------------------------------------------------------------------
// Records as the crate reads them
//
// For reference: document 01's rules for sizes and points are its own. The crate takes any size
// that is not too small, reads m if the size has room for it, and skips what is left.

/// A record that was read. There is no body for Null (0) and for 31.
#[derive(Debug, Clone, PartialEq)]
pub struct Record {
    pub kind: i32,
    /// What the crate's shape holds. Where the record had no m, all m and the m range of a kind
    /// with m are -10e38. The box and ranges of a point are its own values.
    pub body: Option<Body>,
}

/// `Shape::read_from`: any kind. The size is the record's in bytes, kind field included.
/// Ask [`record_reserves`] first if the counts may be silly.
pub fn read_record(content: &[u8], size: i32) -> Result<Record, Refusal> {
    read_as::<crate::Shape>(content, size)
}

/// The same for a wanted kind, `read_from` of its type. Null and unknown codes have no type:
/// `Inexpressible`.
pub fn read_record_as(wanted: i32, content: &[u8], size: i32) -> Result<Record, Refusal> {
    match wanted {
        1 => read_as::<Point>(content, size),
        21 => read_as::<PointM>(content, size),
        11 => read_as::<PointZ>(content, size),
        3 => read_as::<Polyline>(content, size),
        23 => read_as::<PolylineM>(content, size),
        13 => read_as::<PolylineZ>(content, size),
        5 => read_as::<Polygon>(content, size),
        25 => read_as::<PolygonM>(content, size),
        15 => read_as::<PolygonZ>(content, size),
        8 => read_as::<Multipoint>(content, size),
        28 => read_as::<MultipointM>(content, size),
        18 => read_as::<MultipointZ>(content, size),
        31 => read_as::<Multipatch>(content, size),
        _ => Err(Refusal::Inexpressible),
    }
}

fn read_as<S>(content: &[u8], size: i32) -> Result<Record, Refusal>
where
    S: ReadableShape,
    crate::Shape: From<S>,
{
    let mut source = Source::new(content);
    match S::read_from(&mut source, size) {
        Ok(shape) => Ok(record_of(crate::Shape::from(shape))),
        Err(Error::InvalidShapeRecordSize) => Err(Refusal::Size(record_size_offset::<S>(
            content, size, source.at,
        ))),
        Err(error) => Err(refusal(error, source.at, 0)),
    }
}

/// The crate's `Shape::shapetype` says Multipoint for MultipointM and MultipointZ; the code here
/// is that of the variant.
fn record_of(shape: crate::Shape) -> Record {
    let (kind, body) = match shape {
        crate::Shape::NullShape => (0, None),
        crate::Shape::Point(point) => (1, Some(point_body(&point, false, false))),
        crate::Shape::PointM(point) => (21, Some(point_body(&point, false, true))),
        crate::Shape::PointZ(point) => (11, Some(point_body(&point, true, true))),
        crate::Shape::Polyline(line) => (3, Some(line_body(&line, false, false))),
        crate::Shape::PolylineM(line) => (23, Some(line_body(&line, false, true))),
        crate::Shape::PolylineZ(line) => (13, Some(line_body(&line, true, true))),
        crate::Shape::Polygon(polygon) => (5, Some(rings_body(&polygon, false, false))),
        crate::Shape::PolygonM(polygon) => (25, Some(rings_body(&polygon, false, true))),
        crate::Shape::PolygonZ(polygon) => (15, Some(rings_body(&polygon, true, true))),
        crate::Shape::Multipoint(set) => (8, Some(multipoint_body(&set, false, false))),
        crate::Shape::MultipointM(set) => (28, Some(multipoint_body(&set, false, true))),
        crate::Shape::MultipointZ(set) => (18, Some(multipoint_body(&set, true, true))),
        crate::Shape::Multipatch(_) => (31, None),
    };
    Record { kind, body }
}

/// Where document 01 places the size that the crate refused with the source at `at`: p at 36, n at
/// 40, the start of the first part that is refused, else 0. The crate judges the record's size
/// after the starts and before the parts; with every start equal to n no part can be refused, so
/// if that is still refused it was the record's size. n of a multipoint stands at 36. Points give 0.
fn record_size_offset<S: ReadableShape>(content: &[u8], size: i32, at: usize) -> usize {
    if at == 40 && is_multipoint(le_i32(content, 0)) && le_i32(content, 36) < 0 {
        return 36;
    }
    if at < 44 || !has_parts(le_i32(content, 0)) {
        return 0;
    }
    let body = &content[4..];
    let (p, n) = (le_i32(body, 32), le_i32(body, 36));
    if p >= 0 && n >= 0 {
        let mut level = content.to_vec();
        for start in level[44..44 + 4 * p as usize].chunks_exact_mut(4) {
            start.copy_from_slice(&n.to_le_bytes());
        }
        let again = S::read_from(&mut Source::new(&level), size);
        if matches!(again, Err(Error::InvalidShapeRecordSize)) {
            return 0;
        }
    }
    4 + body_size_offset(body, at - 4)
}

/// As [`reserves`], for a record's content.
pub fn record_reserves(content: &[u8]) -> u64 {
    if content.len() < 4 {
        return 0;
    }
    let (code, body) = (le_i32(content, 0), &content[4..]);
    match code {
        3 | 5 => reserves(body, false, false),
        23 | 25 => reserves(body, false, true),
        13 | 15 => reserves(body, true, true),
        8 | 18 | 28 => multipoint_reserves(body),
        31 => reserves(body, true, true) + patches_reserve(body),
        _ => 0,
    }
}

/// A multipatch reserves a type and a patch for each part, beside what other kinds reserve.
fn patches_reserve(body: &[u8]) -> u64 {
    if body.len() < 40 {
        return 0;
    }
    let parts = u64::try_from(le_i32(body, 32)).unwrap_or(0);
    parts * (size_of::<i32>() + size_of::<Patch>()) as u64
}
