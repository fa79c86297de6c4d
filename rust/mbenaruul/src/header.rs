//! The header of a file, the header of a record and the entry of an index; and the two quantities
//! in which lengths are counted.

use crate::error::Error;
use crate::ffi;

/// A length or an offset in 16-bit words, as files state them.
#[repr(transparent)]
#[derive(Debug, Clone, Copy, PartialEq, Eq, PartialOrd, Ord, Hash)]
pub struct Words(pub i32);

/// A size in bytes.
#[repr(transparent)]
#[derive(Debug, Clone, Copy, PartialEq, Eq, PartialOrd, Ord, Hash)]
pub struct Bytes(pub i64);

impl Words {
    /// The same length in bytes.
    pub fn in_bytes(self) -> Bytes {
        Bytes(2 * i64::from(self.0))
    }
}

/// The box of a whole file, and of a shape that is written.
#[repr(C)]
#[derive(Debug, Clone, Copy, Default, PartialEq)]
pub struct BBoxZ {
    /// The least x.
    pub xmin: f64,
    /// The least y.
    pub ymin: f64,
    /// The greatest x.
    pub xmax: f64,
    /// The greatest y.
    pub ymax: f64,
    /// The least z; 0 without z.
    pub zmin: f64,
    /// The greatest z; 0 without z.
    pub zmax: f64,
    /// The least m; 0 without m.
    pub mmin: f64,
    /// The greatest m; 0 without m.
    pub mmax: f64,
}

/// The first 100 bytes of a .shp or .shx file.
#[repr(C)]
#[derive(Debug, Clone, Copy, PartialEq)]
pub struct Header {
    /// The length of the whole file.
    pub file_length: Words,
    /// 1000 in a file that is right; it is not judged here.
    pub version: i32,
    /// The kind of the file's shapes; a Null may stand among them.
    pub shape_type: i32,
    /// The box around the file's shapes.
    pub bbox: BBoxZ,
}

/// The eight bytes in front of a record's content.
#[repr(C)]
#[derive(Debug, Clone, Copy, PartialEq, Eq)]
pub struct RecordHeader {
    /// The record's number, from 1.
    pub record_number: i32,
    /// The length of the content behind this header.
    pub content_length: Words,
}

/// Eight bytes of the .shx: where a record is.
#[repr(C)]
#[derive(Debug, Clone, Copy, PartialEq, Eq)]
pub struct IndexEntry {
    /// Where the record's header starts in the .shp.
    pub offset: Words,
    /// The length of the content behind that header.
    pub content_length: Words,
}

/// The header at the front of a .shp or .shx file. Refusals: 1, 2, 3, 4.
pub fn read_header(bytes: &[u8]) -> Result<Header, Error> {
    let read = ffi::read_header(bytes);
    read.refusal.into_result()?;
    Ok(read.header)
}

/// The header at the front of a record. Refusal: 1.
pub fn read_record_header(bytes: &[u8]) -> Result<RecordHeader, Error> {
    let read = ffi::read_record_header(bytes);
    read.refusal.into_result()?;
    Ok(read.header)
}

/// The entry at the front of these bytes of an index. Refusal: 1.
pub fn read_index_entry(bytes: &[u8]) -> Result<IndexEntry, Error> {
    let read = ffi::read_index_entry(bytes);
    read.refusal.into_result()?;
    Ok(read.entry)
}
