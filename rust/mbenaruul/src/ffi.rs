//! The calls of libexport.a: as include/mbenaruul.h declares them, and one safe function for each.
//!
//! All that is unsafe in this crate is here and in [`layout`]. Every field that crosses is a number, for which any
//! bits are a value, and every call takes any bytes and any numbers. A slice crosses as where it
//! begins, which is never null in Rust, and how many entries it has.

#![allow(unsafe_code)]

mod layout;

use crate::header::{BBoxZ, Bytes, Header, IndexEntry, RecordHeader};
use crate::pair::Totals;
use crate::record::{BBox, Range};
use crate::writer::Tables;

#[repr(C)]
#[derive(Clone, Copy)]
pub struct Refusal {
    pub number: u32,
    pub first: u64,
    pub second: u64,
}

#[repr(C)]
pub struct HeaderRead {
    pub refusal: Refusal,
    pub header: Header,
}

#[repr(C)]
pub struct RecordHeaderRead {
    pub refusal: Refusal,
    pub header: RecordHeader,
}

#[repr(C)]
pub struct IndexEntryRead {
    pub refusal: Refusal,
    pub entry: IndexEntry,
}

#[repr(C)]
pub struct Point {
    pub x: f64,
    pub y: f64,
    pub z: f64,
    pub m: f64,
}

#[repr(C)]
pub struct Body {
    pub bbox: BBox,
    pub z_range: Range,
    pub m_range: Range,
    pub parts: usize,
    pub points: usize,
}

#[repr(C)]
pub struct RecordRead {
    pub refusal: Refusal,
    pub code: i32,
    /// 0 for Null, 1 for a point, 2 for a shape with parts, 3 for a multipoint.
    pub form: u32,
    /// 1 where a shape with parts or a multipoint has m.
    pub has_m: u32,
    pub point: Point,
    /// Of a shape with parts, and of a multipoint, which has 0 parts.
    pub body: Body,
}

#[repr(C)]
pub struct PairChecked {
    pub refusal: Refusal,
    pub totals: Totals,
}

#[repr(C)]
#[derive(Debug, Clone, Copy, PartialEq)]
pub struct State {
    pub words: i32,
    pub number: i32,
    pub kind: i32,
    /// The points of all records so far.
    pub points: u32,
    pub bbox: BBoxZ,
}

#[repr(C)]
pub struct Added {
    pub refusal: Refusal,
    pub bytes: usize,
    pub state: State,
}

#[repr(C)]
pub struct Finished {
    pub refusal: Refusal,
    pub shp: [u8; 100],
    pub shx: [u8; 100],
}

#[repr(C)]
pub struct Told {
    pub refusal: Refusal,
    pub value: usize,
}

/// What a record's values are read into.
#[derive(Default)]
pub struct Stores {
    pub counts: Vec<u32>,
    pub x: Vec<f64>,
    pub y: Vec<f64>,
    pub z: Vec<f64>,
    pub m: Vec<f64>,
}

/// A yes or no, which crosses as a number.
pub fn flag(number: usize) -> bool {
    match number {
        0 => false,
        1 => true,
        other => panic!("the library gave {other} for a yes or no"),
    }
}

extern "C" {
    fn mbenaruul_read_header(bytes: *const u8, n: usize) -> HeaderRead;
    fn mbenaruul_read_record_header(bytes: *const u8, n: usize) -> RecordHeaderRead;
    fn mbenaruul_read_index_entry(bytes: *const u8, n: usize) -> IndexEntryRead;
    fn mbenaruul_read_record(
        content: *const u8,
        n: usize,
        size: Bytes,
        counts: *mut u32,
        counts_n: usize,
        x: *mut f64,
        x_n: usize,
        y: *mut f64,
        y_n: usize,
        z: *mut f64,
        z_n: usize,
        m: *mut f64,
        m_n: usize,
    ) -> RecordRead;
    fn mbenaruul_read_record_of(
        wanted: i32,
        content: *const u8,
        n: usize,
        size: Bytes,
        counts: *mut u32,
        counts_n: usize,
        x: *mut f64,
        x_n: usize,
        y: *mut f64,
        y_n: usize,
        z: *mut f64,
        z_n: usize,
        m: *mut f64,
        m_n: usize,
    ) -> RecordRead;
    fn mbenaruul_check_pair(
        shp: *const u8,
        shp_n: usize,
        shx: *const u8,
        shx_n: usize,
    ) -> PairChecked;
    fn mbenaruul_new() -> State;
    fn mbenaruul_add_record(
        state: State,
        code: i32,
        bbox: BBoxZ,
        counts: *const u32,
        counts_n: usize,
        x: *const f64,
        x_n: usize,
        y: *const f64,
        y_n: usize,
        z: *const f64,
        z_n: usize,
        m: *const f64,
        m_n: usize,
        out: *mut u8,
        out_n: usize,
        start: usize,
        entry: *mut u8,
        entry_n: usize,
    ) -> Added;
    fn mbenaruul_finish(state: State) -> Finished;
    fn mbenaruul_is_part_closed(
        x: *const f64,
        x_n: usize,
        y: *const f64,
        y_n: usize,
        n: usize,
    ) -> Told;
    fn mbenaruul_ring_type_from_points_ordering(
        x: *const f64,
        x_n: usize,
        y: *const f64,
        y_n: usize,
        n: usize,
    ) -> Told;
    fn mbenaruul_close_points_if_not_already(
        x: *mut f64,
        x_n: usize,
        y: *mut f64,
        y_n: usize,
        n: usize,
    ) -> Told;
}

pub fn read_header(bytes: &[u8]) -> HeaderRead {
    // SAFETY: the slice is lent for the call, with its own length, and only read.
    unsafe { mbenaruul_read_header(bytes.as_ptr(), bytes.len()) }
}

pub fn read_record_header(bytes: &[u8]) -> RecordHeaderRead {
    // SAFETY: the slice is lent for the call, with its own length, and only read.
    unsafe { mbenaruul_read_record_header(bytes.as_ptr(), bytes.len()) }
}

pub fn read_index_entry(bytes: &[u8]) -> IndexEntryRead {
    // SAFETY: the slice is lent for the call, with its own length, and only read.
    unsafe { mbenaruul_read_index_entry(bytes.as_ptr(), bytes.len()) }
}

pub fn read_record(content: &[u8], size: Bytes, stores: &mut Stores) -> RecordRead {
    let Stores { counts, x, y, z, m } = stores;
    // SAFETY: the content is only read; the stores are five vectors apart from each other, lent
    // alone for the call, each with its own length.
    unsafe {
        mbenaruul_read_record(
            content.as_ptr(),
            content.len(),
            size,
            counts.as_mut_ptr(),
            counts.len(),
            x.as_mut_ptr(),
            x.len(),
            y.as_mut_ptr(),
            y.len(),
            z.as_mut_ptr(),
            z.len(),
            m.as_mut_ptr(),
            m.len(),
        )
    }
}

pub fn read_record_of(wanted: i32, content: &[u8], size: Bytes, stores: &mut Stores) -> RecordRead {
    let Stores { counts, x, y, z, m } = stores;
    // SAFETY: as for `read_record`; the wanted kind may be any number.
    unsafe {
        mbenaruul_read_record_of(
            wanted,
            content.as_ptr(),
            content.len(),
            size,
            counts.as_mut_ptr(),
            counts.len(),
            x.as_mut_ptr(),
            x.len(),
            y.as_mut_ptr(),
            y.len(),
            z.as_mut_ptr(),
            z.len(),
            m.as_mut_ptr(),
            m.len(),
        )
    }
}

pub fn check_pair(shp: &[u8], shx: &[u8]) -> PairChecked {
    // SAFETY: both slices are lent for the call, each with its own length, and only read.
    unsafe { mbenaruul_check_pair(shp.as_ptr(), shp.len(), shx.as_ptr(), shx.len()) }
}

pub fn new() -> State {
    // SAFETY: nothing is lent.
    unsafe { mbenaruul_new() }
}

pub fn add_record(
    state: State,
    tables: &Tables<'_>,
    out: &mut [u8],
    start: usize,
    entry: &mut [u8],
) -> Added {
    // SAFETY: the tables are only read; the two outputs are lent alone for the call; each slice
    // comes with its own length, and the start may be any number.
    unsafe {
        mbenaruul_add_record(
            state,
            tables.kind,
            tables.bbox,
            tables.counts.as_ptr(),
            tables.counts.len(),
            tables.x.as_ptr(),
            tables.x.len(),
            tables.y.as_ptr(),
            tables.y.len(),
            tables.z.as_ptr(),
            tables.z.len(),
            tables.m.as_ptr(),
            tables.m.len(),
            out.as_mut_ptr(),
            out.len(),
            start,
            entry.as_mut_ptr(),
            entry.len(),
        )
    }
}

pub fn finish(state: State) -> Finished {
    // SAFETY: nothing is lent, and the state may be any numbers.
    unsafe { mbenaruul_finish(state) }
}

pub fn is_part_closed(x: &[f64], y: &[f64], n: usize) -> Told {
    // SAFETY: both slices are lent for the call, each with its own length, and only read; the run
    // may be any number of points.
    unsafe { mbenaruul_is_part_closed(x.as_ptr(), x.len(), y.as_ptr(), y.len(), n) }
}

pub fn ring_type_from_points_ordering(x: &[f64], y: &[f64], n: usize) -> Told {
    // SAFETY: as for `is_part_closed`.
    unsafe { mbenaruul_ring_type_from_points_ordering(x.as_ptr(), x.len(), y.as_ptr(), y.len(), n) }
}

pub fn close_points_if_not_already(x: &mut [f64], y: &mut [f64], n: usize) -> Told {
    // SAFETY: both slices are lent alone for the call, each with its own length; the run may be any
    // number of points.
    unsafe {
        mbenaruul_close_points_if_not_already(x.as_mut_ptr(), x.len(), y.as_mut_ptr(), y.len(), n)
    }
}
