//! How each struct that crosses lies, asserted when the crate is built: how many bytes it has, and
//! which of them are each field's. include/mbenaruul.h asserts the same numbers, in the same order,
//! for whoever compiles against it.

// Rust 1.63 takes for unused what only a constant without a name uses.
#![allow(dead_code)]

use super::*;
use std::mem::size_of;
use std::ptr::addr_of;

/// Bytes that each say where they stand. Taken for a struct, they have in the first byte of each
/// field the place at which the field begins: `offset_of!` is not in Rust 1.63. No struct that
/// crosses has more bytes, and a field behind them would not build.
#[repr(C, align(8))]
struct Places([u8; 256]);

const PLACES: Places = {
    let mut places = [0; 256];
    let mut place = 0;
    while place < places.len() {
        places[place] = place as u8;
        place += 1;
    }
    Places(places)
};

/// The place that stands in the first byte of a field.
///
/// # Safety
///
/// The field is one of a struct that [`PLACES`] was taken for.
const unsafe fn begin<T>(field: *const T) -> usize {
    *field.cast::<u8>() as usize
}

const fn bytes<T>(_field: *const T) -> usize {
    size_of::<T>()
}

macro_rules! lies {
    ($type:ty, $size:literal: $($field:ident $begin:literal..$end:literal),+) => {
        const _: () = {
            assert!(size_of::<$type>() == $size);
            let places = &PLACES as *const Places as *const $type;
            $(
                // SAFETY: the fields are numbers, for which any bits are a value; they lie within
                // the places, which are aligned as the widest of them.
                let (field, found) = unsafe {
                    let field = addr_of!((*places).$field);
                    (field, begin(field))
                };
                assert!(found == $begin && found + bytes(field) == $end, stringify!($field));
            )+
        };
    };
}

lies!(Refusal, 24: number 0..4, first 8..16, second 16..24);
lies!(BBoxZ, 64: xmin 0..8, ymin 8..16, xmax 16..24, ymax 24..32,
    zmin 32..40, zmax 40..48, mmin 48..56, mmax 56..64);
lies!(Header, 80: file_length 0..4, version 4..8, shape_type 8..12, bbox 16..80);
lies!(HeaderRead, 104: refusal 0..24, header 24..104);
lies!(RecordHeader, 8: record_number 0..4, content_length 4..8);
lies!(RecordHeaderRead, 32: refusal 0..24, header 24..32);
lies!(IndexEntry, 8: offset 0..4, content_length 4..8);
lies!(IndexEntryRead, 32: refusal 0..24, entry 24..32);
lies!(Point, 32: x 0..8, y 8..16, z 16..24, m 24..32);
lies!(BBox, 32: xmin 0..8, ymin 8..16, xmax 16..24, ymax 24..32);
lies!(Range, 16: low 0..8, high 8..16);
lies!(Body, 80: bbox 0..32, z_range 32..48, m_range 48..64, parts 64..72, points 72..80);
lies!(RecordRead, 152: refusal 0..24, code 24..28, form 28..32, has_m 32..36,
    point 40..72, body 72..152);
lies!(Totals, 24: records 0..8, parts 8..16, points 16..24);
lies!(PairChecked, 48: refusal 0..24, totals 24..48);
lies!(State, 80: words 0..4, number 4..8, kind 8..12, points 12..16, bbox 16..80);
lies!(Added, 112: refusal 0..24, bytes 24..32, state 32..112);
lies!(Finished, 224: refusal 0..24, shp 24..124, shx 124..224);
lies!(Told, 32: refusal 0..24, value 24..32);
