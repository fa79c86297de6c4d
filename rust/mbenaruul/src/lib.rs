//! Shapefiles (.shp with .shx) read, written and checked.
//!
//! The work is done by a library that is written in Rattle and proved function by function; this
//! crate hands slices to it and gives vectors back. Every function here may be called with any
//! bytes and any numbers. What is refused comes back as an [`Error`].
//!
//! | to | call |
//! |---|---|
//! | ask whether two files are a pair | [`check_pair`], or [`Verdict::of`] for the line to print |
//! | say why they are not | [`Error::why`], [`Verdict::why`]: a [`Reason`], with its numbers and a text |
//! | read the records of a pair | [`Plan::check`], then [`Plan::record`] or [`Plan::records`] |
//! | write a pair | [`Writer`], with [`Tables::with_true_bbox`] for shapes without a box |
//! | show how far the writing has come | [`Writer::points`], with a line for a progress bar |
//! | write what was read | [`Writer::add_record`], or [`Record::tables`] to change something first |
//! | read a header, an index entry or a record by itself | [`read_header`], [`read_record_header`], [`read_index_entry`], [`read_record`] |
//! | go over points as pairs | [`Shape::points`], [`Multipoint::points`]; [`points`] of any x and y |
//! | test or close rings | [`is_part_closed`], [`close_points_if_not_already`], [`ring_type_from_points_ordering`] |
//!
//! A plan of two shelf runs, written and checked; then two entries of its index are exchanged,
//! which other readers do not notice:
//!
//! ```
//! use mbenaruul::{check_pair, kind, Error, Plan, Record, Tables, Writer};
//!
//! # fn main() -> Result<(), Error> {
//! let mut writer = Writer::new();
//! for y in [0.0, 4.0] {
//!     let run = Tables {
//!         kind: kind::POLYLINE,
//!         counts: &[2], // one part of two points
//!         x: &[0.0, 9.0],
//!         y: &[y, y],
//!         ..Tables::default()
//!     };
//!     writer.add(&run.with_true_bbox())?;
//! }
//! let (shp, mut shx) = writer.finish()?;
//!
//! let plan = Plan::check(&shp, &shx)?;
//! assert_eq!(plan.totals().to_string(), "records=2 parts=2 points=4");
//! match plan.record(2) {
//!     Some(Ok(Record::Parts(run))) => assert!(run.points().eq([[0.0, 4.0], [9.0, 4.0]])),
//!     other => panic!("record 2 is a shelf run, and not {:?}", other),
//! }
//!
//! let (first, second) = shx[100..116].split_at_mut(8);
//! first.swap_with_slice(second);
//! let fault = check_pair(&shp, &shx).unwrap_err();
//! assert_eq!(fault, Error::Fault { rule: 11, record: 1 });
//! let why = fault.why(&shp, &shx).unwrap();
//! assert_eq!(why.to_string(), "record 1: the index says byte 188, the record stands at byte 100");
//! # Ok(())
//! # }
//! ```
//!
//! Kinds are the codes that stand in files, by name in [`kind`]. The coordinates of a shape stand in
//! two stores, all x and all y, in the order of the points, so that one can be gone over without the
//! other; [`points`] gives them as pairs.
//!
//! The turning of rings ([`ring_type_from_points_ordering`]) computes with doubles and assumes the
//! processor's default floating-point mode, as Rust does: round to nearest, and denormal numbers
//! kept (no flush-to-zero, no denormals-are-zero). No other call of the library depends on the
//! mode: whether a ring is closed (P15 too), the header's box and m values are decided on the
//! bits, and so are true boxes ([`Tables::true_bbox`]).

#![deny(missing_docs)]
#![deny(unsafe_code)]

mod error;
mod ffi;
mod header;
pub mod kind;
mod pair;
mod reason;
mod record;
mod rings;
mod writer;

pub use error::Error;
pub use header::{
    read_header, read_index_entry, read_record_header, BBoxZ, Bytes, Header, IndexEntry,
    RecordHeader, Words,
};
pub use pair::{check_pair, Plan, Records, Totals, Verdict};
pub use reason::{Cause, Double, File, Reason};
pub use record::{read_record, BBox, Multipoint, Range, Record, Shape, NO_DATA};
pub use rings::{
    close_points_if_not_already, is_part_closed, points, ring_type_from_points_ordering, RingType,
};
pub use writer::{Tables, Writer};

/// The README's example is compiled with the tests.
#[cfg(doctest)]
#[doc = include_str!("../../../README.md")]
struct Readme;
