//! The kinds of shapes that are taken, by name: the codes that stand in files.

/// No shape: an empty place, which may stand among the records of a file of any kind.
pub const NULL: i32 = 0;
/// A point.
pub const POINT: i32 = 1;
/// Runs of points.
pub const POLYLINE: i32 = 3;
/// Closed runs of points.
pub const POLYGON: i32 = 5;
/// A set of points.
pub const MULTIPOINT: i32 = 8;
/// A point with z and m.
pub const POINT_Z: i32 = 11;
/// Runs of points with z and, unless a file lacks it, m.
pub const POLYLINE_Z: i32 = 13;
/// Closed runs of points with z and, unless a file lacks it, m.
pub const POLYGON_Z: i32 = 15;
/// A set of points with z and, unless a file lacks it, m.
pub const MULTIPOINT_Z: i32 = 18;
/// A point with m.
pub const POINT_M: i32 = 21;
/// Runs of points with, unless a file lacks it, m.
pub const POLYLINE_M: i32 = 23;
/// Closed runs of points with, unless a file lacks it, m.
pub const POLYGON_M: i32 = 25;
/// A set of points with, unless a file lacks it, m.
pub const MULTIPOINT_M: i32 = 28;

/// The name of a kind by ESRI's paper, of a multipatch too, which is not taken; none, where there is no
/// such kind.
pub fn name(kind: i32) -> Option<&'static str> {
    Some(match kind {
        NULL => "Null",
        POINT => "Point",
        POLYLINE => "Polyline",
        POLYGON => "Polygon",
        MULTIPOINT => "Multipoint",
        POINT_Z => "PointZ",
        POLYLINE_Z => "PolylineZ",
        POLYGON_Z => "PolygonZ",
        MULTIPOINT_Z => "MultipointZ",
        POINT_M => "PointM",
        POLYLINE_M => "PolylineM",
        POLYGON_M => "PolygonM",
        MULTIPOINT_M => "MultipointM",
        MULTIPATCH => "Multipatch",
        _ => return None,
    })
}

/// The one kind that is not taken.
const MULTIPATCH: i32 = 31;

/// Of the kinds that have a name: whether it is one of the public constants.
pub(crate) fn is_taken(kind: i32) -> bool {
    name(kind).is_some() && kind != MULTIPATCH
}

/// Whether shapes of a kind have a box and say how many points they have.
pub(crate) fn has_several(kind: i32) -> bool {
    has_parts(kind) || is_multipoint(kind)
}

pub(crate) fn is_multipoint(kind: i32) -> bool {
    matches!(kind, MULTIPOINT | MULTIPOINT_M | MULTIPOINT_Z)
}

pub(crate) fn has_parts(kind: i32) -> bool {
    matches!(kind, POLYLINE | POLYLINE_M | POLYLINE_Z) || has_rings(kind)
}

pub(crate) fn has_rings(kind: i32) -> bool {
    matches!(kind, POLYGON | POLYGON_M | POLYGON_Z)
}

pub(crate) fn has_z(kind: i32) -> bool {
    matches!(kind, POINT_Z | POLYLINE_Z | POLYGON_Z | MULTIPOINT_Z)
}

/// A point of such a kind has m; whether a shape with parts or a multipoint has it is told by its size.
pub(crate) fn has_m(kind: i32) -> bool {
    matches!(kind, POINT_M | POLYLINE_M | POLYGON_M | MULTIPOINT_M) || has_z(kind)
}
