//! Runs of points: the first so many of a store of x and of one of y. The points as pairs, whether a
//! run is closed, closing it, and which way it turns.

use crate::error::Error;
use crate::ffi;

/// Which way a ring turns.
#[derive(Debug, Clone, Copy, PartialEq, Eq)]
pub enum RingType {
    /// Clockwise, or without an area: it bounds a surface.
    OuterRing,
    /// Counterclockwise: it bounds a hole.
    InnerRing,
}

/// The points of two stores, as pairs of x and y; as many as the shorter one has, where they differ
/// in length.
///
/// It costs nothing: it is one iterator over each store, side by side. Nothing is allocated, no store
/// is copied, and a pair is put together of two numbers where it is asked for.
///
/// ```
/// use mbenaruul::points;
///
/// let (x, y) = ([0.0, 9.0, 9.0], [4.0, 4.0, 8.0]);
/// assert!(points(&x, &y).eq([[0.0, 4.0], [9.0, 4.0], [9.0, 8.0]]));
/// assert_eq!(points(&x, &y).len(), 3);
/// assert_eq!(points(&x, &y).next_back(), Some([9.0, 8.0]));
/// ```
pub fn points<'a>(
    x: &'a [f64],
    y: &'a [f64],
) -> impl DoubleEndedIterator<Item = [f64; 2]> + ExactSizeIterator + Clone + 'a {
    x.iter().zip(y).map(|(&x, &y)| [x, y])
}

/// Whether the run of the first n points has a first point and it equals the last. Refusal: 10 where
/// x or y has fewer than n.
pub fn is_part_closed(x: &[f64], y: &[f64], n: usize) -> Result<bool, Error> {
    told(ffi::is_part_closed(x, y, n))
}

/// Which way the first n points turn. Refusal: 10 where x or y has fewer than n.
pub fn ring_type_from_points_ordering(x: &[f64], y: &[f64], n: usize) -> Result<RingType, Error> {
    let inner = told(ffi::ring_type_from_points_ordering(x, y, n))?;
    Ok(if inner {
        RingType::InnerRing
    } else {
        RingType::OuterRing
    })
}

/// The run of the first n points, with its first point appended where it has a point and is not
/// closed: all x and all y of it, and nothing that stood behind it. Refusal: 10 where x or y has
/// fewer than n.
pub fn close_points_if_not_already(
    mut x: Vec<f64>,
    mut y: Vec<f64>,
    n: usize,
) -> Result<(Vec<f64>, Vec<f64>), Error> {
    let mut closed = ffi::close_points_if_not_already(&mut x, &mut y, n);
    if let Err(Error::Room { second: points, .. }) = closed.refusal.into_result() {
        // a closed run is not grown, and neither is a store with room behind the run
        x.resize(points, 0.0);
        y.resize(points, 0.0);
        closed = ffi::close_points_if_not_already(&mut x, &mut y, n);
    }
    closed.refusal.into_result()?;
    x.truncate(closed.value);
    y.truncate(closed.value);
    Ok((x, y))
}

fn told(answer: ffi::Told) -> Result<bool, Error> {
    answer.refusal.into_result()?;
    Ok(ffi::flag(answer.value))
}

#[cfg(test)]
mod tests {
    use super::*;

    /// What the library says of closing the first n points, and both stores behind it.
    fn close(x: &[f64], y: &[f64], n: usize) -> (Result<usize, Error>, Vec<f64>, Vec<f64>) {
        let (mut x, mut y) = (x.to_vec(), y.to_vec());
        let told = ffi::close_points_if_not_already(&mut x, &mut y, n);
        let points = told.refusal.into_result().map(|()| told.value);
        (points, x, y)
    }

    #[test]
    fn a_run_past_either_store_is_10_before_6_and_a_refusal_touches_neither() {
        // every run of more than one point is open, but that of five
        let (all_x, all_y) = ([1., 2., 3., 1., 1., 6.], [7., 8., 9., 8., 7., 5.]);
        for x in (0..=6).map(|length| &all_x[..length]) {
            for y in (0..=6).map(|length| &all_y[..length]) {
                for n in (0..=8).chain([usize::MAX / 2, usize::MAX]) {
                    let is_past = n > x.len() || n > y.len();
                    let is_closed = n == 1 || n == 5;
                    let (points, x_after, y_after) = close(x, y, n);
                    let (mut expected_x, mut expected_y) = (x.to_vec(), y.to_vec());
                    if is_past {
                        assert_eq!(points, Err(Error::Tables));
                        assert_eq!(is_part_closed(x, y, n), Err(Error::Tables));
                        let turning = ring_type_from_points_ordering(x, y, n);
                        assert_eq!(turning, Err(Error::Tables));
                    } else if n == 0 || is_closed {
                        assert_eq!(points, Ok(n));
                        assert_eq!(is_part_closed(x, y, n), Ok(is_closed));
                    } else if n == x.len() || n == y.len() {
                        let (first, second) = (0, n + 1);
                        assert_eq!(points, Err(Error::Room { first, second }));
                    } else {
                        assert_eq!(points, Ok(n + 1));
                        (expected_x[n], expected_y[n]) = (x[0], y[0]);
                    }
                    assert_eq!((x_after, y_after), (expected_x, expected_y), "{n}");
                }
            }
        }
    }
}
