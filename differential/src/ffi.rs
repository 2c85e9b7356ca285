//! The library, as include/outline.h declares it, in its order.

use crate::curves::Flat;

/// `outline_answer`: place, count, subpaths, recut.
pub type Answer = [u64; 4];

/// Each signature makes the declaration of `outline_` and its name, in which a slice is a pointer and
/// then a length, and a safe function that lends its slices so.
macro_rules! library {
    ($($(#[$attribute:meta])* fn $name:ident($($parameters:tt)*) -> $result:ty;)*) => {$(
        $(#[$attribute])*
        pub fn $name($($parameters)*) -> $result {
            library!(@call ($name -> $result) [$($parameters)*,] declared [] passed [])
        }
    )*};

    // One parameter after the other is declared and passed.
    (@call $function:tt [$slice:ident: &[$entry:ty], $($rest:tt)*]
        declared [$($declared:tt)*] passed [$($passed:tt)*]) => {
        library!(@call $function [$($rest)*]
            declared [$($declared)* $slice: *const $entry, _: usize,]
            passed [$($passed)* $slice.as_ptr(), $slice.len(),])
    };
    (@call $function:tt [$slice:ident: &mut [$entry:ty], $($rest:tt)*]
        declared [$($declared:tt)*] passed [$($passed:tt)*]) => {
        library!(@call $function [$($rest)*]
            declared [$($declared)* $slice: *mut $entry, _: usize,]
            passed [$($passed)* $slice.as_mut_ptr(), $slice.len(),])
    };
    // A reference that is no slice is a pointer, and declared as it is.
    (@call $function:tt [$other:ident: $type:ty, $($rest:tt)*]
        declared [$($declared:tt)*] passed [$($passed:tt)*]) => {
        library!(@call $function [$($rest)*]
            declared [$($declared)* $other: $type,]
            passed [$($passed)* $other,])
    };
    (@call ($name:ident -> $result:ty) []
        declared [$($declared:tt)*] passed [$($passed:tt)*]) => {{
        extern "C" {
            #[link_name = concat!("outline_", stringify!($name))]
            fn exported($($declared)*) -> $result;
        }
        // SAFETY: a slice brings its length, and a mutable reference overlaps nothing.
        unsafe { exported($($passed)*) }
    }};
}

library! {
    /// The square root.
    fn root(x: f64) -> f64;

    /// The length of a vector.
    fn len(x: f64, y: f64, length: &mut f64, answer: &mut Answer) -> u32;

    /// The point of a cubic at t.
    fn cubic_at(c: &Flat, t: f64, point: &mut [f64; 2], answer: &mut Answer) -> u32;

    /// The points of n equal steps along a cubic.
    fn sample(c: &Flat, n: usize, out: &mut [f64], answer: &mut Answer) -> u32;

    /// The cubics before t and after it.
    fn split_cubic(c: &Flat, t: f64, before: &mut [f64], after: &mut [f64],
                   answer: &mut Answer) -> u32;

    /// The part of a cubic between two parameters.
    fn subsegment(c: &Flat, from: f64, to: f64, out: &mut [f64], answer: &mut Answer) -> u32;

    /// A drawing's path with its corners cut.
    fn cut_corners(shapes: &[u32], anchors: &[f64], radii: &[f64], kind: u32,
                   to_shapes: &mut [u32], to: &mut [f64], answer: &mut Answer) -> u32;

    /// The cut cache of a drawing.
    fn build(shapes: &[u32], anchors: &[f64], radii: &[f64], kind: u32,
             numbers: &mut [f64], flags: &mut [u32], answer: &mut Answer) -> u32;

    /// The cut path that a cache keeps.
    fn assemble(shapes: &[u32], numbers: &[f64], flags: &[u32],
                to_shapes: &mut [u32], to: &mut [f64], answer: &mut Answer) -> u32;

    /// An anchor of a drawing moved, and its cache recut.
    #[allow(clippy::too_many_arguments)]
    fn move_anchor(shapes: &[u32], anchors: &mut [f64], radii: &[f64], kind: u32,
                   numbers: &mut [f64], flags: &mut [u32],
                   s: usize, i: usize, anchor: &[f64; 6], answer: &mut Answer) -> u32;

    /// The radius of an anchor set, and its drawing's cache recut.
    #[allow(clippy::too_many_arguments)]
    fn set_radius(shapes: &[u32], anchors: &[f64], radii: &mut [f64], kind: u32,
                  numbers: &mut [f64], flags: &mut [u32],
                  s: usize, i: usize, radius: f64, answer: &mut Answer) -> u32;

    /// A segment of a drawing cut in two at t, and its cache recut.
    #[allow(clippy::too_many_arguments)]
    fn split_segment(shapes: &mut [u32], anchors: &mut [f64], radii: &mut [f64], kind: u32,
                     numbers: &mut [f64], flags: &mut [u32],
                     s: usize, a: usize, t: f64, answer: &mut Answer) -> u32;

    /// The cache of a drawing built, then a list of those edits run.
    #[allow(clippy::too_many_arguments)]
    fn replay(shapes: &mut [u32], anchors: &mut [f64], radii: &mut [f64], kind: u32,
              numbers: &mut [f64], flags: &mut [u32],
              codes: &[u32], values: &[f64], answers: &mut [u32], answer: &mut Answer) -> u32;

    /// The corners of a path that can be cut.
    fn path_corners(shapes: &[u32], anchors: &[f64],
                    places: &mut [u32], numbers: &mut [f64], answer: &mut Answer) -> u32;

    /// A number as text.
    fn write_num(x: f64, out: &mut [u8], answer: &mut Answer) -> u32;

    /// A path as SVG path data.
    fn to_svg_d(shapes: &[u32], anchors: &[f64], out: &mut [u8], answer: &mut Answer) -> u32;

    /// A segment of a path cut in two at t.
    fn split(shapes: &mut [u32], anchors: &mut [f64],
             s: usize, a: usize, t: f64, answer: &mut Answer) -> u32;

    /// A subpath of a drawing in the other direction.
    fn reversed(shapes: &[u32], anchors: &mut [f64], radii: &[f64],
                s: usize, answer: &mut Answer) -> u32;

    /// A path being drawn joined onto an end of a subpath.
    #[allow(clippy::too_many_arguments)]
    fn join(drawn: &[f64], drawn_count: usize, target: &[f64], target_word: u32, at_start: u32,
            to_shapes: &mut [u32], to: &mut [f64], answer: &mut Answer) -> u32;

    /// Anchors of a path deleted, and every subpath that is then too short.
    fn delete(shapes: &mut [u32], anchors: &mut [f64], which: &[u32], answer: &mut Answer) -> u32;

    /// The nearest anchor to a point.
    fn hit_anchor(shapes: &[u32], anchors: &[f64],
                  x: f64, y: f64, tol: f64, answer: &mut Answer) -> u32;

    /// The nearest segment to a point.
    fn hit_segment(shapes: &[u32], anchors: &[f64],
                   x: f64, y: f64, tol: f64, t: &mut f64, answer: &mut Answer) -> u32;

    /// The box around a path.
    fn bounds(shapes: &[u32], anchors: &[f64], corners: &mut [f64; 4], answer: &mut Answer) -> u32;

    /// A path under an affine map.
    fn transform(shapes: &[u32], anchors: &[f64], m: &[f64; 6],
                 to_shapes: &mut [u32], to: &mut [f64], answer: &mut Answer) -> u32;

    /// An anchor's handles made smooth.
    fn auto_smooth(shapes: &[u32], anchors: &mut [f64],
                   s: usize, k: usize, answer: &mut Answer) -> u32;

    /// A segment bent so that its point at t moves.
    #[allow(clippy::too_many_arguments)]
    fn bend_segment(shapes: &[u32], anchors: &mut [f64], s: usize, a: usize,
                    t: f64, dx: f64, dy: f64, keep_smooth: u32, answer: &mut Answer) -> u32;

    /// The rectangle of two opposite corners.
    #[allow(clippy::too_many_arguments)]
    fn rect(ax: f64, ay: f64, bx: f64, by: f64, radius: f64,
            to_shapes: &mut [u32], to: &mut [f64], answer: &mut Answer) -> u32;

    /// The ellipse in the box of two opposite corners.
    fn ellipse(ax: f64, ay: f64, bx: f64, by: f64,
               to_shapes: &mut [u32], to: &mut [f64], answer: &mut Answer) -> u32;

    /// The line between two points.
    fn line(ax: f64, ay: f64, bx: f64, by: f64,
            to_shapes: &mut [u32], to: &mut [f64], answer: &mut Answer) -> u32;

    /// A job file read into a drawing's lists.
    fn read(bytes: &[u8], shapes: &mut [u32], anchors: &mut [f64], radii: &mut [f64],
            answer: &mut Answer) -> u32;

    /// What the program patch prints for a job file.
    fn print(job: &[u8], line: &mut [u8; 65_536]) -> usize;
}
