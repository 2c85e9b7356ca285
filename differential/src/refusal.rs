//! Document 01's numbers for a refusal, and its limits.

pub const ACCEPTED: u32 = 0;
/// Too many subpaths or anchors, or a list too short for its shape.
pub const LISTS: u32 = 7;
/// An argument breaks the limit.
pub const ARGUMENTS: u32 = 5;
/// No such subpath, anchor or segment.
pub const REFERENCE: u32 = 6;
/// The result would have more anchors than a path may.
pub const CAPACITY: u32 = 10;
/// The result breaks the limit.
pub const RESULT: u32 = 9;
/// The buffer lent for the result is too short.
pub const OUTPUT: u32 = 8;

pub const LIMIT: f64 = 131_072.0;

/// Steps that `sample` takes at most.
pub const MOST_STEPS: usize = 256;

pub const MOST_SUBPATHS: usize = 32;
/// Anchors of a drawing.
pub const MOST_ANCHORS: usize = 512;
/// Anchors of a path that may be a cut one.
pub const MOST_CUT_ANCHORS: usize = 2 * MOST_ANCHORS;

pub fn in_limit(x: f64) -> bool {
    x.abs() <= LIMIT
}
