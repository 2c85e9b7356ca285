//! Branches of the original's corner cut, noted by a second copy of it that edits/branches.rs puts
//! notes into: that a run has met each is counted, not hoped for.

use crate::family::Family;
use std::cell::Cell;

macro_rules! branches {
    ($($branch:ident $group:literal $name:literal)*) => {
        #[derive(Clone, Copy)]
        pub enum Branch {
            $($branch),*
        }

        /// In the order of the branches.
        pub const FAMILIES: &[Family] = &[$(($group, $name)),*];
    };
}

branches! {
    OpenEnd "corner" "open end"
    Smooth "corner" "smooth"
    NoDirection "corner" "no direction"
    ShortSide "corner" "side too short"
    NoAngle "corner" "sin <= 1e-6"
    Corner "corner" "found"

    RoomHalfway "fitting" "halfway"
    RoomToNeighbour "fitting" "up to the neighbour's cut"
    OwnFits "fitting" "own fits"
    BesideLimits "fitting" "beside limits"
    BesideTooSmall "fitting" "beside <= 1e-9"
    FittedTooSmall "fitting" "fitted <= 1e-9"
    Cut "fitting" "cut"

    RoundStraight "handles" "round, straight sides"
    RoundTangents "handles" "round, tangents"
    RoundThird "handles" "round, a third"
    TangentsParallel "handles" "tangents parallel"
    TangentsApart "handles" "tangents apart"
    TangentsNotFinite "handles" "tangents not finite"
    Inverted "handles" "inverted"
    NoSquare "handles" "nothing square"
    Chamfer "handles" "chamfer"
    Kappa "handles" "KAPPA"
    Arc "handles" "arc"
    ArcClamped "handles" "arc, cos clamped"

    AlongStraight "at_length" "straight"
    AlongCurve "at_length" "curve"
    PastTable "at_length" "past the table's end"
    LastChordZero "at_length" "last chord 0"
    CurveStops "at_length" "curve stops"

    Untouched "segment" "untouched"
    TrimmedStraight "segment" "straight, trimmed"
    TrimmedAtStart "segment" "curve, trimmed at its start"
    TrimmedAtEnd "segment" "curve, trimmed at its end"
    TrimmedTwice "segment" "curve, trimmed twice"
    CutsPass "segment" "cuts pass each other"
    NothingLeft "segment" "t1 <= 1e-9"
    Closing "segment" "closed, anchor 0 cut"
}

thread_local! {
    /// A bit for each branch.
    static REACHED: Cell<u64> = const { Cell::new(0) };
}

pub fn reach(branch: Branch) {
    REACHED.set(REACHED.get() | 1 << branch as u32);
}

/// The branches that were reached since this was last asked.
pub fn take() -> impl Iterator<Item = Family> {
    let reached = REACHED.take();
    let numbered = FAMILIES.iter().enumerate();
    numbered.filter_map(move |(k, family)| (reached >> k & 1 == 1).then_some(*family))
}
