//! Document 01's stand-ins for methods of f64 and of slices, which build.rs puts into the original.

/// `a` where b < a, else `b`.
pub fn max(a: f64, b: f64) -> f64 {
    if b < a {
        a
    } else {
        b
    }
}

/// `a` where a < b, else `b`.
pub fn min(a: f64, b: f64) -> f64 {
    if a < b {
        a
    } else {
        b
    }
}

/// Compares with `low`, then with `high`.
pub fn clamp(x: f64, low: f64, high: f64) -> f64 {
    if x < low {
        low
    } else if high < x {
        high
    } else {
        x
    }
}

/// For `partition_point`.
pub fn count_below(entries: &[f64], s: f64) -> usize {
    entries.iter().filter(|&&entry| entry < s).count()
}
