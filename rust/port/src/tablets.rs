//! The tablets: where they begin and end.

/// Whether no boundary stands after `low` and before `high`.
pub fn one_tablet(boundaries: &[u32], low: usize, high: usize) -> bool {
    boundaries[low + 1..high].iter().all(|&b| b == 0)
}

/// The first entry of the tablet that holds `entry`.
pub fn tablet_start(boundaries: &[u32], entry: usize) -> usize {
    (1..=entry).rev().find(|&e| boundaries[e] == 1).unwrap_or(0)
}

/// The entry past the tablet that holds `entry`.
pub fn tablet_limit(boundaries: &[u32], entry: usize) -> usize {
    (entry + 1..256)
        .find(|&e| boundaries[e] == 1)
        .unwrap_or(256)
}
