//! The guard intervals: an entry's guard, and the guards of a range set anew.

/// The guard of an entry: that of the last interval that begins at or before it.
pub fn find_guard(starts: &[u32], guards: &[u32], entry: u32) -> u32 {
    let mut guard = guards[0];
    for (&start, &next) in starts.iter().zip(guards).skip(1) {
        if start == 0 || start > entry {
            return guard;
        }
        guard = next;
    }
    guard
}

/// The first place from `k` on that is not in use or begins at `entry` or later.
fn find_place(starts: &[u32], k: usize, entry: usize) -> usize {
    (k..256)
        .find(|&i| starts[i] == 0 || starts[i] as usize >= entry)
        .unwrap_or(256)
}

/// Replaces the words of a column from `a` up to `b`, of `c` in use, by `items`.
fn splice(column: &mut [u32], a: usize, b: usize, c: usize, items: &[u32]) {
    let tail = a + items.len();
    let end = tail + (c - b);
    column.copy_within(b..c, tail);
    if end < c {
        column[end..c].fill(0);
    }
    column[a..tail].copy_from_slice(items);
}

/// Sets the guard over the entries from `low` up to `high`.
pub fn set_over(store: &mut [u32], low: usize, high: usize, guard: u32) {
    let (starts, guards) = store[256..768].split_at_mut(256);
    let k = find_place(starts, 1, low);
    let b = find_place(starts, k, high + 1);
    let c = find_place(starts, b, 256);
    let last = guards[b - 1];
    // The interval before goes on where it has this guard; where there is none, the first is set anew.
    let (a, start) = if low == 0 || guards[k - 1] == guard {
        (k - 1, starts[k - 1])
    } else {
        (k, low as u32)
    };
    let m = if high == 256 || last == guard { 1 } else { 2 };
    if a + m + (c - b) > 256 {
        return;
    }
    splice(starts, a, b, c, &[start, high as u32][..m]);
    splice(guards, a, b, c, &[guard, last][..m]);
}
