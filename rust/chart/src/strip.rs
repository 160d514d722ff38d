//! Bars: for each entry a value that changes with the steps, drawn as lanes of neighbouring entries that have always the same.

use std::ops::Range;

/// Entries of the store.
pub const ENTRIES: u16 = 256;

/// Neighbouring entries, none of them twice: the first, and one after the last.
pub type Entries = Range<u16>;

/// A value for each entry, step after step. Step 0 is before the first.
pub struct History<T> {
    /// For each step that changed something, the values after it: as runs of neighbours, each by its first entry.
    changes: Vec<(usize, Vec<(u16, T)>)>,
}

/// A part of a strip that has one value from one step to another.
#[derive(Clone, Debug, PartialEq, Eq)]
pub struct Block<T> {
    /// Its lanes.
    pub lanes: Range<usize>,
    /// The step that gave it the value.
    pub from: usize,
    /// The step that took it away; none if it has it at the end.
    pub to: Option<usize>,
    /// The value.
    pub value: T,
}

impl<T: Clone + PartialEq> History<T> {
    /// That of these values at first.
    pub fn new(values: impl Fn(u8) -> T) -> History<T> {
        let mut history = History {
            changes: Vec::new(),
        };
        history.put(0, values);
        history
    }

    /// The values after a step.
    pub fn put(&mut self, step: usize, values: impl Fn(u8) -> T) {
        let mut runs: Vec<(u16, T)> = Vec::new();
        for entry in 0..=255 {
            let value = values(entry);
            if runs.last().map_or(true, |(_, last)| *last != value) {
                runs.push((entry.into(), value));
            }
        }
        if self.changes.last().map_or(true, |(_, last)| *last != runs) {
            self.changes.push((step, runs));
        }
    }

    /// The lanes: entries that have the same value at every step, and between which none of `cuts` lies; those that never have another
    /// value than `none` are left out.
    pub fn lanes(&self, cuts: &[u16], none: Option<&T>) -> Vec<Entries> {
        let mut begins = vec![false; usize::from(ENTRIES)];
        let mut shown = vec![none.is_none(); usize::from(ENTRIES)];
        for cut in cuts {
            begins[usize::from(*cut)] = true;
        }
        for (_, runs) in &self.changes {
            let ends = runs[1..].iter().map(|(first, _)| *first).chain([ENTRIES]);
            for ((first, value), end) in runs.iter().zip(ends) {
                begins[usize::from(*first)] = true;
                if Some(value) != none {
                    shown[usize::from(*first)..usize::from(end)].fill(true);
                }
            }
        }
        let mut lanes: Vec<Entries> = Vec::new();
        for entry in 0..ENTRIES {
            match lanes.last_mut() {
                Some(lane) if !begins[usize::from(entry)] => lane.end += 1,
                _ => lanes.push(entry..entry + 1),
            }
        }
        lanes.retain(|lane| shown[usize::from(lane.start)]);
        lanes
    }

    /// The blocks of these lanes, which are some of those above: neighbours that have the same value over the same steps are one block.
    pub fn blocks(&self, lanes: &[Entries]) -> Vec<Block<T>> {
        let mut blocks = Vec::new();
        let (_, first) = &self.changes[0];
        let mut now: Vec<(usize, T)> = values(first, lanes).map(|value| (0, value)).collect();
        for (step, runs) in &self.changes[1..] {
            let next = values(runs, lanes).collect::<Vec<T>>();
            close(&mut blocks, lanes, &now, |lane| {
                (now[lane].1 != next[lane]).then_some(Some(*step))
            });
            for (lane, value) in next.into_iter().enumerate() {
                if now[lane].1 != value {
                    now[lane] = (*step, value);
                }
            }
        }
        close(&mut blocks, lanes, &now, |_| Some(None));
        blocks
    }
}

/// The value of each lane.
fn values<'a, T: Clone>(
    runs: &'a [(u16, T)],
    lanes: &'a [Entries],
) -> impl Iterator<Item = T> + 'a {
    let mut at = 0;
    lanes.iter().map(move |lane| {
        while runs
            .get(at + 1)
            .is_some_and(|(first, _)| *first <= lane.start)
        {
            at += 1;
        }
        runs[at].1.clone()
    })
}

/// Adds the blocks of the lanes that end, each with its step: neighbours with the same beginning and value together.
fn close<T: Clone + PartialEq>(
    blocks: &mut Vec<Block<T>>,
    lanes: &[Entries],
    now: &[(usize, T)],
    ends: impl Fn(usize) -> Option<Option<usize>>,
) {
    let before = blocks.len();
    for lane in 0..lanes.len() {
        let Some(to) = ends(lane) else { continue };
        let (from, value) = now[lane].clone();
        if let Some(last) = blocks[before..].last_mut() {
            let touches = last.lanes.end == lane && lanes[lane - 1].end == lanes[lane].start;
            if touches && last.from == from && last.value == value {
                last.lanes.end += 1;
                continue;
            }
        }
        blocks.push(Block {
            lanes: lane..lane + 1,
            from,
            to,
            value,
        });
    }
}

#[cfg(test)]
mod tests {
    use super::*;

    /// 7 over 40 to 59 from step 1 on, 8 over 40 to 49 from step 3 on.
    fn sample() -> History<u32> {
        let mut history = History::new(|_| 0);
        history.put(1, |entry| if (40..60).contains(&entry) { 7 } else { 0 });
        history.put(2, |entry| if (40..60).contains(&entry) { 7 } else { 0 });
        history.put(3, |entry| match entry {
            40..=49 => 8,
            50..=59 => 7,
            _ => 0,
        });
        history
    }

    #[test]
    fn lanes_are_entries_that_have_always_the_same() {
        let history = sample();
        assert_eq!(history.lanes(&[], None), [0..40, 40..50, 50..60, 60..256]);
        assert_eq!(history.lanes(&[], Some(&0)), [40..50, 50..60]);
        assert_eq!(
            history.lanes(&[55, 128], Some(&0)),
            [40..50, 50..55, 55..60]
        );
        assert_eq!(History::new(|_| 0).lanes(&[], Some(&0)), []);
        let all = History::new(|_| 0).lanes(&[], None);
        assert_eq!((all.len(), &all[0]), (1, &(0..256)));
    }

    #[test]
    fn blocks_are_as_large_as_they_can_be() {
        let history = sample();
        let block = |lanes, from, to, value| Block {
            lanes,
            from,
            to,
            value,
        };
        let lanes = history.lanes(&[], None);
        assert_eq!(
            history.blocks(&lanes),
            [
                block(1..3, 0, Some(1), 0),
                block(1..2, 1, Some(3), 7),
                block(0..1, 0, None, 0),
                block(1..2, 3, None, 8),
                block(2..3, 1, None, 7),
                block(3..4, 0, None, 0),
            ]
        );
        // entries between two lanes part them
        let mut apart = History::new(|_| 0);
        apart.put(1, |entry| u32::from(entry == 3 || entry == 5));
        let lanes = apart.lanes(&[], Some(&0));
        assert_eq!(lanes, [3..4, 5..6]);
        assert_eq!(
            apart.blocks(&lanes),
            [
                block(0..1, 0, Some(1), 0),
                block(1..2, 0, Some(1), 0),
                block(0..1, 1, None, 1),
                block(1..2, 1, None, 1)
            ]
        );
    }
}
