//! Makes a failing list of steps shorter and simpler.

use calls::{Fields, Range, Reply, Step};

use crate::reply::code;

/// What came of a list.
pub struct Outcome {
    /// Whether it still fails.
    pub failed: bool,
    /// The replies to its steps.
    pub replies: Vec<Reply>,
}

/// The smallest failing list that is found by leaving out steps and making their numbers smaller.
/// `attempt` plays a list.
pub fn shrink(steps: &[Step], attempt: impl Fn(&[Step]) -> Outcome) -> Vec<Step> {
    let mut best = steps.to_vec();
    loop {
        let smaller = simplify(leave_out(best.clone(), &attempt), &attempt);
        if smaller == best {
            return best;
        }
        best = smaller;
    }
}

/// Leaves out ever smaller parts of the list, as long as it fails without them.
fn leave_out(mut best: Vec<Step>, attempt: &impl Fn(&[Step]) -> Outcome) -> Vec<Step> {
    let mut size = best.len().div_ceil(2);
    while size > 0 {
        let mut begin = 0;
        while begin < best.len() {
            let end = (begin + size).min(best.len());
            let candidate = without(&best, begin..end, &attempt(&best).replies);
            if attempt(&candidate).failed {
                best = candidate;
            } else {
                begin = end;
            }
        }
        size /= 2;
    }
    best
}

/// The list without a part of it. The serials issued there are taken out of the later steps: those
/// that name them go too, and higher serials move down.
fn without(steps: &[Step], part: std::ops::Range<usize>, replies: &[Reply]) -> Vec<Step> {
    let mut removed: Vec<u32> = replies
        .get(part.clone())
        .unwrap_or(&[])
        .iter()
        .filter(|reply| reply.code == code::ISSUED)
        .map(|reply| reply.a)
        .collect();
    removed.sort_unstable();
    removed.dedup();
    let renumber = |serial: u32| match removed.binary_search(&serial) {
        Ok(_) => None,
        Err(below) => Some(serial.saturating_sub(below as u32)),
    };
    let mut rest = Vec::with_capacity(steps.len());
    for (at, &step) in steps.iter().enumerate() {
        if part.contains(&at) {
            continue;
        }
        // A step without a serial has 0, which is never issued.
        let fields = Fields::from(step);
        let kept = renumber(fields.serial).map(|serial| Fields { serial, ..fields });
        rest.extend(kept.and_then(Step::of_its_fields));
    }
    rest
}

/// Makes the numbers of single steps smaller, as long as the list still fails.
fn simplify(mut best: Vec<Step>, attempt: &impl Fn(&[Step]) -> Outcome) -> Vec<Step> {
    for at in 0..best.len() {
        for simpler in simpler_steps(best[at]) {
            let mut candidate = best.clone();
            candidate[at] = simpler;
            if attempt(&candidate).failed {
                best = candidate;
                break;
            }
        }
    }
    best
}

/// Narrower ranges and smaller values, the simplest first. A step without a range has none that is
/// narrower.
fn simpler_steps(step: Step) -> Vec<Step> {
    let fields = Fields::from(step);
    let mut simpler: Vec<Fields> = narrower(Range::new(fields.entry, fields.high))
        .into_iter()
        .map(|Range { low: entry, high }| Fields {
            entry,
            high,
            ..fields
        })
        .collect();
    if fields.value > 1 {
        simpler.push(Fields { value: 1, ..fields });
    }
    simpler
        .into_iter()
        .filter_map(Step::of_its_fields)
        .collect()
}

/// Ranges inside a range: its entries alone if they are few, its halves, and all but one end.
fn narrower(range: Range) -> Vec<Range> {
    let (low, high) = (range.low, range.high);
    let width = high.saturating_sub(u16::from(low));
    if width < 2 {
        return Vec::new();
    }
    let mut ranges: Vec<Range> = Vec::new();
    if width <= 8 {
        ranges.extend(
            (low..=u8::MAX)
                .take(usize::from(width))
                .map(|entry| Range::new(entry, u16::from(entry) + 1)),
        );
    }
    let middle = u16::from(low) + width / 2;
    ranges.push(Range::new(low, middle));
    if let Ok(middle) = u8::try_from(middle) {
        ranges.push(Range::new(middle, high));
    }
    ranges.push(Range::new(low, high - 1));
    if let Some(next) = low.checked_add(1) {
        ranges.push(Range::new(next, high));
    }
    ranges
}
