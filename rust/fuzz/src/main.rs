//! A target of libFuzzer: a session's bytes are run by the model, by the port and, where it is
//! linked, by the proved library, and each run is previewed first. Any difference in report, replies
//! or tables aborts, with the smallest case printed. `tools/fuzz` builds and runs it; `docs/TESTING.md`
//! says what guides it.

#![no_main]

use calls::{Library, Step, KINDS};
use compare::case::{Act, Case};
use compare::cells::Counts;
use compare::shrink::{print, shrink};
use model::codec::{self, MARK, MAX_SESSION};
use model::generate::{any_step, step_for};
use model::prng::Prng;
use model::rules;
use model::state::State;

/// Prints the smallest case and aborts where library and model differ.
fn try_run(name: &str, library: &impl Library, case: &Case) {
    if case.differs(library, &mut Counts::default()).is_some() {
        let (small, found) = shrink(case, library);
        eprintln!(
            "{name} differs from the model:\n{}",
            print(&small, found.as_ref())
        );
        std::process::abort();
    }
}

/// Runs a session from fresh tables: with budget and list enough, then with as little of both as its
/// last bytes say, at most a few records more than a preview takes. The port, which knows the first
/// kinds alone, runs it up to a record of another.
#[no_mangle]
pub extern "C" fn LLVMFuzzerTestOneInput(data: *const u8, size: usize) -> i32 {
    // SAFETY: libFuzzer lends `size` bytes.
    let session = unsafe { std::slice::from_raw_parts(data, size) };
    let (last, before) = (session.last(), session.iter().nth_back(1));
    let few = (
        u32::from(last.copied().unwrap_or(0)) % 20,
        usize::from(before.copied().unwrap_or(0)) % 60,
    );
    let known = known_part(session, port::Port.kinds());
    for (budget, list) in [(16_384, 3 * 5_460), few] {
        let case = |session: &[u8]| {
            Case::fresh(Act::Run {
                session: session.to_vec(),
                budget,
                list,
            })
        };
        try_run("the port", &port::Port, &case(known));
        #[cfg(feature = "library")]
        try_run("the library", &proved::Proved, &case(session));
    }
    0
}

/// A session up to its first record of a kind after this one.
fn known_part(session: &[u8], kinds: u8) -> &[u8] {
    let mut known = MARK.len().min(session.len());
    while let Ok((step, length)) = codec::decode(&session[known..]) {
        if step.kind() > kinds {
            return &session[..known];
        }
        known += length;
    }
    session
}

extern "C" {
    /// libFuzzer's own mutation of bytes.
    fn LLVMFuzzerMutate(data: *mut u8, size: usize, most: usize) -> usize;
}

/// Half of the inputs are mutated as bytes, half as lists of steps: one put in that fits the state
/// there, left out, doubled, or exchanged with another.
#[no_mangle]
pub extern "C" fn LLVMFuzzerCustomMutator(
    data: *mut u8,
    size: usize,
    most: usize,
    seed: u32,
) -> usize {
    let mut rng = Prng::new(u64::from(seed));
    // SAFETY: libFuzzer lends `size` bytes, with room for `most`.
    let session = unsafe { std::slice::from_raw_parts(data, size) };
    let steps = if rng.chance(50) {
        steps_of(session)
    } else {
        None
    };
    let Some(mut steps) = steps else {
        // SAFETY: the same bytes and room.
        return unsafe { LLVMFuzzerMutate(data, size, most) };
    };
    for _ in 0..rng.between(1, 4) {
        let at = rng.index(steps.len() + 1);
        match rng.below(6) {
            0 if at < steps.len() => drop(steps.remove(at)),
            1 if at < steps.len() => steps.insert(at, steps[at]),
            2 if at + 1 < steps.len() => steps.swap(at, at + 1),
            3 => steps.insert(at, any_step(&mut rng, KINDS)),
            _ => {
                let mut state = State::fresh();
                for &step in &steps[..at] {
                    rules::step(&mut state, step);
                }
                steps.insert(at, step_for(&mut rng, &state, KINDS));
            }
        }
    }
    let mut bytes = codec::session(&steps);
    bytes.truncate(most.min(MAX_SESSION));
    // SAFETY: at most `most` bytes are written, and libFuzzer lends room for so many.
    unsafe { std::ptr::copy_nonoverlapping(bytes.as_ptr(), data, bytes.len()) };
    bytes.len()
}

/// The steps of a session up to its first bad record; none without the mark.
fn steps_of(session: &[u8]) -> Option<Vec<Step>> {
    let mut rest = session.strip_prefix(&MARK)?;
    let mut steps = Vec::new();
    while let Ok((step, length)) = codec::decode(rest) {
        steps.push(step);
        rest = &rest[length..];
    }
    Some(steps)
}
