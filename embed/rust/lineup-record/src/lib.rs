//! Records runs of a concurrent object on real threads, and judges them by a component that says what
//! the object does when its calls are made one after the other.
//!
//! ```no_run
//! use std::sync::atomic::{AtomicU32, Ordering::SeqCst};
//!
//! const COUNTER: &str = "object counter\nword n\n\nop inc() {\n    n = n + 1\n    return n\n}\n";
//!
//! lineup_record::check(COUNTER, &["inc", "inc"], 10_000, || AtomicU32::new(0), |n, call| match call.name {
//!     "inc" => n.fetch_add(1, SeqCst) + 1,
//!     other => unreachable!("{other}"),
//! })
//! .unwrap();
//! ```
//!
//! A run passes if and only if it is linearizable (Herlihy and Wing, 1990). A run that passes says
//! nothing of runs that were not recorded.
//!
//! Events are ordered by one atomic counter. A thread takes a number before it begins a call, and one
//! after the call has returned, each by a sequentially consistent read-modify-write. So a return that
//! comes before a call in a run happened before it. Two calls that overlap in a run may not have
//! overlapped in fact: that can hide a fault, and can't show one that is not there.

use std::fmt::{self, Write};
use std::hint::spin_loop;
use std::sync::Barrier;
use std::sync::atomic::{AtomicU64, Ordering::SeqCst};
use std::thread;

/// A call, as a thread's line has it.
#[derive(Clone, Debug, PartialEq, Eq)]
pub struct Call<'a> {
    /// The name of an operation of the component.
    pub name: &'a str,

    /// Its arguments: 0 to 4 numbers.
    pub arguments: Vec<u32>,
}

/// Why a check fails.
#[derive(Clone, Debug, PartialEq, Eq)]
pub enum Failure {
    /// A run is not linearizable: what `lineup witness` says of it.
    NotLinearizable(String),

    /// What `lineup witness` refuses, or has no verdict on.
    NotJudged(String),
}

impl fmt::Display for Failure {
    fn fmt(&self, f: &mut fmt::Formatter<'_>) -> fmt::Result {
        match self {
            Failure::NotLinearizable(text) | Failure::NotJudged(text) => f.write_str(text),
        }
    }
}

impl std::error::Error for Failure {}

/// How many calls one run has at most, so that its text has room in 1 MiB.
const MOST_CALLS_OF_RUN: usize = 10_000;

/// The most rounds of spinning before a call, so that calls meet in different ways.
const MOST_SPINS: u32 = 200;

/// A number from 0 to below `limit` (xorshift: Marsaglia, 2003).
fn random(state: &mut u32, limit: u32) -> u32 {
    *state ^= *state << 13;
    *state ^= *state >> 17;
    *state ^= *state << 5;
    *state % limit
}

/// The calls of a line: `put 1;take`.
fn calls_in(line: &str) -> Vec<Call<'_>> {
    line.split(';').filter_map(call_in).collect()
}

fn call_in(part: &str) -> Option<Call<'_>> {
    let mut words = part.split_whitespace();
    let name = words.next()?;
    let arguments = words.map(|word| word.parse().expect("an argument is a number of 32 bits")).collect();
    Some(Call { name, arguments })
}

/// The text of a run in which the threads make `calls` calls in all, each drawn from its thread's line.
/// `seed` decides which calls are drawn, and how long a thread waits before each.
///
/// # Panics
///
/// Where there are not 1 to 8 threads, a line has no call, or an argument is no number.
pub fn record<O: Sync>(
    threads: &[&str],
    calls: usize,
    seed: u32,
    object: &O,
    make: impl Fn(&O, &Call) -> u32 + Sync,
) -> String {
    assert!((1..=8).contains(&threads.len()), "a run has 1 to 8 threads");
    let lines: Vec<Vec<Call>> = threads.iter().map(|line| calls_in(line)).collect();
    assert!(lines.iter().all(|line| !line.is_empty()), "each thread has a call");
    let (clock, start, each) = (AtomicU64::new(0), Barrier::new(threads.len()), calls / threads.len());
    let lines = &lines;
    let thread = |t: usize| {
        let line = &lines[t];
        let mut state = seed.wrapping_mul(2_654_435_761).wrapping_add(40_503 * t as u32 + 1).max(1);
        let mut events = Vec::with_capacity(2 * each);
        start.wait();
        for _ in 0..each {
            let call = &line[random(&mut state, line.len() as u32) as usize];
            for _ in 0..random(&mut state, MOST_SPINS) {
                spin_loop();
            }
            let begun = clock.fetch_add(1, SeqCst);
            let returned = make(object, call);
            let ended = clock.fetch_add(1, SeqCst);
            events.push((begun, t, Ok(call)));
            events.push((ended, t, Err(returned)));
        }
        events
    };
    let thread = &thread;
    let mut events = thread::scope(|scope| {
        let all: Vec<_> = (0..lines.len()).map(|t| scope.spawn(move || thread(t))).collect();
        all.into_iter().flat_map(|it| it.join().expect("no call panics")).collect::<Vec<_>>()
    });
    events.sort_by_key(|event| event.0);
    let mut text = String::from("run\n");
    for (_, t, event) in events {
        match event {
            Ok(call) => {
                write!(text, "call {t} {}", call.name).unwrap();
                call.arguments.iter().for_each(|n| write!(text, " {n}").unwrap());
                text.push('\n');
            }
            Err(returned) => writeln!(text, "return {t} ret {returned}").unwrap(),
        }
    }
    text
}

/// What a run is judged to be, by the serial runs of the component.
///
/// # Errors
///
/// The run is not linearizable; or the component or the run is refused, or a serial run of the
/// component has two outcomes or does not end.
pub fn judge(component: &str, run: &str) -> Result<(), Failure> {
    let newline = if component.ends_with('\n') { "" } else { "\n" };
    let bundle = format!("{component}{newline}---\n{run}");
    let answer = lineup::answer("witness --source --hints", bundle.as_bytes());
    match answer.status {
        0 => Ok(()),
        1 => Err(Failure::NotLinearizable(answer.text)),
        _ => Err(Failure::NotJudged(answer.text)),
    }
}

/// Records runs until `calls` calls were made, and judges each. Each run begins with a new object, has
/// as many threads as there are lines, and up to 10,000 calls, each drawn from its thread's line
/// (`put 1;take`). `make` makes a call, and returns what the operation returns.
///
/// # Errors
///
/// As [`judge`], for the first run that does not pass.
///
/// # Panics
///
/// As [`record`].
pub fn check<O: Sync>(
    component: &str,
    threads: &[&str],
    calls: usize,
    new: impl Fn() -> O,
    make: impl Fn(&O, &Call) -> u32 + Sync,
) -> Result<(), Failure> {
    let mut left = calls.max(threads.len());
    for seed in 1.. {
        let now = left.min(MOST_CALLS_OF_RUN);
        judge(component, &record(threads, now, seed, &new(), &make))?;
        left -= now;
        if left < threads.len() {
            break;
        }
    }
    Ok(())
}
