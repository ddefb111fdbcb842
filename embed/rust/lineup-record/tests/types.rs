//! Real types of the standard library, and one with a fault.

use lineup_record::{Failure, check, judge};
use std::collections::VecDeque;
use std::sync::Mutex;
use std::sync::atomic::{AtomicU32, Ordering::SeqCst};

const COUNTER: &str = "object counter\nword n\n\nop inc() {\n    n = n + 1\n    return n\n}\n";
const QUEUE: &str = include_str!("../../../../examples/recorded/queue.lineup");

#[test]
fn a_counter_is_linearizable() {
    check(COUNTER, &["inc", "inc", "inc"], 30_000, || AtomicU32::new(0), |n, _| n.fetch_add(1, SeqCst) + 1).unwrap();
}

#[test]
fn a_counter_that_loses_increments_is_not() {
    // (a load and a store, with some time between them)
    let lost = |n: &AtomicU32, _: &lineup_record::Call| {
        let seen = n.load(SeqCst);
        (0..50).for_each(|_| std::hint::spin_loop());
        n.store(seen + 1, SeqCst);
        seen + 1
    };
    let found = check(COUNTER, &["inc", "inc", "inc"], 1_000_000, || AtomicU32::new(0), lost);
    assert!(matches!(found, Err(Failure::NotLinearizable(_))), "{found:?}");
}

#[test]
fn a_deque_behind_a_mutex_is_a_queue() {
    let make = |queue: &Mutex<VecDeque<u32>>, call: &lineup_record::Call| {
        let mut queue = queue.lock().unwrap();
        match call.name {
            "enqueue" if queue.len() == 63 => 0,
            "enqueue" => {
                queue.push_back(call.arguments[0]);
                1
            }
            _ => queue.pop_front().unwrap_or(0),
        }
    };
    check(QUEUE, &["enqueue 1;dequeue", "enqueue 2;dequeue", "dequeue;enqueue 3"], 30_000, Default::default, make).unwrap();
}

#[test]
fn what_is_no_run_is_refused() {
    assert!(matches!(judge(COUNTER, "run\ncall 0 dec\n"), Err(Failure::NotJudged(_))));
}
