//! Judges a run by the algorithm of Wing and Gong (1993) with Lowe's memo (2017), in plain Rust: what
//! Porcupine does. It is written for the comparison in docs/BENCHMARKS.md, and nothing is proved of it.
//!
//!     rustc -O wing_gong.rs && ./wing_gong register|queue|lock < RUN
//!
//! A depth-first search makes one operation after the other take effect, among those that no return
//! precedes. What was linearized, as a set of operations, and the state that it led to are kept, so
//! that no pair of the two is searched twice.

use std::collections::{HashMap, HashSet};
use std::io::Read;

#[derive(Clone, PartialEq, Eq, Hash)]
enum State {
    Register(u32),
    Queue(Vec<u32>),
    Lock(bool),
}

#[derive(Clone)]
struct Operation {
    name: String,
    arguments: Vec<u32>,
    /// What it returns; none where it never does.
    returned: Option<u32>,
}

/// The state after the operation, where it may take effect now and return what it returned.
fn step(state: &State, operation: &Operation) -> Option<State> {
    let arguments = &operation.arguments;
    let (new, returned) = match (state, operation.name.as_str()) {
        (State::Register(value), "read") => (State::Register(*value), *value),
        (State::Register(_), "write") => (State::Register(arguments[0]), 0),
        (State::Register(value), "compare_and_set") if *value == arguments[0] => (State::Register(arguments[1]), 1),
        (State::Register(value), "compare_and_set") => (State::Register(*value), 0),
        (State::Queue(items), "put") if items.len() == 10 => (State::Queue(items.clone()), 0),
        (State::Queue(items), "put") => {
            let mut items = items.clone();
            items.push(arguments[0]);
            (State::Queue(items), 1)
        }
        (State::Queue(items), "take") if items.is_empty() => (State::Queue(Vec::new()), 0),
        (State::Queue(items), "take") => (State::Queue(items[1..].to_vec()), items[0]),
        (State::Lock(true), "acquire") => return None,
        (State::Lock(false), "acquire") => (State::Lock(true), 0),
        (State::Lock(_), "release") => (State::Lock(false), 0),
        _ => panic!("no such operation"),
    };
    operation.returned.is_none_or(|wanted| wanted == returned).then_some(new)
}

/// An event in the list of those that are left: where it is a call, the place of its return.
struct Entry {
    operation: usize,
    returns_at: Option<usize>,
    before: usize,
    after: usize,
}

const END: usize = usize::MAX;

struct List {
    entries: Vec<Entry>,
    first: usize,
}

impl List {
    fn unlink(&mut self, at: usize) {
        let (before, after) = (self.entries[at].before, self.entries[at].after);
        if before == END { self.first = after } else { self.entries[before].after = after }
        if after != END { self.entries[after].before = before }
    }

    fn link(&mut self, at: usize) {
        let (before, after) = (self.entries[at].before, self.entries[at].after);
        if before == END { self.first = at } else { self.entries[before].after = at }
        if after != END { self.entries[after].before = at }
    }

    fn lift(&mut self, call: usize) {
        self.unlink(call);
        let returns_at = self.entries[call].returns_at.unwrap();
        self.unlink(returns_at);
    }

    fn put_back(&mut self, call: usize) {
        let returns_at = self.entries[call].returns_at.unwrap();
        self.link(returns_at);
        self.link(call);
    }
}

fn main() {
    let kind = std::env::args().nth(1).expect("an object");
    let mut text = String::new();
    std::io::stdin().read_to_string(&mut text).expect("a run");
    let (mut operations, mut pending): (Vec<Operation>, HashMap<u32, (usize, usize)>) = Default::default();
    let mut entries: Vec<Entry> = Vec::new();
    let mut push = |entries: &mut Vec<Entry>, operation| {
        let at = entries.len();
        let before = if at == 0 { END } else { at - 1 };
        entries.push(Entry { operation, returns_at: None, before, after: at + 1 });
        at
    };
    for line in text.lines().skip(1) {
        let words: Vec<&str> = line.split_whitespace().collect();
        let thread: u32 = words[1].parse().unwrap();
        if words[0] == "call" {
            let arguments = words[3..].iter().map(|n| n.parse().unwrap()).collect();
            operations.push(Operation { name: words[2].to_string(), arguments, returned: None });
            let at = push(&mut entries, operations.len() - 1);
            pending.insert(thread, (operations.len() - 1, at));
        } else {
            let (operation, call) = pending.remove(&thread).unwrap();
            operations[operation].returned = Some(words[3].parse().unwrap());
            let at = push(&mut entries, operation);
            entries[call].returns_at = Some(at);
        }
    }
    // (a call without a return may take effect at any time: it returns after all)
    let open: Vec<usize> = pending.into_values().map(|(_, call)| call).collect();
    let needed = operations.len() - open.len();
    for call in open {
        let operation = entries[call].operation;
        let at = push(&mut entries, operation);
        entries[call].returns_at = Some(at);
    }
    if let Some(last) = entries.last_mut() {
        last.after = END;
    }
    let mut list = List { entries, first: 0 };
    let mut done = vec![0u64; operations.len().div_ceil(64)];
    let mut state = match kind.as_str() {
        "register" => State::Register(0),
        "queue" => State::Queue(Vec::new()),
        _ => State::Lock(false),
    };
    let (mut seen, mut stack): (HashSet<(Vec<u64>, State)>, Vec<(usize, State)>) = Default::default();
    let (mut at, mut returned) = (list.first, 0);
    let passes = loop {
        if returned == needed {
            break true;
        }
        let entry = if at == END { None } else { Some(&list.entries[at]) };
        match entry {
            Some(Entry { returns_at: Some(_), operation, after, .. }) => {
                let (operation, after) = (*operation, *after);
                let next = step(&state, &operations[operation]).filter(|new| {
                    done[operation / 64] |= 1 << (operation % 64);
                    let is_new = seen.insert((done.clone(), new.clone()));
                    done[operation / 64] &= !(1 << (operation % 64));
                    is_new
                });
                match next {
                    Some(new) => {
                        done[operation / 64] |= 1 << (operation % 64);
                        stack.push((at, std::mem::replace(&mut state, new)));
                        returned += usize::from(operations[operation].returned.is_some());
                        list.lift(at);
                        at = list.first;
                    }
                    None => at = after,
                }
            }
            // (a return of an operation that has not taken effect, or the end)
            _ => match stack.pop() {
                None => break false,
                Some((call, before)) => {
                    let operation = list.entries[call].operation;
                    done[operation / 64] &= !(1 << (operation % 64));
                    returned -= usize::from(operations[operation].returned.is_some());
                    state = before;
                    list.put_back(call);
                    at = list.entries[call].after;
                }
            },
        }
    };
    println!("{}, {} states kept", if passes { "pass" } else { "fail" }, seen.len());
}
