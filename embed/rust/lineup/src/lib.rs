//! lineup, a proved tester of concurrent components, as a library.
//!
//! ```no_run
//! let case = lineup::Case::of_bundle(include_str!("../../../../examples/broken-counter.bundle")).unwrap();
//! let report = case.check(40, 40).unwrap();
//! for state in case.states(&report.text).unwrap() {
//!     println!("{:?} {:?}", state.cells, state.events.last());
//! }
//! ```

pub use lineup_sys::{MOST_STACK, stack};

/// What the program answers: its text, and its exit status.
#[derive(Clone, Debug, PartialEq, Eq)]
pub struct Answer {
    pub text: String,
    pub status: u8,
}

/// What `lineup WORDS` answers to a bundle: on a thread of its own, whose stack suffices for every command.
pub fn answer(words: &str, bundle: &[u8]) -> Answer {
    std::thread::scope(|scope| {
        let searching = std::thread::Builder::new().stack_size(MOST_STACK + 65_536);
        let searched = searching.spawn_scoped(scope, || answer_on_stack(words, bundle, MOST_STACK));
        searched.expect("a thread").join().expect("no panic")
    })
}

/// The same on the calling thread, which has so many bytes of stack left: `refused stack`, with status 2, where the
/// command may take more ([`stack`]).
pub fn answer_on_stack(words: &str, bundle: &[u8], stack: usize) -> Answer {
    let mut text = vec![0; 4096];
    loop {
        let mut length = 0;
        // SAFETY: each pointer is that of the slice whose length follows; the room is borrowed for the call alone.
        let status = unsafe {
            lineup_sys::lineup_answer(
                words.as_ptr(), words.len(), bundle.as_ptr(), bundle.len(), stack,
                text.as_mut_ptr(), text.len(), &mut length,
            )
        };
        if length <= text.len() {
            text.truncate(length);
            return Answer { text: String::from_utf8_lossy(&text).into_owned(), status };
        }
        text.resize(length, 0);
    }
}

/// Why there is no answer.
#[derive(Clone, Debug, PartialEq, Eq)]
pub enum Fault {
    /// A text was refused, or memory: the program's line.
    Refused(String),

    /// The move of this number, from 0, is not feasible where it stands.
    Infeasible(usize),
}

impl std::fmt::Display for Fault {
    fn fmt(&self, f: &mut std::fmt::Formatter<'_>) -> std::fmt::Result {
        match self {
            Fault::Refused(line) => f.write_str(line),
            Fault::Infeasible(number) => write!(f, "infeasible {number}"),
        }
    }
}

impl std::error::Error for Fault {}

/// How a state stands.
#[derive(Clone, Copy, Debug, PartialEq, Eq)]
pub enum Status {
    Running,
    Complete,
    Stuck,
}

/// Where a thread stands.
#[derive(Clone, Copy, Debug, PartialEq, Eq)]
pub struct Thread {
    /// How many picks its next move has: 0 where it is blocked or has made all its calls.
    pub picks: u32,
    /// How many of its operations have ended.
    pub ended: u32,
    /// The number of its open operation, the place of the next instruction, and the registers.
    pub open: Option<(u32, u32, [u32; 8])>,
}

/// A call or a return.
#[derive(Clone, Copy, Debug, PartialEq, Eq)]
pub enum Event {
    Call { thread: u32, call: u32 },
    Return { thread: u32, call: u32, value: u32 },
    Trap { thread: u32, call: u32 },
}

/// Where some moves lead.
#[derive(Clone, Debug, PartialEq, Eq)]
pub struct State {
    pub status: Status,
    /// How many moves were made, and how many the schedule has.
    pub made: usize,
    pub moves: usize,
    pub threads: Vec<Thread>,
    /// The cells of all arrays, one array behind the other.
    pub cells: Vec<u32>,
    /// The owner of each lock.
    pub owners: Vec<Option<u32>>,
    /// The calls and returns so far.
    pub events: Vec<Event>,
}

fn state_of(numbers: &[u32]) -> State {
    let (head, rest) = numbers.split_at(6);
    let (threads, rest) = rest.split_at(12 * head[3] as usize);
    let (cells, rest) = rest.split_at(head[4] as usize);
    let (owners, events) = rest.split_at(head[5] as usize);
    State {
        status: [Status::Running, Status::Complete, Status::Stuck][head[0] as usize],
        made: head[1] as usize,
        moves: head[2] as usize,
        threads: threads
            .chunks_exact(12)
            .map(|t| Thread {
                picks: t[0],
                ended: t[1],
                open: (t[2] > 0).then(|| (t[2] - 1, t[3], t[4..].try_into().unwrap())),
            })
            .collect(),
        cells: cells.to_vec(),
        owners: owners.iter().map(|owner| owner.checked_sub(1)).collect(),
        events: events
            .chunks_exact(4)
            .map(|e| match e[0] {
                0 => Event::Call { thread: e[1], call: e[2] },
                1 => Event::Return { thread: e[1], call: e[2], value: e[3] },
                _ => Event::Trap { thread: e[1], call: e[2] },
            })
            .collect(),
    }
}

/// A component and a matrix of it, as texts.
#[derive(Clone, Debug, PartialEq, Eq)]
pub struct Case {
    pub component: String,
    pub matrix: String,
}

impl Case {
    /// The first two parts of a bundle.
    pub fn of_bundle(bundle: &str) -> Option<Case> {
        let mut parts = vec![String::new()];
        for line in bundle.split_inclusive('\n') {
            match line {
                "---\n" | "---" => parts.push(String::new()),
                _ => parts.last_mut()?.push_str(line),
            }
        }
        let mut parts = parts.into_iter();
        Some(Case { component: parts.next()?, matrix: parts.next()? })
    }

    /// What `lineup WORDS` answers to this component and matrix, and further parts.
    pub fn ask(&self, words: &str, parts: &[&str]) -> Result<Answer, Fault> {
        let bundle = [&[&self.component, &self.matrix as &str], parts].concat().join("---\n");
        let answered = answer(words, bundle.as_bytes());
        match answered.status {
            2 | 4 => Err(Fault::Refused(answered.text.trim_end().to_owned())),
            _ => Ok(answered),
        }
    }

    pub fn check(&self, bound: u16, serial: u16) -> Result<Answer, Fault> {
        self.ask(&format!("check --bound {bound} --serial {serial}"), &[])
    }

    /// Where the first moves of a schedule lead, or of the schedule that a report shows.
    pub fn state(&self, schedule: &str, moves: usize) -> Result<State, Fault> {
        let mut numbers = [0; lineup_sys::MOST_NUMBERS];
        let mut count = 0;
        // SAFETY: as in `answer`.
        let status = unsafe {
            lineup_sys::lineup_state(
                self.component.as_ptr(), self.component.len(), self.matrix.as_ptr(), self.matrix.len(),
                schedule.as_ptr(), schedule.len(), moves, numbers.as_mut_ptr(), numbers.len(), &mut count,
            )
        };
        match status {
            0 => Ok(state_of(&numbers[..count])),
            1 => Err(Fault::Infeasible(numbers[0] as usize)),
            _ => Err(self.ask("replay", &[schedule]).err().unwrap_or(Fault::Refused("refused memory".into()))),
        }
    }

    /// Each state along a schedule, the start first.
    pub fn states(&self, schedule: &str) -> Result<Vec<State>, Fault> {
        let moves = self.state(schedule, 0)?.moves;
        (0..=moves).map(|made| self.state(schedule, made)).collect()
    }
}
