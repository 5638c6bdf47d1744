//! A safe wrapper over the proved register: sixteen sessions file keys with values, one small step at a time.
//!
//! In order: operations, answers and refusals; the register; writing a listing; the bare calls over slices (`raw`).
//! Nothing here panics, and nothing is unsafe to call: the library's calls ask for nothing, any length and any content
//! of the slices is answered or refused by number, and Rust's own rules keep the slices apart.
//!
//! ```
//! use ravencrumb::{Operation, Register, Step};
//! let mut register = Register::fresh();
//! register.start(0, Operation::Insert(20, 7))?;
//! let step = loop {
//!     match register.step(0)? {
//!         Step::Working | Step::Waiting => continue,
//!         done => break done,
//!     }
//! };
//! assert_eq!(step, Step::Inserted(1));
//!
//! // a whole range in one call: its keys, and its end
//! let mut keys = Vec::new();
//! register.start(1, Operation::Range(1, 100))?;
//! assert_eq!(register.steps(1, u32::MAX, 510, &mut keys)?, Step::End(1, 1));
//! assert_eq!(keys, [(20, 7)]);
//! # Ok::<(), ravencrumb::Refusal>(())
//! ```

pub mod raw;

/// What a session may run. A key is 1 to 4,294,967,294.
#[derive(Clone, Copy, Debug, PartialEq, Eq)]
pub enum Operation {
    /// A key and its value.
    Insert(u32, u32),
    Remove(u32),
    Has(u32),
    /// All keys from the first to the second, as they are at one moment.
    Range(u32, u32),
}

impl Operation {
    /// The kind and the two numbers that the library takes.
    fn words(self) -> (u32, u32, u32) {
        match self {
            Operation::Insert(key, value) => (1, key, value),
            Operation::Remove(key) => (2, key, 0),
            Operation::Has(key) => (3, key, 0),
            Operation::Range(low, high) => (4, low, high),
        }
    }
}

/// What a step answers.
#[derive(Clone, Copy, Debug, PartialEq, Eq)]
pub enum Step {
    Working,
    /// Another session has to go on first; nothing changed.
    Waiting,
    /// A range hands out one key and its value.
    Key(u32, u32),
    /// The update's number.
    Inserted(u32),
    /// The update's number.
    Removed(u32),
    Present,
    Absent,
    /// A range is over: the snapshot, and how many keys it handed out.
    End(u32, u32),
}

impl Step {
    /// By the words of an answer, and the number that the call returned.
    fn of(answer: [u32; raw::ANSWER_WORDS], number: u32) -> Result<Step, Refusal> {
        match answer {
            [2, ..] => Ok(Step::Working),
            [3, ..] => Ok(Step::Waiting),
            [4, key, value] => Ok(Step::Key(key, value)),
            [5, number, _] => Ok(Step::Inserted(number)),
            [6, number, _] => Ok(Step::Removed(number)),
            [7, ..] => Ok(Step::Present),
            [8, ..] => Ok(Step::Absent),
            [9, snapshot, handed] => Ok(Step::End(snapshot, handed)),
            [_, _, value] => Err(Refusal::of(number, value)),
        }
    }
}

/// Document 01's refusals that these calls can give.
#[derive(Clone, Copy, Debug, PartialEq, Eq)]
pub enum Refusal {
    BadSession,
    Busy,
    BadKey,
    BadRange,
    Idle,
    Full,
    BadTable,
    Damaged,
    /// The offset of the first line that is not allowed there.
    BadListing(u32),
    TooMany,
    NoRoom,
    BadPairs,
    /// A number that the library never gives.
    Unknown(u32),
}

impl Refusal {
    fn of(number: u32, value: u32) -> Refusal {
        match number {
            1 => Refusal::BadSession,
            2 => Refusal::Busy,
            3 => Refusal::BadKey,
            4 => Refusal::BadRange,
            5 => Refusal::Idle,
            6 => Refusal::Full,
            7 => Refusal::BadTable,
            8 => Refusal::Damaged,
            9 => Refusal::BadListing(value),
            10 => Refusal::TooMany,
            11 => Refusal::NoRoom,
            12 => Refusal::BadPairs,
            other => Refusal::Unknown(other),
        }
    }

    /// Document 01's number.
    pub fn number(self) -> u32 {
        match self {
            Refusal::BadSession => 1,
            Refusal::Busy => 2,
            Refusal::BadKey => 3,
            Refusal::BadRange => 4,
            Refusal::Idle => 5,
            Refusal::Full => 6,
            Refusal::BadTable => 7,
            Refusal::Damaged => 8,
            Refusal::BadListing(_) => 9,
            Refusal::TooMany => 10,
            Refusal::NoRoom => 11,
            Refusal::BadPairs => 12,
            Refusal::Unknown(number) => number,
        }
    }
}

impl std::fmt::Display for Refusal {
    fn fmt(&self, f: &mut std::fmt::Formatter<'_>) -> std::fmt::Result {
        write!(f, "refused {}: {:?}", self.number(), self)
    }
}

impl std::error::Error for Refusal {}

/// A register that owns its tables, counters and session records.
#[derive(Clone, PartialEq, Eq)]
pub struct Register {
    nodes: Vec<u32>,
    entries: Vec<u32>,
    words: Vec<u32>,
}

impl Register {
    fn empty() -> Register {
        Register {
            nodes: vec![0; raw::NODE_WORDS],
            entries: vec![0; raw::ENTRY_WORDS],
            words: vec![0; raw::WORDS],
        }
    }

    /// No key, stamp 0, all sessions idle.
    pub fn fresh() -> Register {
        let mut r = Register::empty();
        raw::fresh(&mut r.nodes, &mut r.entries, &mut r.words);
        r
    }

    /// The register that a fresh one becomes after inserting the listing's keys in order.
    pub fn read(listing: &[u8]) -> Result<Register, Refusal> {
        let mut r = Register::empty();
        let mut answer = [0; raw::ANSWER_WORDS];
        match raw::read(listing, &mut r.nodes, &mut r.entries, &mut r.words, &mut answer) {
            0 => Ok(r),
            number => Err(Refusal::of(number, answer[2])),
        }
    }

    /// Starts an operation of a session, 0 to 15; no step of it is made.
    pub fn start(&mut self, session: u32, operation: Operation) -> Result<(), Refusal> {
        let (kind, first, second) = operation.words();
        let mut answer = [0; raw::ANSWER_WORDS];
        match raw::start(&self.nodes, &self.entries, &mut self.words, &mut answer, session, kind, first, second) {
            0 => Ok(()),
            number => Err(Refusal::of(number, answer[2])),
        }
    }

    /// One step of a session.
    pub fn step(&mut self, session: u32) -> Result<Step, Refusal> {
        let mut answer = [0; raw::ANSWER_WORDS];
        let number = raw::step(&mut self.nodes, &mut self.entries, &mut self.words, &mut answer, session);
        Step::of(answer, number)
    }

    /// Steps of a session in one call: until an answer that is neither working nor a key, or `keys` keys are handed out,
    /// or `limit` steps are made; one at least. The keys are added to `out`, the last answer comes back. With no room
    /// for keys, a key ends the call and is that answer.
    pub fn steps(
        &mut self,
        session: u32,
        limit: u32,
        keys: usize,
        out: &mut Vec<(u32, u32)>,
    ) -> Result<Step, Refusal> {
        let mut pairs = vec![0; 2 * keys.min(raw::MOST_KEYS)];
        let mut answer = [0; raw::STEPS_ANSWER_WORDS];
        let Register { nodes, entries, words } = self;
        let number = raw::steps(nodes, entries, words, &mut pairs, &mut answer, session, limit);
        let [name, first, second, count, _] = answer;
        out.extend(pairs.chunks_exact(2).take(count as usize).map(|p| (p[0], p[1])));
        Step::of([name, first, second], number)
    }

    /// How many updates have a number.
    pub fn stamp(&self) -> u32 {
        self.words[raw::STAMP]
    }

    /// The node table, the entries table, and the counters' and records' words.
    pub fn words(&self) -> (&[u32], &[u32], &[u32]) {
        (&self.nodes, &self.entries, &self.words)
    }
}

/// A listing of a stamp, rising keys and their values.
pub fn write(stamp: u32, keys: &[u32], values: &[u32]) -> Result<Vec<u8>, Refusal> {
    let mut out = vec![0; raw::LISTING_BYTES];
    let mut answer = [0; raw::ANSWER_WORDS];
    match raw::write(stamp, keys, values, &mut out, &mut answer) {
        0 => {
            out.truncate(answer[1] as usize);
            Ok(out)
        }
        number => Err(Refusal::of(number, answer[2])),
    }
}
