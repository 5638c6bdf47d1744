//! The proved register, through its C library: the bare calls of rust/ravencrumb over memory of this program.
//! Session 0 makes the updates, session 1 the ranges. Two contenders: many steps a call, and a call a step.
use bench::measure::Register;
use bench::workload::{HIGH, LOW};
use ravencrumb::raw;

const INSERT: u32 = 1;
const REMOVE: u32 = 2;
const RANGE: u32 = 4;
const STARTED: u32 = 1;
const WORKING: u32 = 2;
const KEY: u32 = 4;
const INSERTED: u32 = 5;
const REMOVED: u32 = 6;
const END: u32 = 9;
const FOLLOW: u32 = 11;
const STEPS_MADE: usize = 4;

pub struct Lent {
    nodes: Vec<u32>,
    entries: Vec<u32>,
    words: Vec<u32>,
    pairs: Vec<u32>,
    answer: [u32; raw::STEPS_ANSWER_WORDS],
    steps: u64,
}

impl Default for Lent {
    fn default() -> Self {
        Lent {
            nodes: vec![0; raw::NODE_WORDS],
            entries: vec![0; raw::ENTRY_WORDS],
            words: vec![0; raw::WORDS],
            pairs: vec![0; 2 * raw::MOST_KEYS],
            answer: [0; raw::STEPS_ANSWER_WORDS],
            steps: 0,
        }
    }
}

impl Lent {
    fn start(&mut self, who: u32, kind: u32, first: u32, second: u32) {
        let Lent { nodes, entries, words, answer, .. } = self;
        raw::start(nodes, entries, words, &mut answer[..raw::ANSWER_WORDS], who, kind, first, second);
        assert_eq!(self.answer[0], STARTED);
    }

    /// One step; the answer's name.
    #[inline(always)]
    fn step(&mut self, who: u32) -> u32 {
        self.steps += 1;
        let Lent { nodes, entries, words, answer, .. } = self;
        raw::step(nodes, entries, words, &mut answer[..raw::ANSWER_WORDS], who);
        self.answer[0]
    }

    /// Steps until an answer that is not working, with room for that many keys; the last answer's name.
    #[inline(always)]
    fn many(&mut self, who: u32, keys: usize) -> u32 {
        let Lent { nodes, entries, words, pairs, answer, .. } = self;
        raw::steps(nodes, entries, words, &mut pairs[..2 * keys], answer, who, u32::MAX);
        self.steps += self.answer[STEPS_MADE] as u64;
        self.answer[0]
    }

    fn fresh(&mut self) {
        let Lent { nodes, entries, words, .. } = self;
        assert_eq!(raw::fresh(nodes, entries, words), 0);
    }

    fn open(&mut self) {
        self.start(1, RANGE, LOW, HIGH);
        while self.words[3 + raw::RECORD_WORDS + 3] != FOLLOW {
            assert_eq!(self.step(1), WORKING);
        }
    }
}

/// Many steps a call.
#[derive(Default)]
pub struct Many(Lent);

impl Register for Many {
    fn fresh(&mut self) {
        self.0.fresh();
    }

    fn insert(&mut self, key: u32, value: u32) -> bool {
        self.0.start(0, INSERT, key, value);
        self.0.many(0, 0) == INSERTED
    }

    fn remove(&mut self, key: u32) -> bool {
        self.0.start(0, REMOVE, key, 0);
        self.0.many(0, 0) == REMOVED
    }

    fn open(&mut self) {
        self.0.open();
    }

    fn hand(&mut self, keys: usize, out: &mut Vec<(u32, u32)>) {
        assert_eq!(self.0.many(1, keys), KEY);
        out.extend(self.0.pairs[..2 * keys].chunks_exact(2).map(|p| (p[0], p[1])));
    }

    fn close(&mut self) -> bool {
        self.0.many(1, 0) == END
    }

    fn steps(&self) -> u64 {
        self.0.steps
    }
}

/// A call a step.
#[derive(Default)]
pub struct Single(Lent);

impl Single {
    fn all(&mut self) -> u32 {
        loop {
            let name = self.0.step(0);
            if name != WORKING {
                return name;
            }
        }
    }
}

impl Register for Single {
    fn fresh(&mut self) {
        self.0.fresh();
    }

    fn insert(&mut self, key: u32, value: u32) -> bool {
        self.0.start(0, INSERT, key, value);
        self.all() == INSERTED
    }

    fn remove(&mut self, key: u32) -> bool {
        self.0.start(0, REMOVE, key, 0);
        self.all() == REMOVED
    }

    fn open(&mut self) {
        self.0.open();
    }

    fn hand(&mut self, keys: usize, out: &mut Vec<(u32, u32)>) {
        for _ in 0..keys {
            while self.0.step(1) != KEY {
                assert_eq!(self.0.answer[0], WORKING);
            }
            out.push((self.0.answer[1], self.0.answer[2]));
        }
    }

    fn close(&mut self) -> bool {
        self.0.step(1) == END
    }

    fn steps(&self) -> u64 {
        self.0.steps
    }
}
