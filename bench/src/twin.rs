//! The twin: the same step machine in safe Rust, with bounds checks, phase by phase from crates/steps/specs/Steps.antt
//! and the checks of crates/register/specs/Register.antt. Tables are vectors of words, records an enum of phases in an
//! array. Nothing is proved of it. In order: records and answers; tables; start; the step; each phase; the contender.
use bench::measure::Register;
use bench::workload::{HIGH, LOW};

const NODES: u32 = 512;
const ENTRIES: u32 = 2048;
const KEYS: u32 = 510;
const UPDATES: u32 = 1020;
const KEY: usize = 0;
const VALUE: usize = 1;
const NEXT: usize = 2;
const LOCK: usize = 3;
const REMOVED: usize = 4;
const NEWEST: usize = 5;
const TARGET: usize = 0;
const STAMP: usize = 1;
const PENDING: usize = 2;
const OLDER: usize = 3;

#[derive(Clone, Copy, PartialEq)]
pub enum Op {
    None,
    Insert(u32, u32),
    Remove(u32),
    #[allow(dead_code)]
    Has(u32),
    Range(u32, u32),
}

#[derive(Clone, Copy, PartialEq)]
pub enum Phase {
    Idle,
    Walk { pred: u32, curr: u32 },
    Lock { pred: u32, curr: u32 },
    LockCurr { pred: u32, curr: u32 },
    Check { pred: u32, curr: u32 },
    Prepare { pred: u32, curr: u32 },
    Number { pred: u32, node: u32, lower: u32, upper: u32 },
    Link { pred: u32, node: u32, lower: u32, upper: u32, number: u32 },
    Finish { pred: u32, node: u32, lower: u32, upper: u32, number: u32 },
    Newest { at: u32 },
    Fix { pred: u32 },
    Follow { at: u32, snapshot: u32, handed: u32 },
    Hand { at: u32, snapshot: u32, handed: u32 },
}

#[derive(Clone, Copy, PartialEq)]
pub enum Refusal {
    BadSession,
    Busy,
    BadKey,
    BadRange,
    Idle,
    Full,
    BadTable,
    Damaged,
}

#[derive(Clone, Copy, PartialEq)]
pub enum Answer {
    Started,
    Working,
    Waiting,
    Key(u32, u32),
    Inserted(u32),
    Removed(u32),
    Present,
    Absent,
    End(u32, u32),
    Refused(Refusal),
}

#[derive(Clone, Copy)]
struct Session {
    op: Op,
    phase: Phase,
}

const IDLE: Session = Session { op: Op::None, phase: Phase::Idle };

enum Read {
    Wait,
    Take(u32),
    Damaged,
}

enum Held {
    Free,
    Wait,
    Damaged,
}

pub struct Twin {
    nodes: Vec<u32>,
    entries: Vec<u32>,
    nodes_used: u32,
    entries_used: u32,
    stamp: u32,
    sessions: [Session; 16],
    steps: u64,
}

impl Default for Twin {
    fn default() -> Self {
        Twin {
            nodes: vec![0; 6 * NODES as usize],
            entries: vec![0; 4 * ENTRIES as usize],
            nodes_used: 2,
            entries_used: 1,
            stamp: 0,
            sessions: [IDLE; 16],
            steps: 0,
        }
    }
}

fn sought(op: Op) -> u32 {
    match op {
        Op::None => 0,
        Op::Insert(key, _) | Op::Remove(key) | Op::Has(key) => key,
        Op::Range(low, _) => low,
    }
}

fn high(op: Op) -> u32 {
    match op {
        Op::Range(_, high) => high,
        other => sought(other),
    }
}

fn removes(op: Op) -> bool {
    matches!(op, Op::Remove(_))
}

const DAMAGED: Answer = Answer::Refused(Refusal::Damaged);

impl Twin {
    // ---- tables
    fn node(&self, n: u32, k: usize) -> u32 {
        self.nodes[n as usize * 6 + k]
    }

    fn put_node(&mut self, n: u32, k: usize, v: u32) {
        self.nodes[n as usize * 6 + k] = v;
    }

    fn entry(&self, e: u32, k: usize) -> u32 {
        self.entries[e as usize * 4 + k]
    }

    fn put_entry(&mut self, e: u32, k: usize, v: u32) {
        self.entries[e as usize * 4 + k] = v;
    }

    fn unlock(&mut self, n: u32) {
        self.put_node(n, LOCK, 0);
    }

    /// Entry e, pending, in front of the node's bundle.
    fn lay(&mut self, node: u32, e: u32, target: u32) {
        let older = self.node(node, NEWEST);
        self.put_entry(e, TARGET, target);
        self.put_entry(e, STAMP, self.stamp);
        self.put_entry(e, PENDING, 1);
        self.put_entry(e, OLDER, older);
        self.put_node(node, NEWEST, e + 1);
    }

    fn finish_entry(&mut self, e: u32, number: u32) {
        self.put_entry(e, STAMP, number);
        self.put_entry(e, PENDING, 0);
    }

    /// Rule B3.
    fn read_at(&self, newest: u32, s: u32) -> Read {
        if newest == 0 || newest > ENTRIES {
            return Read::Damaged;
        }
        if self.entry(newest - 1, PENDING) != 0 && self.entry(newest - 1, STAMP) < s {
            return Read::Wait;
        }
        let mut link = newest;
        for _ in 0..ENTRIES {
            if link == 0 || link > ENTRIES {
                return Read::Damaged;
            }
            let e = link - 1;
            if self.entry(e, PENDING) == 0 && self.entry(e, STAMP) <= s {
                return Read::Take(self.entry(e, TARGET));
            }
            link = self.entry(e, OLDER);
        }
        Read::Damaged
    }

    /// Rule B4.
    fn read_newest(&self, newest: u32) -> Read {
        if newest == 0 || newest > ENTRIES {
            return Read::Damaged;
        }
        match self.entry(newest - 1, PENDING) {
            0 => Read::Take(self.entry(newest - 1, TARGET)),
            _ => Read::Wait,
        }
    }

    fn held(&self, node: u32) -> Held {
        if node >= NODES {
            return Held::Damaged;
        }
        let newest = self.node(node, NEWEST);
        if newest == 0 {
            return Held::Free;
        }
        if newest > ENTRIES {
            return Held::Damaged;
        }
        if self.entry(newest - 1, PENDING) == 0 {
            Held::Free
        } else {
            Held::Wait
        }
    }

    // ---- the calls
    fn fits(&self) -> bool {
        self.nodes.len() == 6 * NODES as usize && self.entries.len() == 4 * ENTRIES as usize
    }

    pub fn clear(&mut self) {
        self.nodes.fill(0);
        self.entries.fill(0);
        self.put_node(0, NEXT, 1);
        self.put_node(0, NEWEST, 1);
        self.put_node(1, KEY, u32::MAX);
        self.put_entry(0, TARGET, 1);
        (self.nodes_used, self.entries_used, self.stamp) = (2, 1, 0);
        self.sessions = [IDLE; 16];
    }

    #[inline(never)]
    pub fn start(&mut self, who: u32, op: Op) -> Answer {
        if !self.fits() {
            return Answer::Refused(Refusal::BadTable);
        }
        if who >= 16 {
            return Answer::Refused(Refusal::BadSession);
        }
        let s = self.sessions[who as usize];
        if s.op != Op::None && s.phase != Phase::Idle {
            return Answer::Refused(Refusal::Busy);
        }
        let (low, high) = (sought(op), high(op));
        if low == 0 || low == u32::MAX || high == 0 || high == u32::MAX {
            return Answer::Refused(Refusal::BadKey);
        }
        if high < low {
            return Answer::Refused(Refusal::BadRange);
        }
        let curr = self.node(0, NEXT);
        self.sessions[who as usize] = Session { op, phase: Phase::Walk { pred: 0, curr } };
        Answer::Started
    }

    /// One step. A call, as the register's is: it is not put into the caller's loop.
    #[inline(never)]
    pub fn step(&mut self, who: u32) -> Answer {
        if !self.fits() {
            return Answer::Refused(Refusal::BadTable);
        }
        if who >= 16 {
            return Answer::Refused(Refusal::BadSession);
        }
        let Session { op, phase } = self.sessions[who as usize];
        if op == Op::None {
            return Answer::Refused(Refusal::Idle);
        }
        match phase {
            Phase::Idle => Answer::Refused(Refusal::Idle),
            Phase::Walk { pred, curr } => self.walk(who, op, pred, curr),
            Phase::Lock { pred, curr } => {
                let locked = match removes(op) {
                    true => Phase::LockCurr { pred, curr },
                    false => Phase::Check { pred, curr },
                };
                self.lock(who, pred, locked)
            }
            Phase::LockCurr { pred, curr } => self.lock(who, curr, Phase::Check { pred, curr }),
            Phase::Check { pred, curr } => match removes(op) {
                true => self.remove_check(who, op, pred, curr),
                false => self.insert_check(who, op, pred, curr),
            },
            Phase::Prepare { pred, curr } => match op {
                Op::Remove(_) => self.remove_prepare(who, pred, curr),
                _ => self.insert_prepare(who, op, pred, curr),
            },
            Phase::Number { pred, node, lower, upper } => self.number(who, pred, node, lower, upper),
            Phase::Link { pred, node, lower, upper, number } => {
                self.link(who, op, Phase::Finish { pred, node, lower, upper, number }, pred, node)
            }
            Phase::Finish { pred, node, lower, upper, number } => {
                self.finish(who, op, pred, node, lower, upper, number)
            }
            Phase::Newest { at } => self.newest(who, op, at),
            Phase::Fix { pred } => self.on(who, Phase::Follow { at: pred, snapshot: self.stamp, handed: 0 }),
            Phase::Follow { at, snapshot, handed } => self.follow(who, op, at, snapshot, handed),
            Phase::Hand { at, snapshot, handed } => self.hand_out(who, at, snapshot, handed),
        }
    }

    fn on(&mut self, who: u32, phase: Phase) -> Answer {
        self.sessions[who as usize].phase = phase;
        Answer::Working
    }

    fn end(&mut self, who: u32, answer: Answer) -> Answer {
        self.sessions[who as usize] = IDLE;
        answer
    }

    // ---- phases
    fn walk(&mut self, who: u32, op: Op, pred: u32, curr: u32) -> Answer {
        if curr >= NODES {
            return DAMAGED;
        }
        if self.node(curr, KEY) < sought(op) {
            return self.on(who, Phase::Walk { pred: curr, curr: self.node(curr, NEXT) });
        }
        let arrived = match op {
            Op::None => Phase::Idle,
            Op::Insert(..) | Op::Remove(_) => Phase::Lock { pred, curr },
            Op::Has(_) => Phase::Newest { at: pred },
            Op::Range(..) => Phase::Fix { pred },
        };
        self.on(who, arrived)
    }

    fn lock(&mut self, who: u32, node: u32, then: Phase) -> Answer {
        if node >= NODES {
            return DAMAGED;
        }
        let word = self.node(node, LOCK);
        if word != 0 && word != who + 1 {
            return Answer::Waiting;
        }
        self.put_node(node, LOCK, who + 1);
        self.on(who, then)
    }

    fn again(&mut self, who: u32) -> Answer {
        self.on(who, Phase::Walk { pred: 0, curr: self.node(0, NEXT) })
    }

    fn insert_check(&mut self, who: u32, op: Op, pred: u32, curr: u32) -> Answer {
        if pred >= NODES {
            return DAMAGED;
        }
        if self.node(pred, REMOVED) != 0 || self.node(pred, NEXT) != curr {
            self.unlock(pred);
            return self.again(who);
        }
        if curr >= NODES {
            return DAMAGED;
        }
        if self.node(curr, KEY) == sought(op) {
            self.unlock(pred);
            return self.end(who, Answer::Present);
        }
        self.on(who, Phase::Prepare { pred, curr })
    }

    fn remove_check(&mut self, who: u32, op: Op, pred: u32, curr: u32) -> Answer {
        if pred >= NODES || curr >= NODES {
            return DAMAGED;
        }
        let linked = self.node(pred, REMOVED) == 0 && self.node(curr, REMOVED) == 0 && self.node(pred, NEXT) == curr;
        if linked && self.node(curr, KEY) == sought(op) {
            return self.on(who, Phase::Prepare { pred, curr });
        }
        self.unlock(pred);
        self.unlock(curr);
        if linked {
            return self.end(who, Answer::Absent);
        }
        self.again(who)
    }

    fn insert_prepare(&mut self, who: u32, op: Op, pred: u32, curr: u32) -> Answer {
        match self.held(pred) {
            Held::Wait => return Answer::Waiting,
            Held::Damaged => return DAMAGED,
            Held::Free => {}
        }
        if self.nodes_used > NODES {
            return DAMAGED;
        }
        if self.nodes_used == NODES {
            self.unlock(pred);
            return self.end(who, Answer::Refused(Refusal::Full));
        }
        if self.entries_used > ENTRIES - 2 {
            return DAMAGED;
        }
        let (node, lower) = (self.nodes_used, self.entries_used);
        let value = match op {
            Op::Insert(_, value) => value,
            _ => 0,
        };
        self.put_node(node, KEY, sought(op));
        self.put_node(node, VALUE, value);
        self.put_node(node, NEXT, curr);
        self.put_node(node, LOCK, 0);
        self.put_node(node, REMOVED, 0);
        self.put_node(node, NEWEST, 0);
        self.lay(pred, lower, node);
        self.lay(node, lower + 1, curr);
        self.nodes_used += 1;
        self.entries_used += 2;
        self.on(who, Phase::Number { pred, node, lower, upper: lower + 1 })
    }

    fn remove_prepare(&mut self, who: u32, pred: u32, curr: u32) -> Answer {
        for node in [pred, curr] {
            match self.held(node) {
                Held::Wait => return Answer::Waiting,
                Held::Damaged => return DAMAGED,
                Held::Free => {}
            }
        }
        if self.nodes_used > NODES || self.entries_used > ENTRIES - 2 {
            return DAMAGED;
        }
        let lower = self.entries_used;
        self.lay(pred, lower, self.node(curr, NEXT));
        self.lay(curr, lower + 1, 0);
        self.entries_used += 2;
        self.on(who, Phase::Number { pred, node: curr, lower, upper: lower + 1 })
    }

    fn number(&mut self, who: u32, pred: u32, node: u32, lower: u32, upper: u32) -> Answer {
        if self.stamp >= UPDATES {
            return DAMAGED;
        }
        self.stamp += 1;
        self.on(who, Phase::Link { pred, node, lower, upper, number: self.stamp })
    }

    fn link(&mut self, who: u32, op: Op, then: Phase, pred: u32, node: u32) -> Answer {
        if pred >= NODES || (removes(op) && node >= NODES) {
            return DAMAGED;
        }
        if removes(op) {
            let next = self.node(node, NEXT);
            self.put_node(node, REMOVED, 1);
            self.put_node(pred, NEXT, next);
        } else {
            self.put_node(pred, NEXT, node);
        }
        self.on(who, then)
    }

    #[allow(clippy::too_many_arguments)]
    fn finish(&mut self, who: u32, op: Op, pred: u32, node: u32, lower: u32, upper: u32, number: u32) -> Answer {
        if lower >= ENTRIES || upper >= ENTRIES || pred >= NODES || (removes(op) && node >= NODES) {
            return DAMAGED;
        }
        self.unlock(pred);
        if removes(op) {
            self.unlock(node);
        }
        self.finish_entry(lower, number);
        self.finish_entry(upper, number);
        let answer = match removes(op) {
            true => Answer::Removed(number),
            false => Answer::Inserted(number),
        };
        self.end(who, answer)
    }

    fn newest(&mut self, who: u32, op: Op, at: u32) -> Answer {
        if at >= NODES {
            return DAMAGED;
        }
        let to = match self.read_newest(self.node(at, NEWEST)) {
            Read::Wait => return Answer::Waiting,
            Read::Damaged => return DAMAGED,
            Read::Take(to) => to,
        };
        if to >= NODES {
            return DAMAGED;
        }
        let key = self.node(to, KEY);
        if key < sought(op) {
            return self.on(who, Phase::Newest { at: to });
        }
        let answer = match key == sought(op) {
            true => Answer::Present,
            false => Answer::Absent,
        };
        self.end(who, answer)
    }

    fn follow(&mut self, who: u32, op: Op, at: u32, snapshot: u32, handed: u32) -> Answer {
        if at >= NODES {
            return DAMAGED;
        }
        let to = match self.read_at(self.node(at, NEWEST), snapshot) {
            Read::Wait => return Answer::Waiting,
            Read::Damaged => return DAMAGED,
            Read::Take(to) => to,
        };
        if to >= NODES {
            return DAMAGED;
        }
        let key = self.node(to, KEY);
        if key < sought(op) {
            return self.on(who, Phase::Follow { at: to, snapshot, handed });
        }
        if key <= high(op) {
            return self.on(who, Phase::Hand { at: to, snapshot, handed });
        }
        self.end(who, Answer::End(snapshot, handed))
    }

    fn hand_out(&mut self, who: u32, at: u32, snapshot: u32, handed: u32) -> Answer {
        if at >= NODES || handed >= KEYS {
            return DAMAGED;
        }
        self.on(who, Phase::Follow { at, snapshot, handed: handed + 1 });
        Answer::Key(self.node(at, KEY), self.node(at, VALUE))
    }

    // ---- the contender
    #[inline(always)]
    fn one(&mut self, who: u32) -> Answer {
        self.steps += 1;
        self.step(who)
    }

    fn all(&mut self, op: Op) -> Answer {
        assert!(self.start(0, op) == Answer::Started);
        loop {
            match self.one(0) {
                Answer::Working => {}
                other => return other,
            }
        }
    }
}

impl Register for Twin {
    fn fresh(&mut self) {
        self.clear();
    }

    fn insert(&mut self, key: u32, value: u32) -> bool {
        matches!(self.all(Op::Insert(key, value)), Answer::Inserted(_))
    }

    fn remove(&mut self, key: u32) -> bool {
        matches!(self.all(Op::Remove(key)), Answer::Removed(_))
    }

    fn open(&mut self) {
        assert!(self.start(1, Op::Range(LOW, HIGH)) == Answer::Started);
        while !matches!(self.sessions[1].phase, Phase::Follow { .. }) {
            assert!(self.one(1) == Answer::Working);
        }
    }

    fn hand(&mut self, keys: usize, out: &mut Vec<(u32, u32)>) {
        for _ in 0..keys {
            loop {
                match self.one(1) {
                    Answer::Working => {}
                    Answer::Key(key, value) => {
                        out.push((key, value));
                        break;
                    }
                    _ => panic!("a range of the twin stopped"),
                }
            }
        }
    }

    fn close(&mut self) -> bool {
        matches!(self.one(1), Answer::End(..))
    }

    fn steps(&self) -> u64 {
        self.steps
    }
}
