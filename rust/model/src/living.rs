//! A register that began fresh: nodes that hold their bundle as a vector of dated links, sessions as enums, and the set
//! after each update as a map.
//! In order: what it is made of; start; step, a function a phase; the set; the words that it stands for.

use std::collections::BTreeMap;

pub const SESSIONS: usize = 16;
const NODES: usize = 512;

#[derive(Clone, Copy, Debug, PartialEq, Eq)]
pub enum Op {
    Insert(u32, u32),
    Remove(u32),
    Has(u32),
    Range(u32, u32),
}

impl Op {
    /// The key sought; `low` for a range.
    pub fn sought(self) -> u32 {
        match self {
            Op::Insert(k, _) | Op::Remove(k) | Op::Has(k) | Op::Range(k, _) => k,
        }
    }
}

#[derive(Clone, Copy, Debug, PartialEq, Eq)]
pub enum Answer {
    Refused(u32),
    Started,
    Working,
    Waiting,
    Key(u32, u32),
    Inserted(u32),
    Removed(u32),
    Present,
    Absent,
    End(u32, u32),
}

/// One entry of a bundle; the newest is last.
#[derive(Clone, Debug)]
struct Dated {
    entry: u32,
    to: usize,
    stamp: u32,
    pending: bool,
}

#[derive(Clone, Debug)]
struct Node {
    key: u32,
    value: u32,
    next: usize,
    holder: Option<usize>,
    removed: bool,
    bundle: Vec<Dated>,
}

/// An update past Prepare: pred, the new or the removed node, the two entries laid.
#[derive(Clone, Copy, Debug)]
struct Update {
    pred: usize,
    node: usize,
    lower: u32,
    upper: u32,
}

#[derive(Clone, Copy, Debug)]
enum Phase {
    Walk(usize, usize),
    Lock(usize, usize),
    LockCurr(usize, usize),
    Check(usize, usize),
    Prepare(usize, usize),
    Number(Update),
    Link(Update, u32),
    Finish(Update, u32),
    Newest(usize),
    Fix(usize),
    Follow(usize, u32, u32),
    Hand(usize, u32, u32),
}

#[derive(Clone)]
pub struct Living {
    nodes: Vec<Node>,
    entries: u32,
    sessions: [Option<(Op, Phase)>; SESSIONS],
    /// The set after 0, 1, 2, .. updates.
    pub sets: Vec<BTreeMap<u32, u32>>,
    /// What each session's range has handed out, and the stamp at its start.
    pub handed: Vec<Vec<(u32, u32)>>,
    pub begun: [u32; SESSIONS],
}

impl Living {
    pub fn fresh() -> Living {
        let end = |key, next, bundle| Node { key, value: 0, next, holder: None, removed: false, bundle };
        let first = Dated { entry: 0, to: 1, stamp: 0, pending: false };
        Living {
            nodes: vec![end(0, 1, vec![first]), end(u32::MAX, 0, vec![])],
            entries: 1,
            sessions: [None; SESSIONS],
            sets: vec![BTreeMap::new()],
            handed: vec![vec![]; SESSIONS],
            begun: [0; SESSIONS],
        }
    }

    pub fn stamp(&self) -> u32 {
        self.sets.len() as u32 - 1
    }

    pub fn busy(&self, who: usize) -> bool {
        self.sessions[who].is_some()
    }

    pub fn nodes_used(&self) -> usize {
        self.nodes.len()
    }

    /// The number of the phase that a session has reached, 0 for none: for counting what was tried.
    pub fn phase(&self, who: usize) -> usize {
        self.sessions[who].map_or(0, |(_, phase)| number_of(phase) as usize)
    }

    pub fn start(&mut self, who: usize, op: Op) -> Answer {
        if who >= SESSIONS {
            return Answer::Refused(1);
        }
        if self.busy(who) {
            return Answer::Refused(2);
        }
        let outside = |k| k == 0 || k == u32::MAX;
        if outside(op.sought()) || matches!(op, Op::Range(_, high) if outside(high)) {
            return Answer::Refused(3);
        }
        if matches!(op, Op::Range(low, high) if low > high) {
            return Answer::Refused(4);
        }
        self.sessions[who] = Some((op, self.from_the_head()));
        self.handed[who].clear();
        self.begun[who] = self.stamp();
        Answer::Started
    }

    pub fn step(&mut self, who: usize) -> Answer {
        if who >= SESSIONS {
            return Answer::Refused(1);
        }
        let Some((op, phase)) = self.sessions[who] else {
            return Answer::Refused(5);
        };
        match phase {
            Phase::Walk(pred, curr) => self.walk(who, op, pred, curr),
            Phase::Lock(pred, curr) => {
                let then = if matches!(op, Op::Remove(_)) { Phase::LockCurr(pred, curr) } else { Phase::Check(pred, curr) };
                self.lock(who, op, pred, then)
            }
            Phase::LockCurr(pred, curr) => self.lock(who, op, curr, Phase::Check(pred, curr)),
            Phase::Check(pred, curr) => self.check(who, op, pred, curr),
            Phase::Prepare(pred, curr) => self.prepare(who, op, pred, curr),
            Phase::Number(u) => self.number(who, op, u),
            Phase::Link(u, n) => self.link(who, op, u, n),
            Phase::Finish(u, n) => self.finish(who, op, u, n),
            Phase::Newest(at) => self.newest(who, op, at),
            Phase::Fix(pred) => self.goes(who, op, Phase::Follow(pred, self.stamp(), 0)),
            Phase::Follow(at, snapshot, handed) => self.follow(who, op, at, snapshot, handed),
            Phase::Hand(at, snapshot, handed) => {
                let pair = (self.nodes[at].key, self.nodes[at].value);
                self.handed[who].push(pair);
                self.goes(who, op, Phase::Follow(at, snapshot, handed + 1));
                Answer::Key(pair.0, pair.1)
            }
        }
    }

    fn from_the_head(&self) -> Phase {
        Phase::Walk(0, self.nodes[0].next)
    }

    fn goes(&mut self, who: usize, op: Op, phase: Phase) -> Answer {
        self.sessions[who] = Some((op, phase));
        Answer::Working
    }

    /// The operation is over: its locks are free.
    fn ends(&mut self, who: usize, answer: Answer) -> Answer {
        self.frees(who);
        self.sessions[who] = None;
        answer
    }

    fn frees(&mut self, who: usize) {
        let held = |n: &&mut Node| n.holder == Some(who);
        self.nodes.iter_mut().filter(held).for_each(|n| n.holder = None);
    }

    fn walk(&mut self, who: usize, op: Op, pred: usize, curr: usize) -> Answer {
        let then = if self.nodes[curr].key < op.sought() {
            Phase::Walk(curr, self.nodes[curr].next)
        } else {
            match op {
                Op::Insert(..) | Op::Remove(_) => Phase::Lock(pred, curr),
                Op::Has(_) => Phase::Newest(pred),
                Op::Range(..) => Phase::Fix(pred),
            }
        };
        self.goes(who, op, then)
    }

    fn lock(&mut self, who: usize, op: Op, node: usize, then: Phase) -> Answer {
        if self.nodes[node].holder.is_some_and(|holder| holder != who) {
            return Answer::Waiting;
        }
        self.nodes[node].holder = Some(who);
        self.goes(who, op, then)
    }

    fn check(&mut self, who: usize, op: Op, pred: usize, curr: usize) -> Answer {
        let removes = matches!(op, Op::Remove(_));
        let gone = self.nodes[pred].removed || removes && self.nodes[curr].removed;
        if gone || self.nodes[pred].next != curr {
            self.frees(who);
            return self.goes(who, op, self.from_the_head());
        }
        let found = self.nodes[curr].key == op.sought();
        match (removes, found) {
            (false, true) => self.ends(who, Answer::Present),
            (true, false) => self.ends(who, Answer::Absent),
            _ => self.goes(who, op, Phase::Prepare(pred, curr)),
        }
    }

    fn held_up(&self, node: usize) -> bool {
        self.nodes[node].bundle.last().is_some_and(|d| d.pending)
    }

    fn lay(&mut self, node: usize, to: usize) -> u32 {
        let (entry, stamp) = (self.entries, self.stamp());
        self.nodes[node].bundle.push(Dated { entry, to, stamp, pending: true });
        self.entries += 1;
        entry
    }

    fn prepare(&mut self, who: usize, op: Op, pred: usize, curr: usize) -> Answer {
        if self.held_up(pred) || matches!(op, Op::Remove(_)) && self.held_up(curr) {
            return Answer::Waiting;
        }
        let update = match op {
            Op::Insert(key, value) => {
                if self.nodes.len() == NODES {
                    return self.ends(who, Answer::Refused(6));
                }
                let node = self.nodes.len();
                self.nodes.push(Node { key, value, next: curr, holder: None, removed: false, bundle: vec![] });
                let lower = self.lay(pred, node);
                let upper = self.lay(node, curr);
                Update { pred, node, lower, upper }
            }
            _ => {
                let behind = self.nodes[curr].next;
                let lower = self.lay(pred, behind);
                let upper = self.lay(curr, 0);
                Update { pred, node: curr, lower, upper }
            }
        };
        self.goes(who, op, Phase::Number(update))
    }

    fn number(&mut self, who: usize, op: Op, u: Update) -> Answer {
        let mut set = self.sets[self.sets.len() - 1].clone();
        let fits = match op {
            Op::Insert(key, value) => set.insert(key, value).is_none(),
            Op::Remove(key) => set.remove(&key).is_some(),
            _ => false,
        };
        assert!(fits, "the model numbers an update that does not fit its set: {op:?}");
        self.sets.push(set);
        self.goes(who, op, Phase::Link(u, self.stamp()))
    }

    fn link(&mut self, who: usize, op: Op, u: Update, n: u32) -> Answer {
        if matches!(op, Op::Remove(_)) {
            self.nodes[u.node].removed = true;
            self.nodes[u.pred].next = self.nodes[u.node].next;
        } else {
            self.nodes[u.pred].next = u.node;
        }
        self.goes(who, op, Phase::Finish(u, n))
    }

    fn finish(&mut self, who: usize, op: Op, u: Update, n: u32) -> Answer {
        for node in [u.pred, u.node] {
            for d in self.nodes[node].bundle.iter_mut().filter(|d| d.pending) {
                (d.stamp, d.pending) = (n, false);
            }
        }
        let answer = if matches!(op, Op::Remove(_)) { Answer::Removed(n) } else { Answer::Inserted(n) };
        self.ends(who, answer)
    }

    fn newest(&mut self, who: usize, op: Op, at: usize) -> Answer {
        if self.held_up(at) {
            return Answer::Waiting;
        }
        let to = self.nodes[at].bundle.last().expect("a bundle to follow").to;
        match self.nodes[to].key.cmp(&op.sought()) {
            std::cmp::Ordering::Less => self.goes(who, op, Phase::Newest(to)),
            std::cmp::Ordering::Equal => self.ends(who, Answer::Present),
            std::cmp::Ordering::Greater => self.ends(who, Answer::Absent),
        }
    }

    fn follow(&mut self, who: usize, op: Op, at: usize, snapshot: u32, handed: u32) -> Answer {
        let bundle = &self.nodes[at].bundle;
        if bundle.last().is_some_and(|d| d.pending && d.stamp < snapshot) {
            return Answer::Waiting;
        }
        let to = bundle.iter().rev().find(|d| !d.pending && d.stamp <= snapshot).expect("a link to take").to;
        let Op::Range(low, high) = op else { unreachable!("only a range follows at a snapshot") };
        let key = self.nodes[to].key;
        if key < low {
            self.goes(who, op, Phase::Follow(to, snapshot, handed))
        } else if key <= high {
            self.goes(who, op, Phase::Hand(to, snapshot, handed))
        } else {
            let told = Answer::End(snapshot, handed);
            self.ends(who, told)
        }
    }

    /// The pairs of the set after `snapshot` updates from low to high.
    pub fn within(&self, snapshot: u32, low: u32, high: u32) -> Vec<(u32, u32)> {
        self.sets[snapshot as usize].range(low..=high).map(|(k, v)| (*k, *v)).collect()
    }

    /// What the session runs.
    pub fn running(&self, who: usize) -> Option<Op> {
        self.sessions[who].map(|(op, _)| op)
    }

    /// The node table, the entries table and the counters' and records' words that this register stands for.
    pub fn words(&self) -> (Vec<u32>, Vec<u32>, Vec<u32>) {
        let (mut nodes, mut entries, mut words) = (vec![0; 3072], vec![0; 8192], vec![0; 147]);
        for (i, n) in self.nodes.iter().enumerate() {
            let held = n.holder.map_or(0, |who| who as u32 + 1);
            let newest = n.bundle.last().map_or(0, |d| d.entry + 1);
            nodes[6 * i..6 * i + 6].copy_from_slice(&[n.key, n.value, n.next as u32, held, n.removed as u32, newest]);
            let mut older = 0;
            for d in &n.bundle {
                let e = 4 * d.entry as usize;
                entries[e..e + 4].copy_from_slice(&[d.to as u32, d.stamp, d.pending as u32, older]);
                older = d.entry + 1;
            }
        }
        words[..3].copy_from_slice(&[self.nodes.len() as u32, self.entries, self.stamp()]);
        for (who, session) in self.sessions.iter().enumerate() {
            let Some((op, phase)) = session else { continue };
            let (kind, first, second) = match *op {
                Op::Insert(k, v) => (1, k, v),
                Op::Remove(k) => (2, k, 0),
                Op::Has(k) => (3, k, 0),
                Op::Range(l, h) => (4, l, h),
            };
            let own = numbers(*phase);
            let at = 3 + 9 * who;
            words[at..at + 4].copy_from_slice(&[kind, first, second, number_of(*phase)]);
            words[at + 4..at + 4 + own.len()].copy_from_slice(&own);
        }
        (nodes, entries, words)
    }
}

fn number_of(phase: Phase) -> u32 {
    match phase {
        Phase::Walk(..) => 1,
        Phase::Lock(..) => 2,
        Phase::LockCurr(..) => 3,
        Phase::Check(..) => 4,
        Phase::Prepare(..) => 5,
        Phase::Number(..) => 6,
        Phase::Link(..) => 7,
        Phase::Finish(..) => 8,
        Phase::Newest(..) => 9,
        Phase::Fix(..) => 10,
        Phase::Follow(..) => 11,
        Phase::Hand(..) => 12,
    }
}

/// A phase's own numbers.
fn numbers(phase: Phase) -> Vec<u32> {
    let two = |a: usize, b: usize| vec![a as u32, b as u32];
    let four = |u: Update| vec![u.pred as u32, u.node as u32, u.lower, u.upper];
    match phase {
        Phase::Walk(p, c) | Phase::Lock(p, c) | Phase::LockCurr(p, c) | Phase::Check(p, c) | Phase::Prepare(p, c) => two(p, c),
        Phase::Number(u) => four(u),
        Phase::Link(u, n) | Phase::Finish(u, n) => [four(u), vec![n]].concat(),
        Phase::Newest(at) | Phase::Fix(at) => vec![at as u32],
        Phase::Follow(at, s, h) | Phase::Hand(at, s, h) => vec![at as u32, s, h],
    }
}
