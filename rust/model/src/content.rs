//! One call on any content of tables, counters and records, as document 01 and docs/DECISIONS.md read it.
//! In order: content; the calls with their refusals in order; records; a step by its phase.
//! A step is evaluated left to right; what it uses is fetched with `?`, so that the first of Damaged and waiting that
//! is reached ends it, before anything is written.

use crate::living::Answer;

#[derive(Clone, Copy)]
pub struct Node {
    key: u32,
    value: u32,
    next: u32,
    lock: u32,
    removed: u32,
    newest: u32,
}

#[derive(Clone, Copy)]
pub struct Entry {
    target: u32,
    stamp: u32,
    pending: u32,
    older: u32,
}

/// An operation that a record names; `None` where it names none.
#[derive(Clone, Copy, PartialEq)]
enum Task {
    None,
    Insert(u32, u32),
    Remove(u32),
    Has(u32),
    Range(u32, u32),
}

#[derive(Clone, Copy)]
struct Record {
    task: Task,
    phase: u32,
    own: [u32; 5],
}

/// Why a step ends before it writes.
enum Stop {
    Damaged,
    Wait,
}

/// Tables, counters and records of any content; the slices' lengths are looked at first.
pub struct Content {
    lengths: (usize, usize, usize),
    nodes: Vec<Node>,
    entries: Vec<Entry>,
    used: [u64; 3],
    records: Vec<[u32; 9]>,
}

/// What a phase may use of its five words, and a kind of its two.
const PHASE_NUMBERS: [usize; 13] = [0, 2, 2, 2, 2, 2, 4, 5, 5, 1, 1, 3, 3];
const KIND_NUMBERS: [usize; 5] = [0, 2, 1, 1, 2];

impl Content {
    pub fn of(nodes: &[u32], entries: &[u32], words: &[u32]) -> Content {
        let node = |w: &[u32]| Node { key: w[0], value: w[1], next: w[2], lock: w[3], removed: w[4], newest: w[5] };
        let entry = |w: &[u32]| Entry { target: w[0], stamp: w[1], pending: w[2], older: w[3] };
        let counted = |i: usize| words.get(i).map_or(0, |w| *w as u64);
        Content {
            lengths: (nodes.len(), entries.len(), words.len()),
            nodes: nodes.chunks_exact(6).map(node).collect(),
            entries: entries.chunks_exact(4).map(entry).collect(),
            used: [counted(0), counted(1), counted(2)],
            records: words.get(3..).unwrap_or(&[]).chunks_exact(9).map(|w| w.try_into().unwrap()).collect(),
        }
    }

    pub fn words(&self) -> (Vec<u32>, Vec<u32>, Vec<u32>) {
        let nodes = self.nodes.iter().flat_map(|n| [n.key, n.value, n.next, n.lock, n.removed, n.newest]).collect();
        let entries = self.entries.iter().flat_map(|e| [e.target, e.stamp, e.pending, e.older]).collect();
        let words = self.used.iter().map(|w| *w as u32).chain(self.records.iter().flatten().copied()).collect();
        (nodes, entries, words)
    }

    fn fits(&self) -> bool {
        self.lengths == (3072, 8192, 147)
    }

    pub fn start(&mut self, who: u32, kind: u32, first: u32, second: u32) -> Answer {
        if !self.fits() {
            return Answer::Refused(7);
        }
        if who >= 16 {
            return Answer::Refused(1);
        }
        let Some(record) = read(&self.records[who as usize]) else {
            return Answer::Refused(8);
        };
        if record.task != Task::None && record.phase != 0 {
            return Answer::Refused(2);
        }
        let task = task(kind, first, second);
        let (low, high) = (task.sought(), task.high());
        if [low, high].iter().any(|k| *k == 0 || *k == u32::MAX) {
            return Answer::Refused(3);
        }
        if low > high {
            return Answer::Refused(4);
        }
        self.store(who, Record { task, phase: 1, own: [0, self.nodes[0].next, 0, 0, 0] });
        Answer::Started
    }

    /// Whether a session's words are a record's.
    pub fn well_formed(&self, who: u32) -> bool {
        self.records.get(who as usize).is_some_and(|w| read(w).is_some())
    }

    pub fn step(&mut self, who: u32) -> Answer {
        if !self.fits() {
            return Answer::Refused(7);
        }
        if who >= 16 {
            return Answer::Refused(1);
        }
        let Some(record) = read(&self.records[who as usize]) else {
            return Answer::Refused(8);
        };
        if record.task == Task::None || record.phase == 0 {
            return Answer::Refused(5);
        }
        match self.act(who, record) {
            Ok((answer, next)) => {
                self.store(who, next);
                answer
            }
            Err(Stop::Wait) => Answer::Waiting,
            Err(Stop::Damaged) => Answer::Refused(8),
        }
    }

    fn store(&mut self, who: u32, r: Record) {
        let (kind, first, second) = match r.task {
            Task::None => (0, 0, 0),
            Task::Insert(k, v) => (1, k, v),
            Task::Remove(k) => (2, k, 0),
            Task::Has(k) => (3, k, 0),
            Task::Range(l, h) => (4, l, h),
        };
        let [a, b, c, d, e] = r.own;
        self.records[who as usize] = [kind, first, second, r.phase, a, b, c, d, e];
    }

    // ---- what a step uses
    fn node(&self, i: u32) -> Result<Node, Stop> {
        self.nodes.get(i as usize).copied().ok_or(Stop::Damaged)
    }

    /// The entry that a link names: its number and one more, 0 for none.
    fn linked(&self, link: u32) -> Result<Entry, Stop> {
        let e = link.checked_sub(1).ok_or(Stop::Damaged)?;
        self.entries.get(e as usize).copied().ok_or(Stop::Damaged)
    }

    /// Waits where the node's newest entry is pending; an empty bundle's is not.
    fn unheld(&self, node: u32) -> Result<(), Stop> {
        match self.node(node)?.newest {
            0 => Ok(()),
            link if self.linked(link)?.pending != 0 => Err(Stop::Wait),
            _ => Ok(()),
        }
    }

    fn at(&mut self, i: u32) -> &mut Node {
        &mut self.nodes[i as usize]
    }

    fn lay(&mut self, node: u32, target: u32) {
        let e = self.used[1];
        let older = self.at(node).newest;
        self.entries[e as usize] = Entry { target, stamp: self.used[2] as u32, pending: 1, older };
        self.at(node).newest = e as u32 + 1;
        self.used[1] += 1;
    }

    // ---- a step by its phase
    fn act(&mut self, who: u32, r: Record) -> Result<(Answer, Record), Stop> {
        let task = r.task;
        let removes = matches!(task, Task::Remove(_));
        let [a, b, c, d, e] = r.own;
        let goes = |phase, own| Ok((Answer::Working, Record { task, phase, own }));
        let ends = |answer| Ok((answer, Record { task: Task::None, phase: 0, own: [0; 5] }));
        match r.phase {
            1 => {
                let curr = self.node(b)?;
                if curr.key < task.sought() {
                    return goes(1, [b, curr.next, 0, 0, 0]);
                }
                match task {
                    Task::Has(_) => goes(9, [a, 0, 0, 0, 0]),
                    Task::Range(..) => goes(10, [a, 0, 0, 0, 0]),
                    _ => goes(2, [a, b, 0, 0, 0]),
                }
            }
            2 | 3 => {
                let node = if r.phase == 2 { a } else { b };
                let lock = self.node(node)?.lock;
                if lock != 0 && lock != who + 1 {
                    return Err(Stop::Wait);
                }
                self.at(node).lock = who + 1;
                goes(if r.phase == 2 && removes { 3 } else { 4 }, [a, b, 0, 0, 0])
            }
            4 => {
                let pred = self.node(a)?;
                let stands = if removes {
                    let curr = self.node(b)?;
                    pred.removed == 0 && curr.removed == 0 && pred.next == b
                } else {
                    pred.removed == 0 && pred.next == b
                };
                if !stands {
                    self.frees(a, b, removes);
                    return goes(1, [0, self.nodes[0].next, 0, 0, 0]);
                }
                let found = self.node(b)?.key == task.sought();
                if found == removes {
                    return goes(5, [a, b, 0, 0, 0]);
                }
                self.frees(a, b, removes);
                ends(if removes { Answer::Absent } else { Answer::Present })
            }
            5 => self.prepare(r, removes),
            6 => {
                if self.used[2] >= 1020 {
                    return Err(Stop::Damaged);
                }
                self.used[2] += 1;
                goes(7, [a, b, c, d, self.used[2] as u32])
            }
            7 => {
                self.node(a)?;
                if removes {
                    let behind = self.node(b)?.next;
                    self.at(b).removed = 1;
                    self.at(a).next = behind;
                } else {
                    self.at(a).next = b;
                }
                goes(8, [a, b, c, d, e])
            }
            8 => {
                if c >= 2048 || d >= 2048 {
                    return Err(Stop::Damaged);
                }
                self.node(a)?;
                if removes {
                    self.node(b)?;
                }
                for entry in [c, d] {
                    let entry = &mut self.entries[entry as usize];
                    (entry.stamp, entry.pending) = (e, 0);
                }
                self.frees(a, b, removes);
                ends(if removes { Answer::Removed(e) } else { Answer::Inserted(e) })
            }
            9 => {
                let newest = self.linked(self.node(a)?.newest)?;
                if newest.pending != 0 {
                    return Err(Stop::Wait);
                }
                let key = self.node(newest.target)?.key;
                if key < task.sought() {
                    return goes(9, [newest.target, 0, 0, 0, 0]);
                }
                ends(if key == task.sought() { Answer::Present } else { Answer::Absent })
            }
            10 => goes(11, [a, self.used[2] as u32, 0, 0, 0]),
            11 => {
                let to = self.scan(self.node(a)?.newest, b)?;
                let key = self.node(to)?.key;
                if key < task.sought() {
                    goes(11, [to, b, c, 0, 0])
                } else if key <= task.high() {
                    goes(12, [to, b, c, 0, 0])
                } else {
                    ends(Answer::End(b, c))
                }
            }
            _ => {
                let at = self.node(a)?;
                if c >= 510 {
                    return Err(Stop::Damaged);
                }
                Ok((Answer::Key(at.key, at.value), Record { task, phase: 11, own: [a, b, c + 1, 0, 0] }))
            }
        }
    }

    fn frees(&mut self, pred: u32, curr: u32, both: bool) {
        self.at(pred).lock = 0;
        if both {
            self.at(curr).lock = 0;
        }
    }

    fn prepare(&mut self, r: Record, removes: bool) -> Result<(Answer, Record), Stop> {
        let [pred, curr, ..] = r.own;
        self.unheld(pred)?;
        if removes {
            self.unheld(curr)?;
        }
        if self.used[0] > 512 {
            return Err(Stop::Damaged);
        }
        if !removes && self.used[0] == 512 {
            self.frees(pred, curr, false);
            return Ok((Answer::Refused(6), Record { task: Task::None, phase: 0, own: [0; 5] }));
        }
        if self.used[1] > 2046 {
            return Err(Stop::Damaged);
        }
        let lower = self.used[1] as u32;
        let node = if removes {
            let behind = self.nodes[curr as usize].next;
            self.lay(pred, behind);
            self.lay(curr, 0);
            curr
        } else {
            let new = self.used[0] as u32;
            let (key, value) = (r.task.sought(), r.task.value());
            *self.at(new) = Node { key, value, next: curr, lock: 0, removed: 0, newest: 0 };
            self.lay(pred, new);
            self.lay(new, curr);
            self.used[0] += 1;
            new
        };
        Ok((Answer::Working, Record { task: r.task, phase: 6, own: [pred, node, lower, lower + 1, 0] }))
    }

    /// Rule B3 from a bundle's newest link.
    fn scan(&self, newest: u32, snapshot: u32) -> Result<u32, Stop> {
        if let Ok(first) = self.linked(newest) {
            if first.pending != 0 && first.stamp < snapshot {
                return Err(Stop::Wait);
            }
        }
        let mut link = newest;
        for _ in 0..2048 {
            let entry = self.linked(link)?;
            if entry.pending == 0 && entry.stamp <= snapshot {
                return Ok(entry.target);
            }
            link = entry.older;
        }
        Err(Stop::Damaged)
    }
}

impl Task {
    fn sought(self) -> u32 {
        match self {
            Task::None => 0,
            Task::Insert(k, _) | Task::Remove(k) | Task::Has(k) | Task::Range(k, _) => k,
        }
    }

    fn high(self) -> u32 {
        if let Task::Range(_, high) = self { high } else { self.sought() }
    }

    fn value(self) -> u32 {
        if let Task::Insert(_, value) = self { value } else { 0 }
    }
}

fn task(kind: u32, first: u32, second: u32) -> Task {
    match kind {
        1 => Task::Insert(first, second),
        2 => Task::Remove(first),
        3 => Task::Has(first),
        4 => Task::Range(first, second),
        _ => Task::None,
    }
}

/// A record's words, unless its kind or phase is none or an unused word is not 0.
fn read(w: &[u32; 9]) -> Option<Record> {
    let kind = *KIND_NUMBERS.get(w[0] as usize)?;
    let phase = *PHASE_NUMBERS.get(w[3] as usize)?;
    let unused = w[1 + kind..3].iter().chain(&w[4 + phase..]);
    if unused.into_iter().any(|word| *word != 0) {
        return None;
    }
    Some(Record { task: task(w[0], w[1], w[2]), phase: w[3], own: [w[4], w[5], w[6], w[7], w[8]] })
}
