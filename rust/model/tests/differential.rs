//! The proved register compared with the model, call by call and word by word.
//! In order: scale and seeds; registers that began fresh, under random schedules of sixteen sessions, a call a step and
//! many steps a call; any content; wrong lengths; listings; every refusal number and each neighbouring pair in document
//! 01's order.
//! RAVENCRUMB_SCALE multiplies the steps (1 in the gate), RAVENCRUMB_SEED sets the first seed; seeds are printed.

use model::content::Content;
use model::listing::{self, Bad};
use model::living::{Answer, Living, Op};
use model::random::Random;
use ravencrumb::raw;

// ---- scale and seeds
fn number_from(name: &str, or: u64) -> u64 {
    std::env::var(name).ok().and_then(|v| v.parse().ok()).unwrap_or(or)
}

fn scale() -> u64 {
    number_from("RAVENCRUMB_SCALE", 1)
}

fn seeds(what: &str, many: u64) -> std::ops::Range<u64> {
    let first = number_from("RAVENCRUMB_SEED", 1);
    println!("{what}: seeds {first} to {}", first + many - 1);
    first..first + many
}

/// The bare words of a register, and the last answer.
#[derive(Clone, PartialEq)]
struct Words {
    nodes: Vec<u32>,
    entries: Vec<u32>,
    words: Vec<u32>,
    answer: Vec<u32>,
}

impl Words {
    fn empty() -> Words {
        Words { nodes: vec![0; 3072], entries: vec![0; 8192], words: vec![0; 147], answer: vec![0; 3] }
    }

    fn fresh() -> Words {
        let mut w = Words::empty();
        assert_eq!(raw::fresh(&mut w.nodes, &mut w.entries, &mut w.words), 0);
        w
    }

    fn start(&mut self, who: u32, op: (u32, u32, u32)) -> u32 {
        raw::start(&self.nodes, &self.entries, &mut self.words, &mut self.answer, who, op.0, op.1, op.2)
    }

    fn step(&mut self, who: u32) -> u32 {
        raw::step(&mut self.nodes, &mut self.entries, &mut self.words, &mut self.answer, who)
    }

    /// Many steps in one call, compared with what one step after the other left: `single` is that register, with the
    /// answers that it gave; `pairs` is the lent slice.
    fn many(&mut self, single: &Words, answers: &[Vec<u32>], who: u32, limit: u32, mut pairs: Vec<u32>, number: u32) {
        let steps = Content::of(&self.nodes, &self.entries, &self.words).well_formed(who) as usize * answers.len();
        let mut expected = pairs.clone();
        let keys: Vec<_> = answers.iter().filter(|a| a[0] == 4).take(pairs.len() / 2).collect();
        for (i, key) in keys.iter().enumerate() {
            expected[2 * i..2 * i + 2].copy_from_slice(&key[1..3]);
        }
        let mut answer = vec![9; 5];
        let got = raw::steps(&mut self.nodes, &mut self.entries, &mut self.words, &mut pairs, &mut answer, who, limit);
        let last = answers.last().expect("one step at least");
        assert_eq!((got, &answer[..3]), (number, &last[..]), "session {who}, limit {limit}");
        assert_eq!(answer[3..], [keys.len() as u32, steps as u32], "session {who}, limit {limit}");
        assert!(pairs == expected, "pairs of session {who}, limit {limit}");
        assert!(self.nodes == single.nodes && self.entries == single.entries && self.words == single.words);
    }

    /// The first difference from what the model has, for a message.
    fn differs(&self, expected: &(Vec<u32>, Vec<u32>, Vec<u32>)) -> Option<String> {
        let tables = [("nodes", &self.nodes, &expected.0), ("entries", &self.entries, &expected.1), ("words", &self.words, &expected.2)];
        for (name, got, want) in tables {
            if got != want {
                let at = got.iter().zip(want.iter()).position(|(g, w)| g != w);
                let at = at.unwrap_or(got.len().min(want.len()));
                return Some(format!("{name} word {at}: {:?}, and the model has {:?}", got.get(at), want.get(at)));
            }
        }
        None
    }
}

fn reply(a: Answer) -> ([u32; 3], u32) {
    match a {
        Answer::Refused(n) => ([0, n, 0], n),
        Answer::Started => ([1, 0, 0], 0),
        Answer::Working => ([2, 0, 0], 0),
        Answer::Waiting => ([3, 0, 0], 0),
        Answer::Key(k, v) => ([4, k, v], 0),
        Answer::Inserted(n) => ([5, n, 0], 0),
        Answer::Removed(n) => ([6, n, 0], 0),
        Answer::Present => ([7, 0, 0], 0),
        Answer::Absent => ([8, 0, 0], 0),
        Answer::End(s, c) => ([9, s, c], 0),
    }
}

fn kinds(op: Op) -> (u32, u32, u32) {
    match op {
        Op::Insert(k, v) => (1, k, v),
        Op::Remove(k) => (2, k, 0),
        Op::Has(k) => (3, k, 0),
        Op::Range(l, h) => (4, l, h),
    }
}

/// How often each phase was met with each answer's name.
#[derive(Default)]
struct Met {
    times: std::collections::BTreeMap<(usize, u32), u64>,
    steps: u64,
    starts: u64,
}

impl Met {
    fn count(&mut self, phase: usize, answer: &[u32]) {
        let name = if answer[0] == 0 { 100 + answer[1] } else { answer[0] };
        *self.times.entry((phase, name)).or_default() += 1;
    }

    fn print(&self, what: &str, began: std::time::Instant) {
        let seconds = began.elapsed().as_secs_f64();
        let rate = self.steps as f64 / seconds;
        println!("{what}: {} steps, {} starts, {seconds:.1} s, {rate:.0} steps a second", self.steps, self.starts);
    }

    /// Each of these pairs of a phase and an answer's name (100 and more: a refusal) was met.
    fn need(&self, pairs: &[(usize, u32)]) {
        for pair in pairs {
            assert!(self.times.contains_key(pair), "phase {} never answered {}", pair.0, pair.1);
        }
    }
}

// ---- registers that began fresh
/// Which keys, which operations, and who steps.
struct Manner {
    keys: u64,
    hot: u64,
    inserts: u64,
    removes: u64,
    reads: u64,
    /// One session in so many calls is not chosen freely but goes on in a burst.
    burst: u64,
}

impl Manner {
    fn of(r: &mut Random) -> Manner {
        Manner {
            keys: r.of(&[2, 3, 5, 8, 16, 40, 200, 4000]),
            hot: r.of(&[0, 1, 2, 3]),
            inserts: 1 + r.below(6),
            removes: r.below(6),
            reads: r.below(6),
            burst: r.of(&[1, 2, 8, 64]),
        }
    }

    fn key(&self, r: &mut Random) -> u32 {
        match r.below(40) {
            0 => r.of(&[1, u32::MAX - 1]),
            1 => r.of(&[0, u32::MAX]),
            _ if self.hot > 0 && r.one_in(2) => 10 + r.below(self.hot) as u32,
            _ => 1 + r.below(self.keys) as u32,
        }
    }

    fn op(&self, r: &mut Random) -> Op {
        let key = self.key(r);
        let n = r.below(self.inserts + self.removes + self.reads);
        if n < self.inserts {
            Op::Insert(key, r.next() as u32)
        } else if n < self.inserts + self.removes {
            Op::Remove(key)
        } else if r.one_in(3) {
            Op::Has(key)
        } else {
            Op::Range(key, if r.one_in(2) { u32::MAX - 1 } else { self.key(r) })
        }
    }
}

/// One call to both; the answers are compared, and an ended range with the set at its snapshot.
fn call(real: &mut Words, model: &mut Living, met: &mut Met, who: u32, op: Option<Op>) -> Answer {
    let w = who as usize;
    let known = w < 16;
    let running = if known { model.running(w) } else { None };
    let phase = if known { model.phase(w) } else { 0 };
    let (number, answer) = match op {
        Some(op) => {
            met.starts += 1;
            (real.start(who, kinds(op)), model.start(w, op))
        }
        None => {
            met.steps += 1;
            (real.step(who), model.step(w))
        }
    };
    let expected = reply(answer);
    assert_eq!((&real.answer[..], number), (&expected.0[..], expected.1), "session {who}, {op:?}, phase {phase}");
    if op.is_none() {
        met.count(phase, &real.answer);
    }
    if let (Answer::End(snapshot, count), Some(Op::Range(low, high))) = (answer, running) {
        assert!(model.begun[w] <= snapshot && snapshot <= model.stamp());
        assert_eq!(model.handed[w], model.within(snapshot, low, high), "the set at snapshot {snapshot}");
        assert_eq!(model.handed[w].len() as u32, count);
    }
    answer
}

/// Whether a call of many steps goes on after an answer, so many keys being in `room` pairs.
fn goes_on(answer: &[u32], keys: usize, room: usize) -> bool {
    answer[0] == 2 || answer[0] == 4 && keys < room
}

/// Some steps of a session, each compared with the model, and the same again in one call.
fn many(r: &mut Random, real: &mut Words, model: &mut Living, met: &mut Met, who: u32) {
    let (limit, length) = (r.of(&[0, 1, 2, 3, 7, 40, u32::MAX]), r.of(&[0, 1, 2, 3, 6, 9, 1020]));
    let mut quick = real.clone();
    let (mut answers, mut keys, mut number) = (Vec::new(), 0, 0);
    while answers.is_empty() || (answers.len() < limit as usize && goes_on(&real.answer, keys, length / 2)) {
        number = reply(call(real, model, met, who, None)).1;
        answers.push(real.answer.clone());
        keys += (real.answer[0] == 4) as usize;
    }
    quick.many(real, &answers, who, limit, vec![9; length], number);
}

/// Follows the real tables at a snapshot from the head: what a range over all keys would hand out.
fn read_at(real: &Words, snapshot: u32) -> Vec<(u32, u32)> {
    let mut pairs = vec![];
    let mut at = 0usize;
    loop {
        let mut link = real.nodes[6 * at + 5] as usize;
        while real.entries[4 * (link - 1) + 2] != 0 || real.entries[4 * (link - 1) + 1] > snapshot {
            link = real.entries[4 * (link - 1) + 3] as usize;
        }
        at = real.entries[4 * (link - 1)] as usize;
        if at == 1 {
            return pairs;
        }
        pairs.push((real.nodes[6 * at], real.nodes[6 * at + 1]));
    }
}

/// All sessions go on in turn until none is busy; then every snapshot of the real tables is the set at it.
fn settle(real: &mut Words, model: &mut Living, met: &mut Met) {
    while (0..16).any(|who| model.busy(who)) {
        for who in 0..16 {
            if model.busy(who) {
                call(real, model, met, who as u32, None);
            }
        }
    }
    assert_eq!(real.differs(&model.words()), None);
    for snapshot in 0..=model.stamp() {
        let set: Vec<_> = model.sets[snapshot as usize].iter().map(|(k, v)| (*k, *v)).collect();
        assert_eq!(read_at(real, snapshot), set, "the tables at snapshot {snapshot}");
    }
}

fn life(seed: u64, calls: u64, met: &mut Met) {
    let mut r = Random::new(seed);
    let (mut real, mut model) = (Words::fresh(), Living::fresh());
    let mut manner = Manner::of(&mut r);
    let mut who = 0;
    for i in 0..calls {
        if i % 1000 == 999 {
            manner = Manner::of(&mut r);
            assert_eq!(real.differs(&model.words()), None, "seed {seed}, call {i}");
        }
        if r.one_in(manner.burst) {
            who = r.below(16) as u32;
        }
        if r.one_in(500) {
            let far = r.of(&[16, 17, 255, u32::MAX]);
            call(&mut real, &mut model, met, far, None);
            call(&mut real, &mut model, met, far, Some(manner.op(&mut r)));
        }
        if r.one_in(20) {
            many(&mut r, &mut real, &mut model, met, who);
        }
        let wants = if model.busy(who as usize) { r.one_in(100) } else { !r.one_in(50) };
        let op = wants.then(|| manner.op(&mut r));
        call(&mut real, &mut model, met, who, op);
    }
    settle(&mut real, &mut model, met);
}

#[test]
fn random_schedules() {
    let began = std::time::Instant::now();
    let mut met = Met::default();
    for seed in seeds("random schedules", 1500 * scale()) {
        life(seed, 10_000, &mut met);
    }
    met.print("random schedules", began);
    let walks = (1..=12).map(|phase| (phase, 2)).filter(|p| *p != (8, 2) && *p != (12, 2)).collect::<Vec<_>>();
    met.need(&walks);
    met.need(&[(0, 101), (0, 105), (2, 3), (3, 3), (9, 3), (11, 3), (4, 7), (4, 8), (8, 5), (8, 6)]);
    met.need(&[(9, 7), (9, 8), (11, 9), (12, 4)]);
}

/// Registers that live until no node is left, and on: 510 inserts, full, removes to the last entry.
#[test]
fn long_lives() {
    let began = std::time::Instant::now();
    let mut met = Met::default();
    for seed in seeds("long lives", 12 * scale()) {
        let mut r = Random::new(seed ^ 0x6c6f_6e67);
        let (mut real, mut model) = (Words::fresh(), Living::fresh());
        let keys = r.of(&[600, 700, 5000]);
        let mut full = 0;
        while full < 20 {
            let who = r.below(16) as u32;
            let key = 1 + r.below(keys) as u32;
            let op = match r.below(10) {
                0 => Op::Remove(key),
                1 => Op::Has(key),
                2 if r.one_in(4) => Op::Range(key, key + 40),
                _ => Op::Insert(key, r.next() as u32),
            };
            let op = (!model.busy(who as usize)).then_some(op);
            let times = if op.is_some() { 1 } else { 1 + r.below(40) };
            for _ in 0..times {
                if op.is_none() && !model.busy(who as usize) {
                    break;
                }
                if call(&mut real, &mut model, &mut met, who, op) == Answer::Refused(6) {
                    full += 1;
                }
            }
        }
        settle(&mut real, &mut model, &mut met);
        assert_eq!(model.nodes_used(), 512);
        // what is left goes: every key is removed, up to 1,020 updates
        let left: Vec<u32> = model.sets[model.stamp() as usize].keys().copied().collect();
        for key in left {
            call(&mut real, &mut model, &mut met, 3, Some(Op::Remove(key)));
            while model.busy(3) {
                call(&mut real, &mut model, &mut met, 3, None);
            }
        }
        assert!(model.sets[model.stamp() as usize].is_empty());
        settle(&mut real, &mut model, &mut met);
    }
    met.print("long lives", began);
    met.need(&[(5, 106)]);
}

// ---- any content
/// A number that a step may well use: small, at a bound, or anything.
fn odd(r: &mut Random) -> u32 {
    match r.below(8) {
        0 | 1 => r.below(4) as u32,
        2 | 3 => r.below(12) as u32,
        4 => r.of(&[510, 511, 512, 513, 1019, 1020, 1021, 2045, 2046, 2047, 2048, 2049]),
        5 => r.below(2050) as u32,
        6 => r.of(&[16, 17, u32::MAX - 1, u32::MAX]),
        _ => r.next() as u32,
    }
}

/// A well-formed record most of the time, of any operation and phase.
fn record(r: &mut Random, words: &mut [u32]) {
    let phase = r.below(13) as usize;
    let kind = r.below(5) as usize;
    words.fill(0);
    (words[0], words[3]) = (kind as u32, phase as u32);
    for i in 0..[0, 2, 1, 1, 2][kind] {
        words[1 + i] = odd(r);
    }
    for i in 0..[0, 2, 2, 2, 2, 2, 4, 5, 5, 1, 1, 3, 3][phase] {
        words[4 + i] = if r.one_in(4) { odd(r) } else { r.below(10) as u32 };
    }
    if r.one_in(12) {
        words[r.below(9) as usize] = odd(r);
    }
}

/// One call to the register and to the model of any content; answers and all words are compared.
fn compare(real: &mut Words, met: &mut Met, who: u32, op: Option<(u32, u32, u32)>, seed: u64) -> u32 {
    let mut model = Content::of(&real.nodes, &real.entries, &real.words);
    let before = real.clone();
    let phase = if who < 16 { real.words[3 + 9 * who as usize + 3].min(13) as usize } else { 0 };
    let (number, answer) = match op {
        Some(op) => (real.start(who, op), model.start(who, op.0, op.1, op.2)),
        None => (real.step(who), model.step(who)),
    };
    let expected = reply(answer);
    assert_eq!((&real.answer[..], number), (&expected.0[..], expected.1), "seed {seed}, session {who}, {op:?}, phase {phase}");
    if let Some(where_) = real.differs(&model.words()) {
        panic!("seed {seed}, session {who}, {op:?}, phase {phase}, answer {answer:?}: {where_}");
    }
    if number != 0 && number != 6 || answer == Answer::Waiting {
        assert!(before.nodes == real.nodes && before.entries == real.entries && before.words == real.words);
    }
    if op.is_none() {
        met.steps += 1;
        met.count(phase, &real.answer);
    } else {
        met.starts += 1;
    }
    number
}

/// As `many`, on any content. Steps may go round for ever there, so that the limit is small.
fn many_anywhere(r: &mut Random, real: &mut Words, met: &mut Met, who: u32, seed: u64) {
    let (limit, length) = (r.of(&[0, 1, 2, 5, 30]), r.of(&[0, 1, 2, 3, 8, 64]));
    let mut quick = real.clone();
    let (mut answers, mut keys, mut number) = (Vec::new(), 0, 0);
    while answers.is_empty() || (answers.len() < limit as usize && goes_on(&real.answer, keys, length / 2)) {
        number = compare(real, met, who, None, seed);
        answers.push(real.answer.clone());
        keys += (real.answer[0] == 4) as usize;
    }
    quick.many(real, &answers, who, limit, vec![9; length], number);
}

#[test]
fn any_content() {
    let began = std::time::Instant::now();
    let mut met = Met::default();
    for seed in seeds("any content", 800 * scale()) {
        let mut r = Random::new(seed ^ 0x616e_7943);
        let mut real = Words::empty();
        let wild = r.below(3);
        for table in [&mut real.nodes, &mut real.entries] {
            for word in table.iter_mut() {
                *word = match wild {
                    0 => odd(&mut r),
                    1 => r.below(8) as u32,
                    _ => r.next() as u32,
                };
            }
        }
        for i in 0..3 {
            real.words[i] = odd(&mut r);
        }
        for _ in 0..200 {
            let who = if r.one_in(60) { odd(&mut r) } else { r.below(16) as u32 };
            if who < 16 && !r.one_in(3) {
                let at = 3 + 9 * who as usize;
                record(&mut r, &mut real.words[at..at + 9]);
            }
            if r.one_in(6) {
                let i = r.below(3) as usize;
                real.words[i] = odd(&mut r);
            }
            if r.one_in(4) {
                many_anywhere(&mut r, &mut real, &mut met, who, seed);
            }
            let op = r.one_in(5).then(|| (r.below(6) as u32, odd(&mut r), odd(&mut r)));
            compare(&mut real, &mut met, who, op, seed);
        }
    }
    met.print("any content", began);
    met.need(&(1..=12).map(|phase| (phase, 108)).filter(|p| p.0 != 10).collect::<Vec<_>>());
    met.need(&[(13, 108), (0, 105), (2, 3), (3, 3), (5, 3), (9, 3), (11, 3), (5, 106)]);
}

/// A register that lived, with some words changed: goes on as the model of any content does.
#[test]
fn damaged_lives() {
    let began = std::time::Instant::now();
    let mut met = Met::default();
    for seed in seeds("damaged lives", 150 * scale()) {
        let mut r = Random::new(seed ^ 0x6461_6d61);
        let manner = Manner::of(&mut r);
        let (mut real, mut model) = (Words::fresh(), Living::fresh());
        let mut lived = Met::default();
        for _ in 0..r.below(4000) {
            let who = r.below(16) as u32;
            let op = (!model.busy(who as usize)).then(|| manner.op(&mut r));
            call(&mut real, &mut model, &mut lived, who, op);
        }
        let (nodes, entries) = (real.words[0] as u64, real.words[1] as u64);
        for _ in 0..2000 {
            if r.one_in(40) {
                match r.below(4) {
                    0 => real.nodes[r.below(6 * nodes) as usize] = odd(&mut r),
                    1 => real.entries[r.below(4 * entries) as usize] = odd(&mut r),
                    2 => real.words[r.below(147) as usize] = odd(&mut r),
                    _ => real.words[r.below(3) as usize] = odd(&mut r),
                }
            }
            let who = r.below(16) as u32;
            if r.one_in(10) {
                many_anywhere(&mut r, &mut real, &mut met, who, seed);
            }
            let op = r.one_in(4).then(|| kinds(manner.op(&mut r)));
            compare(&mut real, &mut met, who, op, seed);
        }
    }
    met.print("damaged lives", began);
}

// ---- wrong lengths: 7, and nothing written; an answer of another length stays as it is
#[test]
fn wrong_lengths() {
    let mut r = Random::new(7);
    for _ in 0..2000 {
        let mut lengths = [3072usize, 8192, 147, 3];
        for _ in 0..1 + r.below(2) {
            let i = r.below(4) as usize;
            lengths[i] = match r.below(4) {
                0 => 0,
                1 => lengths[i].saturating_sub(1),
                2 => lengths[i] + 1,
                _ => r.below(9000) as usize,
            };
        }
        let right = lengths[..3] == [3072, 8192, 147];
        let mut w = Words {
            nodes: vec![9; lengths[0]],
            entries: vec![9; lengths[1]],
            words: vec![9; lengths[2]],
            answer: vec![9; lengths[3]],
        };
        let before = w.clone();
        let told = |n: u32| if lengths[3] == 3 { vec![0, n, 0] } else { before.answer.clone() };
        let who = r.below(20) as u32;
        let expected = match (right && lengths[3] == 3, who < 16) {
            (false, _) => 7,
            (true, false) => 1,
            (true, true) => 8,
        };
        assert_eq!(w.step(who), expected, "{lengths:?}");
        assert!(w.nodes == before.nodes && w.entries == before.entries && w.words == before.words);
        assert_eq!(w.answer, told(expected));
        w.answer = before.answer.clone();
        assert_eq!(w.start(who, (1, 5, 5)), expected, "{lengths:?}");
        assert!(w.nodes == before.nodes && w.entries == before.entries && w.words == before.words);
        assert_eq!(w.answer, told(expected));
        let (mut pairs, mut answer) = (vec![9; r.below(9) as usize], vec![9; if lengths[3] == 3 { 5 } else { lengths[3] }]);
        let number = raw::steps(&mut w.nodes, &mut w.entries, &mut w.words, &mut pairs, &mut answer, who, 9);
        let heard = match (answer.len(), right, who < 16) {
            (5, false, _) => (7, vec![0, 7, 0, 0, 0]),
            (5, true, false) => (1, vec![0, 1, 0, 0, 0]),
            (5, true, true) => (8, vec![0, 8, 0, 0, 0]),
            (other, ..) => (7, vec![9; other]),
        };
        assert_eq!((number, answer), heard, "{lengths:?}");
        assert!(w.nodes == before.nodes && w.entries == before.entries && w.words == before.words);
        assert!(pairs.iter().all(|p| *p == 9));
        let number = raw::fresh(&mut w.nodes, &mut w.entries, &mut w.words);
        assert_eq!(number, if right { 0 } else { 7 });
        if right {
            assert_eq!(w.differs(&Living::fresh().words()), None);
        } else {
            assert!(w.nodes == before.nodes && w.entries == before.entries && w.words == before.words);
        }
    }
}

// ---- listings: written, read, mutated, truncated
/// The register that inserting the pairs in order gives, by the model.
fn filed(pairs: &[(u32, u32)]) -> Living {
    let mut model = Living::fresh();
    for (key, value) in pairs {
        assert_eq!(model.start(0, Op::Insert(*key, *value)), Answer::Started);
        while model.busy(0) {
            model.step(0);
        }
    }
    model
}

/// Reads into tables of any content and compares the answer and all words; returns the number.
fn read(r: &mut Random, bytes: &[u8], seed: u64) -> u32 {
    let mut real = Words::empty();
    for word in real.nodes.iter_mut().chain(&mut real.entries).chain(&mut real.words) {
        *word = r.next() as u32;
    }
    let before = real.clone();
    let number = raw::read(bytes, &mut real.nodes, &mut real.entries, &mut real.words, &mut real.answer);
    let expected = match listing::read(bytes) {
        Ok(pairs) => {
            let model = filed(&pairs);
            assert_eq!(real.differs(&model.words()), None, "seed {seed}");
            [11, pairs.len() as u32, 0]
        }
        Err(bad) => {
            assert!(before.nodes == real.nodes && before.entries == real.entries && before.words == real.words);
            match bad {
                Bad::Line(offset) => [0, 9, offset as u32],
                Bad::TooMany => [0, 10, 0],
            }
        }
    };
    let text = String::from_utf8_lossy(&bytes[..bytes.len().min(200)]);
    assert_eq!(real.answer, expected, "seed {seed}: {text:?}");
    assert_eq!(number, if expected[0] == 0 { expected[1] } else { 0 });
    number
}

/// Some pairs, rising; some of them not allowed where `spoilt`.
fn pairs(r: &mut Random, spoilt: bool) -> (Vec<u32>, Vec<u32>) {
    let many = r.of(&[0, 1, 2, 3, 10, 100, 509, 510, 511]);
    let step = r.of(&[1, 3, 1000, 8_000_000]);
    let mut key = 0u32;
    let mut keys: Vec<u32> = (0..many).map(|_| { key = key.saturating_add(1 + r.below(step) as u32); key }).collect();
    let mut values: Vec<u32> = (0..many).map(|_| r.next() as u32 >> r.below(32)).collect();
    if spoilt && many > 0 {
        let i = r.below(many) as usize;
        match r.below(4) {
            0 => keys[i] = r.of(&[0, u32::MAX]),
            1 => keys[i] = keys[r.below(many) as usize],
            2 => keys.push(u32::MAX - 1),
            _ => values.push(0),
        }
    }
    (keys, values)
}

#[test]
fn listings() {
    let began = std::time::Instant::now();
    let (mut written, mut numbers) = (0u64, std::collections::BTreeMap::<u32, u64>::new());
    for seed in seeds("listings", 400 * scale()) {
        let mut r = Random::new(seed ^ 0x6c69_7374);
        let spoilt = r.one_in(3);
        let (keys, values) = pairs(&mut r, spoilt);
        let stamp = r.next() as u32 >> r.below(32);
        let whole = listing::write(stamp, &keys, &values, usize::MAX);
        let room = match &whole {
            Ok(text) => (text.len() as i64 + r.of(&[-1, 0, 1, 100, -(text.len() as i64)])) as usize,
            Err(_) => 20_000,
        };
        let mut out = vec![77u8; room];
        let mut answer = [0; 3];
        let number = raw::write(stamp, &keys, &values, &mut out, &mut answer);
        match listing::write(stamp, &keys, &values, room) {
            Ok(text) => {
                assert_eq!((number, answer), (0, [10, text.len() as u32, 0]), "seed {seed}");
                assert_eq!(&out[..text.len()], &text[..], "seed {seed}");
                assert!(out[text.len()..].iter().all(|b| *b == 77));
            }
            Err(why) => {
                assert_eq!((number, answer), (why, [0, why, 0]), "seed {seed}");
                assert!(out.iter().all(|b| *b == 77));
            }
        }
        written += 1;
        *numbers.entry(number).or_default() += 1;
        // read: as written by the model (a 511th key with it), mutated, truncated, with something behind it
        let lines: String = keys.iter().zip(&values).map(|(k, v)| format!("key={k}\nvalue={v}\n")).collect();
        let text = format!("edition=1\nstamp={stamp}\n{lines}count={}\n", keys.len()).into_bytes();
        *numbers.entry(read(&mut r, &text, seed)).or_default() += 1;
        for _ in 0..20 {
            let mut other = text.clone();
            for _ in 0..1 + r.below(2) {
                let at = r.below(other.len() as u64) as usize;
                match r.below(5) {
                    0 => other[at] = r.of(b"0123456789=\nkeyvalu "),
                    1 => other[at] = r.next() as u8,
                    2 => drop(other.remove(at)),
                    3 => other.insert(at, r.of(b"0123456789=\n")),
                    _ => other.truncate(at.max(1)),
                }
            }
            *numbers.entry(read(&mut r, &other, seed)).or_default() += 1;
        }
    }
    println!("listings: {written} written, numbers met {numbers:?}, {:.1} s", began.elapsed().as_secs_f64());
    for number in [0, 9, 10, 11, 12] {
        assert!(numbers.contains_key(&number), "{number} was never met");
    }
    // the answers' own cases
    let mut r = Random::new(0);
    let at = |text: &str| match listing::read(text.as_bytes()) { Err(Bad::Line(p)) => p, _ => usize::MAX };
    let cases = [("", 0), ("edition=2\nstamp=0\ncount=0\n", 0), ("edition=1\n", 10), ("edition=1\nstamp=01\ncount=0\n", 10)];
    for (text, offset) in cases {
        assert_eq!(at(text), offset);
        assert_eq!(read(&mut r, text.as_bytes(), 0), 9);
    }
    assert_eq!(read(&mut r, b"edition=1\nstamp=0\ncount=0\n", 0), 0);
    // wrong lengths come first: 7, and an answer of another length stays
    let mut real = Words::fresh();
    let before = real.clone();
    for (cut_words, cut_nodes) in [(1, 0), (0, 1)] {
        let (n, w) = (real.nodes.len() - cut_nodes, real.words.len() - cut_words);
        let mut answer = [9; 3];
        assert_eq!(raw::read(b"", &mut real.nodes[..n], &mut real.entries, &mut real.words[..w], &mut answer), 7);
        assert_eq!(answer, [0, 7, 0]);
        let mut longer = [9; 4];
        assert_eq!(raw::read(b"", &mut real.nodes[..n], &mut real.entries, &mut real.words[..w], &mut longer), 7);
        assert_eq!(raw::write(0, &[1], &[], &mut [], &mut longer), 7);
        assert_eq!(longer, [9; 4]);
        assert!(real == before);
    }
    assert_eq!(raw::write(0, &[1], &[], &mut [], &mut real.answer), 12); // 12 comes before 11
    assert_eq!(raw::write(0, &[1], &[1], &mut [], &mut real.answer), 11);
}

// ---- every refusal number, and each neighbouring pair in the order: start 7, 1, 8, 2, 3, 4; step 7, 1, 8, 5, 8
#[test]
fn refusals_in_order() {
    let fresh = Words::fresh();
    let busy = {
        let mut w = fresh.clone();
        assert_eq!(w.start(0, (1, 20, 7)), 0);
        w
    };
    let malformed = |w: &Words, at: usize, word: u32| {
        let mut w = w.clone();
        w.words[3 + at] = word;
        w
    };
    let short = |w: &Words| {
        let mut w = w.clone();
        w.nodes.pop();
        w
    };
    let start = |w: &Words, who: u32, op: (u32, u32, u32)| w.clone().start(who, op);
    let step = |w: &Words, who: u32| w.clone().step(who);
    let top = u32::MAX;

    // start: each alone
    assert_eq!(start(&short(&fresh), 0, (1, 20, 7)), 7);
    assert_eq!(start(&fresh, 16, (1, 20, 7)), 1);
    assert_eq!(start(&malformed(&fresh, 0, 5), 0, (1, 20, 7)), 8);
    assert_eq!(start(&busy, 0, (1, 20, 7)), 2);
    for op in [(1, 0, 7), (1, top, 7), (2, 0, 0), (3, top, 0), (4, 0, 5), (4, 5, top), (0, 5, 5), (5, 5, 5), (top, 5, 5)] {
        assert_eq!(start(&fresh, 0, op), 3, "{op:?}");
    }
    assert_eq!(start(&fresh, 0, (4, 21, 20)), 4);
    // start: neighbours
    assert_eq!(start(&short(&fresh), 16, (1, 20, 7)), 7);
    assert_eq!(start(&malformed(&fresh, 0, 5), 16, (1, 20, 7)), 1);
    assert_eq!(start(&malformed(&busy, 8, 1), 0, (1, 20, 7)), 8);
    assert_eq!(start(&busy, 0, (1, 0, 7)), 2);
    assert_eq!(start(&fresh, 0, (4, top, 5)), 3);
    assert_eq!(start(&fresh, 0, (4, 5, 0)), 3);
    // taken: bounds of keys, a range of one key, an unused number that is not looked at
    for op in [(1, 1, 0), (1, top - 1, top), (2, 5, 9), (3, 5, 9), (4, 20, 20), (4, 1, top - 1)] {
        assert_eq!(start(&fresh, 15, op), 0, "{op:?}");
    }

    // step: each alone, and neighbours
    assert_eq!(step(&short(&busy), 0), 7);
    assert_eq!(step(&busy, 16), 1);
    assert_eq!(step(&fresh, 0), 5);
    assert_eq!(step(&short(&busy), 16), 7);
    assert_eq!(step(&malformed(&busy, 3, 13), 16), 1);
    assert_eq!(step(&malformed(&fresh, 8, 1), 0), 8);
    assert_eq!(step(&malformed(&busy, 5, 512), 0), 8);
    assert_eq!(step(&malformed(&busy, 0, 0), 0), 8); // its key stays, which no kind 0 has
    let mut unnamed = busy.clone();
    unnamed.words[3..6].fill(0);
    assert_eq!(step(&unnamed, 0), 5);
    // every malformed word of an idle and of a walking record
    for at in 1..9 {
        assert_eq!(step(&malformed(&fresh, at, if at == 3 { 13 } else { 1 }), 0), 8, "word {at}");
    }
    for at in 6..9 {
        assert_eq!(step(&malformed(&busy, at, 1), 0), 8, "word {at}");
    }
}
