//! Measuring contenders. In order: what a register does; the two timed functions; one life; contenders in turn.
//! A clock is read around whole parts only (a quarter of a range, 32 updates); its own cost is taken off.
//! Every range is compared with the model, outside the time.
use crate::workload::{life, Life, Update, FIRST_KEYS, PARTS};
use std::hint::black_box;
use std::time::Instant;

pub trait Register {
    /// Empty, and ready for a life.
    fn fresh(&mut self);
    /// One whole insert of a new key: true where it was made.
    fn insert(&mut self, key: u32, value: u32) -> bool;
    /// One whole remove: true where it was made.
    fn remove(&mut self, key: u32) -> bool;
    /// Begins the whole range, at the snapshot of this moment.
    fn open(&mut self);
    /// Hands out that many keys.
    fn hand(&mut self, keys: usize, out: &mut Vec<(u32, u32)>);
    /// Ends the range, which has no more keys: true where it had none.
    fn close(&mut self) -> bool;
    /// Steps made so far; 0 where there are none.
    fn steps(&self) -> u64 {
        0
    }
}

pub enum Part {
    Open,
    Hand(usize),
    Close,
}

/// A part of a range.
#[inline(never)]
pub fn range_part<R: Register>(r: &mut R, part: Part, out: &mut Vec<(u32, u32)>) -> bool {
    match part {
        Part::Open => r.open(),
        Part::Hand(keys) => r.hand(keys, out),
        Part::Close => return r.close(),
    }
    true
}

/// Updates, each whole. Answers how many were made.
#[inline(never)]
pub fn update_part<R: Register>(r: &mut R, updates: &[Update]) -> usize {
    let mut made = 0;
    for u in updates {
        made += match *u {
            Update::Insert(key, value) => r.insert(key, value),
            Update::Remove(key) => r.remove(key),
        } as usize;
    }
    made
}

/// The nanoseconds of each part in their order, and steps and keys handed out or updates made in all.
#[derive(Default)]
struct Sum {
    nanos: Vec<f64>,
    steps: u64,
    count: u64,
}

impl Sum {
    fn add<R: Register, A>(&mut self, r: &mut R, clock: f64, count: usize, f: impl FnOnce(&mut R) -> A) -> A {
        let before = r.steps();
        let t = Instant::now();
        let a = black_box(f(r));
        self.nanos.push(t.elapsed().as_nanos() as f64 - clock);
        self.steps += r.steps() - before;
        self.count += count as u64;
        a
    }
}

fn median(mut all: Vec<f64>) -> f64 {
    all.sort_unstable_by(f64::total_cmp);
    all[all.len() / 2]
}

/// Each part's median over the passes, summed: every pass has the same parts, so a pass that was held up does no harm.
fn told(passes: &[Sum]) -> String {
    let parts = passes[0].nanos.len();
    let nanos: f64 = (0..parts).map(|i| median(passes.iter().map(|p| p.nanos[i]).collect())).sum();
    format!("{nanos:.0} {} {}", passes[0].steps, passes[0].count)
}

/// What reading the clock twice costs.
fn clock_cost() -> f64 {
    let pair = |_| {
        let t = Instant::now();
        t.elapsed().as_nanos() as f64
    };
    median((0..10001).map(pair).collect())
}

fn live<R: Register>(r: &mut R, life: &Life, clock: f64, range: &mut Sum, update: &mut Sum) {
    r.fresh();
    for &(key, value) in &life.fill {
        assert!(r.insert(key, value), "filling");
    }
    let mut out = Vec::with_capacity(2 * FIRST_KEYS);
    for round in &life.rounds {
        out.clear();
        let all = round.content.len();
        range.add(r, clock, 0, |r| range_part(r, Part::Open, &mut out));
        for (i, updates) in round.updates.iter().enumerate() {
            let keys = all * (i + 1) / PARTS - all * i / PARTS;
            range.add(r, clock, keys, |r| range_part(r, Part::Hand(keys), &mut out));
            let made = update.add(r, clock, updates.len(), |r| update_part(r, updates));
            assert_eq!(made, updates.len(), "every update is made");
        }
        let ended = range.add(r, clock, 0, |r| range_part(r, Part::Close, &mut out));
        assert!(ended, "no key is left after the last");
        assert!(out == round.content, "a range is the model at its snapshot");
    }
    out.clear();
    r.open();
    r.hand(life.left.len(), &mut out);
    assert!(r.close() && out == life.left, "what is left is the model");
}

/// A contender with what was measured of it so far.
pub struct Measured<R> {
    name: &'static str,
    register: R,
    ranges: Vec<Sum>,
    updates: Vec<Sum>,
}

/// What is asked of each contender in turn.
pub trait Contender {
    /// One life, not measured.
    fn warm(&mut self, life: &Life);
    /// Another pass begins.
    fn pass(&mut self);
    fn live(&mut self, life: &Life, clock: f64);
    /// The name, then nanoseconds, steps and count of the ranges and of the updates.
    fn told(&self) -> String;
}

pub fn measured<R: Register + Default + 'static>(name: &'static str) -> Box<dyn Contender> {
    Box::new(Measured { name, register: R::default(), ranges: Vec::new(), updates: Vec::new() })
}

impl<R: Register> Contender for Measured<R> {
    fn warm(&mut self, life: &Life) {
        live(&mut self.register, life, 0.0, &mut Sum::default(), &mut Sum::default());
    }

    fn pass(&mut self) {
        self.ranges.push(Sum::default());
        self.updates.push(Sum::default());
    }

    fn live(&mut self, life: &Life, clock: f64) {
        let (range, update) = (self.ranges.last_mut(), self.updates.last_mut());
        live(&mut self.register, life, clock, range.expect("a pass"), update.expect("a pass"));
    }

    fn told(&self) -> String {
        format!("{} {} {}", self.name, told(&self.ranges), told(&self.updates))
    }
}

/// Prints a line for each contender. They live each life one after another, another of them first each time, so that
/// what slows the machine for longer than a life slows all of them. With one pass there is none to warm up, so that
/// what is counted from outside is what is printed.
pub fn run(mut contenders: Vec<Box<dyn Contender>>, passes: usize, lives: u64) {
    let inputs: Vec<Life> = (0..lives).map(life).collect();
    let clock = clock_cost();
    if passes > 1 {
        let first = life(lives);
        contenders.iter_mut().for_each(|c| c.warm(&first));
    }
    for _ in 0..passes.max(1) {
        contenders.iter_mut().for_each(|c| c.pass());
        for l in &inputs {
            contenders.iter_mut().for_each(|c| c.live(l, clock));
            contenders.rotate_left(1);
        }
    }
    contenders.iter().for_each(|c| println!("{}", c.told()));
}

/// The numbers after the contenders' names on the command line: passes, and lives a pass.
pub fn sizes(mut rest: impl Iterator<Item = String>) -> (usize, u64) {
    let mut number = |otherwise: u64| rest.next().and_then(|a| a.parse().ok()).unwrap_or(otherwise);
    (number(9) as usize, number(20))
}
