//! The workload, the same for every contender: 255 keys; then rounds of one whole range at a snapshot, in four parts,
//! with 64 inserts of new keys and 64 removes between the parts, while 64 more inserts fit into the register.
//! The model is the standard library's B-tree map. In order: sizes; what is in a life; making one.
use std::collections::BTreeMap;

pub const MOST_INSERTS: usize = 510;
pub const FIRST_KEYS: usize = 255;
pub const PAIRS: usize = 64;
pub const PARTS: usize = 4;
pub const ROUNDS: usize = (MOST_INSERTS - FIRST_KEYS) / PAIRS;
pub const LOW: u32 = 1;
pub const HIGH: u32 = u32::MAX - 1;

pub enum Update {
    Insert(u32, u32),
    Remove(u32),
}

/// One range: the model's content at its snapshot, and the updates made after each part of it.
pub struct Round {
    pub content: Vec<(u32, u32)>,
    pub updates: Vec<Vec<Update>>,
}

/// A register from fresh to nearly full.
pub struct Life {
    pub fill: Vec<(u32, u32)>,
    pub rounds: Vec<Round>,
    pub left: Vec<(u32, u32)>,
}

/// A small generator (xorshift), so that every run has the same inputs.
struct Dice(u64);

impl Dice {
    fn roll(&mut self, below: u64) -> u64 {
        self.0 ^= self.0 << 13;
        self.0 ^= self.0 >> 7;
        self.0 ^= self.0 << 17;
        self.0 % below
    }
}

fn new_key(dice: &mut Dice, used: &mut BTreeMap<u32, ()>) -> u32 {
    loop {
        let key = LOW + dice.roll(HIGH as u64) as u32;
        if used.insert(key, ()).is_none() {
            return key;
        }
    }
}

pub fn life(seed: u64) -> Life {
    let mut dice = Dice(0x9e37_79b9_7f4a_7c15 ^ (seed + 1));
    let mut used = BTreeMap::new();
    let mut model = BTreeMap::new();
    let mut fill = Vec::new();
    for _ in 0..FIRST_KEYS {
        let (key, value) = (new_key(&mut dice, &mut used), dice.roll(1 << 32) as u32);
        model.insert(key, value);
        fill.push((key, value));
    }
    let mut rounds = Vec::new();
    for _ in 0..ROUNDS {
        let content = model.iter().map(|(k, v)| (*k, *v)).collect();
        let mut updates = Vec::new();
        for _ in 0..PARTS {
            let mut part = Vec::new();
            for _ in 0..PAIRS / PARTS {
                let (key, value) = (new_key(&mut dice, &mut used), dice.roll(1 << 32) as u32);
                model.insert(key, value);
                part.push(Update::Insert(key, value));
                let nth = dice.roll(model.len() as u64) as usize;
                let gone = *model.keys().nth(nth).expect("a key of the model");
                model.remove(&gone);
                part.push(Update::Remove(gone));
            }
            updates.push(part);
        }
        rounds.push(Round { content, updates });
    }
    let left = model.into_iter().collect();
    Life { fill, rounds, left }
}
