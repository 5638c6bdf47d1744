//! The floor: a sorted vector, copied for each range.
use bench::measure::Register;

#[derive(Default)]
pub struct Sorted {
    pairs: Vec<(u32, u32)>,
    copy: Vec<(u32, u32)>,
    at: usize,
}

impl Register for Sorted {
    fn fresh(&mut self) {
        self.pairs.clear();
    }

    fn insert(&mut self, key: u32, value: u32) -> bool {
        match self.pairs.binary_search_by_key(&key, |p| p.0) {
            Ok(_) => false,
            Err(place) => {
                self.pairs.insert(place, (key, value));
                true
            }
        }
    }

    fn remove(&mut self, key: u32) -> bool {
        match self.pairs.binary_search_by_key(&key, |p| p.0) {
            Ok(place) => {
                self.pairs.remove(place);
                true
            }
            Err(_) => false,
        }
    }

    fn open(&mut self) {
        self.copy.clone_from(&self.pairs);
        self.at = 0;
    }

    fn hand(&mut self, keys: usize, out: &mut Vec<(u32, u32)>) {
        for &pair in &self.copy[self.at..self.at + keys] {
            out.push(pair);
        }
        self.at += keys;
    }

    fn close(&mut self) -> bool {
        self.at == self.copy.len()
    }
}
