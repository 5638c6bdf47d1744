//! concread's B+tree map: tree NAME [PASSES [LIVES]]. An update is one write transaction; a range iterates over a read
//! transaction opened at its start.
use bench::measure::{measured, run, sizes, Register};
use concread::bptree::{BptreeMap, BptreeMapReadTxn};

type Pairs<'a> = Box<dyn Iterator<Item = (&'a u32, &'a u32)> + 'a>;

#[derive(Default)]
struct Tree {
    map: Option<&'static BptreeMap<u32, u32>>,
    read: Option<&'static BptreeMapReadTxn<'static, u32, u32>>,
    pairs: Option<Pairs<'static>>,
}

impl Tree {
    fn map(&self) -> &'static BptreeMap<u32, u32> {
        self.map.expect("fresh was called")
    }

    fn drop_read(&mut self) {
        self.pairs = None;
        if let Some(read) = self.read.take() {
            // SAFETY: it was leaked in `open`, and its iterator is gone.
            drop(unsafe { Box::from_raw(read as *const _ as *mut BptreeMapReadTxn<'static, u32, u32>) });
        }
    }
}

impl Register for Tree {
    fn fresh(&mut self) {
        self.drop_read();
        if let Some(map) = self.map.take() {
            // SAFETY: it was leaked below, and nothing reads it any more.
            drop(unsafe { Box::from_raw(map as *const _ as *mut BptreeMap<u32, u32>) });
        }
        self.map = Some(Box::leak(Box::new(BptreeMap::new())));
    }

    fn insert(&mut self, key: u32, value: u32) -> bool {
        let mut write = self.map().write();
        let new = write.insert(key, value).is_none();
        write.commit();
        new
    }

    fn remove(&mut self, key: u32) -> bool {
        let mut write = self.map().write();
        let there = write.remove(&key).is_some();
        write.commit();
        there
    }

    fn open(&mut self) {
        let read: &'static BptreeMapReadTxn<'static, u32, u32> = Box::leak(Box::new(self.map().read()));
        self.read = Some(read);
        self.pairs = Some(Box::new(read.iter()));
    }

    fn hand(&mut self, keys: usize, out: &mut Vec<(u32, u32)>) {
        let pairs = self.pairs.as_mut().expect("open was called");
        out.extend(pairs.by_ref().take(keys).map(|(k, v)| (*k, *v)));
    }

    fn close(&mut self) -> bool {
        let ended = self.pairs.as_mut().is_some_and(|p| p.next().is_none());
        self.drop_read();
        ended
    }
}

fn main() {
    let (passes, lives) = sizes(std::env::args().skip(2));
    run(vec![measured::<Tree>("concread")], passes, lives);
}
