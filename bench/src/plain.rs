//! The trie's algorithm in plain Rust, to compare with: the same words, double refresh, records of five words and descents, without proofs.
mod orders;
mod pass;
mod summary;
mod words;

pub use orders::{Least, Orders, SeqCst};
pub use pass::Pass;
pub use words::{Words, room};

use crate::apart::Apart;
use crate::engine::{Engine, Seat};
use crate::operation::{Answer, BITS, Change, Query, Update};
use augtrie::Span;
use std::ops::Range;
use std::marker::PhantomData;
use std::sync::atomic::{AtomicU64, Ordering::Relaxed};
use std::sync::{Mutex, MutexGuard};

/// A thread takes so many records at a time, for 256 updates.
const SHARE: u64 = 256 * BITS as u64;

/// The records that a thread has left, which it holds while it works.
type Lane = Apart<Mutex<Range<u64>>>;

fn held(lane: &Lane) -> MutexGuard<'_, Range<u64>> {
    lane.0.lock().expect("no thread panics")
}

/// The table, without bounds checks, and what its threads have of it.
pub struct Plain<O> {
    table: Vec<AtomicU64>,
    /// The number of the first record that no thread took. It is only counted with; it is set back under all locks.
    next: AtomicU64,
    lanes: Vec<Lane>,
    orders: PhantomData<O>,
}

impl<O: Orders> Plain<O> {
    fn words(&self) -> Words<'_, O, false> {
        Words::of(&self.table, BITS as usize)
    }

    /// Takes records, if there are enough.
    fn share(&self) -> Option<Range<u64>> {
        let first = self.next.fetch_add(SHARE, Relaxed);
        (first + SHARE <= self.words().records()).then_some(first..first + SHARE)
    }

    /// Lays the table out again while no thread works, unless another thread has just done so.
    fn roll(&self) {
        let mut lanes: Vec<_> = self.lanes.iter().map(held).collect();
        if self.next.load(Relaxed) + SHARE > self.words().records() {
            self.next.store(self.words().open(), Relaxed);
            lanes.iter_mut().for_each(|left| **left = 0..0);
        }
    }
}

impl<O: Orders> Engine for Plain<O> {
    const NAME: &'static str = O::NAME;
    type Seat<'engine> = Worker<'engine, O>;

    fn new(threads: usize, bytes: u64) -> Plain<O> {
        let lanes = (0..threads).map(|_| Lane::default()).collect();
        let mut plain = Plain { table: room(bytes / 3), next: AtomicU64::new(0), lanes, orders: PhantomData };
        plain.next = plain.words().open().into();
        plain
    }

    fn seats(&mut self, threads: usize) -> Vec<Worker<'_, O>> {
        self.lanes[..threads].iter().map(|lane| Worker { plain: self, lane }).collect()
    }
}

/// A thread of it.
pub struct Worker<'t, O> {
    plain: &'t Plain<O>,
    lane: &'t Lane,
}

impl<'t, O: Orders> Worker<'t, O> {
    /// Its records, once some are left.
    fn left(&self) -> MutexGuard<'t, Range<u64>> {
        loop {
            let mut left = held(self.lane);
            if left.is_empty() {
                *left = self.plain.share().unwrap_or_default();
            }
            if !left.is_empty() {
                return left;
            }
            drop(left);
            self.plain.roll();
        }
    }
}

impl<O: Orders> Seat for Worker<'_, O> {
    fn update(&mut self, update: Update) -> Change {
        let mut pass = Pass { words: self.plain.words(), left: &mut self.left() };
        match update {
            Update::Insert(key) if pass.insert(u64::from(key)) => Change::Came,
            Update::Remove(key) if pass.remove(u64::from(key)) => Change::Left,
            Update::Insert(_) | Update::Remove(_) => Change::Nothing,
            Update::Put(key, weight) => [Change::Nothing, Change::Came, Change::Weighed][pass.put(u64::from(key), u64::from(weight)) as usize],
        }
    }

    fn ask(&mut self, query: &Query) -> Answer {
        let _held = held(self.lane);
        let words = self.plain.words();
        let now = words.snapshot();
        let rank = |key: u32| words.rank(now, u64::from(key)) as u32;
        match query {
            Query::Rank(key) => Answer::Rank(rank(*key)),
            Query::Select(index) => Answer::Select(words.select(now, u64::from(*index)).map(|key| key as u32)),
            Query::Range(from, to) => {
                let all = words.range(now, u64::from(*from), u64::from(*to));
                let ends = if all.count > 0 { all.extent } else { 0 };
                Answer::Range(Span { sum: all.sum, count: all.count as u32, least: (ends >> 32) as u32, greatest: ends as u32 })
            }
            Query::Ranks(keys) => Answer::Ranks(keys.map(rank)),
        }
    }
}
