use crate::operation::{Answer, Change, Query, Update};

/// A set that threads share, empty at first.
pub trait Engine {
    const NAME: &'static str;

    /// Whether its threads wait for one lock: the trie is held to the best of these.
    const LOCKS: bool = false;

    /// What a thread works with.
    type Seat<'engine>: Seat + Send
    where
        Self: 'engine;

    /// One for so many threads. If it works in a table, that takes at most so many bytes.
    fn new(threads: usize, bytes: u64) -> Self;

    /// A seat for each of so many threads, of those that it is for. They stay in this array, next to one another, while the threads work.
    fn seats(&mut self, threads: usize) -> Vec<Self::Seat<'_>>;
}

/// What a thread works with: each query is asked of a fresh snapshot, or under the lock.
pub trait Seat {
    fn update(&mut self, update: Update) -> Change;
    fn ask(&mut self, query: &Query) -> Answer;
}

/// A set that one thread has to itself.
pub trait Set: Default + Send + Sync {
    fn update(&mut self, update: Update) -> Change;
    fn ask(&self, query: &Query) -> Answer;
}
