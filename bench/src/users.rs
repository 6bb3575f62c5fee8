use crate::engine::{Engine, Seat};
use crate::operation::{Answer, BITS, Change, Query, Update};
use augtrie::{Put, Trie, User};

const OPEN: &str = "the trie is open";

impl Seat for User {
    fn update(&mut self, update: Update) -> Change {
        match update {
            Update::Insert(key) if self.insert(key).expect(OPEN) => Change::Came,
            Update::Remove(key) if self.remove(key).expect(OPEN).is_some() => Change::Left,
            Update::Insert(_) | Update::Remove(_) => Change::Nothing,
            Update::Put(key, weight) => match self.put(key, weight).expect(OPEN) {
                Put::Accepted => Change::Came,
                Put::Replaced { .. } => Change::Weighed,
                Put::Refused => Change::Nothing,
            },
        }
    }

    fn ask(&mut self, query: &Query) -> Answer {
        let look = self.look().expect(OPEN);
        match query {
            Query::Rank(key) => Answer::Rank(look.rank(*key)),
            Query::Select(index) => Answer::Select(look.select(*index)),
            Query::Range(from, to) => Answer::Range(look.range(*from..*to)),
            Query::Ranks(keys) => Answer::Ranks(look.ranks(keys).expect("memory").try_into().expect("a rank for each key")),
        }
    }
}

/// The trie as callers in Rust have it, with a user for each thread.
pub struct Users(Trie);

impl Engine for Users {
    const NAME: &'static str = "trie";
    type Seat<'engine> = User;

    fn new(threads: usize, bytes: u64) -> Users {
        Users(Trie::new(BITS, threads as u32, bytes).expect("memory"))
    }

    fn seats(&mut self, threads: usize) -> Vec<User> {
        (0..threads).map(|_| self.0.user().expect("a user for each thread")).collect()
    }
}
