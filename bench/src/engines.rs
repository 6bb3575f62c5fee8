use crate::engine::Engine;
use crate::plain::{Least, Plain, SeqCst};
use crate::runner::Runner;
use crate::shared::Shared;
use crate::sums::Sums;
use crate::users::Users;
use std::collections::BTreeMap;
use std::sync::{Mutex, RwLock};

/// The engines that are measured with threads that are put aside.
const PUT_ASIDE: [&str; 4] = ["trie", "mutex", "rwlock", "copies"];

/// An engine, with the name that it has in the table, and what its type says of it.
pub struct Entry {
    pub name: &'static str,
    pub locks: bool,
    /// Whether it is measured with threads that are put aside.
    pub is_put_aside: bool,
    pub runner: Box<dyn Runner>,
}

fn entry<E: Engine + 'static>(threads: usize, bytes: u64) -> Entry {
    Entry { name: E::NAME, locks: E::LOCKS, is_put_aside: PUT_ASIDE.contains(&E::NAME), runner: Box::new(E::new(threads, bytes)) }
}

/// All engines for so many threads, the trie first, each with every second key; all but the trie without one key, if that is asked for.
pub fn all(threads: usize, bytes: u64, without: Option<u32>) -> Vec<Entry> {
    let makers = [
        entry::<Users>,
        entry::<Plain<Least>>,
        entry::<Plain<SeqCst>>,
        entry::<Shared<Mutex<Sums>>>,
        entry::<Shared<RwLock<Sums>>>,
        entry::<Shared<RwLock<BTreeMap<u32, u32>>>>,
        #[cfg(feature = "copies")]
        entry::<Shared<crate::copies::Copies>>,
    ];
    let filled = |(number, make): (usize, fn(usize, u64) -> Entry)| {
        let mut entry = make(threads, bytes);
        entry.runner.fill(without.filter(|_| number > 0));
        entry
    };
    makers.into_iter().enumerate().map(filled).collect()
}
