use std::sync::atomic::Ordering::{self, Relaxed};

/// In which order other threads see what is done to the words.
///
/// - A record's words are stored while no other thread has its number, and loaded by those that found the number in a word. The exchange that
///   published it is a release at least, and a load of a leaf or node, or an exchange that fails, an acquire at least. What a record names was
///   published before it, and an acquire before the exchange hands that on. So words of records are stored and loaded relaxed.
/// - Release and acquire are not enough for leaves and nodes, since two tries suffice only for this reason: a thread that publishes a child and
///   then loads the old word of its parent is seen by whoever exchanges that word and then loads the child. Without one order of these four, both
///   could miss one another. So those loads and exchanges are `SeqCst`, and so is an exchange that fails, which stands for the child's next load.
///   On x86-64 these are the instructions of acquire and release.
/// - Tables are laid out while one thread has them to itself, under locks that order that before and after.
pub trait Orders: Copy + Send + Sync + 'static {
    const NAME: &'static str;
    const STORE_RECORD: Ordering;
    const LOAD_RECORD: Ordering;
}

/// No more than is needed.
#[derive(Clone, Copy)]
pub struct Least;

impl Orders for Least {
    const NAME: &'static str = "plain";
    const STORE_RECORD: Ordering = Relaxed;
    const LOAD_RECORD: Ordering = Relaxed;
}

/// The one order that the trie's toolchain has.
#[derive(Clone, Copy)]
pub struct SeqCst;

impl Orders for SeqCst {
    const NAME: &'static str = "plain, SeqCst";
    const STORE_RECORD: Ordering = Ordering::SeqCst;
    const LOAD_RECORD: Ordering = Ordering::SeqCst;
}
