use super::orders::Orders;
use super::summary::Summary;
use std::marker::PhantomData;
use std::sync::atomic::{AtomicU64, Ordering::SeqCst};

// The words of a record: the numbers of the two children, how many members are below, the sum of their weights, and their extent.
const LEFT: usize = 0;
const RIGHT: usize = 1;
const COUNT: usize = 2;
const SUM: usize = 3;
const EXTENT: usize = 4;
const RECORD: usize = 5;

/// The trie's words: a leaf for each key, a word for each inner node, level by level, and then the records. Without bounds checks they trust
/// their callers to ask for keys below `2^bits` and for snapshots of these words, and to make no more updates than there is room for.
#[derive(Clone, Copy)]
pub struct Words<'t, O, const CHECKED: bool> {
    words: &'t [AtomicU64],
    pub bits: usize,
    orders: PhantomData<O>,
}

/// Zeroed words of so many bytes.
pub fn room(bytes: u64) -> Vec<AtomicU64> {
    (0..bytes / 8).map(|_| AtomicU64::new(0)).collect()
}

impl<'t, O: Orders, const CHECKED: bool> Words<'t, O, CHECKED> {
    pub fn of(words: &'t [AtomicU64], bits: usize) -> Self {
        Words { words, bits, orders: PhantomData }
    }

    /// Lays out what is above the leaves: first a record a level for the nodes that cover no member, then one for each other node, level by
    /// level. It gives the number of the first record that is left for updates.
    pub fn open(self) -> u64 {
        let leaves = 1 << self.bits;
        let (mut below, mut first, mut width, mut next) = (0, leaves, leaves / 2, self.bits as u64);
        for level in 0..self.bits {
            let shared = level as u64;
            let under = if level > 0 { shared - 1 } else { 0 };
            self.fill(shared, under, under, Summary::NOTHING);
            for place in 0..width {
                let (one, other) = (self.load(below + 2 * place), self.load(below + 2 * place + 1));
                let summary = self.joined(level, one, other, (place << (level + 1)) as u64);
                let number = if summary.count > 0 { next } else { shared };
                if summary.count > 0 {
                    self.fill(next, one, other, summary);
                    next += 1;
                }
                self.word(first + place).store(number, SeqCst);
            }
            (below, first, width) = (first, first + width, width / 2);
        }
        next
    }

    #[inline(always)]
    fn word(self, place: usize) -> &'t AtomicU64 {
        // SAFETY: the callers keep to what the type says, and each number in the words is that of a record.
        if CHECKED { &self.words[place] } else { unsafe { self.words.get_unchecked(place) } }
    }

    /// A leaf or a node.
    #[inline(always)]
    pub fn load(self, place: usize) -> u64 {
        self.word(place).load(SeqCst)
    }

    /// Puts a word in the place of another at a leaf or node, if that is still there.
    #[inline(always)]
    pub fn exchange(self, place: usize, old: u64, new: u64) -> bool {
        self.word(place).compare_exchange(old, new, SeqCst, SeqCst).is_ok()
    }

    /// A word of a record.
    #[inline(always)]
    fn of_record(self, place: usize) -> u64 {
        self.word(place).load(O::LOAD_RECORD)
    }

    #[inline(always)]
    fn record(self, number: u64) -> usize {
        (2 << self.bits) - 1 + number as usize * RECORD
    }

    /// How many records there are.
    pub fn records(self) -> u64 {
        (self.words.len() - self.record(0)) as u64 / RECORD as u64
    }

    #[inline(always)]
    fn child(self, number: u64, side: usize) -> u64 {
        self.of_record(self.record(number) + side)
    }

    /// What there is below a word at a level. A leaf is that of the key.
    #[inline(always)]
    fn summary(self, level: usize, word: u64, key: u64) -> Summary {
        if level == 0 {
            return Summary::of_leaf(key, word);
        }
        let record = self.record(word);
        Summary { count: self.of_record(record + COUNT), sum: self.of_record(record + SUM), extent: self.of_record(record + EXTENT) }
    }

    /// What two words at a level come to, the first of which covers the key.
    #[inline(always)]
    fn joined(self, level: usize, one: u64, other: u64, key: u64) -> Summary {
        self.summary(level, one, key).join(self.summary(level, other, key + 1))
    }

    /// How many members there are below a word at a level.
    #[inline(always)]
    fn count(self, level: usize, word: u64) -> u64 {
        if level == 0 { word >> 32 & 1 } else { self.of_record(self.record(word) + COUNT) }
    }

    #[inline(always)]
    fn fill(self, number: u64, left: u64, right: u64, summary: Summary) {
        let record = self.record(number);
        self.word(record + LEFT).store(left, O::STORE_RECORD);
        self.word(record + RIGHT).store(right, O::STORE_RECORD);
        self.word(record + COUNT).store(summary.count, O::STORE_RECORD);
        self.word(record + SUM).store(summary.sum, O::STORE_RECORD);
        self.word(record + EXTENT).store(summary.extent, O::STORE_RECORD);
    }

    /// Tries once to put a record of the two children, from `left` on, into a node's word.
    #[inline(always)]
    pub fn refresh(self, level: usize, left: usize, node: usize, first: u64, number: u64) -> bool {
        let old = self.load(node);
        let (one, other) = (self.load(left), self.load(left + 1));
        self.fill(number, one, other, self.joined(level, one, other, first));
        self.exchange(node, old, number)
    }

    /// The root's record: a snapshot.
    pub fn snapshot(self) -> u64 {
        self.load((2 << self.bits) - 2)
    }

    /// How many members a snapshot has.
    #[inline(never)]
    pub fn size(self, number: u64) -> u64 {
        self.count(self.bits, number)
    }

    /// Whether a key is a member of a snapshot.
    #[inline(never)]
    pub fn has(self, number: u64, key: u64) -> bool {
        let leaf = (0..self.bits).rev().fold(number, |number, level| self.child(number, (key >> level & 1) as usize));
        leaf >> 32 & 1 == 1
    }

    /// How many members of a snapshot are below a key.
    #[inline(never)]
    pub fn rank(self, mut number: u64, key: u64) -> u64 {
        let mut below = 0;
        for level in (0..self.bits).rev() {
            if key >> level & 1 == 0 {
                number = self.child(number, LEFT);
            } else {
                below += self.count(level, self.child(number, LEFT));
                number = self.child(number, RIGHT);
            }
        }
        below
    }

    /// The member of a snapshot with `index` members below it.
    #[inline(never)]
    pub fn select(self, mut number: u64, mut index: u64) -> Option<u64> {
        if self.count(self.bits, number) <= index {
            return None;
        }
        let mut key = 0;
        for level in (0..self.bits).rev() {
            let left = self.child(number, LEFT);
            let count = self.count(level, left);
            key *= 2;
            if index < count {
                number = left;
            } else {
                index -= count;
                key += 1;
                number = self.child(number, RIGHT);
            }
        }
        Some(key)
    }

    /// The greatest member of a snapshot below a key, or the least one above it.
    #[inline(never)]
    pub fn beside<const ABOVE: bool>(self, mut number: u64, key: u64) -> Option<u64> {
        let (near, far) = if ABOVE { (LEFT, RIGHT) } else { (RIGHT, LEFT) };
        let mut found = None;
        for level in (0..self.bits).rev() {
            if (key >> level & 1 == 0) == ABOVE {
                let other = self.child(number, far);
                if self.count(level, other) > 0 {
                    found = Some((level, other));
                }
                number = self.child(number, near);
            } else {
                number = self.child(number, far);
            }
        }
        let (top, mut word) = found?;
        let mut place = if ABOVE { (key >> top) + 1 } else { (key >> top) - 1 };
        for level in (0..top).rev() {
            let first = self.child(word, near);
            let is_there = self.count(level, first) > 0;
            word = if is_there { first } else { self.child(word, far) };
            place = 2 * place + u64::from(is_there != ABOVE);
        }
        Some(place)
    }

    /// What the members of a snapshot from `from` on and below `to` come to: what lies between the ways to both ends, from where they part.
    #[inline(never)]
    pub fn range(self, mut number: u64, from: u64, to: u64) -> Summary {
        if from >= to {
            return Summary::NOTHING;
        }
        let (last, mut level) = (to - 1, self.bits);
        while level > 0 && from >> (level - 1) == last >> (level - 1) {
            level -= 1;
            number = self.child(number, (from >> level & 1) as usize);
        }
        if level == 0 {
            return Summary::of_leaf(from, number);
        }
        let (mut one, mut other) = (self.child(number, LEFT), self.child(number, RIGHT));
        let (mut low, mut high) = (Summary::NOTHING, Summary::NOTHING);
        for level in (0..level - 1).rev() {
            let right = self.child(one, RIGHT);
            if from >> level & 1 == 0 {
                low = self.summary(level, right, from | 1).join(low);
                one = self.child(one, LEFT);
            } else {
                one = right;
            }
            let left = self.child(other, LEFT);
            if last >> level & 1 == 1 {
                high = high.join(self.summary(level, left, last & !1));
                other = self.child(other, RIGHT);
            } else {
                other = left;
            }
        }
        Summary::of_leaf(from, one).join(low).join(high).join(Summary::of_leaf(last, other))
    }
}
