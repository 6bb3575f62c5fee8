use crate::engine::Set;
use crate::fenwick::Fenwick;
use crate::operation::{Answer, Change, KEYS, Query, Update};
use augtrie::Span;

const BLOCKS: usize = KEYS as usize / 64;

/// What one thread would keep: a bitmap, the weights, and two Fenwick trees over blocks of 64 keys, of the members and of their weights.
pub struct Sums {
    /// One block more than there are, which is empty.
    members: Vec<u64>,
    /// 0 if the key is absent.
    weights: Vec<u32>,
    counts: Fenwick,
    sums: Fenwick,
}

impl Default for Sums {
    fn default() -> Sums {
        Sums { members: vec![0; BLOCKS + 1], weights: vec![0; KEYS as usize], counts: Fenwick::new(BLOCKS), sums: Fenwick::new(BLOCKS) }
    }
}

impl Sums {
    fn rank(&self, key: u32) -> u32 {
        let block = key as usize / 64;
        let before = self.members[block] & ((1 << (key % 64)) - 1);
        self.counts.below(block) as u32 + before.count_ones()
    }

    fn select(&self, index: u32) -> Option<u32> {
        let (block, left) = self.counts.find(u64::from(index));
        let mut word = self.members[block];
        for _ in 0..left {
            word &= word.wrapping_sub(1);
        }
        (word != 0).then(|| 64 * block as u32 + word.trailing_zeros())
    }

    /// The sum of the weights below a key.
    fn sum(&self, key: u32) -> u64 {
        let block = key as usize / 64;
        self.sums.below(block) + self.weights[64 * block..key as usize].iter().map(|&weight| u64::from(weight)).sum::<u64>()
    }

    fn range(&self, from: u32, to: u32) -> Span {
        let count = self.rank(to) - self.rank(from);
        if count == 0 {
            return Span::default();
        }
        Span { sum: self.sum(to) - self.sum(from), count, least: self.least(from), greatest: self.greatest(to - 1) }
    }

    /// The least member from a key on. There is one.
    fn least(&self, key: u32) -> u32 {
        let mut block = key as usize / 64;
        let mut word = self.members[block] & u64::MAX << (key % 64);
        while word == 0 {
            block += 1;
            word = self.members[block];
        }
        64 * block as u32 + word.trailing_zeros()
    }

    /// The greatest member up to a key. There is one.
    fn greatest(&self, key: u32) -> u32 {
        let mut block = key as usize / 64;
        let mut word = self.members[block] & u64::MAX >> (63 - key % 64);
        while word == 0 {
            block -= 1;
            word = self.members[block];
        }
        64 * block as u32 + 63 - word.leading_zeros()
    }
}

impl Set for Sums {
    fn update(&mut self, update: Update) -> Change {
        let (Update::Insert(key) | Update::Remove(key) | Update::Put(key, _)) = update;
        let (block, bit) = (key as usize / 64, 1 << (key % 64));
        let (change, weight) = match (update, self.members[block] & bit != 0) {
            (Update::Insert(_), true) | (Update::Remove(_), false) => return Change::Nothing,
            (Update::Insert(_), false) => (Change::Came, key),
            (Update::Put(_, weight), false) => (Change::Came, weight),
            (Update::Put(_, weight), true) => (Change::Weighed, weight),
            (Update::Remove(_), true) => (Change::Left, 0),
        };
        let old = std::mem::replace(&mut self.weights[key as usize], weight);
        self.sums.add(block, u64::from(weight).wrapping_sub(u64::from(old)));
        if change != Change::Weighed {
            self.members[block] ^= bit;
            self.counts.add(block, if change == Change::Came { 1 } else { u64::MAX });
        }
        change
    }

    fn ask(&self, query: &Query) -> Answer {
        match query {
            Query::Rank(key) => Answer::Rank(self.rank(*key)),
            Query::Select(index) => Answer::Select(self.select(*index)),
            Query::Range(from, to) => Answer::Range(self.range(*from, *to)),
            Query::Ranks(keys) => Answer::Ranks(keys.map(|key| self.rank(key))),
        }
    }
}
