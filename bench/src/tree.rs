use crate::engine::Set;
use crate::operation::{Answer, Change, Query, Update};
use augtrie::Span;
use std::collections::BTreeMap;
use std::collections::btree_map::Entry;

/// Members with their weights: it has to count for a rank, and to add for a sum.
impl Set for BTreeMap<u32, u32> {
    fn update(&mut self, update: Update) -> Change {
        match update {
            Update::Insert(key) => match self.entry(key) {
                Entry::Vacant(place) => {
                    place.insert(key);
                    Change::Came
                }
                Entry::Occupied(_) => Change::Nothing,
            },
            Update::Remove(key) => self.remove(&key).map_or(Change::Nothing, |_| Change::Left),
            Update::Put(key, weight) => self.insert(key, weight).map_or(Change::Came, |_| Change::Weighed),
        }
    }

    fn ask(&self, query: &Query) -> Answer {
        let rank = |key: u32| self.range(..key).count() as u32;
        match query {
            Query::Rank(key) => Answer::Rank(rank(*key)),
            Query::Select(index) => Answer::Select(self.keys().nth(*index as usize).copied()),
            Query::Range(from, to) => Answer::Range(self.range(from..to).fold(Span::default(), |span, (&key, &weight)| Span {
                sum: span.sum + u64::from(weight),
                count: span.count + 1,
                least: if span.count == 0 { key } else { span.least },
                greatest: key,
            })),
            Query::Ranks(keys) => Answer::Ranks(keys.map(rank)),
        }
    }
}
