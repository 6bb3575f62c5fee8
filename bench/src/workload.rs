use crate::operation::{BATCH, KEYS, Operation, Query, Update};
use crate::random::Random;

/// What threads do.
#[derive(Debug, Clone, Copy, PartialEq)]
pub enum Workload {
    /// Updates of any key.
    Updates,
    /// Nine queries, a rank, a selection and a range in turn, and then an update.
    Tenth,
    /// Such queries alone, after updates that are not timed: a table is then not laid out as neatly as at its opening.
    Queries,
    /// Nine batches of ranks, each of one snapshot, and then an update.
    Batches,
}

impl Workload {
    pub const ALL: [Workload; 4] = [Workload::Updates, Workload::Tenth, Workload::Queries, Workload::Batches];

    pub fn name(self) -> &'static str {
        match self {
            Workload::Updates => "updates",
            Workload::Tenth => "tenth",
            Workload::Queries => "queries",
            Workload::Batches => "batches",
        }
    }

    /// How many updates a thread makes before.
    pub fn updates_before(self) -> u64 {
        if self == Workload::Queries { 4096 } else { 0 }
    }

    /// The operation with this number, of drawn keys.
    #[inline(always)]
    pub fn draw(self, number: u64, random: &mut Random) -> Operation {
        let drawn = random.draw();
        let [one, other] = [drawn as u32 % KEYS, (drawn >> 16) as u32 % KEYS];
        match self {
            Workload::Updates => Operation::Update(update(number, one, (drawn >> 32) as u32)),
            Workload::Tenth | Workload::Batches if number % 10 == 9 => Operation::Update(update(number / 10, one, (drawn >> 32) as u32)),
            Workload::Batches => Operation::Query(Query::Ranks(batch(drawn, random))),
            _ => Operation::Query(match number % 3 {
                0 => Query::Rank(one),
                1 => Query::Select(one / 2),
                _ => Query::Range(one.min(other), one.max(other)),
            }),
        }
    }
}

/// As many updates take a key out as may put one in, so about half of the keys stay members.
#[inline(always)]
fn update(number: u64, key: u32, weight: u32) -> Update {
    match number % 4 {
        0 => Update::Insert(key),
        2 => Update::Put(key, weight),
        _ => Update::Remove(key),
    }
}

/// Keys in any order, four of each drawn number.
#[inline(always)]
fn batch(mut drawn: u64, random: &mut Random) -> [u32; BATCH] {
    let mut keys = [0; BATCH];
    for four in keys.chunks_exact_mut(4) {
        for (place, key) in four.iter_mut().enumerate() {
            *key = (drawn >> (16 * place)) as u32 % KEYS;
        }
        drawn = random.draw();
    }
    keys
}
