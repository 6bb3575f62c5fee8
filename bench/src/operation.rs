use augtrie::Span;

/// The keys have so many bits.
pub const BITS: u32 = 16;
pub const KEYS: u32 = 1 << BITS;

/// A batch has so many ranks.
pub const BATCH: usize = 32;

/// What changes a set.
#[derive(Debug, Clone, Copy)]
pub enum Update {
    /// Puts a key in with itself as its weight, if it is absent.
    Insert(u32),
    Remove(u32),
    /// Puts a key in with a weight, or gives it the weight.
    Put(u32, u32),
}

/// What came of an update.
#[derive(Debug, Clone, Copy, PartialEq)]
pub enum Change {
    Nothing,
    Came,
    Left,
    Weighed,
}

/// What is asked of one state of a set.
#[derive(Debug, Clone, Copy)]
pub enum Query {
    Rank(u32),
    Select(u32),
    Range(u32, u32),
    Ranks([u32; BATCH]),
}

#[derive(Debug, Clone, Copy, PartialEq)]
pub enum Answer {
    Update(Change),
    Rank(u32),
    Select(Option<u32>),
    Range(Span),
    Ranks([u32; BATCH]),
}

pub enum Operation {
    Update(Update),
    Query(Query),
}
