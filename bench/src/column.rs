use crate::engines::Entry;
use crate::runner::Slice;
use crate::spread::Spread;
use std::time::Duration;

/// What an engine came to in a case, pass by pass.
pub struct Column {
    pub name: &'static str,
    pub locks: bool,
    /// The type that its threads worked with.
    pub seat: &'static str,
    /// Million operations a second.
    rates: Vec<f64>,
    /// The quantiles of its calls, and the longest, in microseconds.
    times: Vec<Vec<f64>>,
    pub left_out: u64,
    /// How long those of the calls left out took that a signal suspended.
    pub suspended: Duration,
}

impl Column {
    pub fn of(entry: &Entry) -> Column {
        Column { name: entry.name, locks: entry.locks, seat: "", rates: Vec::new(), times: Vec::new(), left_out: 0, suspended: Duration::ZERO }
    }

    /// Takes a slice down, if the engine of this name made it.
    pub fn add(&mut self, slice: Slice) -> Result<(), String> {
        if slice.engine != self.name {
            return Err(format!("{} was run under the name of {}", slice.engine, self.name));
        }
        self.seat = slice.seat;
        self.rates.push(slice.rate());
        self.times.push(slice.calls.0.times());
        self.left_out += slice.calls.0.left_out;
        self.suspended += slice.calls.0.suspended;
        Ok(())
    }

    pub fn rate(&self) -> Spread {
        Spread::of(self.rates.iter().copied())
    }

    /// The quantiles of its calls, and the longest, in microseconds.
    pub fn times(&self) -> impl Iterator<Item = Spread> {
        (0..self.times[0].len()).map(|at| Spread::of(self.times.iter().map(|times| times[at])))
    }

    /// This as a part of another, each pass by itself.
    pub fn part_of(&self, other: &Column) -> Spread {
        Spread::of(self.rates.iter().zip(&other.rates).map(|(own, other)| own / other))
    }
}
