use std::fmt;

/// The median of some numbers, between their quartiles.
#[derive(Debug, Clone, Copy)]
pub struct Spread {
    pub low: f64,
    pub middle: f64,
    pub high: f64,
}

impl Spread {
    /// Of at least one number.
    pub fn of(numbers: impl Iterator<Item = f64>) -> Spread {
        let mut sorted: Vec<f64> = numbers.collect();
        sorted.sort_by(f64::total_cmp);
        let last = sorted.len() - 1;
        Spread { low: sorted[last / 4], middle: sorted[last / 2], high: sorted[last - last / 4] }
    }
}

impl fmt::Display for Spread {
    fn fmt(&self, f: &mut fmt::Formatter<'_>) -> fmt::Result {
        // Three digits, whatever the size.
        let places = (2 - self.middle.log10().floor() as i32).clamp(0, 9) as usize;
        write!(f, "{:.places$} ({:.places$} to {:.places$})", self.middle, self.low, self.high)
    }
}
