use std::time::Duration;

/// Each power of two has so many buckets, so the end of a bucket is at most a 32nd above what is in it.
const PARTS: usize = 32;

/// The quantiles that are told, as parts of all calls.
pub const QUANTILES: [f64; 5] = [0.5, 0.99, 0.999, 0.9999, 0.99999];

/// How long calls took, in buckets whose widths grow with the times.
pub struct Calls {
    counts: [u64; 60 * PARTS],
    longest: u64,
    /// How many calls were left out, since their own thread was put aside meanwhile.
    pub left_out: u64,
    /// How long those of them took that a signal suspended.
    pub suspended: Duration,
}

impl Default for Calls {
    fn default() -> Calls {
        Calls { counts: [0; 60 * PARTS], longest: 0, left_out: 0, suspended: Duration::ZERO }
    }
}

/// The bucket of so many nanoseconds.
#[inline(always)]
fn bucket(time: u64) -> usize {
    let shift = (time | PARTS as u64).ilog2() as usize - PARTS.ilog2() as usize;
    shift * PARTS + (time >> shift) as usize
}

/// The most nanoseconds of a bucket.
fn end(bucket: usize) -> u64 {
    let shift = (bucket / PARTS).saturating_sub(1);
    let next = (bucket - shift * PARTS + 1) as u128;
    ((next << shift) - 1) as u64
}

impl Calls {
    #[inline(always)]
    pub fn add(&mut self, time: Duration) {
        let time = time.as_nanos() as u64;
        self.counts[bucket(time)] += 1;
        self.longest = self.longest.max(time);
    }

    pub fn add_all(&mut self, other: &Calls) {
        self.counts.iter_mut().zip(&other.counts).for_each(|(own, more)| *own += more);
        self.longest = self.longest.max(other.longest);
        self.left_out += other.left_out;
        self.suspended += other.suspended;
    }

    /// How many microseconds this part of the calls took at most.
    fn quantile(&self, part: f64) -> f64 {
        let all: u64 = self.counts.iter().sum();
        let mut left = ((all as f64 * part).ceil() as u64).max(1);
        let reached = |&(_, &count): &(usize, &u64)| {
            left = left.saturating_sub(count);
            left == 0
        };
        let nanoseconds = self.counts.iter().enumerate().find(reached).map_or(0, |(bucket, _)| end(bucket).min(self.longest));
        nanoseconds as f64 / 1e3
    }

    /// The quantiles, and the longest, in microseconds.
    pub fn times(&self) -> Vec<f64> {
        QUANTILES.iter().map(|&part| self.quantile(part)).chain([self.longest as f64 / 1e3]).collect()
    }
}

#[cfg(test)]
mod tests {
    use super::*;

    #[test]
    fn buckets_follow_one_another() {
        for bucket_number in 0..60 * PARTS {
            assert_eq!(bucket(end(bucket_number)), bucket_number);
            assert!(bucket_number + 1 == 60 * PARTS || bucket(end(bucket_number) + 1) == bucket_number + 1);
        }
    }

    #[test]
    fn quantiles_are_a_32nd_above_at_most() {
        let mut calls = Calls::default();
        (1..=100_000).for_each(|time| calls.add(Duration::from_nanos(time)));
        for (got, want) in calls.times().into_iter().zip([50.0, 99.0, 99.9, 99.99, 99.999, 100.0]) {
            assert!(want <= got && got <= want * 33.0 / 32.0, "{got} {want}");
        }
    }

    #[test]
    fn all_are_added_up() {
        let of = |left_out, milliseconds| Calls { left_out, suspended: Duration::from_millis(milliseconds), ..Calls::default() };
        let (mut one, mut other) = (of(1, 20), of(2, 7));
        one.add(Duration::from_nanos(10));
        other.add(Duration::from_micros(3));
        one.add_all(&other);
        assert_eq!((one.left_out, one.suspended.as_millis(), one.times()), (3, 27, vec![0.01, 3.0, 3.0, 3.0, 3.0, 3.0]));
    }
}
