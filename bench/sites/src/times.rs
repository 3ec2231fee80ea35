//! Times, and how they are spread.

use std::fmt::{Display, Formatter, Result};
use std::time::Duration;

/// The heads of the columns of a spread.
pub const HEADS: &str = "    p50 us    p99 us  p99.9 us   most us";
/// How many of a thousand took no longer, of each column.
const SHARES: [usize; 4] = [500, 990, 999, 1000];

/// Times in ascending order.
pub struct Spread(Vec<Duration>);

impl Spread {
    pub fn new(mut times: Vec<Duration>) -> Spread {
        times.sort_unstable();
        Spread(times)
    }

    pub fn count(&self) -> usize {
        self.0.len()
    }

    /// The least time that so many of a thousand did not pass, in microseconds.
    fn share(&self, of_thousand: usize) -> f64 {
        let place = (self.0.len() * of_thousand).div_ceil(1000);
        let time = self.0.get(place.saturating_sub(1));
        time.map_or(f64::NAN, |time| time.as_secs_f64() * 1e6)
    }
}

impl Display for Spread {
    fn fmt(&self, out: &mut Formatter<'_>) -> Result {
        SHARES
            .iter()
            .try_for_each(|share| write!(out, " {:>9.1}", self.share(*share)))
    }
}
