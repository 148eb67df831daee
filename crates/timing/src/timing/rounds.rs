//! The time of a call: the least over rounds, each of as many calls as fill it.

use std::alloc::Global;
use std::io;
use std::time::{Clock, Instant};
use urlpattern::Error;

/// The number of rounds that are timed. The least one counts.
const ROUNDS: u32 = 12;

/// The minimum duration of a round in nanoseconds.
const ROUND: u128 = 10_000_000;

/// The duration in nanoseconds from which on a call is timed only once.
const LONG: u128 = 500_000_000;

/// A call that is timed.
pub trait Timed {
    /// Calls once. Returns whether a value was made, or matches.
    fn call(&self, alloc: Global) -> Result<bool, Error>;
}

/// The duration of this many calls in nanoseconds.
fn time<C: Clock, T: Timed>(clock: &C, alloc: Global, timed: &T, calls: u64) -> io::Result<u128> {
    let start = Instant::now(clock)?;
    for _ in 0..calls {
        if timed.call(alloc).is_err() {
            return Err(io::Error::from(io::ErrorKind::OutOfMemory));
        }
    }
    Ok(start.elapsed(clock)?.as_nanos())
}

/// The least duration of a call in nanoseconds, over rounds of as many calls as fill a round.
pub fn least<C: Clock, T: Timed>(clock: &C, alloc: Global, timed: &T) -> io::Result<u128> {
    let mut calls = 1u64;
    for _ in 0..30 {
        let taken = time(clock, alloc, timed, calls)?;
        if taken >= LONG {
            return Ok(taken / u128::from(calls.max(1)));
        }
        if taken >= ROUND {
            break;
        }
        calls = calls.saturating_mul(2);
    }
    let mut least = u128::MAX;
    for _ in 0..ROUNDS {
        least = least.min(time(clock, alloc, timed, calls)?);
    }
    Ok(least / u128::from(calls.max(1)))
}
