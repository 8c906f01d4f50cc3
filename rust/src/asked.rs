//! What the environment asks of the seeded tests: `SECONDCOOP_JOBS` is about
//! the count of jobs, and `SECONDCOOP_SEED` asks for other jobs.

use std::env;
use std::str::FromStr;

/// What a variable asks for, if it is set.
fn asked<T: FromStr>(name: &str) -> Option<T> {
    let value = env::var(name).ok()?;
    match value.parse() {
        Ok(number) => Some(number),
        Err(_) => panic!("{name} is not a number: {value}"),
    }
}

/// The count of jobs, or a test's own.
pub fn jobs(own: usize) -> usize {
    asked("SECONDCOOP_JOBS").unwrap_or(own)
}

/// The seed of a test.
pub fn seed(own: u64) -> u64 {
    own + 1_000 * asked::<u64>("SECONDCOOP_SEED").unwrap_or(0)
}
