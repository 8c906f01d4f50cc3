//! A site's default schedule, which the paper calls its house schedule: the
//! second implementation, written from the papers alone.

use crate::planner::{is_bad_schedule, MOST_FACTORS, STANDARD_SCHEDULE};

/// The numbers of a default schedule: W1 and W2 of sixteen rounds.
pub type Numbers = [u32; MOST_FACTORS];

/// What a site's calls are handed where their schedule is empty: the first
/// `count` numbers are in force, 32 at most.
#[derive(Clone, Copy, Debug, PartialEq, Eq)]
pub struct DefaultSchedule {
    pub numbers: Numbers,
    pub count: u32,
}

impl DefaultSchedule {
    /// Our six rounds, which stand until a sheet is accepted.
    pub fn standard() -> DefaultSchedule {
        let mut numbers = [0; MOST_FACTORS];
        numbers[..STANDARD_SCHEDULE.len()].copy_from_slice(&STANDARD_SCHEDULE);
        let count = STANDARD_SCHEDULE.len() as u32;
        DefaultSchedule { numbers, count }
    }

    /// Loads a sheet of factor pairs and gives 0; one that row 10 rejects, an
    /// empty one too, gives 10 and leaves the previous one in force.
    pub fn load(&mut self, sheet: &[u32]) -> u32 {
        if is_bad_schedule(sheet) {
            return 10;
        }
        self.numbers[..sheet.len()].copy_from_slice(sheet);
        self.count = sheet.len() as u32;
        0
    }

    /// The factors in force.
    pub fn in_force(&self) -> &[u32] {
        let count = self.count.min(MOST_FACTORS as u32);
        &self.numbers[..count as usize]
    }
}
