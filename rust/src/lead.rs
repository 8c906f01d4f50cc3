//! The lead that a search is kept on: how dear a place may be when it is
//! expanded, by the cheapest chain from start to goal.
//!
//! A turn of a guide expands a place whose key g + w1·hi is at most w1·w2
//! times that chain's cost, and a turn of the anchor one whose key g + w1·h0
//! is at most w1 times it, in every round, finished or cut. Where no chain
//! leads to the goal there is no lead.
//!
//! A turn is taken from the second planner's events, or from a planner's log
//! alone: its costs are then got by following the log over the plan, and its
//! round by planning with the first rounds alone.

use crate::dijkstra::{self, is_permitted};
use crate::generate::Plan;
use crate::jobs::Job;
use crate::planner::{Event, UNREACHED};
use crate::planners::{self, Planner};

/// A turn: a vertex is expanded for a table, 0 being the anchor, in a round
/// with its factors; its cost and its number in that table as they are then.
#[derive(Clone, Copy, Debug, PartialEq, Eq)]
pub struct Turn {
    pub round: u32,
    pub turn: u32,
    pub table: u32,
    pub vertex: u32,
    pub g: u64,
    pub number: u32,
    pub w1: u32,
    pub w2: u32,
}

impl Turn {
    /// 100·g + W1·h: g + w1·h in hundredths.
    pub fn key(&self) -> u64 {
        100 * self.g + u64::from(self.w1) * u64::from(self.number)
    }

    /// W1·W2 of a guide's turn, 100·W1 of the anchor's: how often the
    /// cheapest chain's cost the lead is, in ten-thousandths.
    pub fn factor(&self) -> u64 {
        let second = match self.table {
            0 => 100,
            _ => self.w2,
        };
        u64::from(self.w1) * u64::from(second)
    }

    /// The key beside the lead, with the cost of the cheapest chain.
    ///
    /// No key is above 100 · (100 · 65,520,000,000 + 10,000 · 4,294,967,295),
    /// under 5 · 10^15, and no lead above 100,000,000 · 65,520,000,000, under
    /// 7 · 10^18: both have room in 64 bits.
    pub fn share(&self, cheapest: u64) -> Share {
        Share {
            key: 100 * self.key(),
            lead: self.factor() * cheapest,
        }
    }
}

/// A key beside the lead that it is measured by, both in ten-thousandths.
#[derive(Clone, Copy, Debug, PartialEq, Eq)]
pub struct Share {
    pub key: u64,
    pub lead: u64,
}

impl Share {
    /// Whether the turn is on its lead.
    pub fn is_kept(&self) -> bool {
        self.key <= self.lead
    }

    /// Whether the turn is exactly at the end of its lead.
    pub fn is_whole(&self) -> bool {
        self.key == self.lead
    }

    /// Numerator and denominator; nothing of nothing is the whole.
    fn parts(&self) -> [u128; 2] {
        match (self.key, self.lead) {
            (0, 0) => [1, 1],
            (key, lead) => [key.into(), lead.into()],
        }
    }

    /// Whether it is a smaller part of its lead than another.
    pub fn is_below(&self, other: &Share) -> bool {
        let ([key, lead], [other_key, other_lead]) = (self.parts(), other.parts());
        key * other_lead < other_key * lead
    }

    /// The share in hundredths of a percent, rounded up; its lead is not 0,
    /// or its key is.
    pub fn hundredths_of_percent(&self) -> u128 {
        let [key, lead] = self.parts();
        (10_000 * key).div_ceil(lead)
    }
}

/// The cost of the cheapest chain of permitted lanes from start to goal.
pub fn cheapest(plan: &Plan, job: &Job) -> Option<u64> {
    dijkstra::distances_from(plan, job.start, job.barred)[job.goal as usize]
}

/// A turn of a job, its factors and its number filled in.
fn turn_of(job: &Job, [round, turn, table, vertex]: [u32; 4], g: u64) -> Turn {
    let factors = &job.factors()[2 * round as usize - 2..];
    Turn {
        round,
        turn,
        table,
        vertex,
        g,
        number: job.number(table, vertex),
        w1: factors[0],
        w2: factors[1],
    }
}

/// The turns among a job's events.
pub fn of_events(job: &Job, events: &[Event]) -> Vec<Turn> {
    let turn = |event: &Event| match *event {
        Event::Turn {
            round,
            turn,
            table,
            vertex,
            g,
            ..
        } => Some(turn_of(job, [round, turn, table, vertex], g)),
        _ => None,
    };
    events.iter().filter_map(turn).collect()
}

/// The turns that a planner's log shows of a valid job, with nothing from the
/// second planner: costs by following the log, rounds by the same planner.
pub fn of_log(planner: &dyn Planner, job: &Job) -> Vec<Turn> {
    let job = job.with_whole_log();
    let logged = planners::run(planner, &job, 0).turns();
    let ends = ends_of_rounds(planner, &job);
    let mut costs = Costs::at_first(&job);
    (1..)
        .zip(logged)
        .map(|(turn, (table, vertex))| {
            let round = 1 + ends.iter().take_while(|&&end| end < turn).count();
            let g = costs.expand(vertex);
            turn_of(&job, [round as u32, turn as u32, table, vertex], g)
        })
        .collect()
}

/// The turns after each round but the last: its first rounds alone leave what
/// the whole search has after them.
fn ends_of_rounds(planner: &dyn Planner, job: &Job) -> Vec<u64> {
    let factors = job.factors();
    (1..factors.len() / 2)
        .map(|round| {
            let schedule = factors[..2 * round].to_vec();
            let log_room = 0;
            let job = Job {
                schedule,
                log_room,
                ..job.clone()
            };
            let [.., turns, _] = planners::run(planner, &job, 0).figures;
            turns
        })
        .collect()
}

/// The costs g of a search, got from its turns alone.
struct Costs {
    plan: Plan,
    barred: u32,
    g: Vec<u64>,
}

impl Costs {
    fn at_first(job: &Job) -> Costs {
        let plan = Plan::of_bytes(&job.bytes);
        let mut g = vec![UNREACHED; plan.vertices as usize];
        g[job.start as usize] = 0;
        let barred = job.barred;
        Costs { plan, barred, g }
    }

    /// The vertex's cost; then its permitted edges are tried.
    fn expand(&mut self, vertex: u32) -> u64 {
        let g = self.g[vertex as usize];
        assert_ne!(g, UNREACHED, "a vertex is expanded that is not reached");
        let first = self.plan.tails.partition_point(|&tail| tail < vertex);
        let edges = first..self.plan.tails.partition_point(|&tail| tail <= vertex);
        for edge in edges.filter(|&edge| is_permitted(self.barred, self.plan.classes[edge])) {
            let head = &mut self.g[self.plan.heads[edge] as usize];
            *head = (*head).min(g + u64::from(self.plan.costs[edge]));
        }
        g
    }
}

/// What `job lead` says of a valid job: a line for each turn, then how near
/// guides and anchor came to their leads.
pub fn text(planner: &dyn Planner, job: &Job) -> String {
    let Some(cheapest) = cheapest(&Plan::of_bytes(&job.bytes), job) else {
        return "no chain of permitted lanes leads from start to goal, so there is no lead\n"
            .into();
    };
    let turns = of_log(planner, job);
    let lines: String = turns
        .iter()
        .map(|turn| turn_words(turn, cheapest) + "\n")
        .collect();
    let guides = nearest(turns.iter().filter(|turn| turn.table > 0), cheapest);
    let anchor = nearest(turns.iter().filter(|turn| turn.table == 0), cheapest);
    let guides = nearest_words(["the guides", "their"], guides, cheapest);
    let anchor = nearest_words(["the anchor", "its"], anchor, cheapest);
    format!("{lines}the cheapest chain costs {cheapest}; {guides}; {anchor}\n")
}

fn turn_words(turn: &Turn, cheapest: u64) -> String {
    let Turn {
        round,
        turn: number_of_turn,
        table,
        vertex,
        g,
        number,
        ..
    } = turn;
    let share = turn.share(cheapest);
    let [key, lead] = [share.key, share.lead].map(decimal);
    format!(
        "turn {number_of_turn} table {table} place {vertex} round {round}: cost {g}, number \
         {number}, key {key} of at most {lead}"
    )
}

/// The first of the turns that come nearest to their leads.
fn nearest<'a>(turns: impl Iterator<Item = &'a Turn>, cheapest: u64) -> Option<&'a Turn> {
    turns.reduce(
        |nearest, turn| match nearest.share(cheapest).is_below(&turn.share(cheapest)) {
            true => turn,
            false => nearest,
        },
    )
}

fn nearest_words([who, whose]: [&str; 2], nearest: Option<&Turn>, cheapest: u64) -> String {
    let Some(turn) = nearest else {
        return format!("{who} had no turn");
    };
    let share = turn.share(cheapest);
    let hundredths = share.hundredths_of_percent();
    let near = match share.is_whole() {
        true => format!("came exactly to {whose} lead"),
        false => format!(
            "came to at most {}.{:02}% of {whose} lead",
            hundredths / 100,
            hundredths % 100
        ),
    };
    let factor = decimal(turn.factor());
    format!("{who} {near}, {factor} times that, in turn {}", turn.turn)
}

/// Ten-thousandths as a decimal number, without zeros that say nothing.
fn decimal(ten_thousandths: u64) -> String {
    let (whole, part) = (ten_thousandths / 10_000, ten_thousandths % 10_000);
    let text = format!("{whole}.{part:04}");
    text.trim_end_matches('0').trim_end_matches('.').into()
}

#[cfg(test)]
mod tests {
    use super::*;

    #[test]
    fn decimals_are_exact() {
        for (number, text) in [
            (0, "0"),
            (1, "0.0001"),
            (10, "0.001"),
            (10_000, "1"),
            (100_000, "10"),
            (240_000, "24"),
            (244_400, "24.44"),
            (6_552_000_000_000_000_000, "655200000000000"),
        ] {
            assert_eq!(decimal(number), text);
        }
    }

    /// The greatest numbers that a job can have.
    #[test]
    fn keys_and_leads_fit() {
        let turn = Turn {
            round: 1,
            turn: 1,
            table: 1,
            vertex: 0,
            g: 65_520_000_000,
            number: u32::MAX,
            w1: 10_000,
            w2: 10_000,
        };
        let share = turn.share(65_520_000_000);
        assert_eq!(u128::from(share.key), 4_950_167_295_000_000);
        assert_eq!(u128::from(share.lead), 6_552_000_000_000_000_000);
        let anchor = Turn { table: 0, ..turn };
        assert_eq!(anchor.factor(), 1_000_000);
    }

    #[test]
    fn shares_are_compared_exactly() {
        let share = |key, lead| Share { key, lead };
        assert!(share(1, 3).is_below(&share(34, 100)));
        assert!(!share(1, 3).is_below(&share(33, 100)));
        assert!(!share(0, 0).is_below(&share(7, 7)) && !share(7, 7).is_below(&share(0, 0)));
        assert!(share(7, 7).is_below(&share(1, 0)));
        assert_eq!(share(1, 3).hundredths_of_percent(), 3_334);
        assert_eq!(share(1, 4).hundredths_of_percent(), 2_500);
        assert_eq!(share(0, 0).hundredths_of_percent(), 10_000);
    }
}
