//! Searches whose costs pass 32 bits, on the library and on the second
//! planner: 4,096 places one after another at the greatest cost, against
//! Dijkstra's sums in 64 bits, in every round of a schedule.

use std::collections::BTreeMap;

use secondcoop_tests::dijkstra::{self, NO_BAR};
use secondcoop_tests::generate::Plan;
use secondcoop_tests::guarded::GUARD;
use secondcoop_tests::jobs::{self, Job};
use secondcoop_tests::planner::{Answer, MOST_OPINION, NO_OPINION, STANDARD_SCHEDULE, UNREACHED};
use secondcoop_tests::planners::{
    self, Comparison, Lent, Library, Outcome, Planner, SecondPlanner,
};
use secondcoop_tests::random::Random;

const VERTICES: u32 = 4_096;
const COST: u64 = 16_000_000;
const BOTH: [&dyn Planner; 2] = [&Library, &SecondPlanner];

/// The path through all vertices, each edge of the greatest cost.
fn path() -> Plan {
    jobs::whole_path(COST as u32)
}

/// The vertices of the long way on a path with gates; the others are the
/// gates' own.
const LONG_WAY: u32 = VERTICES - GATES.len() as u32;
/// Where a cheaper way stands beside an edge of the long way: at these
/// hundredths of it.
const GATES: [u32; 5] = [25, 40, 60, 80, 95];
/// What the two edges of a cheaper way cost.
const GATE_COSTS: [u32; 2] = [1_000_001, 2_097_152];
/// What a cheaper way saves.
const SAVED: u64 = COST - 3_097_153;

/// A long way at the greatest cost and, over each gate, a cheaper way.
fn path_with_gates() -> Plan {
    let mut edges: BTreeMap<(u32, u32), u32> = (1..LONG_WAY)
        .map(|head| ((head - 1, head), COST as u32))
        .collect();
    for (gate, part) in (LONG_WAY..).zip(GATES) {
        let tail = (LONG_WAY - 1) * part / 100;
        edges.insert((tail, gate), GATE_COSTS[0]);
        edges.insert((gate, tail + 1), GATE_COSTS[1]);
    }
    Plan {
        vertices: VERTICES,
        tails: edges.keys().map(|pair| pair.0).collect(),
        heads: edges.keys().map(|pair| pair.1).collect(),
        costs: edges.values().copied().collect(),
        classes: vec![0; edges.len()],
    }
}

/// A job from the first vertex to a goal with a table of zeros as its anchor,
/// on the standard schedule and with turns enough.
fn job(plan: &Plan, goal: u32, sheets: &[Vec<u32>]) -> Job {
    let anchor = vec![0; VERTICES as usize];
    let schedule = STANDARD_SCHEDULE.to_vec();
    let (guides, count) = (sheets.concat(), sheets.len() as u32);
    Job::new(plan, 0, goal, anchor, guides, count, schedule, u32::MAX)
}

/// The numbers of wide memory that a call needs.
fn wide(outcome: &Outcome) -> &[u64] {
    &outcome.wide[GUARD..GUARD + 2 * VERTICES as usize]
}

/// What both planners leave; it must be equal.
fn agreed(job: &Job) -> Outcome {
    Comparison::new(&Library, &SecondPlanner).job(job, None);
    planners::run(&Library, job, 0)
}

/// The kept cost after each round of a job's schedule: its first rounds alone
/// leave what the whole search has after them. The route is one of the plan's,
/// costs what is said and keeps the bound.
fn kept_costs(plan: &Plan, job: &Job) -> Vec<u64> {
    let least = dijkstra::distances_from(plan, job.start, NO_BAR);
    (1..=job.schedule.len() / 2)
        .map(|round| {
            let schedule = job.schedule[..2 * round].to_vec();
            let outcome = agreed(&Job {
                schedule,
                ..job.clone()
            });
            costs_hold(&outcome, &least);
            kept_cost(plan, job, &outcome, round)
        })
        .collect()
}

/// No cost in wide memory is below that of the cheapest walk, and none stands
/// where there is no walk.
fn costs_hold(outcome: &Outcome, least: &[Option<u64>]) {
    for (costs, least) in wide(outcome).chunks_exact(2).zip(least) {
        let holds = |&cost: &u64| cost == UNREACHED || least.is_some_and(|least| least <= cost);
        assert!(costs.iter().all(holds), "{costs:?} below {least:?}");
    }
}

/// The kept cost after so many rounds, checked against route and bound.
fn kept_cost(plan: &Plan, job: &Job, outcome: &Outcome, round: usize) -> u64 {
    let Answer::Route {
        cost,
        length,
        rounds,
        bound,
        ..
    } = outcome.answer()
    else {
        panic!("{:?}", outcome.answer());
    };
    assert_eq!(rounds as usize, round);
    assert_eq!(
        bound,
        job.schedule[2 * round - 2] * job.schedule[2 * round - 1]
    );
    let pairs = plan.tails.iter().zip(&plan.heads);
    let edges: BTreeMap<(u32, u32), u32> = pairs
        .map(|(&tail, &head)| (tail, head))
        .zip(plan.costs.iter().copied())
        .collect();
    let route = &outcome.route[GUARD..GUARD + length as usize];
    let edge_cost = |pair: &[u32]| u64::from(edges[&(pair[0], pair[1])]);
    assert_eq!(route.windows(2).map(edge_cost).sum::<u64>(), cost);
    assert_eq!((route[0], route[route.len() - 1]), (job.start, job.goal));
    let least = dijkstra::distances_from(plan, job.start, NO_BAR)[job.goal as usize];
    let least = u128::from(least.expect("there is a walk"));
    assert!(10_000 * u128::from(cost) <= u128::from(bound) * least);
    assert!(bound > 10_000 || u128::from(cost) == least);
    cost
}

#[test]
fn every_round_along_the_whole_path() {
    let plan = path();
    let whole = 4_095 * COST;
    assert_eq!(whole, 65_520_000_000);
    let sheets = [0, MOST_OPINION, NO_OPINION].map(|number| [vec![number; 4_096]]);
    let [zeros, greatest, no_opinion] = &sheets;
    for sheets in [&[][..], zeros, greatest, no_opinion] {
        let job = job(&plan, 4_095, sheets);
        assert_eq!(kept_costs(&plan, &job), [whole; 6]);
        let outcome = agreed(&job);
        assert_eq!(
            outcome.route[GUARD..GUARD + 4_096],
            *(0..4_096).collect::<Vec<u32>>()
        );
        // Every vertex but the goal is expanded once, at its true cost.
        let mut costs: Vec<u64> = (0..4_096).flat_map(|at| [at * COST; 2]).collect();
        costs[2 * 4_095 + 1] = UNREACHED;
        assert_eq!(wide(&outcome), costs);
    }
}

/// A job with a guide that has 0 everywhere but at the gates.
fn gated_job(plan: &Plan, at_gates: u32) -> Job {
    let mut sheet = vec![0; VERTICES as usize];
    sheet[LONG_WAY as usize..].fill(at_gates);
    job(plan, LONG_WAY - 1, &[sheet])
}

/// A guide that keeps off the gates takes the long way first; each round
/// finds one gate more. The greatest number keeps it off where W1 is great: at
/// W1 = 500 it counts for less than a long way.
#[test]
fn every_round_takes_another_route() {
    let plan = path_with_gates();
    let mut job = gated_job(&plan, MOST_OPINION);
    assert_eq!(kept_costs(&plan, &job).len(), 6);
    for (round, factors) in job.schedule.chunks_exact_mut(2).enumerate() {
        factors[0] = if round < 5 { 10_000 } else { 100 };
    }
    let costs = costs_by_gates();
    assert!(costs.iter().all(|&cost| cost > 15 << 32));
    assert_eq!(kept_costs(&plan, &job), costs);
}

/// What the long way costs over no gate, over one, and so on.
fn costs_by_gates() -> Vec<u64> {
    let long_way = u64::from(LONG_WAY - 1) * COST;
    (0..6).map(|gates| long_way - gates * SAVED).collect()
}

/// A guide without opinion on the gates keeps off them at every W1, in later
/// rounds too; at the greatest number it goes through one in the first round
/// of the standard schedule.
#[test]
fn no_opinion_keeps_off_at_every_factor() {
    let plan = path_with_gates();
    let costs = costs_by_gates();
    assert_eq!(kept_costs(&plan, &gated_job(&plan, NO_OPINION)), costs);
    let first = Job {
        schedule: STANDARD_SCHEDULE[..2].to_vec(),
        ..gated_job(&plan, MOST_OPINION)
    };
    assert!(kept_costs(&plan, &first)[0] < costs[0]);
}

/// Sheets of the greatest numbers, of any numbers, of zeros, of what is far
/// first, and one without opinions.
fn hostile_sheets() -> Vec<Vec<u32>> {
    let mut random = Random::new(81);
    let mut any =
        |most: u32| -> Vec<u32> { (0..VERTICES).map(|_| random.range32(0, most)).collect() };
    vec![
        vec![MOST_OPINION; VERTICES as usize],
        any(MOST_OPINION),
        vec![0; VERTICES as usize],
        any(16_000_000),
        (0..VERTICES).map(|vertex| vertex * 1_000_000).collect(),
        any(1),
        vec![NO_OPINION; VERTICES as usize],
        any(1_000),
    ]
}

/// Every round of a job with hostile sheets and some anchor table.
fn hostile_rounds(plan: &Plan, goal: u32, anchor: Vec<u32>) {
    let mut job = job(plan, goal, &hostile_sheets());
    job.schedule = vec![10_000, 10_000, 800, 400, 100, 100];
    job.anchor = anchor;
    let costs = kept_costs(plan, &job);
    assert!(costs.windows(2).all(|pair| pair[1] <= pair[0]), "{costs:?}");
    assert!(costs[2] > 15 << 32);
}

/// Eight hostile sheets, with a table of zeros and with the steepest as the
/// anchor.
#[test]
fn sheets_may_be_hostile() {
    for (plan, goal) in [(path(), VERTICES - 1), (path_with_gates(), LONG_WAY - 1)] {
        hostile_rounds(&plan, goal, vec![0; VERTICES as usize]);
        let mut wish = vec![u32::MAX; VERTICES as usize];
        wish[goal as usize] = 0;
        hostile_rounds(&plan, goal, dijkstra::consistent_table(&plan, &wish));
    }
}

/// The path cut by the allowance, and a goal that it does not lead to.
#[test]
fn costs_of_other_endings() {
    let plan = path();
    let mut cut = job(&plan, 4_095, &[]);
    cut.budget = 2_000;
    let outcome = agreed(&cut);
    assert_eq!(outcome.answer(), Answer::Unfinished { turns: 2_000 });
    let expected = (0..4_096).flat_map(|at| match at {
        0..2_000 => [at * COST; 2],
        2_000 => [at * COST, UNREACHED],
        _ => [UNREACHED; 2],
    });
    assert_eq!(wide(&outcome), expected.collect::<Vec<u64>>());
    let mut none = job(&plan, 0, &[]);
    none.start = 1;
    let outcome = agreed(&none);
    assert_eq!(outcome.answer(), Answer::NoRoute { turns: 4_095 });
    assert_eq!(wide(&outcome)[..4], [UNREACHED, UNREACHED, 0, 0]);
    assert_eq!(wide(&outcome)[8_190..], [4_094 * COST; 2]);
}

/// A job along the path with so many words of work memory and numbers of wide
/// memory more or less than it needs, and what a planner leaves.
fn with_room(planner: &dyn Planner, [work, wide]: [isize; 2]) -> (Job, Outcome) {
    let mut job = job(&path(), 4_095, &[]);
    job.schedule = vec![100, 100];
    assert_eq!((job.work_room, job.wide_room), (24_574, 8_192));
    job.work_room = job.work_room.saturating_add_signed(work);
    job.wide_room = job.wide_room.saturating_add_signed(wide);
    let outcome = planners::run(planner, &job, 4);
    (job, outcome)
}

/// Either slice one short is refused, and all memory is left as it was.
#[test]
fn either_slice_one_short() {
    for (planner, more) in BOTH.into_iter().flat_map(|planner| {
        [[-1, 0], [0, -1], [-1, -1], [7, -1], [-1, 7]].map(|more| (planner, more))
    }) {
        let (job, outcome) = with_room(planner, more);
        assert_eq!(outcome.figures, [3, 11, 0, 0, 0, 0, 0, 0], "{more:?}");
        assert!(Lent::before(&job, 4).is_untouched(&outcome), "{more:?}");
    }
}

/// Exact lengths pass, and longer slices keep what is behind.
#[test]
fn either_slice_exact_and_longer() {
    for planner in BOTH {
        let (job, exact) = with_room(planner, [0, 0]);
        assert!(matches!(exact.answer(), Answer::Route { .. }));
        let (longer, outcome) = with_room(planner, [5, 3]);
        let before = Lent::before(&longer, 4);
        assert_eq!(outcome.figures, exact.figures);
        let (work, wide) = (GUARD + job.work_room, GUARD + job.wide_room);
        assert_eq!(outcome.work[GUARD..work], exact.work[GUARD..work]);
        assert_eq!(outcome.wide[GUARD..wide], exact.wide[GUARD..wide]);
        assert_eq!(outcome.work[work..], before.work.all[work..]);
        assert_eq!(outcome.wide[wide..], before.wide.all[wide..]);
    }
}
