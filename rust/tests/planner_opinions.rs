//! Guides without opinion on some places or on all, on the library and on the
//! second planner: who takes which turn, what a search then is equal to, and
//! the route bound by an independent Dijkstra search.

use secondcoop_tests::dijkstra;
use secondcoop_tests::generate::Plan;
use secondcoop_tests::guarded::GUARD;
use secondcoop_tests::jobs::{self, Job};
use secondcoop_tests::planner::{Answer, MOST_OPINION, NO_OPINION, UNREACHED};
use secondcoop_tests::planners::{self, Library, Outcome, Planner, SecondPlanner};
use secondcoop_tests::random::Random;

const BOTH: [&dyn Planner; 2] = [&Library, &SecondPlanner];

/// No guide expands a vertex that it has no opinion on; the anchor does, and
/// other guides do.
#[test]
fn no_guide_expands_where_it_has_no_opinion() {
    for planner in BOTH {
        let (mut by_guides, mut by_anchor, mut by_others) = (0, 0, 0);
        jobs::valid_jobs(31, 6_000, &mut |_, job| {
            let job = job.with_whole_log();
            let sheets: Vec<&[u32]> = job.guides.chunks_exact(job.anchor.len()).collect();
            let outcome = planners::run(planner, &job, 1);
            for (table, vertex) in outcome.turns() {
                let (table, vertex) = (table as usize, vertex as usize);
                let lacks = sheets.iter().any(|sheet| sheet[vertex] == NO_OPINION);
                if table == 0 {
                    by_anchor += u64::from(lacks);
                    continue;
                }
                assert_ne!(sheets[table - 1][vertex], NO_OPINION, "{job:?}");
                by_guides += 1;
                by_others += u64::from(lacks);
            }
        });
        println!("{by_guides} turns by guides, {by_others} where others have no opinion");
        assert!(by_guides >= 20_000, "{by_guides} turns");
        assert!(by_others >= 1_000, "{by_others} turns");
        assert!(by_anchor >= 10_000, "{by_anchor} turns");
    }
}

/// The bound of a route by the cheapest walk, and no route where there is none.
fn bound_holds(plan: &Plan, job: &Job, answer: Answer) {
    let least = dijkstra::distances_from(plan, job.start, job.barred)[job.goal as usize];
    match answer {
        Answer::Route { cost, bound, .. } => {
            let least = least.expect("a route is given only where there is one");
            assert!(least <= cost);
            assert!(10_000 * u128::from(cost) <= u128::from(bound) * u128::from(least));
        }
        Answer::NoRoute { .. } => assert_eq!(least, None),
        Answer::Unfinished { turns } => assert_eq!(turns, job.budget),
        Answer::Refused { .. } => panic!("{answer:?}: {job:?}"),
    }
}

/// Without any opinion a search is that without guides, in all figures and in
/// all memory: the anchor fills every turn. The bound holds.
#[test]
fn without_any_opinion_as_without_guides() {
    for planner in BOTH {
        let (mut count, mut routes) = (0, 0);
        let mut check = |plan: &Plan, job: &Job| {
            let mut empty = job.with_whole_log();
            if empty.guide_count == 0 {
                return;
            }
            empty.guides.fill(NO_OPINION);
            let without = Job {
                guides: vec![],
                guide_count: 0,
                ..empty.clone()
            };
            let outcome = planners::run(planner, &empty, 2);
            let other = planners::run(planner, &without, 2);
            assert!(outcome.turns().iter().all(|&(table, _)| table == 0));
            assert_eq!(outcome.figures, other.figures, "{job:?}");
            assert_eq!((&outcome.route, &outcome.log), (&other.route, &other.log));
            assert_eq!((&outcome.work, &outcome.wide), (&other.work, &other.wide));
            bound_holds(plan, job, outcome.answer());
            count += 1;
            routes += u64::from(matches!(outcome.answer(), Answer::Route { .. }));
        };
        jobs::valid_jobs(32, 4_000, &mut check);
        jobs::long_jobs(33, 10, &mut check);
        println!("{count} jobs, {routes} routes");
        assert!(count >= 10_000 && routes >= 5_000, "{routes} of {count}");
    }
}

/// At every rate of opinions the bound holds, and with turns enough there is
/// no route exactly where there is none.
#[test]
fn the_bound_holds_at_every_rate() {
    for planner in BOTH {
        let mut random = Random::new(34);
        let mut routes = 0;
        for hundredths in (0..=100).step_by(4) {
            for index in 0..300 {
                let shape = jobs::SHAPES[index % jobs::SHAPES.len()];
                let (plan, mut job) = match index % 4 {
                    0 => jobs::far_job(&mut random),
                    _ => jobs::random_job(&mut random, shape),
                };
                jobs::take_opinions(&mut random, &mut job, hundredths);
                let answer = planners::run(planner, &job, 3).answer();
                assert!(!matches!(answer, Answer::Unfinished { .. }));
                bound_holds(&plan, &job, answer);
                routes += u64::from(matches!(answer, Answer::Route { .. }));
            }
        }
        assert!(routes >= 4_000, "{routes} routes");
    }
}

/// What a guide's sheet has at the goal changes nothing: the goal is not
/// expanded, for its round would be finished.
#[test]
fn opinions_on_the_goal_change_nothing() {
    for planner in BOTH {
        let mut count = 0;
        jobs::valid_jobs(35, 3_000, &mut |_, job| {
            let outcomes = [0, MOST_OPINION, NO_OPINION].map(|number| {
                let mut job = job.clone();
                for sheet in job.guides.chunks_exact_mut(job.anchor.len()) {
                    sheet[job.goal as usize] = number;
                }
                let numbers = Default::default();
                let outcome = planners::run(planner, &job, 4);
                Outcome { numbers, ..outcome }
            });
            assert!(outcomes.iter().all(|outcome| *outcome == outcomes[0]));
            count += 1;
        });
        assert!(count >= 10_000, "{count} jobs");
    }
}

/// The greatest m that a search can have, a vertex's anchor key.
fn most_key(plan: &Plan, job: &Job, w1: u32) -> u128 {
    let dearest = plan.costs.iter().copied().max().unwrap_or(0);
    let farthest = u128::from(dearest) * u128::from(plan.vertices);
    let number = job.anchor.iter().copied().max().unwrap_or(0);
    100 * farthest + u128::from(w1) * u128::from(number)
}

/// Whether a guide expands no vertex at the greatest number in any round.
fn is_near(plan: &Plan, job: &Job) -> bool {
    job.factors().chunks_exact(2).all(|factors| {
        let key = u128::from(factors[0]) * u128::from(MOST_OPINION);
        100 * key > u128::from(factors[1]) * most_key(plan, job, factors[0])
    })
}

/// On floors that are not too dear for their factors no opinion is as the
/// greatest number, and on others it is not.
#[test]
fn no_opinion_is_as_the_greatest_number_where_it_is_near() {
    for planner in BOTH {
        let (mut near, mut lacking, mut differing) = (0, 0, 0);
        jobs::valid_jobs(36, 6_000, &mut |plan, job| {
            let mut other = job.clone();
            for number in other.guides.iter_mut().filter(|h| **h == NO_OPINION) {
                *number = MOST_OPINION;
            }
            let outcomes = [job, &other].map(|job| {
                let numbers = Default::default();
                let outcome = planners::run(planner, job, 5);
                Outcome { numbers, ..outcome }
            });
            let differs = outcomes[0] != outcomes[1];
            if is_near(plan, job) {
                near += 1;
                lacking += u64::from(job.guides != other.guides);
                assert!(!differs, "{job:?}");
            }
            differing += u64::from(differs);
        });
        println!("{near} jobs near, {lacking} without some opinion; {differing} others differ");
        assert!(near >= 5_000, "{near} jobs");
        assert!(lacking >= 1_000, "{lacking} jobs");
        assert!(differing >= 200, "{differing} jobs");
    }
}

/// No opinion on vertices that are never reached changes nothing.
#[test]
fn opinions_on_what_is_not_reached_change_nothing() {
    for planner in BOTH {
        let mut changed = 0;
        jobs::valid_jobs(37, 3_000, &mut |_, job| {
            let outcome = planners::run(planner, job, 6);
            let mut other = job.clone();
            for sheet in other.guides.chunks_exact_mut(job.anchor.len()) {
                for (vertex, number) in sheet.iter_mut().enumerate() {
                    if outcome.wide[GUARD + 2 * vertex] == UNREACHED {
                        *number = NO_OPINION;
                    }
                }
            }
            changed += u64::from(other.guides != job.guides);
            let again = planners::run(planner, &other, 6);
            let numbers = outcome.numbers.clone();
            assert!(outcome == Outcome { numbers, ..again }, "{job:?}");
        });
        assert!(changed >= 3_000, "{changed} jobs");
    }
}
