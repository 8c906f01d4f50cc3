//! The library against the second planner on seeded jobs: equal figures and
//! equal memory on every job, equal printed texts, every kind of ending and
//! every rare event met.
//!
//! The variable `SECONDCOOP_JOBS` is about the count of jobs in the first
//! test, with a fifth as many texts; `SECONDCOOP_SEED` asks for other jobs.

use secondcoop_tests::asked::{self, seed};
use secondcoop_tests::bench_text;
use secondcoop_tests::events::Events;
use secondcoop_tests::generate::Plan;
use secondcoop_tests::jobs::{self, Job};
use secondcoop_tests::planner::Answer;
use secondcoop_tests::planners::{
    self, Comparison, Library, SecondPlanner, KINDS, NO_ROUTE, ROUTE, UNFINISHED,
};

const JOBS: usize = 150_000;
/// The count of budgets that a job comes with, about.
const BUDGETS: usize = 5;

/// Each listed kind of ending was met at least so often, and no other.
fn met(kinds: &[u64; KINDS], least: &[(usize, u64)]) {
    for (kind, &count) in kinds.iter().enumerate() {
        match least.iter().find(|&&(listed, _)| listed == kind) {
            Some(&(_, least)) => assert!(count >= least, "kind {kind}: {count} of {least}"),
            None => assert_eq!(count, 0, "kind {kind} is not expected"),
        }
    }
}

#[test]
fn seeded_jobs_are_planned_alike() {
    let wanted = asked::jobs(JOBS);
    let mut comparison = Comparison::new(&Library, &SecondPlanner);
    let mut events = Events::default();
    let mut compare = |_: &Plan, job: &Job| {
        comparison.job(job, None);
        events.count(job);
    };
    jobs::valid_jobs(seed(71), wanted / BUDGETS, &mut compare);
    // Long paths take longer: a few of them.
    jobs::long_jobs(seed(78), wanted / BUDGETS / 200, &mut compare);
    comparison.report("seeded_jobs_are_planned_alike");
    for (name, count) in events.names() {
        println!("  {name}: {count}");
    }
    if wanted < JOBS {
        return;
    }
    assert!(comparison.jobs >= 100_000);
    let ends = [(ROUTE, 50_000), (NO_ROUTE, 20_000), (UNFINISHED, 30_000)];
    met(&comparison.job_kinds, &ends);
    for (name, count) in events.names() {
        assert!(count >= 50, "{name}: {count} in {} jobs", events.jobs);
    }
}

#[test]
fn every_budget_is_spent_alike() {
    let mut comparison = Comparison::new(&Library, &SecondPlanner);
    let mut events = Events::default();
    jobs::every_budget(seed(72), 6_000, &mut |_, job| {
        comparison.job(job, None);
        events.count(job);
    });
    comparison.report("every_budget_is_spent_alike");
    for (name, count) in events.names() {
        println!("  {name}: {count}");
    }
    let ends = [(ROUTE, 10_000), (NO_ROUTE, 3_000), (UNFINISHED, 8_000)];
    met(&comparison.job_kinds, &ends);
    // A round is cut at each of its ends, the first round and later ones.
    for count in [
        events.cut_at_begin_of_first,
        events.cut_at_begin_of_later,
        events.cut_before_end_of_first,
        events.cut_before_end_of_later,
        events.cut_before_no_route,
        events.cut_inside,
        events.end_with_budget_spent,
        events.finish_without_turn,
    ] {
        assert!(count >= 300, "{events:?}");
    }
}

#[test]
fn damaged_jobs_are_refused_alike() {
    let mut comparison = Comparison::new(&Library, &SecondPlanner);
    let mut by_default = 0;
    jobs::damaged_jobs(seed(73), 28_000, &mut |job, known| {
        comparison.job(job, Some(known));
        let ten = matches!(known, Answer::Refused { number: 10, .. });
        by_default += u64::from(ten && job.schedule.is_empty());
    });
    comparison.report("damaged_jobs_are_refused_alike");
    println!("  refusal 10 for the default schedule: {by_default}");
    assert!(by_default >= 500, "{by_default} jobs");
    let each = jobs::CALL_REFUSALS.map(|number| (number as usize, 800));
    met(&comparison.job_kinds, &each);
}

/// Small jobs with every barred number, and some above.
#[test]
fn every_barred_number_is_taken_alike() {
    let mut comparison = Comparison::new(&Library, &SecondPlanner);
    let mut events = Events::default();
    jobs::every_barred(seed(77), 60, &mut |job| {
        comparison.job(job, None);
        events.count(job);
        comparison.text(&job.bench_bytes(), None);
    });
    comparison.report("every_barred_number_is_taken_alike");
    let ends = [(ROUTE, 1_000), (NO_ROUTE, 1_000), (8, 200)];
    met(&comparison.job_kinds, &ends);
    met(&comparison.text_kinds, &ends);
    assert!(events.barred_cheaper >= 200 && events.barred_only >= 200);
}

#[test]
fn wild_jobs_are_answered_alike() {
    let mut comparison = Comparison::new(&Library, &SecondPlanner);
    jobs::wild_jobs(seed(74), 40_000, &mut |job| comparison.job(job, None));
    comparison.report("wild_jobs_are_answered_alike");
    let mut each: Vec<(usize, u64)> = jobs::CALL_REFUSALS
        .map(|number| (number as usize, if number == 3 { 0 } else { 50 }))
        .into();
    each.extend([(ROUTE, 500), (NO_ROUTE, 500), (UNFINISHED, 500)]);
    met(&comparison.job_kinds, &each);
}

/// 4,096 vertices, 32,768 edges, eight guides, sixteen rounds, costs near 32
/// bits and the greatest, and bench jobs of the greatest size.
#[test]
fn jobs_at_the_limits_are_planned_alike() {
    let mut comparison = Comparison::new(&Library, &SecondPlanner);
    let mut largest = 0;
    jobs::large_jobs(seed(75), &mut |plan, job| {
        comparison.job(job, None);
        let size = (plan.vertices, plan.edges(), job.guide_count);
        let all_rounds = |answer| matches!(answer, Answer::Route { rounds: 16, .. });
        if size == (4_096, 32_768, 8) && all_rounds(planners::run(&Library, job, 0).answer()) {
            largest += 1;
        }
        if plan.vertices as usize <= bench_text::MOST_BENCH_VERTICES {
            comparison.text(&job.bench_bytes(), None);
        }
    });
    comparison.report("jobs_at_the_limits_are_planned_alike");
    assert!(comparison.jobs >= 15 && comparison.texts >= 3);
    assert!(comparison.job_kinds[ROUTE] >= 10 && comparison.text_kinds[ROUTE] >= 2);
    assert!(
        largest >= 1,
        "no job of the greatest size finished 16 rounds"
    );
}

#[test]
fn texts_are_printed_alike() {
    let wanted = asked::jobs(JOBS);
    let mut comparison = Comparison::new(&Library, &SecondPlanner);
    jobs::bench_jobs(seed(76), wanted / 5 / BUDGETS, &mut |bytes, known| {
        comparison.text(bytes, known.as_deref());
    });
    comparison.report("texts_are_printed_alike");
    if wanted < JOBS {
        return;
    }
    let mut each: Vec<(usize, u64)> = (1..NO_ROUTE)
        .filter(|number| ![9, 11].contains(number))
        .map(|number| (number, 300))
        .collect();
    each.extend([(ROUTE, 4_000), (NO_ROUTE, 1_000), (UNFINISHED, 2_000)]);
    met(&comparison.text_kinds, &each);
}
