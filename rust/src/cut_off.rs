//! Seeded jobs whose goal is cut off from the start: by barred lanes, for want
//! of lanes, or by both; with barred lanes inside what can be reached, back
//! into it and beyond it.

use crate::generate::Plan;
use crate::jobs::{self, Job};
use crate::planner::MOST_BARRED;
use crate::random::Random;

/// A barred number with at least one class in it and, unless it bars all, at
/// least one left out.
fn some_barred(random: &mut Random) -> u32 {
    match random.below(4) {
        0 => 1 << random.below(8),
        1 => MOST_BARRED,
        _ => random.range32(1, MOST_BARRED - 1),
    }
}

/// A class that a barred number has, or one that it has not.
fn class_of(random: &mut Random, barred: u32, is_barred: bool) -> u32 {
    let classes: Vec<u32> = (0..8)
        .filter(|class| (barred >> class & 1 == 1) == is_barred)
        .collect();
    random.pick(&classes)
}

/// What is left of the lanes that lead out of a side of the floor.
#[derive(Clone, Copy)]
enum Border {
    Barred,
    Gone,
    /// Each is one or the other.
    Either,
}

/// A plan cut in two: no permitted lane leads from the start's side, where
/// `near` is true, to the other. Lanes inside either side and back are barred
/// at a rate of their own.
fn cut(random: &mut Random, plan: &Plan, near: &[bool], barred: u32) -> Plan {
    let border = random.pick(&[Border::Barred, Border::Barred, Border::Gone, Border::Either]);
    let hundredths = random.pick(&[0, 10, 30]);
    let mut gone = vec![false; plan.edges()];
    let mut plan = plan.clone();
    for (edge, gone) in gone.iter_mut().enumerate() {
        let [tail, head] = [plan.tails[edge], plan.heads[edge]].map(|end| near[end as usize]);
        let leaves = tail && !head;
        let is_gone = match border {
            Border::Barred => false,
            Border::Gone => true,
            Border::Either => random.one_in(2),
        };
        *gone = leaves && is_gone;
        let is_barred = leaves || barred == MOST_BARRED || random.below(100) < hundredths;
        plan.classes[edge] = class_of(random, barred, is_barred);
    }
    plan.with_edges(|edge| !gone[edge])
}

/// A job whose goal is cut off, on a floor of any shape of two places or more.
pub fn cut_off_job(random: &mut Random) -> (Plan, Job) {
    let plan = loop {
        let shape = random.pick(&jobs::SHAPES);
        let plan = jobs::random_graph(random, shape);
        if plan.vertices > 1 {
            break plan;
        }
    };
    let vertices = plan.vertices as usize;
    let hundredths = random.pick(&[0, 30, 60, 90, 100]);
    let mut near: Vec<bool> = (0..vertices)
        .map(|_| random.below(100) < hundredths)
        .collect();
    let start = random.index(vertices);
    let goal = (start + random.range(1, vertices as u64 - 1) as usize) % vertices;
    (near[start], near[goal]) = (true, false);
    let barred = some_barred(random);
    let plan = cut(random, &plan, &near, barred);
    let mut job = jobs::job_on(random, &plan);
    (job.start, job.goal, job.barred) = (start as u32, goal as u32, barred);
    job.anchor = jobs::random_anchor(random, &plan, job.goal);
    (plan, job)
}

/// Jobs whose goals are cut off, with any default schedules: each with turns
/// without end, with just enough of them, and with one less than enough.
pub fn cut_off_jobs(seed: u64, count: usize, sink: &mut dyn FnMut(&Plan, &Job)) {
    let mut random = Random::new(seed);
    for _ in 0..count {
        let (plan, mut job) = cut_off_job(&mut random);
        jobs::hand_default(&mut random, &mut job);
        sink(&plan, &job);
        let ends = jobs::ends_of_rounds(&job);
        let enough = ends.first().copied().expect("the first round ends");
        for budget in [enough, enough.saturating_sub(1)] {
            job.budget = budget;
            sink(&plan, &job);
        }
    }
}
