//! Plans or explains a job of any size and prints it in the bench program's
//! words: those that the bench program takes through its texts, larger ones
//! and those with a sheet for the default schedule through the calls.

use crate::bench_text::{answer_text, logged, refused};
use crate::default_schedule::DefaultSchedule;
use crate::explainers::{self, Explainer};
use crate::explanation::{self, Lists, Reason};
use crate::jobs::Job;
use crate::planner::{or_default, wide_numbers, work_words, Answer, Memory, MOST_FACTORS};
use crate::planners::{printed, Loader, Planner};
use crate::reference::{self, MOST_EDGES, MOST_VERTICES};
use crate::refusals::Taker;
use crate::text::{Line, TextJob};

/// The factors of lines with pairs.
fn factors(pairs: &[Line<[u32; 2]>]) -> Vec<u32> {
    pairs.iter().flat_map(|pair| pair.says).collect()
}

/// The default schedule that a job is planned on: the standard one, or its
/// sheet's if that is accepted; and the refusal's number, or 0.
pub fn loaded_default(loader: &dyn Loader, job: &TextJob) -> (DefaultSchedule, u32) {
    let (mut numbers, mut count) = ([0; MOST_FACTORS], 0);
    loader.standard_schedule(&mut numbers, &mut count);
    let sheet = job
        .lines()
        .map_or(vec![], |lines| factors(&lines.default_schedule));
    let refusal = match &sheet[..] {
        [] => 0,
        sheet => loader.load_default_schedule(sheet, &mut numbers, &mut count),
    };
    (DefaultSchedule { numbers, count }, refusal)
}

/// What a planner prints for a job, whose default schedule it loads too.
pub fn run(planner: &(impl Planner + Loader), job: &TextJob) -> String {
    match Taker::of(job) {
        Taker::Bench => printed(planner, &job.bytes()),
        Taker::Call => call(planner, job),
    }
}

/// The planner call that a job asks, with memory enough for all that it can
/// give: route, work and wide memory for the plan, and a log for 2·V turns in
/// each round. The numbers of the tables are the anchor table's first, as many as
/// there are places. Bytes without the numbers of a call ask none.
pub fn asked(loader: &dyn Loader, job: &TextJob) -> Option<Job> {
    let lines = job.lines().ok()?;
    let numbers = lines.tables.numbers().ok()?;
    let (default_schedule, _) = loaded_default(loader, job);
    let (schedule, default_schedule) = (factors(&lines.rounds), default_schedule.in_force());
    let (places, lanes) = lines.plan.lines().map_or((0, 0), |plan| {
        let places = plan.places.says.min(MOST_VERTICES) as usize;
        (places, plan.lanes.len().min(MOST_EDGES as usize))
    });
    let (anchor, guides) = numbers.split_at(places.min(numbers.len()));
    let factors = or_default(&schedule, default_schedule);
    let turns = places * factors.len().min(MOST_FACTORS);
    Some(Job {
        bytes: lines.plan.bytes().expect("a job's plan has bytes"),
        start: lines.start.says,
        goal: lines.goal.says,
        barred: lines.barred.says,
        anchor: anchor.to_vec(),
        guides: guides.to_vec(),
        guide_count: lines.tables.guide_count().says as u32,
        schedule,
        default_schedule: default_schedule.to_vec(),
        budget: lines.allowance.says,
        route_room: places,
        log_room: turns.min(lines.allowance.says as usize),
        work_room: work_words(places, lanes),
        wide_room: wide_numbers(places),
    })
}

/// What the planner call that a job asks gives, printed. Where it asks none it
/// is refused as the bench program does it.
pub fn call(planner: &(impl Planner + Loader), job: &TextJob) -> String {
    let Some(job) = asked(planner, job) else {
        return refused(14, 0);
    };
    let mut route = vec![0; job.route_room];
    let mut log = vec![0; job.log_room];
    let memory = Memory {
        route: &mut route,
        log: &mut log,
        work: &mut vec![0; job.work_room],
        wide: &mut vec![0; job.wide_room],
    };
    let figures = planner.plan(&job.request(), memory);
    let answer = Answer::of_figures(figures).expect("figures of an answer");
    let [.., turns, _] = figures;
    answer_text(&answer, &route, &logged(&log, turns as usize))
}

/// What the explanation that a job asks gives: the answer, what it left in
/// route memory, and what is listed; and the call that was asked.
pub struct Explained {
    pub answer: Answer,
    pub route: Vec<u32>,
    pub reason: Reason,
    pub job: Job,
}

/// The explanation that a job asks, with memory enough; bytes without the
/// numbers of a call ask none.
pub fn explained(explainer: &(impl Explainer + Loader), job: &TextJob) -> Option<Explained> {
    let job = asked(explainer, job)?;
    let (places, lanes) = reference::check_plan(&job.bytes).unwrap_or((0, 0));
    let mut route = vec![0; job.route_room];
    let mut lists = [places, lanes].map(|room| vec![0; room as usize]);
    let memory = Memory {
        route: &mut route,
        log: &mut [],
        work: &mut vec![0; job.work_room],
        wide: &mut vec![0; job.wide_room],
    };
    let [places, lanes] = &mut lists;
    let lent = Lists { places, lanes };
    let figures = explainer.explain(&job.request(), memory, lent);
    let (call, counts) = explanation::parts(figures);
    for (list, count) in lists.iter_mut().zip(counts) {
        list.truncate(count as usize);
    }
    let [places, lanes] = lists;
    Some(Explained {
        answer: Answer::of_figures(call).expect("figures of an answer"),
        route,
        reason: Reason { places, lanes },
        job,
    })
}

/// The lines that an explainer prints for a job, whose default schedule it
/// loads too.
pub fn explained_lines(explainer: &(impl Explainer + Loader), job: &TextJob) -> String {
    if Taker::of(job) == Taker::Bench {
        return explainers::printed(explainer, &job.bytes());
    }
    let Some(explained) = explained(explainer, job) else {
        return refused(14, 0);
    };
    let (answer, route) = (&explained.answer, &explained.route);
    explanation::lines(answer, route, &explained.job.bytes, &explained.reason)
}
