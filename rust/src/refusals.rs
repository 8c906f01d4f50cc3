//! Refusals in plain words: what each number means, and what is wrong with a
//! job's lines.

use std::fmt;

use crate::bench_text::{MOST_BENCH_EDGES, MOST_BENCH_VERTICES, MOST_JOB_BYTES};
use crate::planner::MOST_BARRED;
use crate::reference::{self, MOST_CLASS, MOST_COST, MOST_EDGES};
use crate::text::{JobLines, Line, PlanLines, TextJob, TextPlan, TextTables};
use crate::words::{
    count, no_barred_number, no_class, not_a_place, too_dear, too_many_lanes, wrong_place_count,
};

/// A refusal in words.
pub fn refusal_words(number: u32) -> Option<&'static str> {
    Some(match number {
        1 => "a plan number is cut off, longer than four groups or not in its shortest form",
        2 => "the number of places is not from 1 to 4096",
        3 => "there are more than 32768 lanes",
        4 => "a tail or head is not a place",
        5 => "a cost is above 16000000",
        6 => "the lanes do not rise by tail, and under one tail by head",
        7 => "bytes are left over after the last lane",
        8 => "start or goal is not a place, or the barred number is above 255",
        9 => "there are over 8 guides, or a table has not one number for each place",
        10 => {
            "the schedule, or the house schedule where it is empty, has over 16 rounds, half a \
             round, a factor outside 100 to 10000 or a factor that rises, or both are empty; a \
             sheet for the house schedule is rejected for the same, and it stays what it was"
        }
        11 => "lent memory is too short",
        12 => "the anchor table is not 0 at the goal",
        13 => {
            "the anchor table breaks its rule on a lane: its number at the tail is above the \
             lane's cost and its number at the head together"
        }
        14 => {
            "the job is not one for the bench program: over 32768 bytes, 16 rounds, 8 guides, \
             256 places or 2048 lanes, or a number is missing, of bad form or left over"
        }
        15 => "a class is above 7",
        _ => return None,
    })
}

/// What a refusal's position counts.
pub fn position_words(number: u32) -> &'static str {
    match number {
        1 => {
            "the position is a byte, counted from 0; where a number was to be written, it is \
             always 0"
        }
        2 => {
            "the position is a byte of the plan, counted from 0; where a plan was to be written, \
             it is always 0"
        }
        3 => {
            "the position is a byte of the plan, counted from 0; where a plan was to be written, \
             it is always 0, and lists of unequal lengths are refused so too"
        }
        4..=6 | 15 => {
            "the position is a byte of the plan, counted from 0; where a plan was to be written, \
             it is a lane, counted from 0"
        }
        7 => "the position is a byte of the plan, counted from 0",
        13 => "the position is a lane, counted from 0",
        _ => "the position is always 0",
    }
}

/// Who takes a job: the bench program, which has limits of its own and takes
/// no sheet for the default schedule, or the planner call.
#[derive(Clone, Copy, Debug, PartialEq, Eq)]
pub enum Taker {
    Bench,
    Call,
}

impl Taker {
    /// Who plans a job: the bench program, or the planner call where it has
    /// more bytes, places or lanes than the bench program takes, or a sheet for
    /// the default schedule.
    pub fn of(job: &TextJob) -> Taker {
        match is_large(job) || job.default_line().is_some() {
            true => Taker::Call,
            false => Taker::Bench,
        }
    }
}

/// Whether a job is too large for the bench program.
fn is_large(job: &TextJob) -> bool {
    let plan = job.lines().ok().and_then(|lines| lines.plan.lines());
    let large = plan.is_some_and(|plan| {
        plan.places.says as usize > MOST_BENCH_VERTICES || plan.lanes.len() > MOST_BENCH_EDGES
    });
    large || job.bytes().len() > MOST_JOB_BYTES
}

/// Why a job that the planner call takes is not one for the bench program.
pub fn beyond_bench(job: &TextJob) -> &'static str {
    match is_large(job) {
        true => "too large for the bench program",
        false => "not one for the bench program, which takes our own house schedule alone",
    }
}

/// What is wrong with a job, and the line to look at; 0 if there is none.
#[derive(Clone, Debug, PartialEq, Eq)]
pub struct Remark {
    pub line: usize,
    pub refusal: u32,
    pub words: String,
}

impl fmt::Display for Remark {
    fn fmt(&self, f: &mut fmt::Formatter) -> fmt::Result {
        if self.line > 0 {
            write!(f, "line {}: ", self.line)?;
        }
        write!(f, "{} (refusal {})", self.words, self.refusal)
    }
}

/// Why a job is refused: the first remark has the refusal that the taker
/// gives, and without remarks the job is planned. What follows from another
/// fault has no remark of its own.
pub fn remarks(job: &TextJob, taker: Taker) -> Vec<Remark> {
    let mut remarks = Remarks(Vec::new());
    match job.lines() {
        Ok(lines) => remarks.job(&lines, job.bytes().len(), taker),
        Err(words) => match job.bytes().len() {
            length if length > MOST_JOB_BYTES && taker == Taker::Bench => {
                remarks.add(0, 14, too_long(length))
            }
            _ => remarks.add(0, 14, words),
        },
    }
    remarks.0
}

/// Why a job's sheet for the default schedule is rejected; without remarks it
/// is loaded.
pub fn default_remarks(job: &TextJob) -> Vec<Remark> {
    let mut remarks = Remarks(Vec::new());
    if let Ok(lines) = job.lines() {
        remarks.most_rounds(&lines.default_schedule, 10);
        remarks.factors(&lines.default_schedule);
    }
    remarks.0
}

fn too_long(length: usize) -> String {
    format!("the job has {length} bytes, over the {MOST_JOB_BYTES} of the bench program")
}

/// The remarks on a job, as they are found.
struct Remarks(Vec<Remark>);

impl Remarks {
    fn add(&mut self, line: usize, refusal: u32, words: String) {
        self.0.push(Remark {
            line,
            refusal,
            words,
        });
    }

    /// All lines, in the order in which the taker looks at them.
    fn job(&mut self, job: &JobLines, length: usize, taker: Taker) {
        match taker {
            Taker::Bench => {
                if length > MOST_JOB_BYTES {
                    self.add(0, 14, too_long(length));
                }
                self.most_rounds(&job.rounds, 14);
                self.most_guides(job, 14);
            }
            // Without the tables' numbers there is no call.
            Taker::Call if job.tables.numbers().is_err() => return self.tables(job, None, 14),
            Taker::Call => {}
        }
        let Some(plan) = self.plan(&job.plan) else {
            return;
        };
        match taker {
            Taker::Bench => {
                self.bench_sizes(&plan, length);
                self.tables(job, Some(&plan), 14);
                self.ends(job, &plan);
            }
            Taker::Call => {
                self.ends(job, &plan);
                self.most_guides(job, 9);
                self.tables(job, Some(&plan), 9);
                self.most_rounds(&job.rounds, 10);
            }
        }
        self.factors(&job.rounds);
        self.anchor(job, &plan);
    }

    /// The plan; its lines, unless its bytes are refused.
    fn plan(&mut self, plan: &TextPlan) -> Option<PlanLines> {
        match plan {
            TextPlan::Lines(lines) => self.lanes(lines),
            TextPlan::Bytes(bytes) => {
                if let Err(refusal) = reference::check_plan(&bytes.says) {
                    let words = refusal_words(refusal.number).unwrap_or("");
                    let at = refusal.position;
                    let words = format!("at byte {at} of the plan, counted from 0: {words}");
                    self.add(bytes.number, refusal.number, words);
                    return None;
                }
            }
        }
        plan.lines()
    }

    fn most_rounds(&mut self, rounds: &[Line<[u32; 2]>], refusal: u32) {
        if let Some(round) = rounds.get(16) {
            let words = format!("there are {} rounds, over 16", rounds.len());
            self.add(round.number, refusal, words);
        }
    }

    fn most_guides(&mut self, job: &JobLines, refusal: u32) {
        let Line { number, says } = job.tables.guide_count();
        if says > 8 {
            self.add(number, refusal, format!("there are {says} guides, over 8"));
        }
    }

    /// Places and lanes, row by row of the paper's table.
    fn lanes(&mut self, plan: &PlanLines) {
        let places = plan.places.says;
        if !plan.has_places() {
            self.add(plan.places.number, 2, wrong_place_count(places));
        }
        if plan.lanes.len() > MOST_EDGES as usize {
            let line = plan.lanes[MOST_EDGES as usize].number;
            self.add(line, 3, too_many_lanes(plan.lanes.len()));
        }
        let mut before: Option<[u32; 4]> = None;
        for lane in &plan.lanes {
            let [tail, head, cost, class] = lane.says;
            for (end, place) in [("tail", tail), ("head", head)] {
                if plan.has_places() && place >= places {
                    self.add(lane.number, 4, not_a_place(end, place, places));
                }
            }
            if let Some([_, last, ..]) = before.filter(|before| before[0] == tail) {
                if head <= last {
                    let words = format!(
                        "head {head} is not above head {last} of the lane before; heads rise \
                         under one tail"
                    );
                    self.add(lane.number, 6, words);
                }
            }
            if cost > MOST_COST {
                self.add(lane.number, 5, too_dear(cost));
            }
            if class > MOST_CLASS {
                self.add(lane.number, 15, no_class(class));
            }
            before = Some(lane.says);
        }
    }

    /// What the bench program takes, where the plan is one and the job's
    /// length has not been told.
    fn bench_sizes(&mut self, plan: &PlanLines, length: usize) {
        if length > MOST_JOB_BYTES {
            return;
        }
        let places = plan.places.says;
        if plan.has_places() && places as usize > MOST_BENCH_VERTICES {
            let words =
                format!("the bench program takes {MOST_BENCH_VERTICES} places, not {places}");
            self.add(plan.places.number, 14, words);
        }
        let lanes = plan.lanes.len();
        if let Some(lane) = plan.lanes.get(MOST_BENCH_EDGES) {
            if lanes <= MOST_EDGES as usize {
                let words =
                    format!("the bench program takes {MOST_BENCH_EDGES} lanes, not {lanes}");
                self.add(lane.number, 14, words);
            }
        }
    }

    /// The tables: whether they are numbers, and one for each place. Tables
    /// as lines have one length.
    fn tables(&mut self, job: &JobLines, plan: Option<&PlanLines>, refusal: u32) {
        let (line, guides) = (job.tables.line(), job.tables.guide_count().says);
        let numbers = match job.tables.numbers() {
            Ok(numbers) => numbers.len(),
            Err(words) => return self.add(line, 14, format!("in the tables {words}")),
        };
        let Some(plan) = plan.filter(|plan| plan.has_places()) else {
            return;
        };
        let places = plan.places.says as usize;
        if numbers == (guides + 1) * places {
            return;
        }
        let there = count(places, "place");
        let words = match &job.tables {
            TextTables::Lines { anchor, .. } => {
                let numbers = count(anchor.says.len(), "number");
                let tables = match guides {
                    0 => format!("the anchor table has {numbers}"),
                    _ => format!(
                        "the anchor table and {} have {numbers} each",
                        count(guides, "guide")
                    ),
                };
                format!("{tables}, and the plan has {there}")
            }
            // A wrong count of guides is told by itself.
            TextTables::Bytes { .. } if guides > 8 => return,
            TextTables::Bytes { .. } => format!(
                "the tables have {}; an anchor table and {} for {there} take {}",
                count(numbers, "number"),
                count(guides, "guide"),
                (guides + 1) * places
            ),
        };
        self.add(line, refusal, words);
    }

    /// Start, goal and the barred number.
    fn ends(&mut self, job: &JobLines, plan: &PlanLines) {
        let places = plan.places.says;
        for (name, line) in [("start", &job.start), ("goal", &job.goal)] {
            if plan.has_places() && line.says >= places {
                self.add(line.number, 8, not_a_place(name, line.says, places));
            }
        }
        let Line { number, says } = job.barred;
        if says > MOST_BARRED {
            self.add(number, 8, no_barred_number(says));
        }
    }

    fn factors(&mut self, rounds: &[Line<[u32; 2]>]) {
        let fits = |factor: u32| (100..=10_000).contains(&factor);
        let mut before: Option<[u32; 2]> = None;
        for round in rounds {
            for (index, &factor) in round.says.iter().enumerate() {
                let name = ["W1", "W2"][index];
                if !fits(factor) {
                    let words = format!("{name} {factor} is not from 100 to 10000");
                    self.add(round.number, 10, words);
                    continue;
                }
                let last = before
                    .map(|before| before[index])
                    .filter(|&last| fits(last));
                if let Some(last) = last.filter(|&last| factor > last) {
                    let words = format!("{name} rises from {last} to {factor}");
                    self.add(round.number, 10, words);
                }
            }
            before = Some(round.says);
        }
    }

    /// The anchor table at the goal and on the lanes, where the tables are
    /// whole.
    fn anchor(&mut self, job: &JobLines, plan: &PlanLines) {
        let numbers = job.tables.numbers().unwrap_or_default();
        let places = plan.places.says as usize;
        if numbers.len() != (job.tables.guide_count().says + 1) * places {
            return;
        }
        let anchor = &numbers[..places];
        let number_at = |place: u32| anchor.get(place as usize).copied();
        if let Some(number) = number_at(job.goal.says).filter(|&number| number > 0) {
            let goal = job.goal.says;
            let words = format!("the anchor table has {number} at the goal {goal}, not 0");
            self.add(job.tables.line(), 12, words);
        }
        for (index, lane) in plan.lanes.iter().enumerate() {
            let [tail, head, cost, _] = lane.says;
            let (Some(at_tail), Some(at_head)) = (number_at(tail), number_at(head)) else {
                continue;
            };
            let most = u64::from(cost) + u64::from(at_head);
            if u64::from(at_tail) > most {
                let words = format!(
                    "on lane {index}, counted from 0, the anchor table has {at_tail} at tail \
                     {tail}, above cost {cost} + {at_head} at head {head}"
                );
                self.add(lane.number, 13, words);
            }
        }
    }
}
