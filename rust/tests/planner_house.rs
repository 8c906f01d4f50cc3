//! The default schedule, the paper's house schedule of a site, on the library
//! and on the second implementation: which sheets are loaded and what they
//! leave, and calls that take it for their schedule.

use secondcoop_tests::asked::seed;
use secondcoop_tests::bench_text::answer_text;
use secondcoop_tests::default_schedule::{DefaultSchedule, Numbers};
use secondcoop_tests::dijkstra;
use secondcoop_tests::generate::Plan;
use secondcoop_tests::guarded::{Guarded, GUARD};
use secondcoop_tests::jobs::{self, Job};
use secondcoop_tests::planner::{Answer, MOST_FACTORS, STANDARD_SCHEDULE};
use secondcoop_tests::planners::{
    self, printed, Comparison, Lent, Library, Loader, Outcome, Planner, SecondPlanner,
};
use secondcoop_tests::random::Random;

const BOTH: [&dyn Planner; 2] = [&Library, &SecondPlanner];
const LOADERS: [&dyn Loader; 2] = [&Library, &SecondPlanner];

/// What a load leaves: the refusal's number or 0, and the numbers, the count
/// and the sheet with their guards.
#[derive(Clone, Debug, PartialEq, Eq)]
struct Loaded {
    refusal: u32,
    numbers: Vec<u32>,
    count: Vec<u32>,
    sheet: Vec<u32>,
}

/// A sheet and a default schedule in guarded memory.
fn lent(sheet: &[u32], default: &DefaultSchedule, salt: u64) -> [Guarded<u32>; 3] {
    [sheet, &default.numbers, &[default.count]]
        .map(|contents| Guarded::with_contents(contents, salt + contents.len() as u64))
}

/// The numbers of a default schedule in guarded memory.
fn numbers_of(lent: &mut Guarded<u32>) -> &mut Numbers {
    lent.lent_mut().try_into().expect("32 numbers")
}

/// Loads a sheet over a default schedule.
fn load(loader: &dyn Loader, sheet: &[u32], default: &DefaultSchedule, salt: u64) -> Loaded {
    let [sheet, mut numbers, mut count] = lent(sheet, default, salt);
    let refusal = loader.load_default_schedule(
        sheet.lent(),
        numbers_of(&mut numbers),
        &mut count.lent_mut()[0],
    );
    Loaded {
        refusal,
        numbers: numbers.all,
        count: count.all,
        sheet: sheet.all,
    }
}

/// What an accepted sheet leaves: itself in the first numbers, its length as
/// count, and all else as it was.
fn accepted(sheet: &[u32], default: &DefaultSchedule, salt: u64) -> Loaded {
    let mut default = *default;
    default.numbers[..sheet.len()].copy_from_slice(sheet);
    default.count = sheet.len() as u32;
    Loaded {
        refusal: 0,
        ..rejected(sheet, &default, salt)
    }
}

/// What a rejected sheet leaves: everything as it was.
fn rejected(sheet: &[u32], default: &DefaultSchedule, salt: u64) -> Loaded {
    let [sheet, numbers, count] = lent(sheet, default, salt).map(|lent| lent.all);
    Loaded {
        refusal: 10,
        numbers,
        count,
        sheet,
    }
}

/// What a sheet is loaded over: the standard schedule, loaded ones of one round
/// and of sixteen, and memory that holds none.
fn defaults() -> Vec<DefaultSchedule> {
    let mut defaults = vec![DefaultSchedule::standard()];
    for (length, factor) in [(2, 700), (32, 150)] {
        let mut loaded = defaults[0];
        loaded.numbers[..length].fill(factor);
        loaded.count = length as u32;
        defaults.push(loaded);
    }
    let numbers = std::array::from_fn(|index| 0xEEEE_0000 + index as u32);
    defaults.extend([0, 1, 33, u32::MAX].map(|count| DefaultSchedule { numbers, count }));
    defaults
}

/// A sheet of so many pairs in which every number is below the one two places
/// before it.
fn falling(pairs: usize) -> Vec<u32> {
    let pair = |index: u32| [9_000 - 500 * index, 8_000 - 400 * index];
    (0..pairs as u32).flat_map(pair).collect()
}

/// A sheet with one number changed.
fn with(sheet: &[u32], at: usize, number: u32) -> Vec<u32> {
    let mut other = sheet.to_vec();
    other[at] = number;
    other
}

/// Every sheet that differs from a good one in one way for which row 10
/// rejects it: a number out of range or rising at each place of each length,
/// a number too many or too few, none, and more than sixteen pairs.
fn damaged_sheets() -> Vec<Vec<u32>> {
    let mut sheets = vec![vec![], vec![100; 33], vec![100; 34], vec![10_000; 64]];
    for pairs in 1..=16 {
        let good = falling(pairs);
        sheets.push(good[1..].to_vec());
        sheets.push([&good[..], &[100]].concat());
        for at in 0..good.len() {
            sheets.extend([0, 99, 10_001, u32::MAX].map(|number| with(&good, at, number)));
            if let Some(before) = at.checked_sub(2) {
                sheets.extend([good[before] + 1, 10_000].map(|number| with(&good, at, number)));
            }
        }
    }
    sheets
}

/// What stands until a sheet is accepted, over any memory.
#[test]
fn the_standard_schedule_is_our_six_rounds() {
    let factors = [500, 300, 200, 150, 120, 100].map(|factor| [factor; 2]);
    let mut standard = DefaultSchedule {
        numbers: [0; MOST_FACTORS],
        count: 12,
    };
    standard.numbers[..12].copy_from_slice(factors.as_flattened());
    for before in defaults() {
        for loader in LOADERS {
            let [sheet, mut numbers, mut count] = lent(&[], &before, 1);
            loader.standard_schedule(numbers_of(&mut numbers), &mut count.lent_mut()[0]);
            assert_eq!([sheet, numbers, count], lent(&[], &standard, 1));
        }
    }
    assert_eq!(standard.in_force(), STANDARD_SCHEDULE);
}

/// A rejected sheet leaves numbers and count, whatever they hold.
#[test]
fn every_damage_of_a_sheet_is_rejected() {
    let sheets = damaged_sheets();
    for (salt, default) in (0..).zip(defaults()) {
        for sheet in &sheets {
            for loader in LOADERS {
                let loaded = load(loader, sheet, &default, salt);
                assert_eq!(loaded, rejected(sheet, &default, salt), "{sheet:?}");
            }
        }
    }
    println!("{} sheets over {} defaults", sheets.len(), defaults().len());
    assert!(sheets.len() > 1_500, "{} sheets", sheets.len());
}

/// Sheets of every length that come to the limits and do not pass them.
fn good_sheets() -> Vec<Vec<u32>> {
    let mut sheets = vec![STANDARD_SCHEDULE.to_vec()];
    for pairs in 1..=16 {
        let (good, last) = (falling(pairs), 2 * pairs - 1);
        sheets.extend([100, 10_000].map(|factor| vec![factor; 2 * pairs]));
        sheets.push([10_000, 100].repeat(pairs));
        sheets.push(with(&with(&good, 0, 10_000), 1, 10_000));
        sheets.push(with(&with(&good, last, 100), last - 1, 100));
        // As high as the number before, at each place.
        sheets.extend((2..=last).map(|at| with(&good, at, good[at - 2])));
        sheets.push(good);
    }
    sheets
}

/// An accepted sheet is in force, and the numbers behind it stay.
#[test]
fn every_good_sheet_is_loaded() {
    for (salt, default) in (0..).zip(defaults()) {
        for sheet in good_sheets() {
            for loader in LOADERS {
                let loaded = load(loader, &sheet, &default, salt);
                assert_eq!(loaded, accepted(&sheet, &default, salt), "{sheet:?}");
            }
        }
    }
}

/// A sheet that a site loads, good or bad.
fn random_sheet(random: &mut Random) -> Vec<u32> {
    match random.one_in(2) {
        true => jobs::random_default(random),
        false => jobs::bad_default(random),
    }
}

/// The default schedule that a load left.
fn left(loaded: &Loaded) -> DefaultSchedule {
    let numbers = &loaded.numbers[GUARD..loaded.numbers.len() - GUARD];
    DefaultSchedule {
        numbers: numbers.try_into().expect("32 numbers"),
        count: loaded.count[GUARD],
    }
}

/// Sequences of sheets, each loaded over what the one before left, on a
/// loader and on the second implementation; each step to `sink`, up to the
/// first that differs.
fn sequences(loader: &dyn Loader, count: usize, sink: &mut dyn FnMut(&[u32], &Loaded)) -> bool {
    let mut random = Random::new(seed(91));
    for salt in 0..count as u64 {
        let mut default = random.pick(&defaults());
        for _ in 0..random.range(1, 12) {
            let sheet = random_sheet(&mut random);
            let loaded = load(loader, &sheet, &default, salt);
            if loaded != load(&SecondPlanner, &sheet, &default, salt) {
                return false;
            }
            sink(&sheet, &loaded);
            default = left(&loaded);
        }
    }
    true
}

/// What stays in force through a sequence of loads is the last accepted sheet.
#[test]
fn sequences_of_loads() {
    let (mut lengths, mut refused) = ([0; MOST_FACTORS + 1], 0);
    let alike = sequences(&Library, 1_500, &mut |sheet, loaded| match loaded.refusal {
        0 => {
            assert_eq!(left(loaded).in_force(), sheet);
            lengths[sheet.len()] += 1;
        }
        number => {
            assert_eq!(number, 10);
            refused += 1;
        }
    });
    println!("{refused} rejected; accepted by length {lengths:?}");
    assert!(alike && refused > 2_000, "{refused} rejected");
    for (length, accepted) in lengths.into_iter().enumerate() {
        let least = if length > 0 && length % 2 == 0 { 50 } else { 0 };
        assert!(accepted >= least, "{length} numbers: {accepted}");
    }
}

/// What is wrong with a loader.
#[derive(Clone, Copy, Debug, PartialEq, Eq)]
enum Fault {
    /// Nothing: the sequences must find nothing.
    None,
    /// A rejected sheet is loaded, as far as there is room.
    RejectedLoaded,
    /// The standard schedule stands after a rejection.
    StandardAfterRejection,
    /// A rejection leaves nothing in force.
    NoneAfterRejection,
    /// A rejection is not told.
    RejectionUntold,
    /// An empty sheet is accepted.
    EmptyAccepted,
    /// The count of an accepted sheet is not taken.
    CountKept,
    /// The numbers of an accepted sheet are not taken.
    NumbersKept,
    /// The count is that of pairs.
    CountOfPairs,
    /// The numbers behind an accepted sheet are cleared.
    RestCleared,
}

const FAULTS: [Fault; 9] = [
    Fault::RejectedLoaded,
    Fault::StandardAfterRejection,
    Fault::NoneAfterRejection,
    Fault::RejectionUntold,
    Fault::EmptyAccepted,
    Fault::CountKept,
    Fault::NumbersKept,
    Fault::CountOfPairs,
    Fault::RestCleared,
];

struct Faulty(Fault);

impl Faulty {
    /// What a load leaves, and the refusal, in place of the right ones.
    fn after(&self, sheet: &[u32], before: DefaultSchedule) -> (DefaultSchedule, u32) {
        let mut default = before;
        let refusal = default.load(sheet);
        let length = sheet.len().min(MOST_FACTORS);
        match (self.0, refusal) {
            (Fault::RejectedLoaded, 10) => {
                default.numbers[..length].copy_from_slice(&sheet[..length]);
                default.count = length as u32;
            }
            (Fault::StandardAfterRejection, 10) => default = DefaultSchedule::standard(),
            (Fault::NoneAfterRejection, 10) => default.count = 0,
            (Fault::RejectionUntold, 10) => return (default, 0),
            (Fault::EmptyAccepted, 10) if sheet.is_empty() => {
                default.count = 0;
                return (default, 0);
            }
            (Fault::CountKept, 0) => default.count = before.count,
            (Fault::NumbersKept, 0) => default.numbers = before.numbers,
            (Fault::CountOfPairs, 0) => default.count /= 2,
            (Fault::RestCleared, 0) => default.numbers[length..].fill(0),
            _ => {}
        }
        (default, refusal)
    }
}

impl Loader for Faulty {
    fn standard_schedule(&self, numbers: &mut Numbers, count: &mut u32) {
        SecondPlanner.standard_schedule(numbers, count);
    }

    fn load_default_schedule(&self, sheet: &[u32], numbers: &mut Numbers, count: &mut u32) -> u32 {
        let before = DefaultSchedule {
            numbers: *numbers,
            count: *count,
        };
        let (default, refusal) = self.after(sheet, before);
        (*numbers, *count) = (default.numbers, default.count);
        refusal
    }
}

/// A tenth of the library's sequences tell each faulty loader.
#[test]
fn each_faulty_loader_is_told() {
    for fault in FAULTS {
        let mut loads = 0;
        let alike = sequences(&Faulty(fault), 150, &mut |_, _| loads += 1);
        println!("{fault:?}: after {loads} loads");
        assert!(!alike, "{fault:?} in {loads} loads");
    }
    assert!(sequences(&Faulty(Fault::None), 150, &mut |_, _| ()));
}

/// An outcome without what the call only reads.
fn left_by(planner: &dyn Planner, job: &Job, salt: u64) -> Outcome {
    let numbers = Default::default();
    let outcome = planners::run(planner, job, salt);
    Outcome { numbers, ..outcome }
}

/// Job A's floor, on a schedule and a default one.
fn job_a(schedule: &[u32], default: &[u32]) -> Job {
    let plan = Plan {
        vertices: 4,
        tails: vec![0, 0, 1, 2],
        heads: vec![1, 2, 2, 3],
        costs: vec![1, 4, 2, 3],
        classes: vec![0; 4],
    };
    let (anchor, guide) = (vec![6, 5, 3, 0], vec![0, 9, 0, 0]);
    Job {
        default_schedule: default.to_vec(),
        ..Job::new(&plan, 0, 3, anchor, guide, 1, schedule.to_vec(), 100)
    }
}

/// Whether a call is refused for row 10, at position 0, all lent memory
/// untouched.
fn is_refused_for_10(planner: &dyn Planner, job: &Job) -> bool {
    let outcome = planners::run(planner, job, 5);
    let refused = outcome.figures == [3, 10, 0, 0, 0, 0, 0, 0];
    assert!(!refused || Lent::before(job, 5).is_untouched(&outcome));
    refused
}

/// A call without a schedule is refused for every bad default one, those of no
/// number, of an odd count and of 17 pairs among them. Beside a schedule none
/// is looked at.
#[test]
fn every_bad_default_is_refused_where_it_is_taken() {
    let own = [200, 200, 100, 100];
    for planner in BOTH {
        let beside_none = left_by(planner, &job_a(&own, &[]), 6);
        assert_eq!(beside_none.figures, [0, 0, 0, 6, 4, 2, 4, 10_000]);
        for default in damaged_sheets() {
            assert!(
                is_refused_for_10(planner, &job_a(&[], &default)),
                "{default:?}"
            );
            let beside = left_by(planner, &job_a(&own, &default), 6);
            assert!(beside == beside_none, "{default:?}");
        }
        for default in good_sheets() {
            assert!(
                !is_refused_for_10(planner, &job_a(&[], &default)),
                "{default:?}"
            );
            let beside = left_by(planner, &job_a(&own, &default), 6);
            assert!(beside == beside_none, "{default:?}");
        }
    }
}

/// The schedule of a call's own is refused beside any default one.
#[test]
fn a_bad_schedule_is_refused_beside_any_default() {
    for planner in BOTH {
        for schedule in damaged_sheets().iter().filter(|sheet| !sheet.is_empty()) {
            for default in [&STANDARD_SCHEDULE[..], &[], &[100], schedule] {
                assert!(is_refused_for_10(planner, &job_a(schedule, default)));
            }
        }
    }
}

/// The refusal of a call, or 0.
fn refusal_of(planner: &dyn Planner, job: &Job) -> u64 {
    planners::run(planner, job, 7).figures[1]
}

/// A default schedule that is taken counts in row 10's place: after start,
/// goal and tables, before memory and the anchor table.
#[test]
fn a_default_has_row_10s_place() {
    for planner in BOTH {
        for (default, number) in [(&[99, 100][..], 10), (&[], 10), (&[100, 100], 0)] {
            let mut job = job_a(&[], default);
            let mut refused = vec![refusal_of(planner, &job)];
            job.anchor[3] = 1;
            refused.push(refusal_of(planner, &job));
            job.work_room = 0;
            refused.push(refusal_of(planner, &job));
            job.guide_count = 9;
            refused.push(refusal_of(planner, &job));
            job.goal = 4;
            refused.push(refusal_of(planner, &job));
            job.bytes.push(0);
            refused.push(refusal_of(planner, &job));
            let or = |later| if number == 10 { 10 } else { later };
            assert_eq!(refused, [or(0), or(12), or(11), 9, 8, 7]);
        }
    }
}

/// A call that takes a default schedule is in all figures and in all memory
/// the call with that schedule, beside any default one.
#[test]
fn a_default_is_as_a_schedule() {
    for planner in BOTH {
        let (mut random, mut rounds) = (Random::new(92), [0; 17]);
        let mut check = |_: &Plan, job: &Job| {
            let default = jobs::random_default(&mut random);
            let taken = Job {
                schedule: vec![],
                default_schedule: default.clone(),
                ..job.clone()
            };
            let mut own = Job {
                schedule: default,
                ..job.clone()
            };
            let outcome = left_by(planner, &taken, 8);
            for beside in [jobs::bad_default(&mut random), job.schedule.clone()] {
                own.default_schedule = beside;
                assert!(outcome == left_by(planner, &own, 8), "{taken:?}");
            }
            rounds[outcome.figures[5] as usize] += 1;
        };
        jobs::valid_jobs(93, 3_000, &mut check);
        jobs::long_jobs(94, 10, &mut check);
        println!("by finished rounds: {rounds:?}");
        assert!(rounds.iter().all(|&count| count >= 100), "{rounds:?}");
    }
}

/// The paper's promise of page nine, whichever pairs are in force: the route
/// costs at most W1·W2 of the last finished round times the cheapest walk.
#[test]
fn the_bound_holds_on_every_default() {
    for planner in BOTH {
        let (mut random, mut routes) = (Random::new(99), [0; 17]);
        jobs::valid_jobs(100, 4_000, &mut |plan, job| {
            let taken = Job {
                schedule: vec![],
                default_schedule: jobs::random_default(&mut random),
                ..job.clone()
            };
            let least = dijkstra::distances_from(plan, job.start, job.barred)[job.goal as usize];
            match planners::run(planner, &taken, 11).answer() {
                Answer::Route {
                    cost,
                    rounds,
                    bound,
                    ..
                } => {
                    let last = &taken.default_schedule[2 * rounds as usize - 2..];
                    assert_eq!(bound, last[0] * last[1]);
                    let least = least.expect("a route is given only where there is one");
                    assert!(10_000 * u128::from(cost) <= u128::from(bound) * u128::from(least));
                    routes[rounds as usize] += 1;
                }
                Answer::NoRoute { .. } => assert_eq!(least, None),
                answer => assert_eq!(answer, Answer::Unfinished { turns: job.budget }),
            }
        });
        println!("routes by finished rounds: {routes:?}");
        assert!(routes[1..].iter().all(|&count| count >= 100), "{routes:?}");
    }
}

/// The largest jobs on a default schedule of sixteen rounds.
#[test]
fn the_largest_jobs_on_a_default() {
    let (mut comparison, mut all) = (Comparison::new(&Library, &SecondPlanner), 0);
    jobs::large_jobs(seed(95), &mut |_, job| {
        let (schedule, default) = (vec![], job.schedule.clone());
        let taken = Job {
            schedule,
            default_schedule: default,
            ..job.clone()
        };
        if taken.default_schedule.is_empty() {
            return;
        }
        comparison.job(&taken, None);
        let outcome = left_by(&Library, &taken, 9);
        assert!(outcome == left_by(&Library, job, 9));
        all += u64::from(outcome.figures[5] == 16);
    });
    assert!(comparison.jobs >= 15 && all >= 3, "{all} of sixteen rounds");
}

/// On the standard schedule a call without its own is what it was: the call on
/// our six rounds, and what the bench program prints.
#[test]
fn the_standard_schedule_is_what_an_empty_one_meant() {
    for planner in BOTH {
        let mut count = 0;
        jobs::valid_jobs(96, 2_000, &mut |_, job| {
            let mut job = job.with_whole_log();
            (job.schedule, job.default_schedule) = (vec![], STANDARD_SCHEDULE.to_vec());
            let outcome = left_by(planner, &job, 10);
            let words = |all: &[u32]| all[GUARD..all.len() - GUARD].to_vec();
            let text = answer_text(&outcome.answer(), &words(&outcome.route), &outcome.turns());
            assert_eq!(printed(planner, &job.bench_bytes()), text);
            job.schedule = job.default_schedule.clone();
            assert!(outcome == left_by(planner, &job, 10), "{job:?}");
            count += 1;
        });
        assert!(count > 5_000, "{count} jobs");
    }
}

/// A site's day: sheets are loaded between calls, and each call without a
/// schedule takes the last accepted one; none is kept from call to call.
#[test]
fn calls_take_the_default_in_force() {
    for (planner, loader) in BOTH.into_iter().zip(LOADERS) {
        let mut random = Random::new(97);
        let mut default = DefaultSchedule::standard();
        let mut last = STANDARD_SCHEDULE.to_vec();
        let (mut jobs, mut changes, mut rejections) = (0, 0, 0);
        jobs::valid_jobs(98, 1_000, &mut |_, job| {
            let sheet = random_sheet(&mut random);
            let loaded = load(loader, &sheet, &default, jobs);
            default = left(&loaded);
            match loaded.refusal {
                0 => last = sheet,
                _ => rejections += 1,
            }
            let taken = Job {
                schedule: vec![],
                default_schedule: default.in_force().to_vec(),
                ..job.clone()
            };
            let own = Job {
                schedule: last.clone(),
                ..job.clone()
            };
            let outcome = left_by(planner, &taken, jobs);
            assert!(outcome == left_by(planner, &own, jobs), "{taken:?}");
            let rounds = outcome.figures[5] as usize;
            changes += u64::from(rounds > 0 && rounds == last.len() / 2);
            jobs += 1;
        });
        assert!(jobs > 3_000 && changes > 1_000 && rejections > 1_000);
    }
}
