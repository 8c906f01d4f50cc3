//! Guides are kept on a lead: where a chain leads from start to goal, every
//! turn of a guide, in every round, finished or cut, expands a place whose
//! key g + w1·hi is at most w1·w2 times the cheapest chain's cost, and every
//! turn of the anchor one whose key g + w1·h0 is at most w1 times it.
//! `lead` has keys and leads, Dijkstra the cheapest chain; the turns are the
//! second planner's, and the library's log shows the same ones.
//!
//! The variable `SECONDCOOP_JOBS` is about the count of jobs in the first
//! test, with fewer of other sorts; `SECONDCOOP_SEED` asks for other jobs.

use secondcoop_tests::asked::{self, seed};
use secondcoop_tests::dijkstra;
use secondcoop_tests::generate::Plan;
use secondcoop_tests::jobs::{self, Alley, Job};
use secondcoop_tests::lead::{self, Share, Turn};
use secondcoop_tests::planner::{Answer, Event, Fault, FAULTS, MOST_OPINION, NO_OPINION};
use secondcoop_tests::planners::{self, Library, Planner, SecondPlanner};

const BOTH: [&dyn Planner; 2] = [&Library, &SecondPlanner];

const JOBS: usize = 100_000;
/// The count of budgets that a job comes with, about.
const BUDGETS: usize = 5;

/// The jobs of a test that has so many of the first test's thousand.
fn count(thousandths: usize) -> usize {
    asked::jobs(JOBS) / BUDGETS * thousandths / 1_000
}

/// What a job's turns are looked at by.
struct Floor {
    cheapest: u64,
    /// The cost of the cheapest permitted chain from the start to each place,
    /// and from each place to the goal.
    from: Vec<Option<u64>>,
    to: Vec<Option<u64>>,
    bars_lanes: bool,
    /// Of each guide: whether it lacks an opinion, and its number at the goal.
    lacks_opinions: Vec<bool>,
    at_goal: Vec<u32>,
    /// The round that the allowance cut.
    cut: Option<u32>,
}

impl Floor {
    /// Nothing is said where no chain leads to the goal.
    fn of(plan: &Plan, job: &Job, events: &[Event]) -> Option<Floor> {
        let from = dijkstra::distances_from(plan, job.start, job.barred);
        let permitted = |&class: &u32| dijkstra::is_permitted(job.barred, class);
        let sheets = || job.guides.chunks_exact(job.anchor.len());
        Some(Floor {
            cheapest: from[job.goal as usize]?,
            from,
            to: dijkstra::distances_to(plan, job.goal, job.barred),
            bars_lanes: !plan.classes.iter().all(permitted),
            lacks_opinions: sheets().map(|sheet| sheet.contains(&NO_OPINION)).collect(),
            at_goal: sheets().map(|sheet| sheet[job.goal as usize]).collect(),
            cut: match events.last() {
                Some(&Event::Cut { round, .. }) => Some(round),
                _ => None,
            },
        })
    }

    fn is_cut(&self, turn: &Turn) -> bool {
        self.cut == Some(turn.round)
    }

    fn is_dead_end(&self, turn: &Turn) -> bool {
        self.to[turn.vertex as usize].is_none()
    }

    /// Whether no cheapest chain has the place.
    fn is_astray(&self, turn: &Turn) -> bool {
        let vertex = turn.vertex as usize;
        let through = self.from[vertex].zip(self.to[vertex]);
        through.is_none_or(|(from, to)| from + to > self.cheapest)
    }

    /// Whether the number is above the true remaining cost.
    fn is_too_great(&self, turn: &Turn) -> bool {
        let left = self.to[turn.vertex as usize];
        left.is_some_and(|left| u64::from(turn.number) > left)
    }

    /// Whether the turn is exactly at the end of a lead that is not 0.
    fn is_at_lead(&self, turn: &Turn) -> bool {
        self.cheapest > 0 && turn.share(self.cheapest).is_whole()
    }
}

fn is_wide(turn: &Turn) -> bool {
    turn.g > u64::from(u32::MAX)
}

/// Whether both factors are above 1.
fn is_loose(turn: &Turn) -> bool {
    turn.w1 > 100 && turn.w2 > 100
}

/// A sort of turn that is counted, of guides and of the anchor.
type Sort = (&'static str, fn(&Floor, &Turn) -> bool);

const SORTS: [Sort; 17] = [
    ("all", |_, _| true),
    ("in the first round", |_, turn| turn.round == 1),
    ("in a later round", |_, turn| turn.round > 1),
    ("in a first round that is cut", |floor, turn| {
        floor.is_cut(turn) && turn.round == 1
    }),
    ("in a later round that is cut", |floor, turn| {
        floor.is_cut(turn) && turn.round > 1
    }),
    ("with barred lanes", |floor, _| floor.bars_lanes),
    ("by a sheet that lacks opinions", |floor, turn| {
        turn.table > 0 && floor.lacks_opinions[turn.table as usize - 1]
    }),
    ("by a sheet that is not 0 at the goal", |floor, turn| {
        turn.table > 0 && floor.at_goal[turn.table as usize - 1] > 0
    }),
    (
        "at a number above the true remaining cost",
        Floor::is_too_great,
    ),
    ("at a number of 2^31 or more", |_, turn| {
        turn.number >> 31 > 0
    }),
    ("at a place in a dead end", Floor::is_dead_end),
    ("at a place on no cheapest chain", Floor::is_astray),
    ("at a cost beyond 32 bits", |_, turn| is_wide(turn)),
    ("exactly at the lead", Floor::is_at_lead),
    ("exactly at the lead, w1 and w2 above 1", |floor, turn| {
        floor.is_at_lead(turn) && is_loose(turn)
    }),
    (
        "exactly at the lead, on no cheapest chain",
        |floor, turn| floor.is_at_lead(turn) && floor.is_astray(turn),
    ),
    (
        "exactly at the lead, at a cost beyond 32 bits",
        |floor, turn| floor.is_at_lead(turn) && is_wide(turn),
    ),
];

/// What is measured of the turns of a job whose cheapest cost is not 0: of
/// key or cost the part of the lead that it is.
type Measure = (&'static str, fn(&Floor, &Turn) -> bool, bool);

const MEASURES: [Measure; 9] = [
    ("guides, key", |_, turn| turn.table > 0, false),
    (
        "guides, key on no cheapest chain",
        |floor, turn| turn.table > 0 && floor.is_astray(turn),
        false,
    ),
    (
        "guides, key in a dead end",
        |floor, turn| turn.table > 0 && floor.is_dead_end(turn),
        false,
    ),
    (
        "guides, key in a dead end, w1 and w2 above 1",
        |floor, turn| turn.table > 0 && floor.is_dead_end(turn) && is_loose(turn),
        false,
    ),
    ("guides, cost", |_, turn| turn.table > 0, true),
    (
        "guides, cost, w1 and w2 above 1",
        |_, turn| turn.table > 0 && is_loose(turn),
        true,
    ),
    (
        "guides, cost in a dead end, w1 and w2 above 1",
        |floor, turn| turn.table > 0 && floor.is_dead_end(turn) && is_loose(turn),
        true,
    ),
    ("anchor, key", |_, turn| turn.table == 0, false),
    (
        "anchor, key on no cheapest chain, w1 above 1",
        |floor, turn| turn.table == 0 && floor.is_astray(turn) && turn.w1 > 100,
        false,
    ),
];

/// What the checks below met.
#[derive(Default)]
struct Met {
    /// Jobs with a chain, and without one: of the latter nothing is said.
    jobs: u64,
    jobs_without: u64,
    turns_without: u64,
    /// Turns of each sort, of the guides and of the anchor.
    guides: [u64; SORTS.len()],
    anchor: [u64; SORTS.len()],
    /// The greatest share of each measure, with its turn and cheapest cost.
    nearest: [Option<(Share, Turn, u64)>; MEASURES.len()],
}

impl Met {
    /// One job: the library takes the second planner's turns, and each of
    /// them is kept on its lead.
    fn check(&mut self, plan: &Plan, job: &Job) {
        let job = &job.with_whole_log();
        let (answer, events) = job.events();
        let turns = lead::of_events(job, &events);
        let outcome = planners::run(&Library, job, self.jobs);
        assert_eq!(outcome.figures, answer.figures(), "{job:?}");
        let taken = turns.iter().map(|turn| (turn.table, turn.vertex));
        assert!(taken.eq(outcome.turns()), "{job:?}");
        let Some(floor) = Floor::of(plan, job, &events) else {
            self.jobs_without += 1;
            self.turns_without += turns.len() as u64;
            return;
        };
        assert!(!matches!(answer, Answer::NoRoute { .. }));
        self.jobs += 1;
        for turn in &turns {
            let kept = turn.share(floor.cheapest).is_kept();
            assert!(kept, "{turn:?}, cheapest {}: {job:?}", floor.cheapest);
            self.count(&floor, turn);
        }
    }

    /// The same of a job that may be refused, and has no turns then.
    fn check_any(&mut self, job: &Job) {
        let (answer, _) = job.events();
        if !matches!(answer, Answer::Refused { .. }) {
            self.check(&Plan::of_bytes(&job.bytes), job);
        }
    }

    fn count(&mut self, floor: &Floor, turn: &Turn) {
        let counts = match turn.table {
            0 => &mut self.anchor,
            _ => &mut self.guides,
        };
        for (count, (_, is_one)) in counts.iter_mut().zip(SORTS) {
            *count += u64::from(is_one(floor, turn));
        }
        if floor.cheapest == 0 {
            return;
        }
        for (nearest, (_, is_one, of_cost)) in self.nearest.iter_mut().zip(MEASURES) {
            let mut share = turn.share(floor.cheapest);
            if of_cost {
                share.key = 10_000 * turn.g;
            }
            let nearer = nearest.is_none_or(|(before, ..)| before.is_below(&share));
            if nearer && is_one(floor, turn) {
                *nearest = Some((share, *turn, floor.cheapest));
            }
        }
    }

    fn report(&self, name: &str) {
        println!(
            "{name}: {} jobs, {} without a chain with {} turns",
            self.jobs, self.jobs_without, self.turns_without
        );
        for (index, (sort, _)) in SORTS.iter().enumerate() {
            let (guides, anchor) = (self.guides[index], self.anchor[index]);
            println!("  turns {sort}: guides {guides}, anchor {anchor}");
        }
        for (nearest, (measure, ..)) in self.nearest.iter().zip(MEASURES) {
            if let Some((share, turn, cheapest)) = nearest {
                let hundredths = share.hundredths_of_percent();
                let [whole, part] = [hundredths / 100, hundredths % 100];
                println!(
                    "  {measure}: {whole}.{part:02}% of the lead, cheapest {cheapest}, {turn:?}"
                );
            }
        }
    }

    /// Each sort was met so often, in turns of guides and of the anchor.
    fn must_have(&self, least: &[(&str, u64, u64)]) {
        if asked::jobs(JOBS) < JOBS {
            return;
        }
        for &(name, guides, anchor) in least {
            let index = SORTS.iter().position(|(sort, _)| *sort == name);
            let index = index.unwrap_or_else(|| panic!("no sort {name}"));
            let met = (self.guides[index], self.anchor[index]);
            assert!(met.0 >= guides && met.1 >= anchor, "{name}: {met:?}");
        }
    }
}

/// All shapes, at budgets around the ends of their rounds.
#[test]
fn every_turn_of_seeded_jobs() {
    let mut met = Met::default();
    jobs::valid_jobs(seed(81), count(1_000), &mut |plan, job| {
        met.check(plan, job)
    });
    met.report("every_turn_of_seeded_jobs");
    // Of jobs without a chain nothing is said.
    let without = (met.jobs_without, met.turns_without);
    assert!(count(1_000) < 20_000 || without.0 >= 20_000 && without.1 >= 40_000);
    met.must_have(&[
        ("all", 45_000, 45_000),
        ("in the first round", 40_000, 40_000),
        ("in a later round", 5_000, 3_000),
        ("in a first round that is cut", 8_000, 8_000),
        ("in a later round that is cut", 500, 300),
        ("with barred lanes", 6_000, 6_000),
        ("by a sheet that lacks opinions", 6_000, 0),
        ("by a sheet that is not 0 at the goal", 35_000, 0),
        ("at a number above the true remaining cost", 3_000, 0),
        ("at a number of 2^31 or more", 1_500, 0),
        ("at a place in a dead end", 1_000, 800),
        ("at a place on no cheapest chain", 12_000, 6_000),
        ("exactly at the lead", 400, 9_000),
        ("exactly at the lead, w1 and w2 above 1", 0, 5_000),
        ("exactly at the lead, on no cheapest chain", 1, 1),
    ]);
}

#[test]
fn every_turn_at_every_budget_and_barred_number() {
    let mut met = Met::default();
    jobs::every_budget(seed(82), count(200), &mut |plan, job| met.check(plan, job));
    jobs::every_barred(seed(83), count(3), &mut |job| met.check_any(job));
    met.report("every_turn_at_every_budget_and_barred_number");
    met.must_have(&[
        ("in a first round that is cut", 1_500, 1_500),
        ("in a later round that is cut", 150, 50),
        ("with barred lanes", 1_500, 3_000),
        ("by a sheet that lacks opinions", 1_500, 0),
        ("exactly at the lead", 0, 2_500),
    ]);
}

/// What is planned of jobs with faults and with bytes changed at random.
#[test]
fn every_turn_of_wild_jobs() {
    let mut met = Met::default();
    jobs::wild_jobs(seed(90), count(2_000), &mut |job| met.check_any(job));
    met.report("every_turn_of_wild_jobs");
    met.must_have(&[
        ("all", 1_500, 1_500),
        ("in a later round", 40, 40),
        ("in a first round that is cut", 200, 200),
        ("with barred lanes", 200, 200),
        ("by a sheet that lacks opinions", 200, 0),
        ("exactly at the lead", 40, 300),
    ]);
}

/// Long paths, the whole plan, eight guides, sixteen rounds, the greatest
/// numbers.
#[test]
fn every_turn_beyond_32_bits_and_at_the_limits() {
    let mut met = Met::default();
    jobs::long_jobs(seed(84), count(5), &mut |plan, job| met.check(plan, job));
    jobs::large_jobs(seed(85), &mut |plan, job| met.check(plan, job));
    met.report("every_turn_beyond_32_bits_and_at_the_limits");
    met.must_have(&[
        ("in a first round that is cut", 10_000, 5_000),
        ("in a later round that is cut", 50, 0),
        ("by a sheet that lacks opinions", 30_000, 0),
        ("at a number of 2^31 or more", 8_000, 8_000),
        ("at a cost beyond 32 bits", 30_000, 15_000),
        ("exactly at the lead, at a cost beyond 32 bits", 0, 200),
    ]);
}

/// A silly sheet drags its guide to the end of the lead, and no further.
#[test]
fn every_turn_in_blind_alleys() {
    let mut met = Met::default();
    jobs::alley_jobs(seed(86), count(200), &mut |plan, job| met.check(plan, job));
    met.report("every_turn_in_blind_alleys");
    met.must_have(&[
        ("in a first round that is cut", 15_000, 100),
        ("in a later round", 5_000, 2_000),
        ("in a later round that is cut", 800, 0),
        ("at a place in a dead end", 50_000, 0),
        ("exactly at the lead", 3_000, 5_000),
        ("exactly at the lead, w1 and w2 above 1", 3_000, 5_000),
        ("exactly at the lead, on no cheapest chain", 3_000, 0),
        ("exactly at the lead, at a cost beyond 32 bits", 50, 0),
    ]);
}

/// The library's turns with their costs and rounds, got from its log and
/// figures alone, are the second planner's.
#[test]
fn turns_are_got_from_the_log_alone() {
    for planner in BOTH {
        let (mut later, mut wide, mut count) = (0, 0, 0);
        let mut check = |_: &Plan, job: &Job| {
            let turns = lead::of_log(planner, job);
            let (_, events) = job.events();
            assert_eq!(turns, lead::of_events(job, &events), "{job:?}");
            later += turns.iter().filter(|turn| turn.round > 1).count();
            wide += turns.iter().filter(|turn| is_wide(turn)).count();
            count += turns.len();
        };
        jobs::valid_jobs(91, 3_000, &mut check);
        jobs::long_jobs(92, 10, &mut check);
        jobs::alley_jobs(93, 100, &mut check);
        println!("{count} turns, {later} in later rounds, {wide} beyond 32 bits");
        assert!(count >= 30_000 && later >= 1_500 && wide >= 1_000);
    }
}

/// An alley of one step, in the first round or in the second one, on factors
/// by which its lead is a whole number.
fn alley([w1, w2]: [u32; 2], cheapest: u32, over: u32, later: bool) -> Alley {
    let lead = u64::from(w1 * w2) * u64::from(cheapest);
    assert_eq!(lead % 10_000, 0);
    let lead = (lead / 10_000) as u32;
    let mut alley = Alley {
        cheapest,
        from: 0,
        steps: vec![lead + over],
        dear: None,
        number: MOST_OPINION,
        schedule: vec![w1, w2],
    };
    if later {
        (alley.from, alley.dear) = (1, Some(lead + over + 1));
        alley.schedule = vec![2 * w1, 2 * w2, w1, w2];
    }
    alley
}

/// Factors, with the cheapest cost that they are tried on: those of the
/// standard schedule, others, and the greatest.
const TIGHT: [([u32; 2], u32); 9] = [
    ([500, 500], 4),
    ([300, 300], 40),
    ([200, 200], 1_000_000),
    ([150, 150], 4),
    ([120, 120], 100),
    ([100, 100], 7),
    ([140, 350], 100),
    ([5_000, 101], 200),
    ([10_000, 10_000], 1_600),
];

/// Each of them on both planners, with the alley in the first round and, if
/// twice the factors are in range, in the second.
fn tight() -> impl Iterator<Item = (&'static dyn Planner, [u32; 2], u32, bool)> {
    let cases = BOTH.into_iter().flat_map(|planner| {
        let both = TIGHT
            .into_iter()
            .flat_map(|case| [(case, false), (case, true)]);
        both.map(move |((factors, cheapest), later)| (planner, factors, cheapest, later))
    });
    cases.filter(|&(_, [w1, w2], _, later)| !later || w1.max(w2) <= 5_000)
}

/// At number 0 a place that costs exactly w1·w2 times the cheapest chain is
/// expanded for the guide, also in a round that is cut then.
#[test]
fn a_blind_alley_is_entered_up_to_the_lead() {
    for (planner, factors, cheapest, later) in tight() {
        let alley = alley(factors, cheapest, 0, later);
        let (plan, mut job) = alley.job();
        assert_eq!(lead::cheapest(&plan, &job), Some(cheapest.into()));
        let last = if later { 2 } else { 1 };
        let turns = lead::of_log(planner, &job);
        let turn = turns[last];
        assert_eq!((turn.table, turn.round as usize), (1, last));
        assert_eq!((turn.vertex, turn.number), (alley.vertex(1), 0));
        assert_eq!(turn.g, u64::from(alley.steps[0]));
        assert!(turn.share(cheapest.into()).is_whole(), "{turn:?}");
        job.budget = last as u32 + 1;
        assert_eq!(lead::of_log(planner, &job), turns[..=last]);
    }
}

/// One unit dearer, it is not: the anchor has the turn, and expands the true
/// way exactly at its own lead.
#[test]
fn a_blind_alley_is_not_entered_beyond_the_lead() {
    for (planner, factors, cheapest, later) in tight() {
        // The greatest lead is the greatest cost, which no edge is above.
        let over = u32::from(factors[0] < 10_000);
        let mut alley = alley(factors, cheapest, over, later);
        if over == 0 {
            alley.steps = vec![alley.steps[0] - 1, 2];
        }
        let (_, job) = alley.job();
        let turns = lead::of_log(planner, &job);
        let beyond = alley.vertex(alley.steps.len());
        assert!(turns.iter().all(|turn| turn.vertex != beyond));
        let turn = turns[alley.steps.len() + usize::from(later)];
        assert_eq!((turn.table, turn.vertex), (0, alley.from + 1));
        assert!(turn.share(cheapest.into()).is_whole(), "{turn:?}");
    }
}

/// The start is exactly at the lead by its own number, w2 times the cheapest
/// cost, and one more gives the turn to the anchor, exactly at its lead.
#[test]
fn the_starts_own_number_keeps_the_lead() {
    for (planner, factors, cheapest, _) in tight() {
        let (_, mut job) = alley(factors, cheapest, 0, false).job();
        let most = u64::from(factors[1]) * u64::from(cheapest) / 100;
        for (number, table) in [(most, 1), (most + 1, 0)] {
            job.guides[0] = number as u32;
            let turn = lead::of_log(planner, &job)[0];
            assert_eq!((turn.vertex, turn.g, turn.table), (0, 0, table));
            assert!(turn.share(cheapest.into()).is_whole(), "{turn:?}");
        }
    }
}

/// Where no chain leads to the goal there is no lead: without the true way
/// the guide goes further into the alley than with it.
#[test]
fn without_a_chain_there_is_no_lead() {
    for planner in BOTH {
        let alley = alley([150, 150], 4, 1_000_000, false);
        let (plan, mut job) = alley.job();
        let way = |edge: usize| (plan.tails[edge], plan.heads[edge]) != (2, alley.goal());
        let without = plan.with_edges(way);
        assert_eq!(without.edges() + 1, plan.edges());
        job.bytes = without.bytes();
        assert_eq!(lead::cheapest(&without, &job), None);
        let turns = lead::of_log(planner, &job);
        let last = turns[turns.len() - 1];
        assert_eq!((last.table, last.vertex), (1, alley.vertex(1)));
        assert!(!last.share(4).is_kept());
    }
}

/// Planners that let a turn off its lead in the seeded jobs. Of those that
/// were planted for it (`GuideUnbound` and what follows it) all do but one:
/// `GuideByFirstLeast` keeps guides on the lead, since the anchor's least key
/// is at most w1 times the cheapest cost at every turn, also at a round's
/// first. Of the others some search another floor or reckon other keys
/// (`NextClass`, `ClassOfCost`, `NarrowUnreached`, `NarrowKey`,
/// `OpinionOfZero`), some do not let the anchor have the place of its least
/// key (`AnchorMarksStay`, `OpinionForAnchor`), some take other factors
/// (`DefaultPreferred`, `StandardForDefault`). These jobs tell no others, and
/// most of them keep all turns on the lead: it does not matter to it what is
/// handed over, whether a round finishes by < or by W1, which guide has the
/// turn, whether a number is an opinion, and what else guides leave to the
/// anchor. `Forgotten` has a job of its own below.
const OFF_THE_LEAD: [Fault; 16] = [
    Fault::AnchorMarksStay,
    Fault::NextClass,
    Fault::ClassOfCost,
    Fault::NarrowUnreached,
    Fault::NarrowKey,
    Fault::OpinionForAnchor,
    Fault::OpinionOfZero,
    Fault::GuideUnbound,
    Fault::GuideByW1,
    Fault::GuideKeyByW2,
    Fault::GuideByCost,
    Fault::GuideByGoal,
    Fault::AnchorLowest,
    Fault::FinishLate,
    Fault::DefaultPreferred,
    Fault::StandardForDefault,
];

/// Jobs that are enough to find a fault.
const ENOUGH: usize = 3;

/// Whether a faulty planner lets a turn of a job off its lead. A turn in a
/// round more than the job has is on none.
fn is_off_the_lead(fault: Fault, job: &Job, cheapest: u64) -> bool {
    let (_, events) = job.faulty_events(fault);
    let rounds = job.factors().len() as u32 / 2;
    let is_more = |event: &Event| matches!(*event, Event::Turn { round, .. } if round > rounds);
    let kept = |turn: &Turn| turn.share(cheapest).is_kept();
    events.iter().any(is_more) || !lead::of_events(job, &events).iter().all(kept)
}

/// Seeded jobs with a chain, and its cost. Long paths take longer: last.
fn seeded() -> Vec<(Job, u64)> {
    let mut seeded = Vec::new();
    let mut take = |plan: &Plan, job: &Job| {
        let cheapest = lead::cheapest(plan, job);
        seeded.extend(cheapest.map(|cheapest| (job.clone(), cheapest)));
    };
    jobs::alley_jobs(87, 100, &mut take);
    jobs::valid_jobs(88, 8_000, &mut take);
    jobs::long_jobs(89, 20, &mut take);
    seeded
}

/// The leads alone, with no other planner beside, tell these faulty planners,
/// and no others among the first jobs.
#[test]
fn planners_that_let_turns_off_the_lead() {
    let seeded = seeded();
    for fault in FAULTS {
        let (wanted, most) = match OFF_THE_LEAD.contains(&fault) {
            true => (ENOUGH, seeded.len()),
            false => (0, 8_000),
        };
        let mut looked_at = 0;
        let off = seeded[..most].iter().filter(|(job, cheapest)| {
            looked_at += 1;
            is_off_the_lead(fault, job, *cheapest)
        });
        let found = off.take(ENOUGH).count();
        println!("{fault:?}: {found} in {looked_at} jobs");
        assert_eq!(found, wanted, "{fault:?}");
    }
}

/// A planner that forgets held places is told by its leads where an open
/// place is dearer than the lead and cheaper than the goal: the held way is
/// the cheapest, and the anchor goes to the bay, place 5.
#[test]
fn a_forgotten_place_lets_the_anchor_off_the_lead() {
    let plan = Plan {
        vertices: 6,
        tails: vec![0, 0, 0, 1, 2, 3],
        heads: vec![1, 2, 5, 3, 1, 4],
        costs: vec![30, 0, 1, 0, 10, 20],
        classes: vec![0; 6],
    };
    let anchor = vec![30, 20, 30, 20, 0, 30];
    let schedule = vec![300, 500, 150, 100];
    let job = Job::new(&plan, 0, 4, anchor, vec![], 0, schedule, u32::MAX);
    assert_eq!(lead::cheapest(&plan, &job), Some(30));
    assert!(is_off_the_lead(Fault::Forgotten, &job, 30));
    for planner in BOTH {
        let turns = lead::of_log(planner, &job);
        assert!(turns.iter().all(|turn| turn.share(30).is_kept()));
    }
}
