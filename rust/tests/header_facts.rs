//! What the C header says beside its declarations: its numbers, the turns
//! that suffice, no opinion, how far a guide sheet drags, a table of zeros,
//! threads, the bytes of a text. What needs a C program, as stack and
//! alignment, is in `c_programs`.

use std::collections::BTreeMap;
use std::fs;
use std::path::Path;
use std::thread;

use secondcoop_tests::bench_text::{MOST_BENCH_EDGES, MOST_BENCH_VERTICES};
use secondcoop_tests::cut_off::cut_off_jobs;
use secondcoop_tests::explainers::{self, Question};
use secondcoop_tests::explanation;
use secondcoop_tests::ffi;
use secondcoop_tests::generate;
use secondcoop_tests::guarded::GUARD;
use secondcoop_tests::jobs::{self, Alley, Job};
use secondcoop_tests::lead;
use secondcoop_tests::planner::{self, Answer, MOST_FACTORS, STANDARD_SCHEDULE};
use secondcoop_tests::planners::{self, Library};
use secondcoop_tests::reference::{MOST_CLASS, MOST_COST, MOST_EDGES, MOST_VERTICES};

fn read(path: &str) -> String {
    let path = Path::new(env!("CARGO_MANIFEST_DIR")).join("..").join(path);
    fs::read_to_string(&path).unwrap_or_else(|error| panic!("{}: {error}", path.display()))
}

/// The header's plain numbers: macros without parameters and enumerators.
fn numbers() -> BTreeMap<String, u64> {
    let mut numbers = BTreeMap::new();
    for line in read("include/secondcoop.h").lines() {
        let words: Vec<&str> = line.split_whitespace().collect();
        let (name, number) = match words[..] {
            ["#define", name, number] => (name, number),
            [name, "=", number] => (name, number.trim_end_matches(',')),
            _ => continue,
        };
        let digits = ["UINT32_C(", "UINT64_C("]
            .iter()
            .find_map(|begin| number.strip_prefix(begin)?.strip_suffix(')'))
            .unwrap_or(number);
        if let (Some(name), Ok(number)) = (name.strip_prefix("SECONDCOOP_"), digits.parse()) {
            assert_eq!(numbers.insert(name.to_string(), number), None, "{name}");
        }
    }
    numbers
}

#[test]
fn numbers_are_those_of_the_second_planner() {
    let header = numbers();
    let version = env!("CARGO_PKG_VERSION_MAJOR").parse().expect("a number");
    for (name, number) in [
        ("VERSION", version),
        ("MAX_PLACES", u64::from(MOST_VERTICES)),
        ("MAX_LANES", u64::from(MOST_EDGES)),
        ("MAX_COST", u64::from(MOST_COST)),
        ("MAX_CLASS", u64::from(MOST_CLASS)),
        ("MAX_BARRED", u64::from(planner::MOST_BARRED)),
        ("HOUSE_NUMBERS", MOST_FACTORS as u64),
        ("STANDARD_ROUNDS", STANDARD_SCHEDULE.len() as u64 / 2),
        ("NONE", u64::from(planner::NONE)),
        ("NO_OPINION", u64::from(planner::NO_OPINION)),
        ("UNREACHED", planner::UNREACHED),
        ("FIGURES", ffi::Figures::default().len() as u64),
        ("PLAN_FIGURES", planner::Figures::default().len() as u64),
        (
            "EXPLAIN_FIGURES",
            explanation::Figures::default().len() as u64,
        ),
        ("EXPLAIN_PLACES", 8),
        ("EXPLAIN_LANES", 9),
        ("ROUTE", 0),
        ("NO_ROUTE", 1),
        ("UNFINISHED", 2),
        ("REFUSED", 3),
        ("BAD_ENDS_OR_BARRED", 8),
        ("BAD_CLASS", 15),
    ] {
        assert_eq!(header.get(name), Some(&number), "{name}");
    }
}

/// The table of refusals has its rows in the order in which they count.
#[test]
fn the_table_has_its_rows_in_order() {
    let header = read("include/secondcoop.h");
    let (_, table) = header.split_once("no. condition").expect("a table");
    let (table, _) = table.split_once("*/").expect("the table ends");
    let row = |line: &str| {
        line.get(23..25)
            .and_then(|number| number.trim().parse().ok())
    };
    let rows: Vec<u32> = table.lines().filter_map(row).collect();
    assert_eq!(rows, [1, 2, 3, 4, 6, 5, 15, 7, 8, 9, 10, 11, 12, 13, 14]);
}

/// The refusal of a call, or 0.
fn refusal_of(job: &Job) -> u32 {
    match planners::run(&Library, job, 0).answer() {
        Answer::Refused { number, .. } => number,
        _ => 0,
    }
}

/// A job on one place, with so many guides.
fn job(guides: u32, schedule: Vec<u32>) -> Job {
    let plan = generate::Plan::without_edges(1);
    let sheets = vec![0; guides as usize];
    Job::new(&plan, 0, 0, vec![0], sheets, guides, schedule, 9)
}

/// What the limits let pass, and what is one more is refused.
#[test]
fn limits_of_a_call_are_exact() {
    let header = numbers();
    let number = |name: &str| header[name] as u32;
    let refusal = |guides: u32, schedule: Vec<u32>| refusal_of(&job(guides, schedule));
    let (guides, rounds) = (number("MAX_GUIDES"), number("MAX_ROUNDS") as usize);
    assert_eq!([guides, guides + 1].map(|n| refusal(n, vec![])), [0, 9]);
    let schedules = [rounds, rounds + 1].map(|n| refusal(0, vec![100; 2 * n]));
    assert_eq!(schedules, [0, 10]);
    let (least, most) = (number("MIN_FACTOR"), number("MAX_FACTOR"));
    let factors = [least - 1, least, most, most + 1].map(|n| refusal(0, vec![n; 2]));
    assert_eq!(factors, [10, 0, 0, 10]);
    let barred = number("MAX_BARRED");
    let numbers = [0, barred, barred + 1].map(|barred| {
        let job = job(0, vec![]);
        refusal_of(&Job { barred, ..job })
    });
    assert_eq!(numbers, [0, 0, 8]);
    let most = number("MAX_COST");
    let costs = [0, 1_000_001, most, most + 1].map(|cost| {
        let mut plan = generate::Plan::without_edges(1);
        plan.tails.push(0);
        plan.heads.push(0);
        plan.costs.push(cost);
        plan.classes.push(0);
        refusal_of(&Job::new(&plan, 0, 0, vec![0], vec![], 0, vec![], 9))
    });
    assert_eq!(costs, [0, 0, 0, 5]);
}

/// A default schedule, the header's house, has as many numbers as the most
/// rounds, and the same limits where it is loaded and where a call takes it.
#[test]
fn limits_of_a_default_schedule_are_exact() {
    let header = numbers();
    let number = |name: &str| header[name] as u32;
    let (most, rounds) = (number("HOUSE_NUMBERS"), number("MAX_ROUNDS"));
    assert_eq!(most, 2 * rounds);
    let (low, high) = (number("MIN_FACTOR"), number("MAX_FACTOR"));
    for (factor, length, refusal) in [
        (low, 0, 10),
        (low, 1, 10),
        (low, 2, 0),
        (low, most, 0),
        (low, most + 1, 10),
        (low, most + 2, 10),
        (low - 1, 2, 10),
        (high, 2, 0),
        (high + 1, 2, 10),
    ] {
        let mut job = job(0, vec![]);
        job.default_schedule = vec![factor; length as usize];
        let (mut default, mut count) = ([0; MOST_FACTORS], 0);
        let loaded = ffi::load_default_schedule(&job.default_schedule, &mut default, &mut count);
        assert_eq!(
            [loaded, refusal_of(&job)],
            [refusal; 2],
            "{factor} {length}"
        );
    }
}

/// 2·V turns for the first round, 2·V times the rounds for all.
#[test]
fn turns_that_suffice() {
    let (mut cut, mut all) = (0, 0);
    jobs::valid_jobs(51, 2_000, &mut |plan, job| {
        let mut job = job.clone();
        let answer = planners::run(&Library, &job, 0).answer();
        cut += u32::from(matches!(answer, Answer::Unfinished { .. }));
        let rounds = job.factors().len() as u32 / 2;
        job.budget = 2 * plan.vertices;
        let answer = planners::run(&Library, &job, 0).answer();
        assert!(!matches!(
            answer,
            Answer::Unfinished { .. } | Answer::Refused { .. }
        ));
        job.budget *= rounds;
        match planners::run(&Library, &job, 0).answer() {
            Answer::NoRoute { turns } => assert!(turns <= 2 * plan.vertices),
            Answer::Route {
                rounds: finished,
                turns,
                ..
            } => {
                assert_eq!(finished, rounds);
                assert!(turns <= job.budget);
                all += 1;
            }
            answer => panic!("{answer:?}"),
        }
    });
    // With allowances of their own many of these jobs end unfinished.
    assert!(cut > 1_000 && all > 1_000, "{cut} unfinished, {all} routes");
}

/// The header's number on a guide sheet leaves the turn to the anchor, in
/// whose table it is one like the others; one less is a number on both.
#[test]
fn no_opinion_is_one_number() {
    let no_opinion = numbers()["NO_OPINION"] as u32;
    let plan = generate::Plan::without_edges(2);
    let first_turn = |anchor: u32, sheet: u32| {
        let (anchor, sheet) = (vec![anchor, 0], vec![sheet, 0]);
        let job = Job::new(&plan, 0, 1, anchor, sheet, 1, vec![100, 100], 9);
        let outcome = planners::run(&Library, &job, 0);
        assert_eq!(outcome.answer(), Answer::NoRoute { turns: 1 });
        outcome.log[GUARD]
    };
    assert_eq!(first_turn(no_opinion, no_opinion), 0);
    assert_eq!(first_turn(no_opinion, no_opinion - 1), 65_536);
    assert_eq!(first_turn(no_opinion - 1, no_opinion - 1), 65_536);
    assert_eq!(first_turn(no_opinion - 1, no_opinion), 0);
}

/// The header's figures for the standard house: in each of its rounds a guide
/// expands a place of a blind alley at exactly so many times the cheapest
/// chain, and none dearer by 1.
#[test]
fn a_guide_goes_as_far_as_the_header_says() {
    let header = read("include/secondcoop.h").replace("\n * ", " ");
    let (_, rest) = header
        .split_once("no guide expands a place dearer than ")
        .expect("a sentence");
    let (figures, _) = rest
        .split_once(" times the cheapest chain")
        .expect("its end");
    let figures = figures.replace(" and", ",");
    let hundredths: Vec<u32> = figures.split(", ").map(in_hundredths).collect();
    assert_eq!(hundredths.len(), STANDARD_SCHEDULE.len() / 2);
    for (round, &hundredths) in hundredths.iter().enumerate() {
        for over in [0, 1] {
            // The cheapest chain costs 100.
            let alley = Alley {
                cheapest: 100,
                from: 0,
                steps: vec![hundredths + over],
                dear: None,
                number: planner::MOST_OPINION,
                schedule: STANDARD_SCHEDULE[2 * round..2 * round + 2].to_vec(),
            };
            let (_, job) = alley.job();
            let turns = planners::run(&Library, &job, 0).turns();
            assert_eq!(
                turns.contains(&(1, alley.vertex(1))),
                over == 0,
                "{turns:?}"
            );
        }
    }
}

/// A number with up to two decimals.
fn in_hundredths(number: &str) -> u32 {
    let (whole, part) = number.split_once('.').unwrap_or((number, ""));
    format!("{whole}{part:0<2}").parse().expect("a number")
}

/// What the header says of every turn, on seeded jobs through the library.
#[test]
fn no_turn_goes_further_than_the_header_says() {
    let (mut guides, mut anchor) = (0, 0);
    jobs::valid_jobs(53, 1_500, &mut |plan, job| {
        let Some(cheapest) = lead::cheapest(plan, job) else {
            return;
        };
        for turn in lead::of_log(&Library, job) {
            assert!(turn.share(cheapest).is_kept(), "{turn:?}: {job:?}");
            match turn.table {
                0 => anchor += 1,
                _ => guides += 1,
            }
        }
    });
    assert!(guides > 2_500 && anchor > 2_500, "{guides}, {anchor}");
}

#[test]
fn a_table_of_zeros_passes() {
    let mut count = 0;
    jobs::valid_jobs(52, 2_000, &mut |plan, job| {
        let mut job = job.clone();
        job.anchor = vec![0; plan.vertices as usize];
        let answer = planners::run(&Library, &job, 0).answer();
        assert!(!matches!(answer, Answer::Refused { .. }), "{answer:?}");
        count += 1;
    });
    assert!(count > 2_000);
}

/// Calls in several threads at once give what they give alone.
#[test]
fn several_threads_may_call() {
    let mut shared: Vec<Job> = Vec::new();
    jobs::valid_jobs(54, 300, &mut |_, job| shared.push(job.clone()));
    cut_off_jobs(55, 100, &mut |_, job| shared.push(job.clone()));
    // Every function: numbers, the plan read and written, the default schedule,
    // the call, the text, and the call and the text that explain.
    let all = |job: &Job| {
        let numbers = [
            ffi::read_plan_number(&job.bytes, 1),
            ffi::read_job_number(&job.bytes, 0),
        ];
        let [_, _, vertices, edges] = ffi::check_plan(&job.bytes);
        let mut lists = [(); 4].map(|()| vec![0; edges as usize]);
        let [tails, heads, costs, classes] = &mut lists;
        let read = ffi::read_plan(&job.bytes, tails, heads, costs, classes);
        let mut out = vec![0; job.bytes.len()];
        let written = ffi::write_plan(vertices as u32, tails, heads, costs, classes, &mut out);
        assert_eq!(out, job.bytes);
        let number = ffi::write_plan_number(&mut out, 0, vertices as u32);
        let text = planners::run_text(&Library, &job.bench_bytes(), 5_000, 0);
        let (mut default, mut count) = ([0; MOST_FACTORS], 0);
        ffi::standard_schedule(&mut default, &mut count);
        let loaded = ffi::load_default_schedule(&job.default_schedule, &mut default, &mut count);
        let default = (loaded, default, count);
        let outcome = planners::run(&Library, job, 0);
        let explained = explainers::run(&Library, &Question::of(job), 0);
        let lines = explainers::printed(&Library, &job.bench_bytes());
        let figures = [read, written, number];
        let calls = (outcome, explained);
        (numbers, lists, figures, text, lines, default, calls)
    };
    let alone: Vec<_> = shared.iter().map(all).collect();
    thread::scope(|scope| {
        for _ in 0..8 {
            scope.spawn(|| {
                for (job, outcome) in shared.iter().zip(&alone) {
                    assert_eq!(all(job), *outcome);
                }
            });
        }
    });
}

/// The bytes of a text are those that are proved: 35 for each log word, a
/// route line and an end line; and the bench program has room for them.
#[test]
fn the_bytes_of_a_text_are_the_proved_ones() {
    let longest = numbers()["MAX_TEXT"] as usize;
    // A word for each turn: 2·V in each of 16 rounds.
    let log = 2 * MOST_BENCH_VERTICES * 16;
    let spec = read("crates/job/specs/Texts.antt");
    assert!(spec.contains("max_end = 6 + route_size * 11 + 112\n"));
    assert!(spec.contains("max_text = log_size * 35 + max_end\n"));
    assert!(spec.contains("few : r ≤ max_text\n"));
    let sizes = read("crates/job/specs/Asked.antt");
    assert!(sizes.contains(&format!("log_size = {log}\n")));
    assert!(sizes.contains("route_size = max_job_vertices\n"));
    assert_eq!(log * 35 + (6 + MOST_BENCH_VERTICES * 11) + 112, longest);
    let program = read("crates/bench/src/main.rt");
    assert!(program.contains(&format!("const TEXT: usize = {longest};\n")));
}

/// They are enough for the lines of an explanation too, the longest of which
/// have all lanes of a bench job.
#[test]
fn the_bytes_of_a_text_are_enough_for_lines() {
    let longest = numbers()["MAX_TEXT"] as usize;
    let lane = "barred lane 2047 tail 255 head 255 cost 16000000 class 7\n".len();
    let places = "reach\n".len() + MOST_BENCH_VERTICES * " 255".len();
    let turns = "no route turns 4294967295\n".len();
    assert!(turns + places + MOST_BENCH_EDGES * lane <= longest);
}
