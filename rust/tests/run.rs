//! Jobs of any size through `run`: the bench program's words within its
//! limits, the planner call beyond them, and what is said of a refusal.

use secondcoop_tests::bench_text::{answer_text, MOST_BENCH_EDGES, MOST_BENCH_VERTICES};
use secondcoop_tests::cut_off::cut_off_jobs;
use secondcoop_tests::default_schedule::DefaultSchedule;
use secondcoop_tests::explanation;
use secondcoop_tests::generate;
use secondcoop_tests::guarded::GUARD;
use secondcoop_tests::input::Input;
use secondcoop_tests::jobs::{self, Job};
use secondcoop_tests::planners::{self, kind_of_text, Library, SecondPlanner, KINDS};
use secondcoop_tests::random::Random;
use secondcoop_tests::refusals::{remarks, Taker};
use secondcoop_tests::run;
use secondcoop_tests::text::{pairs_text, TextJob};

/// What the planner call of a job gives, printed.
fn call_text(job: &Job) -> String {
    let outcome = planners::run(&Library, job, 0);
    let lent = |all: &[u32]| all[GUARD..all.len() - GUARD].to_vec();
    answer_text(&outcome.answer(), &lent(&outcome.route), &outcome.turns())
}

/// The first remark has the refusal that is printed, and what is planned has
/// none.
fn remarks_agree(job: &TextJob, taker: Taker, printed: &str) -> usize {
    let kind = kind_of_text(printed);
    let remarks = remarks(job, taker);
    match remarks.first() {
        Some(first) => assert_eq!(first.refusal as usize, kind, "{remarks:?}: {job}"),
        None => assert!(!planners::is_refusal(kind), "refusal {kind}: {job}"),
    }
    kind
}

/// No accepted job's bytes are taken for a text, and its text form is none
/// of bytes.
#[test]
fn accepted_jobs_are_read_as_what_they_are() {
    let mut count = 0;
    jobs::valid_jobs(78, 2_000, &mut |_, job| {
        let bytes = job.bench_bytes();
        assert_eq!(Input::of(&bytes), Ok(Input::Bytes(bytes.clone())));
        let text = TextJob::of_bytes(&bytes).to_string();
        assert_eq!(Input::of(text.as_bytes()), Ok(Input::Lines(text.clone())));
        let pairs = pairs_text("", &bytes);
        assert_eq!(Input::of(pairs.as_bytes()), Ok(Input::Pairs(bytes)));
        count += 1;
    });
    assert!(count > 2_000);
}

#[test]
fn the_bench_programs_words_within_its_limits() {
    let mut kinds = [0; KINDS];
    jobs::bench_jobs(71, 2_000, &mut |bytes, _| {
        let job = TextJob::of_bytes(bytes);
        let printed = run::run(&Library, &job);
        if Taker::of(&job) == Taker::Bench {
            assert_eq!(printed, planners::printed(&Library, bytes), "{job}");
        }
        assert_eq!(printed, run::run(&SecondPlanner, &job), "{job}");
        kinds[remarks_agree(&job, Taker::of(&job), &printed)] += 1;
    });
    for (kind, count) in kinds.into_iter().enumerate() {
        match kind {
            // Only jobs beyond the limits, of which there are some, meet 9.
            9 => {}
            11 => assert_eq!(count, 0),
            _ => assert!(count > 20, "kind {kind}: {count}"),
        }
    }
}

/// A valid job with more places or lanes than the bench program takes.
fn larger_job(random: &mut Random) -> (generate::Plan, Job) {
    let (places, lanes) = match random.below(3) {
        0 => (random.range32(257, 300), random.index(2_000)),
        1 => (random.range32(50, 256), random.range(2_049, 2_100) as usize),
        _ => (
            random.range32(500, 1_000),
            random.range(1_000, 4_000) as usize,
        ),
    };
    let plan = generate::random_plan(random, places, lanes);
    let mut job = jobs::job_on(random, &plan);
    job.log_room = 2 * 16 * places as usize;
    (plan, job)
}

#[test]
fn the_planner_call_beyond_them() {
    let mut random = Random::new(72);
    let mut kinds = [0; KINDS];
    for _ in 0..150 {
        let (_, mut job) = larger_job(&mut random);
        job.budget = random.pick(&[0, 1, 40, 100_000]);
        let text = TextJob::of_bytes(&job.bench_bytes());
        assert_eq!(Taker::of(&text), Taker::Call);
        let printed = run::run(&Library, &text);
        assert_eq!(printed, call_text(&job));
        assert_eq!(printed, run::run(&SecondPlanner, &text));
        kinds[remarks_agree(&text, Taker::Call, &printed)] += 1;
    }
    for kind in [planners::ROUTE, planners::NO_ROUTE, planners::UNFINISHED] {
        assert!(kinds[kind] > 10, "kind {kind}: {}", kinds[kind]);
    }
}

/// The lines of an explanation are the library's own text within the limits,
/// and beyond them those of what the call lists; both are the same where both
/// can be had.
#[test]
fn explanations_within_the_limits_and_beyond() {
    let mut kinds = [0; KINDS];
    let mut random = Random::new(74);
    let mut explain = |job: &TextJob| {
        let printed = run::explained_lines(&Library, job);
        assert_eq!(printed, run::explained_lines(&SecondPlanner, job), "{job}");
        kinds[remarks_agree(job, Taker::of(job), &printed)] += 1;
        printed
    };
    jobs::bench_jobs(75, 600, &mut |bytes, _| {
        drop(explain(&TextJob::of_bytes(bytes)))
    });
    cut_off_jobs(76, 200, &mut |_, job| {
        let text = TextJob::of_bytes(&job.bench_bytes());
        let printed = explain(&text);
        let explained = run::explained(&Library, &text).expect("an explanation");
        let (answer, route) = (&explained.answer, &explained.route);
        let lines = explanation::lines(answer, route, &job.bytes, &explained.reason);
        assert_eq!(printed, lines);
    });
    let mut larger = 0;
    for _ in 0..100 {
        let (_, mut job) = larger_job(&mut random);
        job.barred = random.range32(0, 255);
        let text = TextJob::of_bytes(&job.bench_bytes());
        assert_eq!(Taker::of(&text), Taker::Call);
        larger += u32::from(explain(&text).contains("\nbarred lane "));
    }
    assert!(larger > 10, "{larger} larger jobs with barred lanes");
    for kind in [
        planners::ROUTE,
        planners::NO_ROUTE,
        planners::UNFINISHED,
        14,
    ] {
        assert!(kinds[kind] > 50, "kind {kind}: {}", kinds[kind]);
    }
}

/// All places and lanes that a plan may have, all guides and rounds.
#[test]
fn jobs_at_the_limits_of_a_call() {
    let mut most = [0; 2];
    jobs::large_jobs(73, &mut |plan, job| {
        let mut job = job.clone();
        job.log_room = 2 * 16 * plan.vertices as usize;
        let text = TextJob::of_bytes(&job.bench_bytes());
        let (places, lanes) = (plan.vertices as usize, plan.edges());
        if places > MOST_BENCH_VERTICES || lanes > MOST_BENCH_EDGES {
            assert_eq!(Taker::of(&text), Taker::Call);
        }
        let printed = run::run(&Library, &text);
        assert_eq!(printed, call_text(&job));
        // No turn is left out.
        let [_, _, _, _, _, _, turns, _] = planners::run(&Library, &job, 1).figures;
        let lines = printed.lines().filter(|line| line.starts_with("turn "));
        assert_eq!(lines.count(), turns as usize);
        most = [most[0].max(places), most[1].max(lanes)];
    });
    assert_eq!(most, [4_096, 32_768]);
}

/// The kind of ending that both planners give for the call of a job's bytes,
/// and its remarks.
fn kind_of_call(bytes: &[u8]) -> usize {
    let text = TextJob::of_bytes(bytes);
    let printed = run::call(&Library, &text);
    assert_eq!(printed, run::call(&SecondPlanner, &text));
    remarks_agree(&text, Taker::Call, &printed)
}

/// Each refusal of a call, in the right words.
#[test]
fn refusals_of_a_call() {
    let mut random = Random::new(74);
    let mut kinds = [0; KINDS];
    let mut refused = |job: &Job| kinds[kind_of_call(&job.bench_bytes())] += 1;
    for _ in 0..25 {
        for number in jobs::CALL_REFUSALS
            .into_iter()
            .filter(|&number| number != 11)
        {
            let (plan, mut job) = larger_job(&mut random);
            if jobs::damage_job(&mut random, &plan, &mut job, number).is_some() {
                refused(&job);
            }
        }
    }
    // Small jobs too, with one fault and with several.
    jobs::damaged_jobs(75, 2_000, &mut |job, _| refused(job));
    jobs::wild_jobs(76, 2_000, &mut |job| refused(job));
    // Nine guides, and seventeen rounds.
    let (plan, mut job) = larger_job(&mut random);
    job.schedule = vec![100; 34];
    refused(&job);
    job.guide_count = 9;
    job.guides = vec![0; 9 * plan.vertices as usize];
    refused(&job);
    for (kind, count) in kinds.into_iter().enumerate() {
        match kind {
            11 | 14 => assert_eq!(count, 0, "kind {kind}"),
            _ => assert!(count > 10, "kind {kind}: {count}"),
        }
    }
}

/// A job's text with lines of a word and pairs of factors in front.
fn with_pairs(text: &str, word: &str, factors: &[u32]) -> TextJob {
    let line = |pair: &[u32]| format!("{word} {} {}\n", pair[0], pair[1]);
    let lines: String = factors.chunks_exact(2).map(line).collect();
    TextJob::parse(&format!("{lines}{text}")).expect("a text form")
}

/// On a sheet that is accepted a job without rounds is the job with its pairs
/// as rounds; on one that is rejected, and beside rounds, it is the job
/// without the sheet.
#[test]
fn jobs_with_a_sheet() {
    let mut random = Random::new(79);
    let mut counts = [0; 3];
    jobs::bench_jobs(80, 600, &mut |bytes, _| {
        let text = TextJob::of_bytes(bytes);
        let Ok(lines) = text.lines() else {
            return;
        };
        let (own, text) = (!lines.rounds.is_empty(), text.to_string());
        let mut sheet = match random.one_in(3) {
            true => jobs::bad_default(&mut random),
            false => jobs::random_default(&mut random),
        };
        sheet.resize(sheet.len().next_multiple_of(2).max(2), 99);
        let job = with_pairs(&text, "house", &sheet);
        let (_, refusal) = run::loaded_default(&Library, &job);
        let printed = run::run(&Library, &job);
        assert_eq!(printed, run::run(&SecondPlanner, &job), "{job}");
        let other = match own || refusal > 0 {
            true => with_pairs(&text, "round", &[]),
            false => with_pairs(&text, "round", &sheet),
        };
        assert_eq!(printed, run::call(&Library, &other), "{job}");
        remarks_agree(&job, Taker::Call, &printed);
        assert_eq!(refusal, DefaultSchedule::standard().load(&sheet));
        counts[if own { 2 } else { usize::from(refusal > 0) }] += 1;
    });
    assert!(counts.iter().all(|&count| count > 30), "{counts:?}");
}

/// Bytes that hold no call: cut off, or with a number of bad form.
#[test]
fn bytes_without_a_call() {
    let mut random = Random::new(77);
    for _ in 0..50 {
        let (_, job) = larger_job(&mut random);
        let bytes = job.bench_bytes();
        assert_eq!(kind_of_call(&bytes[..random.index(job.bytes.len())]), 14);
        assert_eq!(kind_of_call(&[&bytes[..], &[0x80, 0]].concat()), 14);
    }
}
