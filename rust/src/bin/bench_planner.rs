//! Times whole planner calls of the library under test against the second
//! planner, which finds its least keys by the same scans; with the argument
//! `loads`, only those that end before the first turn, also beside the library's
//! check of the same plan; with `explain`, the library's explanations beside its
//! planner calls on the same jobs, which have no route. A program, not a test:
//! its figures are for reading.
//!
//! With `once PLACES` it makes one such call and one check and ends, so that the
//! instructions of either can be counted; `once PLACES mixed` does it with costs
//! of one to four groups; `once text` and `once text halved` make one text of the
//! bench-sized job:
//!
//!     valgrind --tool=callgrind --callgrind-out-file=/dev/null \
//!         --toggle-collect=secondcoop_plan bench_planner once 4096
//!     valgrind --tool=callgrind --callgrind-out-file=/dev/null \
//!         --toggle-collect=secondcoop_check_plan bench_planner once 4096
//!     valgrind --tool=callgrind --callgrind-out-file=/dev/null \
//!         --toggle-collect=secondcoop_bench_text bench_planner once text

use std::hint::black_box;

use secondcoop_tests::clock::thread_time;
use secondcoop_tests::dijkstra;
use secondcoop_tests::explainers::Explainer;
use secondcoop_tests::explanation::{self, Lists};
use secondcoop_tests::ffi;
use secondcoop_tests::generate::{cost_of_groups, Plan};
use secondcoop_tests::jobs::Job;
use secondcoop_tests::planner::{Figures, Memory, MOST_OPINION, NO_OPINION};
use secondcoop_tests::planners::{Library, Planner, SecondPlanner};
use secondcoop_tests::random::Random;

/// Runs of each side, alternating; the median counts.
const RUNS: usize = 15;
/// Nanoseconds that the calls of a run take together, about; a run has one
/// call at least.
const RUN_TIME: f64 = 50_000_000.0;

/// The class that a call of the benchmark bars, if it bars one: that of one
/// edge in twenty.
const RAMP: u32 = 7;

/// A floor of width × height vertices, which closes round at its edges; from
/// each vertex edges of such costs lead to its eight neighbours. One edge in
/// twenty is a ramp.
fn floor(random: &mut Random, width: u32, height: u32, costs: Costs) -> Plan {
    let mut plan = Plan::without_edges(width * height);
    for tail in 0..plan.vertices {
        let (x, y) = (tail % width, tail / width);
        let mut heads = Vec::new();
        for (dx, dy) in (0..9).map(|step| (step % 3, step / 3)) {
            let to = ((x + width + dx - 1) % width, (y + height + dy - 1) % height);
            heads.push(to.1 * width + to.0);
        }
        heads.retain(|&head| head != tail);
        heads.sort_unstable();
        for head in heads {
            plan.tails.push(tail);
            plan.heads.push(head);
            plan.costs.push(costs.draw(random));
        }
    }
    // Costs and sheets are those of the floors before there were classes.
    let mut random = Random::new(20);
    let class = |_| match random.one_in(20) {
        true => RAMP,
        false => random.range32(0, RAMP - 1),
    };
    plan.classes = (0..plan.edges()).map(class).collect();
    plan
}

/// How the costs of a floor are made.
#[derive(Clone, Copy)]
enum Costs {
    /// From 100 to 1,000.
    Ordinary,
    /// Of these counts of groups in equal parts.
    OfGroups(&'static [u64]),
}

/// The counts of groups that costs have, and costs of all of them.
const GROUPS: &[u64] = &[1, 2, 3, 4];
const MIXED: Costs = Costs::OfGroups(GROUPS);

impl Costs {
    fn draw(self, random: &mut Random) -> u32 {
        match self {
            Costs::Ordinary => random.range32(100, 1_000),
            Costs::OfGroups(groups) => {
                let count = random.pick(groups);
                cost_of_groups(random, count)
            }
        }
    }
}

/// The floors that loading is timed on, from the least.
const FLOORS: [(u32, u32); 4] = [(8, 8), (16, 16), (32, 32), (64, 64)];

/// How the guide sheets are made.
#[derive(Clone, Copy)]
enum Sheets {
    /// Near the true distances, from 80 to 130 hundredths of them.
    Sensible,
    /// Two each of: what is far comes first, any numbers, the greatest
    /// number everywhere, 0 everywhere.
    Hostile,
    /// As sensible ones, without opinion on every second vertex or so.
    Halved,
}

/// A job across a floor: eight guides, the standard schedule, an anchor table
/// of 60 hundredths of the true distances, and turns without end.
fn job(seed: u64, width: u32, height: u32, sheets: Sheets) -> Job {
    let mut random = Random::new(seed);
    let plan = floor(&mut random, width, height, Costs::Ordinary);
    let (start, goal) = (0, width / 2 + height / 2 * width);
    let distances: Vec<u32> = dijkstra::distances_to(&plan, goal, dijkstra::NO_BAR)
        .into_iter()
        .map(|distance| distance.expect("all vertices have a walk to the goal") as u32)
        .collect();
    let farthest = distances.iter().copied().max().unwrap_or(0);
    let anchor = distances.iter().map(|&d| d * 60 / 100).collect();
    let mut guides: Vec<u32> = Vec::new();
    for guide in 0..8 {
        let sheet = |d: u32| match (sheets, guide % 4) {
            (Sheets::Sensible, _) => d * random.range32(80, 130) / 100,
            (Sheets::Hostile, 0) => (farthest - d) / 10,
            (Sheets::Hostile, 1) => random.range32(0, farthest / 10),
            (Sheets::Hostile, 2) => MOST_OPINION,
            (Sheets::Hostile, _) => 0,
            (Sheets::Halved, _) if random.one_in(2) => NO_OPINION,
            (Sheets::Halved, _) => d * random.range32(80, 130) / 100,
        };
        guides.extend(distances.iter().copied().map(sheet));
    }
    let mut job = Job::new(&plan, start, goal, anchor, guides, 8, vec![], u32::MAX);
    job.log_room = 2 * 6 * plan.vertices as usize;
    job
}

/// Memory that both sides are lent.
struct Lent {
    route: Vec<u32>,
    log: Vec<u32>,
    work: Vec<u32>,
    wide: Vec<u64>,
}

impl Lent {
    fn of(job: &Job) -> Lent {
        Lent {
            route: vec![0; job.route_room],
            log: vec![0; job.log_room],
            work: vec![0; job.work_room],
            wide: vec![0; job.wide_room],
        }
    }

    fn memory(&mut self) -> Memory<'_> {
        Memory {
            route: &mut self.route,
            log: &mut self.log,
            work: &mut self.work,
            wide: &mut self.wide,
        }
    }

    fn call(&mut self, planner: &dyn Planner, job: &Job) -> Figures {
        planner.plan(black_box(&job.request()), self.memory())
    }
}

fn median(mut list: Vec<f64>) -> f64 {
    list.sort_by(f64::total_cmp);
    list[list.len() / 2]
}

/// Nanoseconds of a call on either side, the first side's time over the
/// second's, and how much longer it takes: medians of alternating runs.
struct Times {
    each: [f64; 2],
    ratio: f64,
    difference: f64,
}

/// Times what `call` does on side 0 and on side 1.
fn times(mut call: impl FnMut(usize)) -> Times {
    let mut time = |side: usize, calls: u32| {
        let begin = thread_time();
        for _ in 0..calls {
            call(side);
        }
        (thread_time() - begin) as f64 / f64::from(calls)
    };
    // The first calls only warm up.
    let once = time(0, 1).max(time(1, 1));
    let calls = (RUN_TIME / once).clamp(1.0, 10_000.0) as u32;
    let mut runs = Vec::new();
    for run in 0..RUNS {
        let mut pair = [0.0; 2];
        for side in [run % 2, (run + 1) % 2] {
            pair[side] = time(side, calls);
        }
        runs.push(pair);
    }
    Times {
        each: [0, 1].map(|side| median(runs.iter().map(|pair| pair[side]).collect())),
        ratio: median(runs.iter().map(|[first, second]| first / second).collect()),
        difference: median(runs.iter().map(|[first, second]| first - second).collect()),
    }
}

/// The planners as sides.
const SIDES: [&dyn Planner; 2] = [&Library, &SecondPlanner];

/// Prints a line; gives the nanoseconds of a turn.
fn print_line(name: &str, job: &Job, rounds: u64, turns: u64, times: &Times) -> [f64; 2] {
    let turn = times.each.map(|time| time / turns as f64);
    println!(
        "{name:<22} {:>6} {rounds:>6} {turns:>7} {:>10.3} {:>10.3} {:>8.0} {:>8.0} {:>7.3}",
        job.anchor.len(),
        times.each[0] / 1e6,
        times.each[1] / 1e6,
        turn[0],
        turn[1],
        times.ratio,
    );
    turn
}

/// Times a job's call, which both sides answer alike.
fn times_of_call(job: &Job) -> (Figures, Times) {
    let mut lent = Lent::of(job);
    let figures = lent.call(&SecondPlanner, job);
    let mut other = Lent::of(job);
    assert_eq!(other.call(&Library, job), figures);
    assert!(other.route == lent.route && other.log == lent.log);
    assert!(other.work == lent.work && other.wide == lent.wide);
    let times = times(|side| assert_eq!(black_box(lent.call(SIDES[side], job)), figures));
    (figures, times)
}

/// Times a job's call; gives the nanoseconds of a turn.
fn compare(name: &str, job: &Job) -> [f64; 2] {
    let ([_, _, _, _, _, rounds, turns, _], times) = times_of_call(job);
    print_line(name, job, rounds, turns, &times)
}

/// A job on a floor without guides that ends before its first turn: its call
/// checks and loads the plan.
fn load_of((width, height): (u32, u32), costs: Costs) -> (Plan, Job) {
    let plan = floor(&mut Random::new(7), width, height, costs);
    let anchor = vec![0; plan.vertices as usize];
    let job = Job::new(&plan, 0, 1, anchor, vec![], 0, vec![], 0);
    (plan, job)
}

/// What such a call leaves in figures: unfinished without a turn.
const LOADED: Figures = [2, 0, 0, 0, 0, 0, 0, 0];

/// What a check of a plan leaves in figures.
fn checked(plan: &Plan) -> ffi::Figures {
    [0, 0, plan.vertices.into(), plan.edges() as u64]
}

/// Prints times by the edge.
fn print_load(name: &str, plan: &Plan, times: &Times) {
    let [first, second] = times.each.map(|time| time / plan.edges() as f64);
    println!(
        "{name:<22} {:>6} {first:>10.2} {second:>10.2} {:>7.3}",
        plan.vertices, times.ratio,
    );
}

/// Times a call that ends before its first turn.
fn compare_load(name: &str, size: (u32, u32), costs: Costs) {
    let (plan, job) = load_of(size, costs);
    let (figures, times) = times_of_call(&job);
    assert_eq!(figures, LOADED);
    print_load(name, &plan, &times);
}

/// Times the library's call beside its check of the same plan.
fn compare_with_check(name: &str, size: (u32, u32), costs: Costs) {
    let (plan, job) = load_of(size, costs);
    let mut lent = Lent::of(&job);
    let times = times(|side| match side {
        0 => assert_eq!(black_box(lent.call(&Library, &job)), LOADED),
        _ => assert_eq!(ffi::check_plan(black_box(&job.bytes)), checked(&plan)),
    });
    print_load(name, &plan, &times);
}

/// The heads of a table of loads with these sides.
fn load_titles([first, second]: [&str; 2]) {
    println!(
        "{:<22} {:>6} {first:>10} {second:>10} {:>7}",
        "costs", "V", "ratio"
    );
}

/// Times loading: by the groups of costs, and on smaller floors; and beside
/// the check of the plan alone.
fn compare_loads() {
    println!(
        "Calls on such floors without guides that end before the first turn, by the groups of \
         the costs: ns per edge."
    );
    load_titles(["library", "second"]);
    for groups in GROUPS.chunks(1) {
        let name = format!("of {}", groups[0]);
        compare_load(&name, (64, 64), Costs::OfGroups(groups));
    }
    for size in FLOORS.into_iter().rev() {
        compare_load("of 1 to 4", size, MIXED);
    }
    println!("The library's calls beside its check of the same plan bytes: ns per edge.");
    load_titles(["call", "check"]);
    for (name, costs) in [("of 1 to 4", MIXED), ("100 to 1000", Costs::Ordinary)] {
        for size in FLOORS {
            compare_with_check(name, size, costs);
        }
    }
}

/// What cuts the goal off from the start: ramps alone, which are barred.
#[derive(Clone, Copy)]
enum Cut {
    /// The edges to the goal.
    Goal,
    /// The edges along rows and columns; the others change neither the row's
    /// and column's sum from even to odd nor back.
    Colour,
    /// All edges.
    All,
}

/// A job without guides and with turns without end whose goal is cut off.
fn cut_off((width, height): (u32, u32), cut: Cut) -> (Plan, Job) {
    let mut plan = floor(&mut Random::new(7), width, height, Costs::Ordinary);
    let goal = width / 2 + 1 + height / 2 * width;
    let colour = |vertex: u32| (vertex % width + vertex / width) % 2;
    let class = |edge: usize| {
        let [tail, head] = [plan.tails[edge], plan.heads[edge]];
        let is_ramp = match cut {
            Cut::Goal => head == goal,
            Cut::Colour => colour(tail) != colour(head),
            Cut::All => true,
        };
        if is_ramp {
            RAMP
        } else {
            0
        }
    };
    plan.classes = (0..plan.edges()).map(class).collect();
    let anchor = vec![0; plan.vertices as usize];
    let mut job = Job::new(&plan, 0, goal, anchor, vec![], 0, vec![], u32::MAX);
    job.barred = 1 << RAMP;
    (plan, job)
}

/// Times the library's explanation of a job beside its planner call.
fn compare_with_explanation(name: &str, size: (u32, u32), cut: Cut) {
    let (plan, job) = cut_off(size, cut);
    let mut lent = Lent::of(&job);
    let mut lists = [plan.vertices as usize, plan.edges()].map(|room| vec![0; room]);
    let mut explain = |explainer: &dyn Explainer, lent: &mut Lent| {
        let [places, lanes] = &mut lists;
        let lists = Lists { places, lanes };
        explainer.explain(black_box(&job.request()), lent.memory(), lists)
    };
    let figures = explain(&SecondPlanner, &mut lent);
    let (call, [places, lanes]) = explanation::parts(figures);
    let times = times(|side| match side {
        0 => assert_eq!(black_box(explain(&Library, &mut lent)), figures),
        _ => assert_eq!(black_box(lent.call(&Library, &job)), call),
    });
    let [explained, planned] = times.each.map(|time| time / 1e6);
    println!(
        "{name:<22} {:>6} {places:>6} {lanes:>6} {explained:>10.4} {planned:>10.4} {:>10.4} \
         {:>7.4}",
        plan.vertices,
        times.difference / 1e6,
        times.ratio,
    );
}

/// Times explanations on floors whose goals are cut off.
fn compare_explanations() {
    println!(
        "The library's explanations beside its planner calls in the same memory, on floors with \
         eight edges at each vertex whose goal is cut off by barred ones, without guides: \
         processor time in ms, medians of {RUNS} alternating runs, the difference and the ratio \
         of the runs too."
    );
    println!(
        "{:<22} {:>6} {:>6} {:>6} {:>10} {:>10} {:>10} {:>7}",
        "barred", "V", "places", "lanes", "explain", "plan", "more", "ratio"
    );
    for (name, cut) in [
        ("edges to the goal", Cut::Goal),
        ("rows and columns", Cut::Colour),
        ("all edges", Cut::All),
    ] {
        for size in &FLOORS[1..] {
            compare_with_explanation(name, *size, cut);
        }
    }
}

/// Makes one call that ends before its first turn and one check, on the floor
/// of so many vertices.
fn call_once(places: &str, costs: Costs) {
    let size = FLOORS
        .into_iter()
        .find(|(width, height)| (width * height).to_string() == places)
        .expect("64, 256, 1024 or 4096 places");
    let (plan, job) = load_of(size, costs);
    assert_eq!(Lent::of(&job).call(&Library, &job), LOADED);
    assert_eq!(ffi::check_plan(&job.bytes), checked(&plan));
    println!("{} places, {} lanes", plan.vertices, plan.edges());
}

/// Makes one text of the bench-sized job with such sheets.
fn text_once(sheets: Sheets) {
    let job = job(7, 16, 16, sheets);
    let mut text = vec![0; 300_000];
    let length = Library.bench_text(&job.bench_bytes(), &mut text);
    println!("{} places, {length} bytes of text", job.anchor.len());
}

/// Times the bench program's text of a job.
fn compare_text(name: &str, job: &Job) {
    let bytes = job.bench_bytes();
    let [_, _, _, _, _, rounds, turns, _] = Lent::of(job).call(&SecondPlanner, job);
    let mut text = vec![0; 300_000];
    let length = SecondPlanner.bench_text(&bytes, &mut text);
    let mut other = vec![0; 300_000];
    assert_eq!(Library.bench_text(&bytes, &mut other), length);
    assert!(other == text);
    let times = times(|side| {
        let printed = SIDES[side].bench_text(black_box(&bytes), &mut text);
        assert_eq!(black_box(printed), length);
    });
    print_line(name, job, rounds, turns, &times);
}

fn main() {
    let arguments: Vec<String> = std::env::args().skip(1).collect();
    let arguments: Vec<&str> = arguments.iter().map(String::as_str).collect();
    match arguments[..] {
        ["loads"] => compare_loads(),
        ["explain"] => compare_explanations(),
        ["once", "text"] => text_once(Sheets::Sensible),
        ["once", "text", "halved"] => text_once(Sheets::Halved),
        ["once", places] => call_once(places, Costs::Ordinary),
        ["once", places, "mixed"] => call_once(places, MIXED),
        [] => compare_all(),
        _ => panic!("no argument, loads, explain, once PLACES [mixed], or once text [halved]"),
    }
}

/// Times calls with guides, texts and loading.
fn compare_all() {
    println!(
        "Whole calls on floors with eight edges at each vertex, eight guides, standard schedule, \
         nothing barred but in the last rows, which bar the class of one edge in twenty; halved \
         sheets are sensible ones without opinion on every second vertex or so: \
         processor time, medians of {RUNS} alternating runs in the same memory, library / second \
         planner."
    );
    let titles = |titles: [&str; 9]| {
        let [a, b, c, d, e, f, g, h, i] = titles;
        println!("{a:<22} {b:>6} {c:>6} {d:>7} {e:>10} {f:>10} {g:>8} {h:>8} {i:>7}");
    };
    titles(["", "", "", "", "library", "second", "library", "second", ""]);
    titles([
        "job", "V", "rounds", "turns", "ms", "ms", "ns/turn", "ns/turn", "ratio",
    ]);
    for (name, sheets) in [
        ("sensible", Sheets::Sensible),
        ("hostile", Sheets::Hostile),
        ("halved", Sheets::Halved),
    ] {
        let sizes = [(16, 16), (32, 16), (32, 32), (64, 32), (64, 64)];
        let turns = sizes.map(|(width, height)| {
            compare(&format!("{name} sheets"), &job(7, width, height, sheets))
        });
        let [library, second] = [0, 1].map(|side| turns[4][side] / turns[0][side]);
        println!(
            "  from 256 to 4096 vertices a turn takes {library:.1} times as long, second planner \
             {second:.1} times"
        );
        compare_text(&format!("{name}, printed text"), &job(7, 16, 16, sheets));
        let mut barred = job(7, 64, 64, sheets);
        barred.barred = 1 << RAMP;
        compare(&format!("{name}, ramps barred"), &barred);
    }
    compare_loads();
}
