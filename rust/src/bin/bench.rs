//! Times the library under test against the second implementation on the
//! largest plans, and on one of numbers of one group. A program, not a test:
//! its figures are for reading.

use std::hint::black_box;
use std::time::Instant;

use secondcoop_tests::compare::{Codec, Library, Reference};
use secondcoop_tests::generate::{cost_of_groups, Plan};
use secondcoop_tests::random::Random;

/// The largest plan.
const VERTICES: u32 = 4_096;
const EDGES: usize = 32_768;
/// Of a plan with an edge for every pair, and heads of one group.
const FEW_VERTICES: u32 = 128;
/// Runs of each side, alternating; the median counts.
const RUNS: usize = 15;
/// Calls in one run.
const CALLS: u32 = 100;

fn write(plan: &Plan, side: &dyn Codec, out: &mut [u8]) -> [u64; 4] {
    let Plan {
        vertices,
        tails,
        heads,
        costs,
        classes,
    } = plan;
    side.write_plan(*vertices, tails, heads, costs, classes, out)
}

/// So many heads, in order.
fn random_heads(random: &mut Random, count: usize) -> Vec<u32> {
    let mut heads = Vec::new();
    while heads.len() < count {
        while heads.len() < count {
            heads.push(random.range32(0, VERTICES - 1));
        }
        heads.sort_unstable();
        heads.dedup();
    }
    heads
}

/// A plan with these heads at each vertex and edges of all eight classes.
fn plan_of(
    vertices: u32,
    mut heads: impl FnMut(&mut Random) -> Vec<u32>,
    mut cost: impl FnMut(&mut Random) -> u32,
) -> Plan {
    let mut random = Random::new(4_096);
    let mut plan = Plan::without_edges(vertices);
    for tail in 0..vertices {
        for head in heads(&mut random) {
            plan.tails.push(tail);
            plan.heads.push(head);
            plan.costs.push(cost(&mut random));
        }
    }
    let edges = 0..plan.edges() as u32;
    plan.classes = edges.map(|edge| edge * 31 % 61 % 8).collect();
    plan
}

/// The largest plan, with eight edges at each vertex.
fn largest_plan(cost: impl FnMut(&mut Random) -> u32) -> Plan {
    let each = EDGES / VERTICES as usize;
    plan_of(VERTICES, |random| random_heads(random, each), cost)
}

/// An edge for every pair, each number of it of one group.
fn plan_of_one_group() -> Plan {
    let heads = |_: &mut Random| (0..FEW_VERTICES).collect();
    plan_of(FEW_VERTICES, heads, |random| cost_of_groups(random, 1))
}

/// Nanoseconds an edge of one run of `CALLS` calls.
fn run(edges: usize, mut call: impl FnMut() -> [u64; 4], expected: [u64; 4]) -> f64 {
    let begin = Instant::now();
    for _ in 0..CALLS {
        assert_eq!(black_box(call()), expected);
    }
    begin.elapsed().as_nanos() as f64 / f64::from(CALLS) / edges as f64
}

fn median(mut figures: Vec<f64>) -> f64 {
    figures.sort_by(f64::total_cmp);
    figures[figures.len() / 2]
}

/// Times one call on both sides, alternating, and prints a line.
fn compare(name: &str, mut time: impl FnMut(&dyn Codec) -> f64) {
    let sides: [&dyn Codec; 2] = [&Library, &Reference];
    let mut figures = [Vec::new(), Vec::new()];
    // The first run of each side only warms up.
    for round in 0..=RUNS {
        for turn in 0..2 {
            let side = (round + turn) % 2;
            let figure = time(sides[side]);
            if round > 0 {
                figures[side].push(figure);
            }
        }
    }
    let [library, reference] = figures.map(median);
    println!(
        "{name:<12} {library:>10.3} {reference:>10.3} {:>8.3}",
        library / reference
    );
}

/// The bytes of a plan, and what writing them leaves.
fn written(plan: &Plan) -> (Vec<u8>, [u64; 4]) {
    let mut bytes = vec![0; 5 + 9 * plan.edges()];
    let written = write(plan, &Reference, &mut bytes);
    assert_eq!(written[..2], [0, 0]);
    bytes.truncate(written[2] as usize);
    (bytes, written)
}

/// Times reading one plan: checking its bytes, and reading them into lists.
fn compare_reading(plan: &Plan) {
    let (bytes, _) = written(plan);
    let edges = plan.edges();
    let both = [0, 0, plan.vertices.into(), edges as u64];
    compare("check_plan", |side| {
        run(edges, || side.check_plan(black_box(&bytes)), both)
    });
    let mut lists = [(); 4].map(|()| vec![0; edges]);
    compare("read_plan", |side| {
        let [tails, heads, costs, classes] = &mut lists;
        let call = || side.read_plan(black_box(&bytes), tails, heads, costs, classes);
        run(edges, call, both)
    });
    let [tails, heads, costs, classes] = lists;
    assert!(tails == plan.tails && heads == plan.heads);
    assert!(costs == plan.costs && classes == plan.classes);
}

/// Times writing one plan.
fn compare_writing(plan: &Plan) {
    let (bytes, written) = written(plan);
    let mut out = vec![0; bytes.len()];
    compare("write_plan", |side| {
        let call = || write(black_box(plan), side, &mut out);
        run(plan.edges(), call, written)
    });
    assert!(out == bytes);
}

fn main() {
    println!(
        "Reading and writing the largest plan ({VERTICES} vertices, {EDGES} edges, eight \
         classes), with costs of one to three groups and of one to four, reading it with costs \
         of one count of groups, and reading one of {FEW_VERTICES} vertices with all edges: ns \
         per edge, median of {RUNS} alternating runs of {CALLS} calls, library / second \
         implementation."
    );
    println!(
        "{:<12} {:>10} {:>10} {:>8}",
        "call", "library", "second", "ratio"
    );
    for most in [3, 4] {
        println!("costs of one to {most} groups");
        let plan = largest_plan(|random| {
            let groups = 1 + random.below(most);
            cost_of_groups(random, groups)
        });
        compare_reading(&plan);
        compare_writing(&plan);
    }
    let words = ["one group", "two groups", "three groups", "four groups"];
    for (groups, words) in (1..).zip(words) {
        println!("costs of {words} each");
        compare_reading(&largest_plan(|random| cost_of_groups(random, groups)));
    }
    println!("numbers of one group, {FEW_VERTICES} vertices");
    compare_reading(&plan_of_one_group());
}
