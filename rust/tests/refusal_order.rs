//! Which refusal counts where several apply: edges that break the anchor
//! table's rule beside faults of the plan and of the call, anchor tables of any
//! length, sums beyond 32 bits, memory that ends with what a call reads, printed
//! texts; and that planners which take one refusal before another are told.

use std::cell::RefCell;
use std::ops::Range;

use secondcoop_tests::asked::seed;
use secondcoop_tests::bench_text::{self, MOST_BENCH_EDGES, MOST_BENCH_VERTICES, MOST_JOB_BYTES};
use secondcoop_tests::fenced::Fenced;
use secondcoop_tests::generate::{self, push_number, Field, Number, Plan};
use secondcoop_tests::jobs::{self, Job};
use secondcoop_tests::planner::{self, Answer, Fault, Figures, Memory, Request, MOST_BARRED};
use secondcoop_tests::planners::{
    self, write_text, Comparison, FaultyPlanner, Lent, Library, Planner, SecondPlanner,
};
use secondcoop_tests::random::Random;
use secondcoop_tests::reference::{self, Edge, MOST_CLASS, MOST_COST, MOST_EDGES, MOST_VERTICES};

const BOTH: [&dyn Planner; 2] = [&Library, &SecondPlanner];

/// The vertices of the small plan, and its edges: all that lead upwards.
const VERTICES: u32 = 5;
const EDGES: usize = 10;
/// An edge keeps the rule of the falling table at this cost for each vertex
/// that it leads further, and at no lower one.
const STEP: u32 = 100;

/// What a call that passes all rows answers without allowance.
const PASSES: Answer = Answer::Unfinished { turns: 0 };

fn refused(number: u32, position: usize) -> Answer {
    Answer::Refused { number, position }
}

/// What a planner answers where the answer is known.
struct Seen<'a> {
    planner: &'a dyn Planner,
    answers: u64,
    /// The first wrong answer.
    wrong: Option<String>,
}

impl<'a> Seen<'a> {
    fn of(planner: &'a dyn Planner, check: Check) -> Seen<'a> {
        let mut seen = Seen {
            planner,
            answers: 0,
            wrong: None,
        };
        check(&mut seen);
        seen
    }

    /// A call; if it is refused, all lent memory must be as it was.
    fn job(&mut self, job: &Job, known: Answer) {
        let salt = self.answers;
        self.answers += 1;
        if self.wrong.is_some() {
            return;
        }
        let outcome = planners::run(self.planner, job, salt);
        let is_refused = matches!(known, Answer::Refused { .. });
        let touched = is_refused && !Lent::before(job, salt).is_untouched(&outcome);
        if touched || outcome.figures != known.figures() {
            let figures = outcome.figures;
            let words = format!("{figures:?}, touched {touched}, not {known:?}: {job:02X?}");
            self.wrong = Some(words);
        }
    }

    /// A printed text.
    fn text(&mut self, bytes: &[u8], known: Answer) {
        self.answers += 1;
        if self.wrong.is_some() {
            return;
        }
        let printed = planners::printed(self.planner, bytes);
        let known = bench_text::answer_text(&known, &[], &[]);
        if printed != known {
            self.wrong = Some(format!("{printed:?}, not {known:?}: {bytes:02X?}"));
        }
    }
}

/// Asks a planner what is known.
type Check = fn(&mut Seen);

/// Both planners answer a check rightly; so many answers are asked for.
fn must_be_right(check: Check, answers: u64) {
    for planner in BOTH {
        let seen = Seen::of(planner, check);
        assert_eq!(seen.wrong, None);
        assert_eq!(seen.answers, answers);
    }
}

/// A plan with the first so many edges of those that lead upwards. Each has
/// the least cost at which the falling table keeps its rule, and the broken
/// ones cost one less.
fn rising(vertices: u32, edges: usize, broken: &[usize]) -> Plan {
    let tails = 0..vertices;
    let pairs = tails.flat_map(|tail| (tail + 1..vertices).map(move |head| (tail, head)));
    let pairs: Vec<(u32, u32)> = pairs.take(edges).collect();
    assert_eq!(pairs.len(), edges, "{vertices} vertices have fewer edges");
    let costs = pairs.iter().enumerate().map(|(edge, (tail, head))| {
        let least = STEP * (head - tail);
        least - u32::from(broken.contains(&edge))
    });
    Plan {
        vertices,
        tails: pairs.iter().map(|pair| pair.0).collect(),
        heads: pairs.iter().map(|pair| pair.1).collect(),
        costs: costs.collect(),
        classes: (0..edges as u32).map(|edge| edge % 8).collect(),
    }
}

/// The small plan.
fn small(broken: &[usize]) -> Plan {
    rising(VERTICES, EDGES, broken)
}

/// A table that falls by a step from each vertex to the next, to 0 at the last.
fn falling_table(vertices: u32) -> Vec<u32> {
    (0..vertices).rev().map(|steps| STEP * steps).collect()
}

/// A job from the first vertex to the last with the falling table, a guide and
/// no allowance.
fn job_of(plan: &Plan) -> Job {
    let vertices = plan.vertices as usize;
    let (anchor, mut sheet) = (falling_table(plan.vertices), vec![1; vertices]);
    // A number of five groups stands last in a bench job.
    sheet[vertices - 1] = u32::MAX;
    let schedule = vec![200, 200, 100, 100];
    Job::new(plan, 0, plan.vertices - 1, anchor, sheet, 1, schedule, 0)
}

/// Plan bytes with a fault, and the refusal that they get.
#[derive(Clone)]
struct Damaged {
    bytes: Vec<u8>,
    number: u32,
    position: usize,
}

impl Damaged {
    fn answer(&self) -> Answer {
        refused(self.number, self.position)
    }
}

/// A number with a last group of zero.
fn not_shortest(value: u32) -> Vec<u8> {
    let mut bytes = Vec::new();
    push_number(&mut bytes, value);
    *bytes.last_mut().expect("a number has a group") += 128;
    bytes.push(0);
    bytes
}

/// Values that are refused in place of a plan's number, with their refusals.
fn refused_values(plan: &Plan, index: usize, number: Number) -> Vec<(u32, u32)> {
    let edge = index.wrapping_sub(2) / 4;
    match number.field {
        Field::Vertices => vec![(2, 0), (2, MOST_VERTICES + 1)],
        Field::Edges => vec![(3, MOST_EDGES + 1)],
        Field::Tail => vec![(4, plan.vertices + number.value - plan.tails[edge])],
        Field::Head if edge > 0 && plan.tails[edge] == plan.tails[edge - 1] => {
            vec![(4, plan.vertices), (6, plan.heads[edge - 1])]
        }
        Field::Head => vec![(4, plan.vertices)],
        Field::Cost => vec![(5, MOST_COST + 1)],
        Field::Class => vec![(15, MOST_CLASS + 1)],
    }
}

/// What may stand in place of a plan's number, with the refusal for it.
fn refused_numbers(plan: &Plan, index: usize, number: Number) -> Vec<(u32, Vec<u8>)> {
    let mut list = vec![
        (1, not_shortest(number.value)),
        (1, vec![0x80, 0x80, 0x80, 0x80, 1]),
    ];
    for (refusal, value) in refused_values(plan, index, number) {
        let mut bytes = Vec::new();
        push_number(&mut bytes, value);
        list.push((refusal, bytes));
    }
    list
}

/// A plan's bytes with another count of edges.
fn with_count(plan: &Plan, edges: u32) -> Vec<u8> {
    let (bytes, numbers) = plan.encode();
    let mut other = bytes[..numbers[1].offset].to_vec();
    push_number(&mut other, edges);
    other.extend(&bytes[numbers[2].offset..]);
    other
}

/// A plan's bytes with a byte left over, with one edge more than its count of
/// edges says, and with fewer.
fn miscounted(plan: &Plan) -> Vec<Damaged> {
    let (bytes, numbers) = plan.encode();
    let edges = plan.edges() as u32;
    let more = Damaged {
        bytes: with_count(plan, edges - 1),
        number: 7,
        position: numbers[numbers.len() - 4].offset,
    };
    assert_eq!(more.bytes.len(), bytes.len(), "positions stay");
    let fewer = [edges + 1, 2_050, MOST_EDGES].map(|edges| {
        let bytes = with_count(plan, edges);
        Damaged {
            number: 1,
            position: bytes.len(),
            bytes,
        }
    });
    let left_over = Damaged {
        number: 7,
        position: bytes.len(),
        bytes: [&bytes[..], &[0]].concat(),
    };
    [left_over, more].into_iter().chain(fewer).collect()
}

/// A plan's bytes with each fault of those of its numbers that are wanted by
/// their index, and miscounted.
fn damaged(plan: &Plan, wanted: impl Fn(usize) -> bool) -> Vec<Damaged> {
    let (bytes, numbers) = plan.encode();
    let mut list = miscounted(plan);
    let numbered = numbers.iter().copied().enumerate();
    for (index, number) in numbered.filter(|&(index, _)| wanted(index)) {
        let (position, next) = (number.offset, number.offset + number.length);
        // The bytes end before its first group, and before its last.
        list.extend([position, next - 1].map(|end| Damaged {
            bytes: bytes[..end].to_vec(),
            number: 1,
            position,
        }));
        for (number, other) in refused_numbers(plan, index, number) {
            let bytes = [&bytes[..position], &other, &bytes[next..]].concat();
            list.push(Damaged {
                bytes,
                number,
                position,
            });
        }
    }
    list
}

/// How many faults the small plan has: miscounted, four of form at each of its
/// numbers, two of V, one of M, one at each number of an edge, and one more at
/// each head that stands behind another of its tail.
const DAMAGED: u64 = 5 + 4 * (2 + 40) + 2 + 1 + 40 + 6;

/// Every fault at every number.
fn damaged_anywhere(plan: &Plan) -> Vec<Damaged> {
    damaged(plan, |_| true)
}

/// Faults in V, M, the first edge and the last one.
fn damaged_at_the_ends(plan: &Plan) -> Vec<Damaged> {
    let last = 2 + 4 * (plan.edges() - 1);
    damaged(plan, |index| index < 6 || index >= last)
}

/// The job on other plan bytes.
fn on_bytes(job: &Job, bytes: &[u8]) -> Job {
    Job {
        bytes: bytes.to_vec(),
        ..job.clone()
    }
}

/// Every set of edges that break the rule: the first of them counts.
fn broken_edges(seen: &mut Seen) {
    for set in 0..1u32 << EDGES {
        let broken: Vec<usize> = (0..EDGES).filter(|edge| set >> edge & 1 == 1).collect();
        let known = broken.first().map_or(PASSES, |&edge| refused(13, edge));
        seen.job(&job_of(&small(&broken)), known);
    }
}

#[test]
fn the_first_broken_edge_counts() {
    must_be_right(broken_edges, 1 << EDGES);
}

/// No broken edge, one, two or all of the small plan.
fn few_broken() -> Vec<Vec<usize>> {
    let mut sets = vec![vec![], (0..EDGES).collect()];
    for first in 0..EDGES {
        sets.push(vec![first]);
        sets.extend((first + 1..EDGES).map(|second| vec![first, second]));
    }
    sets
}

/// A fault of the plan, on an edge before, on or behind the broken ones.
fn plan_faults(seen: &mut Seen) {
    for broken in few_broken() {
        let plan = small(&broken);
        let job = job_of(&plan);
        for damaged in damaged_anywhere(&plan) {
            seen.job(&on_bytes(&job, &damaged.bytes), damaged.answer());
        }
    }
}

#[test]
fn a_fault_of_the_plan_counts_before_broken_edges() {
    must_be_right(plan_faults, (1 + 10 + 45 + 1) * DAMAGED);
}

/// A row of the call: its number, and ways to damage a job for it with the
/// positions that they get.
type Row = (u32, &'static [(usize, fn(&mut Job))]);

/// How many combinations there are of rows in each of their ways or left out.
fn combinations(rows: &[Row]) -> u64 {
    rows.iter().map(|(_, ways)| ways.len() as u64 + 1).product()
}

/// A job in every combination of these rows, and what it is refused for: the
/// last of them, or as is known where all are left out.
fn combined(rows: &[Row], job: &Job, known: Answer, sink: &mut dyn FnMut(&Job, Answer)) {
    for mut choice in 0..combinations(rows) as usize {
        let (mut job, mut known) = (job.clone(), known);
        for &(number, ways) in rows {
            // The last of the choices is to leave the row out.
            if let Some(&(position, damage)) = ways.get(choice % (ways.len() + 1)) {
                damage(&mut job);
                known = refused(number, position);
            }
            choice /= ways.len() + 1;
        }
        sink(&job, known);
    }
}

/// Rows 13 to 8 on the small plan; in this order, as a later one counts.
const ROWS: [Row; 6] = [
    (
        13,
        &[
            (0, |job| job.anchor[0] = u32::MAX),
            (7, |job| job.anchor[2] += 1),
            (9, |job| job.anchor[3] += 1),
        ],
    ),
    (
        12,
        &[
            (0, |job| job.anchor[4] = 1),
            (0, |job| job.anchor[4] = u32::MAX),
        ],
    ),
    (
        11,
        &[
            (0, |job| job.route_room -= 1),
            (0, |job| job.work_room -= 1),
            (0, |job| job.wide_room -= 1),
            (0, |job| (job.route_room, job.work_room) = (0, 0)),
        ],
    ),
    (
        10,
        &[
            (0, |job| job.schedule = vec![100; 34]),
            (0, |job| job.schedule.truncate(3)),
            (0, |job| job.schedule[0] = 10_001),
            (0, |job| job.schedule[3] = 201),
            (0, |job| {
                (job.schedule, job.default_schedule) = (vec![], vec![]);
            }),
        ],
    ),
    (
        9,
        &[
            (0, |job| job.guide_count = 9),
            (0, |job| job.guide_count = 0),
            (0, |job| job.guides.push(0)),
            (0, |job| job.guides.truncate(4)),
            (0, |job| job.anchor.push(0)),
            (0, |job| job.anchor.truncate(4)),
            (0, |job| job.anchor.clear()),
        ],
    ),
    (
        8,
        &[
            (0, |job| job.start = VERTICES),
            (0, |job| job.goal = VERTICES),
            (0, |job| job.goal = u32::MAX),
            (0, |job| job.barred = MOST_BARRED + 1),
        ],
    ),
];

/// Rows 8 to 13 in every combination: the first counts.
fn rows_of_the_call(seen: &mut Seen) {
    let job = job_of(&small(&[]));
    combined(&ROWS, &job, PASSES, &mut |job, known| seen.job(job, known));
}

#[test]
fn the_first_row_of_the_call_counts() {
    assert_eq!(combinations(&ROWS), 4 * 3 * 5 * 6 * 8 * 5);
    must_be_right(rows_of_the_call, combinations(&ROWS));
}

/// The same with faults of the plan, each in turn: these count.
fn plan_before_call(seen: &mut Seen) {
    let plan = small(&[]);
    let all = damaged_anywhere(&plan);
    let mut in_turn = all.iter().cycle();
    combined(&ROWS, &job_of(&plan), PASSES, &mut |job, _| {
        let damaged = in_turn.next().expect("faults without end");
        seen.job(&on_bytes(job, &damaged.bytes), damaged.answer());
    });
}

#[test]
fn a_fault_of_the_plan_counts_before_the_call() {
    must_be_right(plan_before_call, combinations(&ROWS));
}

/// Lengths of anchor tables that are not V.
const LENGTHS: [usize; 10] = [0, 1, 2, 3, 4, 6, 7, 10, 1_000, 16_384];

/// Tables of a length: one that breaks the rule from the first vertex on,
/// one that does at every second one, the falling one, zeros, the greatest
/// numbers.
fn tables_of(length: usize) -> [Vec<u32>; 5] {
    let first = |index: usize| if index == 0 { u32::MAX } else { 0 };
    let second = |index: usize| if index % 2 == 1 { u32::MAX } else { 0 };
    let falling = |index: usize| STEP * (VERTICES - 1).saturating_sub(index as u32);
    [
        (0..length).map(first).collect(),
        (0..length).map(second).collect(),
        (0..length).map(falling).collect(),
        vec![0; length],
        vec![u32::MAX; length],
    ]
}

/// Anchor tables of a wrong length are refused for it, by themselves and
/// beside later rows, and after row 8 and the plan's faults.
fn lengths_of_tables(seen: &mut Seen) {
    let plan = small(&[3, 8]);
    let damaged = damaged_anywhere(&plan);
    for anchor in LENGTHS.into_iter().flat_map(tables_of) {
        let job = Job {
            anchor,
            ..job_of(&plan)
        };
        seen.job(&job, refused(9, 0));
        let mut later = job.clone();
        (later.schedule, later.work_room) = (vec![99, 99], 0);
        seen.job(&later, refused(9, 0));
        let mut earlier = job.clone();
        earlier.barred = MOST_BARRED + 1;
        seen.job(&earlier, refused(8, 0));
        for damaged in &damaged {
            seen.job(&on_bytes(&job, &damaged.bytes), damaged.answer());
        }
    }
}

#[test]
fn tables_of_any_length_are_refused_for_it() {
    must_be_right(lengths_of_tables, 50 * (3 + DAMAGED));
}

/// The largest plan: eight edges lead from each vertex to the first eight, and
/// the table has k at vertex k of these and 20 at all others. Each cost is the
/// least that keeps the rule at such others, and of broken edges one less.
fn largest(broken: &[usize]) -> Job {
    let edges = 0..MOST_EDGES;
    let cost = |edge: u32| 20 - edge % 8 - u32::from(broken.contains(&(edge as usize)));
    let plan = Plan {
        vertices: MOST_VERTICES,
        tails: edges.clone().map(|edge| edge / 8).collect(),
        heads: edges.clone().map(|edge| edge % 8).collect(),
        costs: edges.clone().map(cost).collect(),
        classes: edges.map(|edge| edge % 7).collect(),
    };
    let table = |vertex: u32| if vertex < 8 { vertex } else { 20 };
    let anchor = (0..MOST_VERTICES).map(table).collect();
    Job::new(&plan, 9, 0, anchor, vec![], 0, vec![], 0)
}

/// Broken edges of the largest plan up to the last, tables around its length,
/// and a fault of its last number.
fn largest_plan(seen: &mut Seen) {
    let last = MOST_EDGES as usize - 1;
    seen.job(&largest(&[]), PASSES);
    for broken in [
        &[64][..],
        &[16_383],
        &[last],
        &[last - 1, last],
        &[71, 9_999, last],
    ] {
        let mut job = largest(broken);
        seen.job(&job, refused(13, broken[0]));
        for length in [MOST_VERTICES - 1, MOST_VERTICES + 1, 2 * MOST_VERTICES] {
            let mut other = job.clone();
            other.anchor.resize(length as usize, 20);
            seen.job(&other, refused(9, 0));
        }
        let class = job.bytes.len() - 1;
        job.bytes[class] = 8;
        seen.job(&job, refused(15, class));
        job.bytes[class] = 0;
        job.bytes.push(0);
        seen.job(&job, refused(7, class + 1));
    }
}

#[test]
fn the_largest_plan_is_refused_in_order() {
    must_be_right(largest_plan, 1 + 5 * 6);
}

/// A job with an edge of such a cost between vertices of such numbers in the
/// anchor table. Edges from a vertex to itself, before it and behind it, keep
/// the rule whatever the numbers are.
fn job_of_sum(tail: u32, cost: u32, head: u32) -> Job {
    let plan = Plan {
        vertices: 3,
        tails: vec![0, 0, 1],
        heads: vec![0, 1, 1],
        costs: vec![0, cost, 0],
        classes: vec![0, 7, 0],
    };
    Job::new(&plan, 0, 2, vec![tail, head, 0], vec![], 0, vec![], 0)
}

/// Sums around 2^32: what the tail has, the cost, what the head has, and
/// whether the rule is kept.
const SUMS: [(u32, u32, u32, bool); 16] = [
    (4_294_967_295, 0, 4_294_967_294, false),
    (4_294_967_295, 0, 4_294_967_295, true),
    (4_294_967_295, 1, 4_294_967_293, false),
    (4_294_967_295, 1, 4_294_967_294, true),
    (4_294_967_295, 1, 4_294_967_295, true),
    (4_294_967_294, 1, 4_294_967_292, false),
    (4_294_967_294, 1, 4_294_967_293, true),
    (4_294_967_295, 16_000_000, 4_278_967_294, false),
    (4_294_967_295, 16_000_000, 4_278_967_295, true),
    (4_294_967_295, 16_000_000, 4_278_967_296, true),
    (4_294_967_295, 16_000_000, 4_294_967_295, true),
    (0, 16_000_000, 4_294_967_295, true),
    (1, 1, 4_294_967_295, true),
    (16_000_000, 16_000_000, 0, true),
    (16_000_001, 16_000_000, 0, false),
    (16_000_000, 15_999_999, 0, false),
];

/// What a tail may have beside a sum: equal, one less, one more, what is left
/// of it in 32 bits and around that, and the least and greatest numbers.
fn tails_beside(sum: u64) -> Vec<u32> {
    let left = sum % (1 << 32);
    let mut list: Vec<u64> = [sum, left]
        .iter()
        .flat_map(|&sum| [sum.saturating_sub(1), sum, sum + 1])
        .chain([0, 1, u64::from(u32::MAX) - 1, u64::from(u32::MAX)])
        .collect();
    list.sort_unstable();
    list.dedup();
    let narrow = list.into_iter().map(u32::try_from);
    narrow.filter_map(Result::ok).collect()
}

/// The sums listed, and those of all costs at the ends of groups with numbers
/// around what is left to 2^32.
fn sums(seen: &mut Seen) {
    for (tail, cost, head, kept) in SUMS {
        let known = if kept { PASSES } else { refused(13, 1) };
        seen.job(&job_of_sum(tail, cost, head), known);
    }
    for cost in [
        0, 1, 127, 128, 16_383, 16_384, 2_097_151, 2_097_152, 15_999_999, MOST_COST,
    ] {
        let to_limit = u32::MAX - cost;
        let around = [to_limit - 1, to_limit, to_limit.saturating_add(1)];
        for head in around.into_iter().chain([0, 1, u32::MAX - 1, u32::MAX]) {
            let sum = u64::from(cost) + u64::from(head);
            for tail in tails_beside(sum) {
                let kept = u64::from(tail) <= sum;
                let known = if kept { PASSES } else { refused(13, 1) };
                seen.job(&job_of_sum(tail, cost, head), known);
            }
        }
    }
}

#[test]
fn sums_of_the_rule_pass_32_bits() {
    for planner in BOTH {
        let seen = Seen::of(planner, sums);
        assert_eq!(seen.wrong, None);
        assert!(seen.answers >= 400, "{} sums", seen.answers);
    }
}

/// Every barred number with each edge broken: barred edges count too.
fn barred_numbers(seen: &mut Seen) {
    for edge in 0..EDGES {
        let mut job = job_of(&small(&[edge]));
        for barred in 0..=MOST_BARRED {
            job.barred = barred;
            seen.job(&job, refused(13, edge));
        }
        for barred in [256, 257, 511, 65_536, u32::MAX] {
            job.barred = barred;
            seen.job(&job, refused(8, 0));
        }
    }
}

#[test]
fn barred_edges_break_the_rule_too() {
    must_be_right(barred_numbers, EDGES as u64 * (256 + 5));
}

/// Faults of a bench job's tables: its bytes. The last number has five groups.
const TABLE_FAULTS: [fn(&Job) -> Vec<u8>; 9] = [
    // No table at all.
    |job| {
        let (anchor, guides) = (vec![], vec![]);
        let job = job.clone();
        Job {
            anchor,
            guides,
            ..job
        }
        .bench_bytes()
    },
    // A number is missing, or its last group.
    |job| shorter(job.bench_bytes(), 5),
    |job| shorter(job.bench_bytes(), 1),
    // A number over 32 bits, of six groups, not shortest.
    |job| [&shorter(job.bench_bytes(), 1)[..], &[0x1F]].concat(),
    |job| [&shorter(job.bench_bytes(), 1)[..], &[0x8F, 1]].concat(),
    |job| [&shorter(job.bench_bytes(), 5)[..], &[0x80, 0]].concat(),
    |job| {
        let mut bytes = job.bench_bytes();
        let tables = bytes.len() - tables_length(job);
        bytes.splice(tables..tables + 1, [bytes[tables] | 0x80, 0x80, 0x00]);
        bytes
    },
    // Bytes left over, up to the most that a job has.
    |job| [&job.bench_bytes()[..], &[0]].concat(),
    |job| {
        let mut bytes = job.bench_bytes();
        bytes.resize(MOST_JOB_BYTES, 0);
        bytes
    },
];

fn shorter(mut bytes: Vec<u8>, missing: usize) -> Vec<u8> {
    bytes.truncate(bytes.len() - missing);
    bytes
}

/// The bytes of a bench job's tables.
fn tables_length(job: &Job) -> usize {
    job.bench_bytes().len() - TABLE_FAULTS[0](job).len()
}

/// Rows 12, 10 and 8 in a bench job of any size; in this order, as a later one
/// counts.
const TEXT_ROWS: [Row; 3] = [
    (12, &[(0, |job| job.anchor[job.goal as usize] = 1)]),
    (
        10,
        &[
            (0, |job| job.schedule[2] = 99),
            (0, |job| job.schedule[2] = 201),
        ],
    ),
    (
        8,
        &[
            (0, |job| job.start = job.anchor.len() as u32),
            (0, |job| job.goal = u32::MAX),
            (0, |job| job.barred = MOST_BARRED + 1),
        ],
    ),
];

/// How many texts `texts_of` asks for.
fn texts_of_a_job() -> u64 {
    combinations(&TEXT_ROWS) * (1 + TABLE_FAULTS.len() as u64)
}

/// A job's text in every combination of those rows, with whole tables and with
/// each fault of them. `before` is what it gets by its plan and its size, before
/// all others; `behind` what it gets behind all others.
fn texts_of(seen: &mut Seen, job: &Job, before: Option<Answer>, behind: Answer) {
    combined(&TEXT_ROWS, job, behind, &mut |job, known| {
        seen.text(&job.bench_bytes(), before.unwrap_or(known));
        for fault in TABLE_FAULTS {
            seen.text(&fault(job), before.unwrap_or(refused(14, 0)));
        }
    });
}

/// Jobs that the bench program takes, up to its limits, without broken edges
/// and with some: the tables count before the call's rows.
fn texts_by_tables(seen: &mut Seen) {
    for broken in [&[][..], &[0], &[7], &[9], &[2, 7, 9]] {
        let known = broken.first().map_or(PASSES, |&edge| refused(13, edge));
        for plan in [
            small(broken),
            rising(MOST_BENCH_VERTICES as u32, 10, broken),
            rising(66, MOST_BENCH_EDGES, broken),
        ] {
            texts_of(seen, &job_of(&plan), None, known);
        }
    }
}

#[test]
fn tables_count_before_the_call_in_texts() {
    must_be_right(texts_by_tables, 15 * texts_of_a_job());
}

/// Jobs beyond the bench program's limits.
fn texts_by_size(seen: &mut Seen) {
    for (vertices, edges) in [(257, 10), (65, 2_049), (300, 2_049), (4_096, 10)] {
        let job = job_of(&rising(vertices, edges, &[3, 8]));
        texts_of(seen, &job, Some(refused(14, 0)), refused(13, 3));
    }
}

#[test]
fn size_counts_before_the_call_in_texts() {
    must_be_right(texts_by_size, 4 * texts_of_a_job());
}

/// Every fault of a small plan, also with broken edges, and those at the ends
/// of plans beyond the bench program's limits: they count before all others.
fn texts_by_plan(seen: &mut Seen) {
    let small_ones = [small(&[]), small(&[4, 5])].map(|plan| (damaged_anywhere(&plan), plan));
    let others = [(257, 10), (65, 2_049)].map(|(vertices, edges)| {
        let plan = rising(vertices, edges, &[0]);
        (damaged_at_the_ends(&plan), plan)
    });
    for (list, plan) in small_ones.into_iter().chain(others) {
        let job = job_of(&plan);
        // All combinations, each with whole tables and with one fault of them,
        // in turn.
        for (index, damaged) in list.iter().enumerate() {
            let mut turn = index;
            let job = on_bytes(&job, &damaged.bytes);
            combined(&TEXT_ROWS, &job, PASSES, &mut |job, _| {
                turn += 1;
                seen.text(&job.bench_bytes(), damaged.answer());
                let fault = TABLE_FAULTS[turn % TABLE_FAULTS.len()];
                seen.text(&fault(job), damaged.answer());
            });
        }
    }
}

#[test]
fn a_fault_of_the_plan_counts_before_all_but_the_front_in_texts() {
    let at_the_ends = 5 + 4 * 10 + 2 + 1 + 8 + 1;
    let faults = 2 * DAMAGED + 2 * at_the_ends;
    must_be_right(texts_by_plan, 2 * combinations(&TEXT_ROWS) * faults);
}

/// Faults of a bench job up to its guide count: its bytes. The plan's length
/// has one group, and so have start and goal.
const FRONT_FAULTS: [fn(&Job) -> Vec<u8>; 10] = [
    |_| vec![],
    // The plan is not whole, or nothing follows it, or no guide count.
    |job| job.bench_bytes()[..job.bytes.len()].to_vec(),
    |job| job.bench_bytes()[..=job.bytes.len()].to_vec(),
    |job| shorter(TABLE_FAULTS[0](job), 1),
    // Numbers of bad form: the plan's length, start, guide count.
    |job| {
        let rest = &job.bench_bytes()[1..];
        [&not_shortest(job.bytes.len() as u32), rest].concat()
    },
    |job| {
        let mut bytes = job.bench_bytes();
        let start = 1 + job.bytes.len();
        bytes.splice(start..=start, not_shortest(job.start));
        bytes
    },
    |job| [&shorter(TABLE_FAULTS[0](job), 1)[..], &[0x81, 0]].concat(),
    // Over 16 rounds, over 8 guides, over 32,768 bytes.
    |job| {
        let schedule = vec![100; 34];
        let job = job.clone();
        Job { schedule, ..job }.bench_bytes()
    },
    |job| {
        let (guide_count, guides) = (9, vec![1; 9 * VERTICES as usize]);
        let job = job.clone();
        Job {
            guide_count,
            guides,
            ..job
        }
        .bench_bytes()
    },
    |job| {
        let mut bytes = job.bench_bytes();
        bytes.resize(MOST_JOB_BYTES + 1, 0);
        bytes
    },
];

/// Faults of the front count before those of the plan.
fn texts_by_front(seen: &mut Seen) {
    let plan = small(&[4, 5]);
    let job = job_of(&plan);
    let damaged = damaged_anywhere(&plan).into_iter();
    for bytes in damaged.map(|damaged| damaged.bytes).chain([plan.bytes()]) {
        assert!(bytes.len() < 128, "its length has one group");
        for fault in FRONT_FAULTS {
            seen.text(&fault(&on_bytes(&job, &bytes)), refused(14, 0));
        }
    }
}

#[test]
fn the_front_counts_before_the_plan_in_texts() {
    must_be_right(texts_by_front, 10 * (DAMAGED + 1));
}

/// The refusals of the plan.
const OF_THE_PLAN: [u32; 8] = [1, 2, 3, 4, 5, 6, 7, 15];

/// Damages a job for some of these rows, in this order; the last counts.
fn damage_some(random: &mut Random, plan: &Plan, job: &mut Job, rows: &[u32]) -> Option<Answer> {
    let mut known = None;
    for &number in rows {
        if random.one_in(2) {
            let position = jobs::damage_job(random, plan, job, number);
            known = position.map(|position| refused(number, position)).or(known);
        }
    }
    known
}

/// Damages a job for one of the plan's rows, or not.
fn damage_plan(random: &mut Random, plan: &Plan, job: &mut Job) -> Option<Answer> {
    let number = random.pick(&OF_THE_PLAN);
    let position = match random.one_in(3) {
        true => jobs::damage_job(random, plan, job, number),
        false => None,
    };
    position.map(|position| refused(number, position))
}

/// Seeded jobs damaged for several rows at once.
fn seeded_calls(seen: &mut Seen) {
    let mut random = Random::new(seed(91));
    for _ in 0..40_000 {
        if seen.wrong.is_some() {
            return;
        }
        let shape = random.pick(&jobs::SHAPES);
        let (plan, mut job) = jobs::random_job(&mut random, shape);
        let rows = [13, 12, 11, 10, 9, 8];
        let of_the_call = damage_some(&mut random, &plan, &mut job, &rows);
        let of_the_plan = damage_plan(&mut random, &plan, &mut job);
        if let Some(known) = of_the_plan.or(of_the_call) {
            seen.job(&job, known);
        }
    }
}

#[test]
fn seeded_calls_are_refused_in_order() {
    for planner in BOTH {
        let seen = Seen::of(planner, seeded_calls);
        assert_eq!(seen.wrong, None);
        assert!(seen.answers >= 38_000, "{} calls", seen.answers);
    }
}

/// A plan that the bench program takes, or one of too many vertices or edges.
fn plan_of_any_size(random: &mut Random) -> Plan {
    match random.below(100) {
        0 => generate::random_plan(random, 64, 2_049),
        1..5 => {
            let (vertices, edges) = (random.range32(257, 300), random.index(40));
            generate::random_plan(random, vertices, edges)
        }
        _ => {
            let shape = random.pick(&jobs::SHAPES);
            jobs::random_graph(random, shape)
        }
    }
}

/// Damages the tables of a bench job's bytes, or not, and tells whether.
fn damage_table_bytes(random: &mut Random, bytes: &mut Vec<u8>) -> bool {
    let last = bytes.len() - 1;
    match random.below(12) {
        0 => drop(bytes.pop()),
        1 => bytes.push(random.byte()),
        2 => bytes[last] |= 0x80,
        3 => {
            bytes[last] |= 0x80;
            bytes.push(0);
        }
        4 if bytes.len() < MOST_JOB_BYTES => bytes.resize(MOST_JOB_BYTES, 0),
        _ => return false,
    }
    true
}

/// Seeded bench jobs damaged for several rows at once.
fn seeded_texts(seen: &mut Seen) {
    let mut random = Random::new(seed(92));
    for _ in 0..30_000 {
        if seen.wrong.is_some() {
            return;
        }
        let plan = plan_of_any_size(&mut random);
        let mut job = jobs::job_on(&mut random, &plan);
        let of_the_call = damage_some(&mut random, &plan, &mut job, &[13, 12, 10, 8]);
        // An odd schedule cannot be written, and one of 17 rounds is no job.
        if job.schedule.len() % 2 == 1 || job.schedule.len() > 32 {
            job.schedule = vec![100, 100, 100, 101];
        }
        let of_the_plan = damage_plan(&mut random, &plan, &mut job);
        let mut bytes = job.bench_bytes();
        let vertices = plan.vertices as usize;
        let beyond = vertices > MOST_BENCH_VERTICES || plan.edges() > MOST_BENCH_EDGES;
        let no_job = damage_table_bytes(&mut random, &mut bytes) || beyond;
        let of_the_tables = no_job.then_some(refused(14, 0));
        if let Some(known) = of_the_plan.or(of_the_tables).or(of_the_call) {
            seen.text(&bytes, known);
        }
    }
}

#[test]
fn seeded_texts_are_refused_in_order() {
    for planner in BOTH {
        let seen = Seen::of(planner, seeded_texts);
        assert_eq!(seen.wrong, None);
        assert!(seen.answers >= 28_000, "{} texts", seen.answers);
    }
}

/// A number of an anchor table that may break the rule, by a little or by much.
fn any_number(random: &mut Random) -> u32 {
    match random.below(4) {
        0 => random.pick(&[0, 1, MOST_COST, u32::MAX - 1, u32::MAX]),
        1 => random.range32(0, 200),
        _ => random.of_any_size(32) as u32,
    }
}

/// A job with bytes of its plan changed and an anchor table of any numbers, of
/// V or not.
fn wild_job(random: &mut Random) -> Job {
    let shape = random.pick(&jobs::SHAPES);
    let (plan, mut job) = jobs::random_job(random, shape);
    job.budget = random.range32(0, 3);
    if random.one_in(30) {
        jobs::damage_job(random, &plan, &mut job, 8);
    }
    if random.one_in(2) {
        let vertices = plan.vertices as usize;
        let length = match random.below(4) {
            0 => random.index(2 * vertices + 2),
            _ => vertices,
        };
        job.anchor = (0..length).map(|_| any_number(random)).collect();
        if let Some(number) = job.anchor.get_mut(job.goal as usize) {
            *number = random.pick(&[0, 0, 0, 1]);
        }
    }
    for _ in 0..random.below(3) {
        let at = random.index(job.bytes.len());
        job.bytes[at] = match random.below(3) {
            0 => random.byte(),
            1 => job.bytes[at] ^ 0x80,
            _ => job.bytes[at].wrapping_add(1),
        };
    }
    job
}

/// Jobs whose answer is not known from their making.
#[test]
fn wild_jobs_are_refused_alike() {
    let mut random = Random::new(seed(93));
    let mut comparison = Comparison::new(&Library, &SecondPlanner);
    for _ in 0..20_000 {
        let job = wild_job(&mut random);
        comparison.job(&job, None);
        comparison.text(&job.as_bench_job().bench_bytes(), None);
    }
    comparison.report("wild_jobs_are_refused_alike");
    for number in [1, 4, 5, 6, 7, 15, 8, 12, 13] {
        let met = comparison.job_kinds[number].min(comparison.text_kinds[number]);
        assert!(met >= 20, "refusal {number}: {met}");
    }
    assert!(comparison.job_kinds[9].min(comparison.text_kinds[14]) >= 20);
}

/// A planner for which all memory that a call reads ends where it can be
/// touched.
struct AtTheEnd<'a> {
    planner: &'a dyn Planner,
    bytes: RefCell<Fenced>,
    /// Of anchor table, guide sheets, schedule and default schedule.
    numbers: RefCell<[Fenced; 4]>,
}

impl<'a> AtTheEnd<'a> {
    fn of(planner: &'a dyn Planner) -> Self {
        AtTheEnd {
            planner,
            bytes: RefCell::new(Fenced::new()),
            numbers: RefCell::new([(); 4].map(|()| Fenced::new())),
        }
    }
}

impl Planner for AtTheEnd<'_> {
    fn plan(&self, request: &Request, memory: Memory) -> Figures {
        let mut bytes = self.bytes.borrow_mut();
        let mut numbers = self.numbers.borrow_mut();
        let [anchor, guides, schedule, default_schedule] = &mut *numbers;
        let request = Request {
            bytes: bytes.at_the_end(request.bytes),
            anchor: anchor.words_at_the_end(request.anchor),
            guides: guides.words_at_the_end(request.guides),
            schedule: schedule.words_at_the_end(request.schedule),
            default_schedule: default_schedule.words_at_the_end(request.default_schedule),
            ..*request
        };
        self.planner.plan(&request, memory)
    }

    fn bench_text(&self, job: &[u8], text: &mut [u8]) -> usize {
        let mut bytes = self.bytes.borrow_mut();
        self.planner.bench_text(bytes.at_the_end(job), text)
    }
}

/// All checks by their names, but for that of the largest plan.
const CHECKS: [(&str, Check); 13] = [
    ("broken edges", broken_edges),
    ("plan faults", plan_faults),
    ("rows of the call", rows_of_the_call),
    ("plan before call", plan_before_call),
    ("lengths of tables", lengths_of_tables),
    ("sums", sums),
    ("barred numbers", barred_numbers),
    ("texts by tables", texts_by_tables),
    ("texts by size", texts_by_size),
    ("texts by plan", texts_by_plan),
    ("texts by front", texts_by_front),
    ("seeded calls", seeded_calls),
    ("seeded texts", seeded_texts),
];

/// The library reads nothing behind the plan, the tables, the schedules and a
/// bench job, be they whole or not.
#[test]
fn nothing_behind_what_is_lent_is_touched() {
    let planner = AtTheEnd::of(&Library);
    for (name, check) in CHECKS {
        assert_eq!(Seen::of(&planner, check).wrong, None, "{name}");
    }
}

/// What a planner takes in the wrong order, or wrongly.
#[derive(Clone, Copy, Debug, PartialEq, Eq)]
enum Slip {
    /// Nothing: no check must tell it.
    None,
    /// The last broken edge counts.
    LastEdge,
    /// A broken edge counts before this row, if it is read before.
    Before(u32),
    /// A broken edge counts before a class above 7 of its own alone.
    BeforeItsClass,
    /// What is missing in a short anchor table is 0, and the rule counts.
    MissingIsZero,
    /// A long anchor table passes row 9 where its first numbers break the rule.
    LongerPasses,
    /// The rule is kept where what is left of the sum in 32 bits keeps it, and
    /// there alone.
    SumWraps,
    /// An edge must cost more than the rule asks for.
    RuleStrict,
    /// A broken edge's position is that of its first byte.
    EdgeByte,
    /// Row 8 counts before faults of the plan behind V.
    EndsFirst,
    /// Work memory is written before the rule is tested.
    WorkWritten,
    /// A text has refusal 14 for its tables before faults of the plan behind V.
    TablesFirst,
    /// The same for over 256 vertices, and for over 2,048 edges.
    VerticesFirst,
    EdgesFirst,
    /// A text has this row of the call before faults of the plan behind V.
    CallFirst(u32),
    /// A text has the plan's faults before those of the front.
    FrontLast,
    /// A text has this row of the call before refusal 14 for bytes left over.
    LeftOverLast(u32),
    /// A text has positions in the job in place of those in the plan.
    JobPosition,
    /// A plan that ends early is read on in the job's bytes behind it.
    PlanRunsOn,
}

/// Each slip, and a check that tells it.
const SLIPS: [(Slip, &str); 34] = [
    (Slip::LastEdge, "broken edges"),
    (Slip::Before(1), "plan faults"),
    (Slip::Before(4), "plan faults"),
    (Slip::Before(5), "plan faults"),
    (Slip::Before(6), "plan faults"),
    (Slip::Before(7), "plan faults"),
    (Slip::Before(15), "plan faults"),
    (Slip::Before(8), "rows of the call"),
    (Slip::Before(9), "rows of the call"),
    (Slip::Before(10), "rows of the call"),
    (Slip::Before(11), "rows of the call"),
    (Slip::Before(12), "rows of the call"),
    (Slip::Before(9), "lengths of tables"),
    (Slip::Before(8), "barred numbers"),
    (Slip::Before(12), "seeded calls"),
    (Slip::Before(15), "seeded calls"),
    (Slip::BeforeItsClass, "plan faults"),
    (Slip::MissingIsZero, "lengths of tables"),
    (Slip::LongerPasses, "lengths of tables"),
    (Slip::SumWraps, "sums"),
    (Slip::RuleStrict, "sums"),
    (Slip::EdgeByte, "broken edges"),
    (Slip::EndsFirst, "plan before call"),
    (Slip::WorkWritten, "broken edges"),
    (Slip::TablesFirst, "texts by plan"),
    (Slip::TablesFirst, "seeded texts"),
    (Slip::VerticesFirst, "texts by plan"),
    (Slip::EdgesFirst, "texts by plan"),
    (Slip::CallFirst(8), "texts by plan"),
    (Slip::CallFirst(12), "seeded texts"),
    (Slip::FrontLast, "texts by front"),
    (Slip::LeftOverLast(10), "texts by tables"),
    (Slip::JobPosition, "texts by plan"),
    (Slip::PlanRunsOn, "texts by plan"),
];

/// The edges that a plan's bytes have before their first fault.
fn edges_read(bytes: &[u8]) -> Vec<Edge> {
    let mut edges = Vec::new();
    let _ = reference::walk_plan(bytes, |_, edge| edges.push(edge));
    edges
}

/// The edges that break the rule, by such a test of tail, cost and head.
fn broken_by(
    request: &Request,
    missing: Option<u32>,
    breaks: impl Fn(u32, u32, u32) -> bool,
) -> Vec<usize> {
    let number = |vertex: u32| request.anchor.get(vertex as usize).copied().or(missing);
    let is_broken = |edge: &Edge| match (number(edge.tail), number(edge.head)) {
        (Some(tail), Some(head)) => breaks(tail, edge.cost, head),
        _ => false,
    };
    let edges = edges_read(request.bytes).into_iter().enumerate();
    let broken = edges.filter(|(_, edge)| is_broken(edge));
    broken.map(|(number, _)| number).collect()
}

fn breaks(tail: u32, cost: u32, head: u32) -> bool {
    u64::from(tail) > u64::from(cost) + u64::from(head)
}

/// Whether a refusal is one of the plan's numbers behind V.
fn is_behind_vertices(number: u32, position: usize) -> bool {
    OF_THE_PLAN.contains(&number) && position > 0
}

impl Slip {
    /// What a call is refused for that is answered so without the slip.
    fn call(self, request: &Request, right: Answer) -> Answer {
        let (number, position) = match right {
            Answer::Refused { number, position } => (number, position),
            _ => (0, 0),
        };
        let broken = broken_by(request, None, breaks);
        let first = |broken: Vec<usize>| broken.first().map(|&edge| refused(13, edge));
        let other = match (self, number) {
            (Slip::LastEdge, 13) => broken.last().map(|&edge| refused(13, edge)),
            (Slip::Before(row), _) if row == number => first(broken),
            (Slip::BeforeItsClass, 15) => self.before_its_class(request, position),
            (Slip::MissingIsZero, 9) => first(broken_by(request, Some(0), breaks)),
            (Slip::LongerPasses, 9) => self.longer_passes(request),
            (Slip::SumWraps, 0 | 13) => {
                let wraps = |tail, cost: u32, head| tail > cost.wrapping_add(head);
                Some(first(broken_by(request, None, wraps)).unwrap_or(PASSES))
            }
            (Slip::RuleStrict, 0 | 13) => first(broken_by(request, None, |tail, cost, head| {
                tail > 0 && u64::from(tail) >= u64::from(cost) + u64::from(head)
            })),
            (Slip::EdgeByte, 13) => {
                let (_, numbers) = Plan::of_bytes(request.bytes).encode();
                Some(refused(13, numbers[2 + 4 * position].offset))
            }
            (Slip::EndsFirst, _) if is_behind_vertices(number, position) => {
                (request.barred > MOST_BARRED).then_some(refused(8, 0))
            }
            _ => None,
        };
        other.unwrap_or(right)
    }

    /// The edge whose class is refused is broken, and none before it.
    fn before_its_class(self, request: &Request, class: usize) -> Option<Answer> {
        let mut bytes = request.bytes.to_vec();
        bytes[class] = 0;
        let edges = edges_read(request.bytes).len();
        let bytes = &bytes;
        let broken = broken_by(&Request { bytes, ..*request }, None, breaks);
        let own = broken.first() == Some(&edges);
        own.then_some(refused(13, edges))
    }

    fn longer_passes(self, request: &Request) -> Option<Answer> {
        let (vertices, _) = reference::check_plan(request.bytes).ok()?;
        let anchor = request.anchor.get(..vertices as usize)?;
        let broken = broken_by(&Request { anchor, ..*request }, None, breaks);
        broken.first().map(|&edge| refused(13, edge))
    }
}

/// The plan in a bench job's bytes, as where it begins and ends.
fn plan_in(job: &[u8]) -> Option<Range<usize>> {
    let (length, first) = reference::read_job_number(job, 0).ok()?;
    let plan = first..first + length as usize;
    job.get(plan.clone()).map(|_| plan)
}

/// V and M of a bench job's plan, and the job's bytes with a plan of as many
/// vertices and no edges.
fn without_edges(job: &[u8]) -> Option<(usize, usize, Vec<u8>)> {
    let range = plan_in(job)?;
    let plan = &job[range.clone()];
    let (vertices, edges_at) = reference::read_plan_number(plan, 0).ok()?;
    let (edges, _) = reference::read_plan_number(plan, edges_at).ok()?;
    let mut bytes = Vec::new();
    push_number(&mut bytes, edges_at as u32 + 1);
    bytes.extend(&plan[..edges_at]);
    bytes.push(0);
    bytes.extend(&job[range.end..]);
    Some((vertices as usize, edges as usize, bytes))
}

/// What is printed for these bytes, if it is this refusal.
fn printed_refusal(number: u32, job: &[u8]) -> Option<String> {
    let text = bench_text::bench_text(job);
    let is_it = planners::kind_of_text(&text) == number as usize;
    is_it.then_some(text)
}

/// What is printed of these plan bytes, if they are refused.
fn refusal_of_plan(bytes: &[u8]) -> Option<String> {
    let refusal = reference::check_plan(bytes).err()?;
    Some(bench_text::refused(refusal.number, refusal.position))
}

impl Slip {
    /// What is printed for a bench job in place of what is right, if it is
    /// another text.
    fn text(self, job: &[u8], right: &str) -> Option<String> {
        let plan = plan_in(job)?;
        let kind = planners::kind_of_text(right) as u32;
        let position: usize = right.trim_end().rsplit(' ').next()?.parse().ok()?;
        match self {
            Slip::FrontLast if kind == 14 => refusal_of_plan(&job[plan]),
            Slip::LeftOverLast(row) if kind == 14 => printed_refusal(row, &job[..job.len() - 1]),
            Slip::JobPosition if OF_THE_PLAN.contains(&kind) => {
                Some(bench_text::refused(kind, plan.start + position))
            }
            Slip::PlanRunsOn if kind == 1 => refusal_of_plan(&job[plan.start..]),
            _ if is_behind_vertices(kind, position) => self.before_the_plan(job),
            _ => None,
        }
    }

    /// What is printed for a bench job whose plan has a fault behind V.
    fn before_the_plan(self, job: &[u8]) -> Option<String> {
        let (vertices, edges, other) = without_edges(job)?;
        let few = vertices <= MOST_BENCH_VERTICES;
        match self {
            Slip::TablesFirst if few => printed_refusal(14, &other),
            Slip::VerticesFirst if !few => Some(bench_text::refused(14, 0)),
            Slip::EdgesFirst if edges > MOST_BENCH_EDGES => Some(bench_text::refused(14, 0)),
            Slip::CallFirst(row) => printed_refusal(row, &other),
            _ => None,
        }
    }
}

/// The second planner with a slip.
struct Slipping(Slip);

impl Planner for Slipping {
    fn plan(&self, request: &Request, memory: Memory) -> Figures {
        let Slipping(slip) = *self;
        let right = {
            let lent = Memory {
                route: &mut memory.route.to_vec(),
                log: &mut memory.log.to_vec(),
                work: &mut memory.work.to_vec(),
                wide: &mut memory.wide.to_vec(),
            };
            planner::plan(request, lent)
        };
        if slip == Slip::WorkWritten && matches!(right, Answer::Refused { number: 13, .. }) {
            memory.work[0] = 0;
        }
        slip.call(request, right).figures()
    }

    fn bench_text(&self, job: &[u8], text: &mut [u8]) -> usize {
        let Slipping(slip) = *self;
        let right = bench_text::bench_text(job);
        write_text(&slip.text(job, &right).unwrap_or(right), text)
    }
}

/// The check of a name.
fn check_of(name: &str) -> Check {
    let found = CHECKS.into_iter().find(|&(other, _)| other == name);
    found.expect("a check has this name").1
}

#[test]
fn each_slip_is_told() {
    for (slip, name) in SLIPS {
        let told = Seen::of(&Slipping(slip), check_of(name)).wrong.is_some();
        assert!(told, "{slip:?} by {name}");
    }
    let permitted = FaultyPlanner(Fault::RuleOfPermitted);
    assert!(Seen::of(&permitted, barred_numbers).wrong.is_some());
}

#[test]
fn a_planner_without_slip_is_not_told() {
    for (name, check) in CHECKS {
        assert_eq!(Seen::of(&Slipping(Slip::None), check).wrong, None, "{name}");
    }
}
