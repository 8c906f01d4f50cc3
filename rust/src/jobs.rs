//! Seeded jobs for the planner: tiny graphs, ladders, grids, zero costs,
//! self-edges, barred classes, hostile and constant sheets, guides without
//! opinion, blind alleys, default schedules beside a job's own and in its
//! place, budgets around the ends of rounds, start = goal, no walk to the goal,
//! long paths whose costs pass 32 bits, and jobs damaged for each refusal.

use std::collections::BTreeMap;

use crate::bench_text;
use crate::dijkstra;
use crate::generate::{self, Plan};
use crate::planner::{self, Answer, Event, Fault, Memory, Request, MOST_OPINION, NO_OPINION};
use crate::random::Random;
use crate::reference::MOST_COST;

/// A planner call with the lengths of its lent memory.
#[derive(Clone, Debug)]
pub struct Job {
    pub bytes: Vec<u8>,
    pub start: u32,
    pub goal: u32,
    pub barred: u32,
    pub anchor: Vec<u32>,
    pub guides: Vec<u32>,
    pub guide_count: u32,
    pub schedule: Vec<u32>,
    pub default_schedule: Vec<u32>,
    pub budget: u32,
    pub route_room: usize,
    pub log_room: usize,
    pub work_room: usize,
    pub wide_room: usize,
}

impl Job {
    /// A job on a valid plan with full room that bars nothing; its default
    /// schedule is the standard one.
    #[allow(clippy::too_many_arguments)]
    pub fn new(
        plan: &Plan,
        start: u32,
        goal: u32,
        anchor: Vec<u32>,
        guides: Vec<u32>,
        guide_count: u32,
        schedule: Vec<u32>,
        budget: u32,
    ) -> Job {
        let vertices = plan.vertices as usize;
        Job {
            bytes: plan.bytes(),
            start,
            goal,
            barred: 0,
            anchor,
            guides,
            guide_count,
            schedule,
            default_schedule: planner::STANDARD_SCHEDULE.to_vec(),
            budget,
            route_room: vertices,
            log_room: 64,
            work_room: planner::work_words(vertices, plan.edges()),
            wide_room: planner::wide_numbers(vertices),
        }
    }

    /// The factors that its rounds have, W1 and W2 of each.
    pub fn factors(&self) -> &[u32] {
        planner::or_default(&self.schedule, &self.default_schedule)
    }

    /// The job as bytes can say it: a default schedule that is in force, unless
    /// it is the standard one, becomes its own.
    pub fn as_bench_job(&self) -> Job {
        let mut job = self.clone();
        if job.schedule.is_empty() && job.default_schedule != planner::STANDARD_SCHEDULE {
            job.schedule = job.default_schedule;
        }
        job.default_schedule = planner::STANDARD_SCHEDULE.to_vec();
        job
    }

    /// The job with room in its log for all its turns: 2·V in each round.
    pub fn with_whole_log(&self) -> Job {
        Job {
            log_room: self.anchor.len() * self.factors().len(),
            ..self.clone()
        }
    }

    /// What the call is asked.
    pub fn request(&self) -> Request<'_> {
        Request {
            bytes: &self.bytes,
            start: self.start,
            goal: self.goal,
            barred: self.barred,
            anchor: &self.anchor,
            guides: &self.guides,
            guide_count: self.guide_count,
            schedule: &self.schedule,
            default_schedule: &self.default_schedule,
            budget: self.budget,
        }
    }

    /// A vertex's number in a table, 0 being the anchor.
    pub fn number(&self, table: u32, vertex: u32) -> u32 {
        match table as usize {
            0 => self.anchor[vertex as usize],
            guide => self.guides[(guide - 1) * self.anchor.len() + vertex as usize],
        }
    }

    /// The second planner's answer and events, memory left aside.
    pub fn events(&self) -> (Answer, Vec<Event>) {
        self.told_by(planner::plan_observed_closely)
    }

    /// The same of the second planner with a fault, but for events that take
    /// a scan of their own.
    pub fn faulty_events(&self, fault: Fault) -> (Answer, Vec<Event>) {
        self.told_by(|request, memory, observe| {
            planner::plan_observed(request, memory, Some(fault), observe)
        })
    }

    fn told_by(
        &self,
        plan: impl FnOnce(&Request, Memory, &mut dyn FnMut(Event)) -> Answer,
    ) -> (Answer, Vec<Event>) {
        let mut events = Vec::new();
        let memory = Memory {
            route: &mut vec![0; self.route_room],
            log: &mut [],
            work: &mut vec![0; self.work_room],
            wide: &mut vec![0; self.wide_room],
        };
        let answer = plan(&self.request(), memory, &mut |event| events.push(event));
        (answer, events)
    }

    /// The job as the bench program's bytes, which say no default schedule.
    pub fn bench_bytes(&self) -> Vec<u8> {
        let mut bytes = Vec::new();
        generate::push_number(&mut bytes, self.bytes.len() as u32);
        bytes.extend(&self.bytes);
        let rounds = self.schedule.len() as u32 / 2;
        for number in [self.start, self.goal, self.barred, self.budget, rounds] {
            generate::push_number(&mut bytes, number);
        }
        for &factor in &self.schedule {
            generate::push_number(&mut bytes, factor);
        }
        generate::push_number(&mut bytes, self.guide_count);
        for &number in self.anchor.iter().chain(&self.guides) {
            generate::push_number(&mut bytes, number);
        }
        bytes
    }
}

/// A schedule that does not rise.
pub fn random_schedule(random: &mut Random) -> Vec<u32> {
    match random.below(12) {
        0 => return Vec::new(),
        1 => return vec![100, 100],
        2 => return planner::STANDARD_SCHEDULE.to_vec(),
        _ => {}
    }
    let rounds = match random.below(10) {
        0 => 16,
        1 => random.index(17),
        _ => random.range(1, 4) as usize,
    };
    let most = random.pick(&[100, 130, 200, 300, 500, 1_000, 10_000]);
    let mut factors = [Vec::new(), Vec::new()];
    for list in &mut factors {
        *list = (0..rounds).map(|_| random.range32(100, most)).collect();
        if random.one_in(6) {
            list.fill(random.range32(100, most));
        }
        list.sort_unstable_by(|left, right| right.cmp(left));
        if rounds > 0 && random.one_in(3) {
            list[rounds - 1] = 100;
        }
    }
    let [w1, w2] = factors;
    w1.into_iter()
        .zip(w2)
        .flat_map(|(w1, w2)| [w1, w2])
        .collect()
}

/// The factors of 1 to 16 rounds: a sheet that a site may load for its default
/// schedule, the paper's house schedule.
pub fn random_default(random: &mut Random) -> Vec<u32> {
    let rounds = match random.below(4) {
        0 => random.pick(&[1, 16]),
        _ => random.range(1, 16) as usize,
    };
    let most = [(); 2].map(|()| random.pick(&[100, 200, 500, 10_000]));
    falling_factors(random, rounds, most)
}

/// A default schedule that row 10 refuses: empty, odd, over 16 rounds, out of
/// range, or rising in W1 or in W2.
pub fn bad_default(random: &mut Random) -> Vec<u32> {
    let rounds = random.range(2, 16) as usize;
    let mut factors = falling_factors(random, rounds, [500; 2]);
    match random.below(6) {
        0 => factors.clear(),
        1 => factors.truncate(2 * random.index(rounds) + 1),
        2 => factors = vec![100; random.pick(&[33, 34, 36])],
        3 | 4 => {
            let index = random.index(factors.len());
            factors[index] = random.pick(&[0, 1, 99, 10_001, u32::MAX]);
        }
        _ => {
            let index = random.index(factors.len() - 2);
            factors[index + 2] = factors[index] + 1;
        }
    }
    factors
}

/// Hands a job a default schedule that is as good as the one in force: often
/// the job's own, which then is empty; else any one beside it, which is not
/// looked at.
pub fn hand_default(random: &mut Random, job: &mut Job) {
    job.default_schedule = match (job.schedule.is_empty(), random.below(6)) {
        (_, 0) => planner::STANDARD_SCHEDULE.to_vec(),
        (false, 1 | 2) => std::mem::take(&mut job.schedule),
        (false, 3) => bad_default(random),
        _ => random_default(random),
    };
}

/// The default schedules of a seed's jobs, which are drawn beside them.
fn defaults(seed: u64) -> Random {
    Random::new(seed ^ 0xDEFA)
}

/// A table that passes refusals 12 and 13.
pub fn random_anchor(random: &mut Random, plan: &Plan, goal: u32) -> Vec<u32> {
    let vertices = plan.vertices as usize;
    let most = random.pick(&[3, 20, 1_000, 1_000_000, MOST_COST, u32::MAX]);
    let mut wish: Vec<u32> = match random.below(5) {
        0 => vec![0; vertices],
        1 => (0..vertices).map(|_| random.range32(0, most)).collect(),
        2 => vec![most; vertices],
        _ => vec![u32::MAX; vertices],
    };
    wish[goal as usize] = 0;
    let mut table = dijkstra::consistent_table(plan, &wish);
    if random.one_in(4) {
        // A part of the table keeps the rule.
        let part = random.range(1, 99);
        for number in &mut table {
            *number = (u64::from(*number) * part / 100) as u32;
        }
    }
    table
}

/// A distance as a table's number: the greatest one where it is too far.
fn narrowed(distance: u64) -> u32 {
    u32::try_from(distance).unwrap_or(u32::MAX)
}

/// A guide sheet of any sort, hostile ones included. It is without opinion, if
/// anywhere, where no walk leads to the goal, or where it is the anchor table
/// and has its greatest number, which means no opinion on a sheet alone.
pub fn random_sheet(random: &mut Random, plan: &Plan, goal: u32, anchor: &[u32]) -> Vec<u32> {
    let vertices = plan.vertices as usize;
    let most = random.pick(&[1, 3, 20, 1_000, MOST_OPINION]);
    match random.below(9) {
        0 => vec![0; vertices],
        1 => vec![most; vertices],
        2 => anchor.to_vec(),
        // Distances, and what is far comes first.
        3 => {
            let no_way = random.pick(&[MOST_OPINION, NO_OPINION]);
            distances(plan, goal, no_way)
        }
        4 => distances(plan, goal, MOST_OPINION)
            .into_iter()
            .map(|distance| (MOST_OPINION - distance) % 10_007)
            .collect(),
        // Everything but one vertex is dear.
        5 => {
            let mut sheet = vec![most; vertices];
            sheet[random.index(vertices)] = 0;
            sheet
        }
        _ => (0..vertices).map(|_| random.range32(0, most)).collect(),
    }
}

/// A guide sheet of true distances, and another number where no walk leads to
/// the goal.
fn distances(plan: &Plan, goal: u32, no_way: u32) -> Vec<u32> {
    dijkstra::distances_to(plan, goal, dijkstra::NO_BAR)
        .into_iter()
        .map(|distance| distance.map_or(no_way, |far| narrowed(far).min(MOST_OPINION)))
        .collect()
}

/// Takes opinions out of a job's guide sheets, of one or of all: so many in a
/// hundred, those on the start, those on the goal.
pub fn take_opinions(random: &mut Random, job: &mut Job, hundredths: u64) {
    if job.guide_count == 0 {
        return;
    }
    let one = random.index(job.guide_count as usize);
    let all = random.one_in(2);
    let end = random.pick(&[Some(job.start), Some(job.goal), None, None]);
    let sheets = job.guides.chunks_exact_mut(job.anchor.len()).enumerate();
    for (_, sheet) in sheets.filter(|&(guide, _)| all || guide == one) {
        for number in sheet.iter_mut() {
            if random.below(100) < hundredths {
                *number = NO_OPINION;
            }
        }
        if let Some(end) = end {
            sheet[end as usize] = NO_OPINION;
        }
    }
}

/// A job as it is, or with opinions taken out at any rate.
fn with_fewer_opinions(random: &mut Random, (plan, mut job): (Plan, Job)) -> (Plan, Job) {
    if random.one_in(3) {
        let hundredths = random.pick(&[0, 5, 20, 50, 80, 95, 100]);
        take_opinions(random, &mut job, hundredths);
    }
    (plan, job)
}

/// A barred number: often none, else one class or several that the plan's
/// edges have, all, or any.
pub fn random_barred(random: &mut Random, plan: &Plan) -> u32 {
    let mut barred = 0;
    match random.below(12) {
        8 | 9 if plan.edges() > 0 => barred = 1 << random.pick(&plan.classes),
        10 if plan.edges() > 0 => {
            for _ in 0..random.range(2, 4) {
                barred |= 1 << random.pick(&plan.classes);
            }
        }
        11 if random.one_in(3) => barred = planner::MOST_BARRED,
        11 => barred = random.range32(0, planner::MOST_BARRED),
        _ => {}
    }
    barred
}

/// How edges get their costs.
fn cost(random: &mut Random, kind: u64) -> u32 {
    match kind {
        0 => 0,
        1 => u32::from(random.one_in(2)),
        2 | 3 => random.range32(0, 9),
        4 => random.range32(0, 100),
        5 => random.range32(MOST_COST - 9, MOST_COST),
        _ => generate::random_cost(random),
    }
}

/// The shape of a graph.
#[derive(Clone, Copy, Debug, PartialEq, Eq)]
pub enum Shape {
    /// Up to six vertices, any edges, self-edges too.
    Tiny,
    /// A path with shortcuts and edges back.
    Ladder,
    /// A grid with edges both ways.
    Grid,
    /// Up to 40 vertices and few edges: often no walk to the goal.
    Sparse,
    /// Up to 12 vertices and many edges.
    Dense,
}

pub const SHAPES: [Shape; 5] = [
    Shape::Tiny,
    Shape::Ladder,
    Shape::Grid,
    Shape::Sparse,
    Shape::Dense,
];

/// A plan of a shape.
pub fn random_graph(random: &mut Random, shape: Shape) -> Plan {
    let kind = random.below(8);
    let mut pairs: Vec<(u32, u32)> = Vec::new();
    let vertices = match shape {
        Shape::Tiny => random.range32(1, 6),
        Shape::Ladder => random.range32(3, 14),
        Shape::Grid => random.range32(2, 5),
        Shape::Sparse => random.range32(2, 40),
        Shape::Dense => random.range32(4, 12),
    };
    let vertices = match shape {
        Shape::Tiny | Shape::Sparse | Shape::Dense => {
            let most = vertices * vertices;
            let edges = match shape {
                Shape::Sparse => random.range32(0, vertices + vertices / 2),
                Shape::Dense => random.range32(most / 3, most),
                _ => random.range32(0, most.min(14)),
            };
            for _ in 0..edges {
                pairs.push((
                    random.range32(0, vertices - 1),
                    random.range32(0, vertices - 1),
                ));
            }
            vertices
        }
        Shape::Ladder => {
            for vertex in 0..vertices {
                for step in 1..=random.range32(1, 3) {
                    if vertex + step < vertices {
                        pairs.push((vertex, vertex + step));
                    }
                }
                if vertex > 0 && random.one_in(4) {
                    pairs.push((vertex, random.range32(0, vertex)));
                }
            }
            vertices
        }
        Shape::Grid => {
            let (width, height) = (vertices, random.range32(2, 5));
            for y in 0..height {
                for x in 0..width {
                    let here = y * width + x;
                    let mut both = |there| {
                        if !random.one_in(8) {
                            pairs.push((here, there));
                        }
                        if !random.one_in(8) {
                            pairs.push((there, here));
                        }
                    };
                    if x + 1 < width {
                        both(here + 1);
                    }
                    if y + 1 < height {
                        both(here + width);
                    }
                }
            }
            width * height
        }
    };
    // Numbers of vertices in any order, except sometimes on ladders.
    if shape != Shape::Ladder || random.one_in(2) {
        let mut numbers: Vec<u32> = (0..vertices).collect();
        for index in (1..numbers.len()).rev() {
            numbers.swap(index, random.index(index + 1));
        }
        for (tail, head) in &mut pairs {
            *tail = numbers[*tail as usize];
            *head = numbers[*head as usize];
        }
    }
    pairs.sort_unstable();
    pairs.dedup();
    Plan {
        vertices,
        tails: pairs.iter().map(|pair| pair.0).collect(),
        heads: pairs.iter().map(|pair| pair.1).collect(),
        costs: pairs.iter().map(|_| cost(random, kind)).collect(),
        classes: generate::random_classes(random, pairs.len()),
    }
}

/// A job on a plan that no refusal meets, with a large budget.
pub fn job_on(random: &mut Random, plan: &Plan) -> Job {
    let start = random.range32(0, plan.vertices - 1);
    let goal = if random.one_in(12) {
        start
    } else {
        random.range32(0, plan.vertices - 1)
    };
    let anchor = random_anchor(random, plan, goal);
    let guide_count = match random.below(8) {
        0 => 0,
        1 => random.range32(0, 8),
        _ => random.range32(1, 2),
    };
    let guides = (0..guide_count)
        .flat_map(|_| random_sheet(random, plan, goal, &anchor))
        .collect();
    let schedule = random_schedule(random);
    let mut job = Job::new(
        plan,
        start,
        goal,
        anchor,
        guides,
        guide_count,
        schedule,
        u32::MAX,
    );
    job.barred = random_barred(random, plan);
    match random.below(4) {
        0 => job.log_room = random.index(5),
        1 => job.log_room = 0,
        _ => {}
    }
    if random.one_in(3) {
        job.route_room += random.index(4);
        job.work_room += random.index(4);
        job.wide_room += random.index(4);
    }
    job
}

/// A valid job of a shape; its plan comes along.
pub fn random_job(random: &mut Random, shape: Shape) -> (Plan, Job) {
    let plan = random_graph(random, shape);
    let job = job_on(random, &plan);
    (plan, job)
}

/// A job as it is, or with all its costs and tables times a factor, up to
/// that by which its dearest edge comes near the greatest cost; the search
/// goes the same way. The anchor table keeps its rule, also where it ends at
/// the greatest number; no opinion stays none, and an opinion stays one.
fn dearer(random: &mut Random, (mut plan, mut job): (Plan, Job)) -> (Plan, Job) {
    let dearest = plan.costs.iter().copied().max().unwrap_or(0);
    if dearest == 0 || !random.one_in(4) {
        return (plan, job);
    }
    let most = MOST_COST / dearest;
    let factor = match random.one_in(2) {
        true => most,
        false => random.range32(1, most),
    };
    for number in plan.costs.iter_mut().chain(&mut job.anchor) {
        *number = number.saturating_mul(factor);
    }
    for number in job.guides.iter_mut().filter(|h| **h != NO_OPINION) {
        *number = number.saturating_mul(factor).min(MOST_OPINION);
    }
    job.bytes = plan.bytes();
    (plan, job)
}

/// Two lists of `rounds` factors from 100 to `most` that do not rise.
fn falling_factors(random: &mut Random, rounds: usize, most: [u32; 2]) -> Vec<u32> {
    let mut lists =
        most.map(|most| -> Vec<u32> { (0..rounds).map(|_| random.range32(100, most)).collect() });
    for list in &mut lists {
        list.sort_unstable_by(|left, right| right.cmp(left));
    }
    (0..2 * rounds)
        .map(|index| lists[index % 2][index / 2])
        .collect()
}

/// A plan from edges (tail, head, cost), of each pair the last, with the
/// vertices renumbered at random; gives the new numbers too.
fn renumbered(random: &mut Random, vertices: u32, edges: &[(u32, u32, u32)]) -> (Plan, Vec<u32>) {
    let mut numbers: Vec<u32> = (0..vertices).collect();
    if random.one_in(2) {
        for index in (1..numbers.len()).rev() {
            numbers.swap(index, random.index(index + 1));
        }
    }
    let edges: BTreeMap<(u32, u32), u32> = edges
        .iter()
        .map(|&(tail, head, cost)| ((numbers[tail as usize], numbers[head as usize]), cost))
        .collect();
    let plan = Plan {
        vertices,
        tails: edges.keys().map(|pair| pair.0).collect(),
        heads: edges.keys().map(|pair| pair.1).collect(),
        costs: edges.values().copied().collect(),
        classes: generate::random_classes(random, edges.len()),
    };
    (plan, numbers)
}

/// A job whose guides lead astray: a few vertices, edges mostly one after
/// another, sheets of small numbers, factors that come down over a few
/// rounds.
pub fn twisted_job(random: &mut Random) -> (Plan, Job) {
    let vertices = random.range32(4, 9);
    let (start, goal) = (0, vertices - 1);
    let most_cost = random.pick(&[3, 10, 30]);
    let mut edges = Vec::new();
    for tail in 0..vertices {
        for head in 0..vertices {
            let wanted = match (tail, head) {
                _ if tail == head => random.one_in(20),
                _ if head == tail + 1 => !random.one_in(8),
                _ if tail == start && head == goal => random.one_in(6),
                _ if tail < head => random.one_in(2),
                _ => random.one_in(5),
            };
            if wanted {
                // A longer step costs more, often more than it saves.
                let step = tail.abs_diff(head);
                let cost = random.range32(0, most_cost) + step * random.range32(0, most_cost);
                edges.push((tail, head, cost));
            }
        }
    }
    let (plan, numbers) = renumbered(random, vertices, &edges);
    let (start, goal) = (numbers[start as usize], numbers[goal as usize]);
    let mut wish = vec![4_000_000; vertices as usize];
    wish[goal as usize] = 0;
    let mut anchor = dijkstra::consistent_table(&plan, &wish);
    let part = random.pick(&[0, 30, 60, 100]);
    for number in &mut anchor {
        *number = *number * part / 100;
    }
    let guide_count = random.range32(1, 3);
    let most = random.pick(&[0, 5, 20, 60]);
    let guides = (0..guide_count * vertices)
        .map(|_| random.range32(0, most))
        .collect();
    let rounds = random.range(1, 5) as usize;
    let most = random.pick(&[200, 400, 1_000]);
    let schedule = falling_factors(random, rounds, [most; 2]);
    let mut job = Job::new(
        &plan,
        start,
        goal,
        anchor,
        guides,
        guide_count,
        schedule,
        u32::MAX,
    );
    job.barred = random_barred(random, &plan);
    (plan, job)
}

/// A job on a graph with a detour: the dear way to a vertex is taken first,
/// the cheap way found later, so that predecessors trace a walk cheaper than
/// g(goal); a second way to the goal competes in the next round. Some jobs
/// follow that script to the letter, others stray from it in some numbers.
pub fn detour_job(random: &mut Random) -> (Plan, Job) {
    // 0 start, 1 the vertex with two ways, 2 on its cheap way, 3 the second
    // way, 4 goal; then vertices that hang on to these.
    let more = if random.one_in(2) {
        0
    } else {
        random.range32(1, 3)
    };
    let vertices = 5 + more;
    let mut edges = vec![
        (0, 1, 10),
        (0, 2, 1),
        (2, 1, 5),
        (1, 4, 2),
        (0, 3, 6),
        (3, 4, random.range32(0, 6)),
    ];
    let stray = random.pick(&[0, 1, 2, 4]);
    for _ in 0..stray {
        let edge = random.index(edges.len());
        let cost = &mut edges[edge].2;
        *cost = random.range32(cost.saturating_sub(3), *cost + 3);
    }
    for vertex in 5..vertices {
        let other = random.range32(0, vertices - 1);
        edges.push((other, vertex, random.range32(0, 12)));
        if random.one_in(2) {
            let other = random.range32(0, vertices - 1);
            edges.push((vertex, other, random.range32(0, 12)));
        }
    }
    if random.one_in(6) {
        // No walk to the goal.
        edges.retain(|edge| edge.1 != 4);
    }
    let (plan, numbers) = renumbered(random, vertices, &edges);
    let (start, goal) = (numbers[0], numbers[4]);
    let anchor = if random.one_in(3) {
        random_anchor(random, &plan, goal)
    } else {
        vec![0; vertices as usize]
    };
    let mut sheets = [vec![9; vertices as usize], vec![9; vertices as usize]];
    for (vertex, number) in [(0, 0), (1, 5), (2, 0), (3, 0), (4, 9)] {
        sheets[0][numbers[vertex] as usize] = number;
    }
    for (vertex, number) in [(0, 0), (1, 0), (2, 9), (3, 9), (4, 9)] {
        sheets[1][numbers[vertex] as usize] = number;
    }
    for _ in 0..stray {
        let sheet = random.index(2);
        sheets[sheet][random.index(vertices as usize)] = random.range32(0, 9);
    }
    let mut schedule = vec![
        random.range32(300, 1_000),
        1_000 + random.range32(0, 150),
        random.range32(100, 300),
        random.range32(120, 199),
    ];
    for _ in 0..random.index(3) {
        let last = schedule.len() - 2;
        let next = [
            random.range32(100, schedule[last]),
            random.range32(100, schedule[last + 1]),
        ];
        schedule.extend(next);
    }
    let mut job = Job::new(
        &plan,
        start,
        goal,
        anchor,
        sheets.concat(),
        2,
        schedule,
        u32::MAX,
    );
    job.barred = random_barred(random, &plan);
    (plan, job)
}

/// A job whose anchor table is steep and counts for much: the anchor expands
/// vertices whose cost falls later, and holds them.
pub fn steep_job(random: &mut Random) -> (Plan, Job) {
    let vertices = random.range32(4, 10);
    let most_cost = random.pick(&[9, 30, 90]);
    let mut edges = Vec::new();
    for tail in 0..vertices {
        for head in 0..vertices {
            if random.one_in(3) && (tail, head) != (0, 1) {
                edges.push((tail, head, random.range32(0, most_cost)));
            }
        }
    }
    if random.one_in(4) {
        // No walk to the goal.
        edges.retain(|edge| edge.1 != 1);
    }
    let (plan, numbers) = renumbered(random, vertices, &edges);
    let (start, goal) = (numbers[0], numbers[1]);
    let most = most_cost * random.range32(1, 5);
    let mut wish: Vec<u32> = (0..vertices).map(|_| random.range32(0, most)).collect();
    wish[goal as usize] = 0;
    let anchor = dijkstra::consistent_table(&plan, &wish);
    let guide_count = random.range32(0, 2);
    let guides = (0..guide_count)
        .flat_map(|_| {
            let hostile = random.one_in(2);
            let number = random.range32(0, most);
            (0..vertices)
                .map(|_| match hostile {
                    true => MOST_OPINION,
                    false => random.range32(0, number),
                })
                .collect::<Vec<u32>>()
        })
        .collect();
    let rounds = random.range(1, 5) as usize;
    let most = [
        random.pick(&[300, 1_000, 10_000]),
        random.pick(&[100, 150, 400]),
    ];
    let schedule = falling_factors(random, rounds, most);
    let mut job = Job::new(
        &plan,
        start,
        goal,
        anchor,
        guides,
        guide_count,
        schedule,
        u32::MAX,
    );
    job.barred = random_barred(random, &plan);
    (plan, job)
}

/// A job so far and dear that guides expand vertices even at the greatest
/// numbers, W1 being low and W2 high; they have no opinion on some.
pub fn far_job(random: &mut Random) -> (Plan, Job) {
    let shape = random.pick(&[Shape::Ladder, Shape::Grid, Shape::Dense]);
    let mut plan = random_graph(random, shape);
    let least = random.pick(&[MOST_COST - 9, MOST_COST / 2]);
    plan.costs.fill_with(|| random.range32(least, MOST_COST));
    let mut job = job_on(random, &plan);
    let mut wish = vec![u32::MAX; plan.vertices as usize];
    wish[job.goal as usize] = 0;
    job.anchor = dijkstra::consistent_table(&plan, &wish);
    job.guide_count = random.range32(1, 3);
    let spread = random.pick(&[0, 3, MOST_COST, 50 * MOST_COST]);
    job.guides = (0..job.guide_count * plan.vertices)
        .map(|_| MOST_OPINION - random.range32(0, spread))
        .collect();
    let hundredths = random.pick(&[10, 30, 50, 80]);
    take_opinions(random, &mut job, hundredths);
    let rounds = random.range(1, 3) as usize;
    let most = [random.pick(&[100, 120, 200]), 10_000];
    job.schedule = falling_factors(random, rounds, most);
    (plan, job)
}

/// A floor with a blind alley that its only guide praises. From the start two
/// edges of cost 0 lead to the true way, so that the anchor's least key stays
/// at w1 times the cheapest cost while the guide goes into the alley, which
/// leaves the first or the second vertex. From the alley's end an edge leads
/// to the goal, of class 1, which is barred.
#[derive(Clone, Debug)]
pub struct Alley {
    /// The cost of the cheapest walk.
    pub cheapest: u32,
    /// The vertex that the alley leaves, 0 or 1, and its edges' costs.
    pub from: u32,
    pub steps: Vec<u32>,
    /// A dear edge from the start to the goal.
    pub dear: Option<u32>,
    /// The guide's number on the true way; in the alley it has 0.
    pub number: u32,
    pub schedule: Vec<u32>,
}

impl Alley {
    pub fn goal(&self) -> u32 {
        2 + parts(self.cheapest).len() as u32
    }

    /// The vertex at the end of so many steps of the alley.
    pub fn vertex(&self, steps: usize) -> u32 {
        self.goal() + steps as u32
    }

    /// The cost of each permitted edge, by tail and head.
    fn edges(&self) -> BTreeMap<(u32, u32), u32> {
        let mut edges = BTreeMap::from([((0, 1), 0), ((1, 2), 0)]);
        let goal = self.goal();
        edges.extend((2..).map(|tail| (tail, tail + 1)).zip(parts(self.cheapest)));
        let tails = std::iter::once(self.from).chain(goal + 1..);
        edges.extend(tails.zip(goal + 1..).zip(self.steps.iter().copied()));
        edges.extend(self.dear.map(|cost| ((0, goal), cost)));
        edges
    }

    pub fn plan(&self) -> Plan {
        let mut edges = self.edges();
        let barred = (self.vertex(self.steps.len()), self.goal());
        edges.insert(barred, 1);
        Plan {
            vertices: self.vertex(self.steps.len()) + 1,
            tails: edges.keys().map(|pair| pair.0).collect(),
            heads: edges.keys().map(|pair| pair.1).collect(),
            costs: edges.values().copied().collect(),
            classes: edges
                .keys()
                .map(|&pair| u32::from(pair == barred))
                .collect(),
        }
    }

    pub fn job(&self) -> (Plan, Job) {
        let (plan, goal) = (self.plan(), self.goal());
        let mut wish = vec![u32::MAX; plan.vertices as usize];
        wish[goal as usize] = 0;
        let anchor = dijkstra::consistent_table(&plan, &wish);
        let sheet = (0..plan.vertices).map(|vertex| match vertex {
            _ if vertex <= self.from || vertex > goal => 0,
            _ => self.number,
        });
        let (sheet, schedule) = (sheet.collect(), self.schedule.clone());
        let mut job = Job::new(&plan, 0, goal, anchor, sheet, 1, schedule, u32::MAX);
        job.barred = 1 << 1;
        (plan, job)
    }
}

/// An alley with a vertex at exactly w1·w2 times the cheapest cost in the
/// round that the guide goes into it, or one dearer by 1, and with one behind.
/// That is the first round, or the second one where a dear edge finishes the
/// first. Some costs pass 32 bits.
pub fn random_alley(random: &mut Random) -> Alley {
    let far = random.one_in(30);
    let least = if far { 20 } else { 10 };
    let [w1, w2] = [(); 2].map(|()| 10 * random.range32(least, 50));
    let product = w1 * w2;
    let least = (1..).find(|least| product * least % 10_000 == 0);
    let most = random.pick(&[5, 1_000, 20_000]);
    let mut cheapest = least.expect("10,000 is one") * random.range32(1, most);
    if far {
        cheapest += (u32::MAX / product + 1) * 10_000;
    }
    let lead = u64::from(product) * u64::from(cheapest) / 10_000;
    let mut steps = Vec::new();
    let mut left = lead + u64::from(random.one_in(3));
    while left > 0 {
        let most = left.min(MOST_COST.into()) as u32;
        let short = !far && random.one_in(2);
        steps.push(if short { random.range32(1, most) } else { most });
        left -= u64::from(steps[steps.len() - 1]);
    }
    steps.push(random.range32(1, 9));
    let mut alley = Alley {
        cheapest,
        from: random.range32(0, 1),
        steps,
        dear: None,
        number: random.pick(&[MOST_OPINION, NO_OPINION]),
        schedule: vec![w1, w2],
    };
    let dear = lead + random.range(1, lead.min(1_000));
    if random.one_in(2) && dear <= MOST_COST.into() {
        (alley.from, alley.dear) = (1, Some(dear as u32));
        alley.schedule = vec![2 * w1, 2 * w2, w1, w2];
    }
    alley
}

/// Jobs on alleys: each with a budget that never runs out, and with one that
/// cuts a round.
pub fn alley_jobs(seed: u64, count: usize, sink: &mut dyn FnMut(&Plan, &Job)) {
    let mut random = Random::new(seed);
    for _ in 0..count {
        let (plan, mut job) = random_alley(&mut random).job();
        sink(&plan, &job);
        job.budget = random.range32(0, plan.vertices);
        sink(&plan, &job);
    }
}

/// A cost as the sum of edges' costs, one of them at least.
fn parts(cost: u32) -> Vec<u32> {
    let (whole, rest) = (cost / MOST_COST, cost % MOST_COST);
    let mut parts = vec![MOST_COST; whole as usize];
    if rest > 0 || parts.is_empty() {
        parts.push(rest);
    }
    parts
}

/// The turns after which rounds end, with a budget that never runs out.
pub fn ends_of_rounds(job: &Job) -> Vec<u32> {
    let mut job = job.clone();
    job.budget = u32::MAX;
    let (_, events) = job.events();
    events
        .into_iter()
        .filter_map(|event| match event {
            Event::Finish { turns, .. } | Event::NoRoute { turns, .. } => Some(turns),
            _ => None,
        })
        .collect()
}

/// Valid jobs of all shapes, with any default schedules: each with a budget
/// that never runs out and with budgets at, before and after the ends of its
/// rounds.
pub fn valid_jobs(seed: u64, count: usize, sink: &mut dyn FnMut(&Plan, &Job)) {
    let mut defaults = defaults(seed);
    let mut hand = |job: &mut Job| hand_default(&mut defaults, job);
    handed_jobs(seed, count, &mut hand, sink);
}

/// The same with what each is handed.
fn handed_jobs(
    seed: u64,
    count: usize,
    hand: &mut dyn FnMut(&mut Job),
    sink: &mut dyn FnMut(&Plan, &Job),
) {
    let mut random = Random::new(seed);
    for _ in 0..count {
        let job = match random.below(7) {
            0 => twisted_job(&mut random),
            1 => detour_job(&mut random),
            2 => steep_job(&mut random),
            3 => far_job(&mut random),
            _ => {
                let shape = random.pick(&SHAPES);
                random_job(&mut random, shape)
            }
        };
        let job = dearer(&mut random, job);
        let (plan, mut job) = with_fewer_opinions(&mut random, job);
        hand(&mut job);
        sink(&plan, &job);
        for budget in random_budgets(&mut random, &job) {
            job.budget = budget;
            sink(&plan, &job);
        }
    }
}

/// Up to six budgets, most of them at, before and after the ends of rounds.
fn random_budgets(random: &mut Random, job: &Job) -> Vec<u32> {
    let mut budgets = Vec::new();
    for end in ends_of_rounds(job) {
        budgets.extend([end.saturating_sub(1), end, end + 1]);
    }
    budgets.extend([0, 1]);
    if let Some(&last) = budgets.iter().max() {
        budgets.push(random.range32(0, last));
    }
    budgets.sort_unstable();
    budgets.dedup();
    while budgets.len() > 6 {
        budgets.remove(random.index(budgets.len()));
    }
    budgets
}

/// The least cost of an edge on a long path; 269 of them pass 32 bits.
const LONG_COST: u32 = 15_999_000;

/// A path of more than 269 edges near the greatest cost, so that a walk along
/// it passes 32 bits, with a few edges over one vertex and edges back.
fn long_path(random: &mut Random) -> (Plan, Vec<u32>) {
    let vertices = random.range32(274, 320);
    let tails: Vec<u32> = (0..vertices - 1).collect();
    let mut steps: Vec<(u32, u32)> = tails.iter().map(|&tail| (tail, tail + 1)).collect();
    let over = (0..random.index(4)).map(|_| random.pick(&tails[1..]) - 1);
    steps.extend(over.map(|tail| (tail, tail + 2)));
    let mut edges = Vec::new();
    for (tail, head) in steps {
        edges.push((tail, head, random.range32(LONG_COST, MOST_COST)));
        if random.one_in(80) {
            edges.push((head, random.range32(0, tail), random.range32(0, MOST_COST)));
        }
    }
    renumbered(random, vertices, &edges)
}

/// A job along a long path.
fn long_job(random: &mut Random) -> (Plan, Job) {
    let (plan, numbers) = long_path(random);
    let (start, goal) = (numbers[0], numbers[numbers.len() - 1]);
    let anchor = random_anchor(random, &plan, goal);
    let guide_count = random.range32(0, 2);
    let guides = (0..guide_count)
        .flat_map(|_| random_sheet(random, &plan, goal, &anchor))
        .collect();
    let rounds = random.range(1, 3) as usize;
    let most = [(); 2].map(|()| random.pick(&[100, 150, 500, 10_000]));
    let mut schedule = falling_factors(random, rounds, most);
    if random.one_in(2) {
        schedule[2 * rounds - 2..].fill(100);
    }
    let mut job = Job::new(
        &plan,
        start,
        goal,
        anchor,
        guides,
        guide_count,
        schedule,
        u32::MAX,
    );
    job.log_room = random.pick(&[0, 64, 700]);
    if random.one_in(4) {
        job.barred = random_barred(random, &plan);
    }
    (plan, job)
}

/// A job along a path twice as long, with cheaper ways beside some edges near
/// its front, over vertices of their own. The guide has no opinion on these,
/// or the greatest number, and later rounds find them.
fn gated_job(random: &mut Random) -> (Plan, Job) {
    let way = random.range32(560, 640);
    let gates = random.range32(1, 3);
    let mut edges: Vec<(u32, u32, u32)> = (1..way)
        .map(|head| (head - 1, head, random.range32(LONG_COST, MOST_COST)))
        .collect();
    for gate in way..way + gates {
        let tail = random.range32(30, 150);
        edges.push((tail, gate, random.range32(1_000_001, 2_097_152)));
        edges.push((gate, tail + 1, random.range32(1_000_001, 2_097_152)));
    }
    let (plan, numbers) = renumbered(random, way + gates, &edges);
    let mut sheet = vec![0; numbers.len()];
    for &gate in &numbers[way as usize..] {
        sheet[gate as usize] = random.pick(&[MOST_OPINION, NO_OPINION, NO_OPINION]);
    }
    let rounds = random.range(1, 8) as usize;
    let mut schedule = vec![100, 10_000];
    schedule.extend(falling_factors(random, rounds, [100, 1_000]));
    let (start, goal) = (numbers[0], numbers[way as usize - 1]);
    let anchor = vec![0; numbers.len()];
    let mut job = Job::new(&plan, start, goal, anchor, sheet, 1, schedule, u32::MAX);
    job.log_room = random.pick(&[0, 700, 3_000]);
    (plan, job)
}

/// Valid jobs along long paths, larger than a bench job: each with a budget
/// that never runs out, with one that cuts the path, and with one near the
/// end of a round.
pub fn long_jobs(seed: u64, count: usize, sink: &mut dyn FnMut(&Plan, &Job)) {
    let (mut random, mut defaults) = (Random::new(seed), defaults(seed));
    for _ in 0..count {
        let (plan, mut job) = match random.one_in(3) {
            true => gated_job(&mut random),
            false => {
                let job = long_job(&mut random);
                with_fewer_opinions(&mut random, job)
            }
        };
        hand_default(&mut defaults, &mut job);
        sink(&plan, &job);
        let ends = ends_of_rounds(&job);
        let end = random.pick(&ends);
        job.budget = random.range32(end.saturating_sub(1), end + 1);
        sink(&plan, &job);
        job.budget = random.range32(260, 280);
        sink(&plan, &job);
    }
}

/// The refusals that a call can give.
pub const CALL_REFUSALS: [u32; 14] = [1, 2, 3, 4, 5, 6, 7, 15, 8, 9, 10, 11, 12, 13];

/// Whether a refusal is one of the plan's, which count before the call's.
fn is_of_plan(number: u32) -> bool {
    number <= 7 || number == 15
}

/// The plan's bytes damaged for one of its refusals; the position.
fn damage_plan(random: &mut Random, plan: &Plan, job: &mut Job, number: u32) -> Option<usize> {
    for _ in 0..200 {
        let (bytes, figures, _) = generate::damage(random, plan);
        if figures[0] == u64::from(number) {
            job.bytes = bytes;
            return Some(figures[1] as usize);
        }
    }
    None
}

/// Start or goal not a vertex, or a barred number above 255.
fn damage_ends(random: &mut Random, plan: &Plan, job: &mut Job) {
    let mut outside = |first: u32| match random.one_in(2) {
        true => first,
        false => random.range32(first, u32::MAX),
    };
    let (place, barred) = (outside(plan.vertices), outside(planner::MOST_BARRED + 1));
    match random.below(3) {
        0 => job.start = place,
        1 => job.goal = place,
        _ => job.barred = barred,
    }
}

/// Too many guides, or tables of another length.
fn damage_tables(random: &mut Random, plan: &Plan, job: &mut Job) {
    match random.below(6) {
        0 => {
            job.guide_count = 9;
            job.guides = vec![0; 9 * plan.vertices as usize];
        }
        1 => job.guide_count = random.range32(9, u32::MAX),
        2 => job.anchor.push(0),
        3 => drop(job.anchor.pop()),
        4 => job.guides.push(0),
        _ => {
            if job.guides.pop().is_none() {
                job.guides.push(1);
            }
        }
    }
}

/// A schedule too long, odd, out of range or rising.
fn damage_schedule(random: &mut Random, job: &mut Job) {
    match random.below(6) {
        0 => job.schedule = vec![100; 34],
        1 => {
            if job.schedule.pop().is_none() {
                job.schedule.push(100);
            }
        }
        2 if !job.schedule.is_empty() => {
            let index = random.index(job.schedule.len());
            job.schedule[index] = random.pick(&[0, 1, 99, 10_001, 20_000, u32::MAX]);
        }
        3 => job.schedule = vec![200, 200, 200, 201],
        4 => job.schedule = vec![200, 200, 201, 200],
        _ => job.schedule = vec![300, 300, 100, 100, 101, 100],
    }
}

/// Route, work or wide memory too short.
fn damage_memory(random: &mut Random, plan: &Plan, job: &mut Job) {
    let vertices = plan.vertices as usize;
    let mut short = |needed: usize| match random.one_in(2) {
        true => needed - 1,
        false => random.index(needed),
    };
    let route = short(vertices);
    let work = short(planner::work_words(vertices, plan.edges()));
    let wide = short(planner::wide_numbers(vertices));
    match random.below(3) {
        0 => job.route_room = route,
        1 => job.work_room = work,
        _ => job.wide_room = wide,
    }
}

/// Raises the anchor table at one tail past the rule of one of its edges,
/// barred or not; the first edge that breaks the rule.
fn damage_rule(random: &mut Random, plan: &Plan, job: &mut Job) -> Option<usize> {
    let ends = |edge: usize| (plan.tails[edge] as usize, plan.heads[edge] as usize);
    let most = |edge: usize, anchor: &[u32]| {
        u64::from(plan.costs[edge]) + u64::from(anchor[plan.heads[edge] as usize])
    };
    let breakable: Vec<usize> = (0..plan.edges())
        .filter(|&edge| {
            let (tail, head) = ends(edge);
            let other = tail != head && tail != job.goal as usize;
            other && most(edge, &job.anchor) < u64::from(u32::MAX)
        })
        .collect();
    if breakable.is_empty() {
        return None;
    }
    let edge = random.pick(&breakable);
    let least = most(edge, &job.anchor) as u32 + 1;
    job.anchor[ends(edge).0] = if random.one_in(2) {
        least
    } else {
        random.range32(least, u32::MAX)
    };
    let breaks = |&edge: &usize| u64::from(job.anchor[ends(edge).0]) > most(edge, &job.anchor);
    (0..plan.edges()).find(breaks)
}

/// Damages a valid job so that it gets one of the call's refusals; the
/// position that its making decides. `None` if this job cannot be damaged so.
pub fn damage_job(random: &mut Random, plan: &Plan, job: &mut Job, number: u32) -> Option<usize> {
    match number {
        _ if is_of_plan(number) => return damage_plan(random, plan, job, number),
        8 => damage_ends(random, plan, job),
        9 => damage_tables(random, plan, job),
        10 => damage_schedule(random, job),
        11 => damage_memory(random, plan, job),
        12 => job.anchor[job.goal as usize] = random.pick(&[1, 2, 500, u32::MAX]),
        13 => return damage_rule(random, plan, job),
        _ => return None,
    }
    Some(0)
}

/// Jobs damaged for one refusal each, and sometimes for a later one as well,
/// which must not count. What row 10 refuses is the job's own schedule or the
/// default one.
pub fn damaged_jobs(seed: u64, count: usize, sink: &mut dyn FnMut(&Job, Answer)) {
    let (mut random, mut defaults) = (Random::new(seed), defaults(seed));
    for index in 0..count {
        let number = CALL_REFUSALS[index % CALL_REFUSALS.len()];
        let shape = random.pick(&SHAPES);
        let (plan, mut job) = random_job(&mut random, shape);
        // A later fault is done first and must not count.
        let next = if is_of_plan(number) { 8 } else { number + 1 };
        if next <= 12 && random.one_in(3) {
            let later = random.range32(next, 12);
            damage_job(&mut random, &plan, &mut job, later);
        }
        let Some(position) = damage_job(&mut random, &plan, &mut job, number) else {
            continue;
        };
        hand_default(&mut defaults, &mut job);
        if number == 10 && defaults.one_in(3) {
            (job.schedule, job.default_schedule) = (vec![], bad_default(&mut defaults));
        }
        sink(&job, Answer::Refused { number, position });
    }
}

/// Jobs with several faults at once, in any order, and with bytes changed at
/// random; what they get is not known from their making.
pub fn wild_jobs(seed: u64, count: usize, sink: &mut dyn FnMut(&Job)) {
    let (mut random, mut defaults) = (Random::new(seed), defaults(seed));
    for _ in 0..count {
        let shape = random.pick(&SHAPES);
        let job = random_job(&mut random, shape);
        let (plan, mut job) = with_fewer_opinions(&mut random, job);
        job.budget = random.pick(&[0, 1, 2, 5, 100, u32::MAX]);
        for _ in 0..random.below(4) {
            // Only call faults are laid one over another: the anchor's rows
            // need a goal and a table of V numbers.
            let whole = job.goal < plan.vertices && job.anchor.len() == plan.vertices as usize;
            let most = if whole { 13 } else { 11 };
            let number = match random.one_in(12) {
                true => 15,
                false => random.range32(8, most),
            };
            damage_job(&mut random, &plan, &mut job, number);
        }
        if random.one_in(3) {
            for _ in 0..random.range(1, 3) {
                let at = random.index(job.bytes.len());
                match random.below(4) {
                    0 => job.bytes[at] ^= 1 << random.below(8),
                    1 => job.bytes[at] = random.byte(),
                    2 if job.bytes.len() > 1 => drop(job.bytes.remove(at)),
                    _ => job.bytes.insert(at, random.byte()),
                }
            }
        }
        hand_default(&mut defaults, &mut job);
        if defaults.one_in(6) {
            job.default_schedule = bad_default(&mut defaults);
        }
        sink(&job);
    }
}

/// Small jobs with every budget from 0 to two turns past the last end of a
/// round.
pub fn every_budget(seed: u64, count: usize, sink: &mut dyn FnMut(&Plan, &Job)) {
    let (mut random, mut defaults) = (Random::new(seed), defaults(seed));
    for _ in 0..count {
        let job = match random.below(5) {
            0 => twisted_job(&mut random),
            1 => detour_job(&mut random),
            2 => steep_job(&mut random),
            3 => far_job(&mut random),
            _ => random_job(&mut random, Shape::Tiny),
        };
        let job = dearer(&mut random, job);
        let (plan, mut job) = with_fewer_opinions(&mut random, job);
        hand_default(&mut defaults, &mut job);
        let last = ends_of_rounds(&job).into_iter().max().unwrap_or(0);
        for budget in 0..=last + 2 {
            job.budget = budget;
            sink(&plan, &job);
        }
    }
}

/// Small jobs with every barred number from 0 to 255, and with some above.
pub fn every_barred(seed: u64, count: usize, sink: &mut dyn FnMut(&Job)) {
    let mut random = Random::new(seed);
    for index in 0..count {
        let job = random_job(&mut random, SHAPES[index % SHAPES.len()]);
        let (_, mut job) = with_fewer_opinions(&mut random, job);
        for barred in (0..=256).chain([257, 511, 512, 65_536, u32::MAX]) {
            job.barred = barred;
            sink(&job);
        }
    }
}

/// A fault of form in a bench job's bytes: each gets refusal 14 at 0, if no
/// earlier row of the table counts.
pub fn damage_bench(random: &mut Random, plan: &Plan, job: &Job) -> Vec<u8> {
    let mut bytes = job.bench_bytes();
    let head = {
        let mut length = Vec::new();
        generate::push_number(&mut length, job.bytes.len() as u32);
        length.len() + job.bytes.len()
    };
    match random.below(9) {
        // The bytes end early, anywhere.
        0 => bytes.truncate(random.index(bytes.len())),
        // Bytes left over.
        1 => bytes.push(random.byte()),
        // A number after the plan that is not shortest.
        2 => {
            let ends: Vec<usize> = (head..bytes.len()).filter(|&at| bytes[at] < 128).collect();
            let at = random.pick(&ends);
            bytes[at] += 128;
            bytes.insert(at + 1, 0);
        }
        // The plan's length is not shortest, or too large.
        3 => {
            bytes.drain(..head - job.bytes.len());
            let mut length = Vec::new();
            if random.one_in(2) {
                let least = bytes.len() as u32 + 1;
                let value = random.range32(least, u32::MAX);
                generate::push_number(&mut length, value);
            } else {
                generate::push_number(&mut length, job.bytes.len() as u32);
                *length.last_mut().unwrap() += 128;
                length.push(0);
            }
            bytes.splice(0..0, length);
        }
        // Too many rounds or guides.
        4 => {
            let mut other = job.clone();
            if random.one_in(2) {
                other.schedule = vec![100; 34];
            } else {
                other.guide_count = random.range32(9, 20);
                other.guides = vec![0; (other.guide_count * plan.vertices) as usize];
            }
            bytes = other.bench_bytes();
        }
        // A number over 32 bits or of six groups.
        5 | 6 => {
            let mut other = job.clone();
            other.budget = u32::MAX;
            bytes = other.bench_bytes();
            let most = [0xFF, 0xFF, 0xFF, 0xFF, 0x0F];
            let at = (head..bytes.len())
                .find(|&at| bytes[at..].starts_with(&most))
                .expect("the budget stands after the plan");
            if random.one_in(2) {
                bytes[at + 4] += 0x10 << random.below(3);
            } else {
                bytes[at + 4] += 128;
                bytes.insert(at + 5, random.range(0, 1) as u8);
            }
        }
        // Over 32,768 bytes, which counts before a plan of no vertices.
        7 => {
            bytes.resize(bench_text::MOST_JOB_BYTES + 1 + random.index(3), 0);
            if random.one_in(2) {
                bytes[head - job.bytes.len()] = 0;
            }
        }
        // Too many vertices or edges.
        _ => {
            let vertices = random.pick(&[257, 300, 4_096]);
            let edges = if random.one_in(2) { 5 } else { 2_049 };
            let plan = if random.one_in(2) {
                generate::random_plan(random, vertices, edges)
            } else {
                generate::random_plan(random, 256, 2_049)
            };
            let anchor = vec![0; plan.vertices as usize];
            bytes = Job::new(&plan, 0, 0, anchor, vec![], 0, vec![], 9).bench_bytes();
        }
    }
    bytes
}

/// One path through all vertices, each edge of the same cost.
pub fn whole_path(cost: u32) -> Plan {
    Plan {
        vertices: 4_096,
        tails: (0..4_095).collect(),
        heads: (1..4_096).collect(),
        costs: vec![cost; 4_095],
        classes: (0..4_095).map(|edge| edge % 8).collect(),
    }
}

/// Jobs on the path through all vertices, with tables of the least and of the
/// greatest numbers, and without opinion.
fn path_jobs(cost: u32, sink: &mut dyn FnMut(&Plan, &Job)) {
    let path = whole_path(cost);
    let to_goal: Vec<u32> = (0..4_096)
        .map(|vertex| narrowed((4_095 - vertex) * u64::from(cost)))
        .collect();
    let greatest = vec![MOST_OPINION; 4_096];
    let no_opinion = vec![NO_OPINION; 4_096];
    for (anchor, guides, guide_count, schedule) in [
        (vec![0; 4_096], vec![], 0, vec![100, 100]),
        (to_goal.clone(), greatest.clone(), 1, vec![10_000, 10_000]),
        (
            to_goal.clone(),
            vec![0; 4_096],
            1,
            vec![10_000, 10_000, 100, 100],
        ),
        (vec![0; 4_096], greatest, 1, vec![10_000, 100]),
        (to_goal, no_opinion.clone(), 1, vec![100, 10_000]),
        (vec![0; 4_096], no_opinion, 1, vec![100, 10_000, 100, 100]),
    ] {
        let mut job = Job::new(
            &path,
            0,
            4_095,
            anchor,
            guides,
            guide_count,
            schedule,
            u32::MAX,
        );
        job.log_room = 4_000;
        sink(&path, &job);
    }
}

/// Jobs at the limits: many vertices, many edges, costs whose sums come near
/// 32 bits and the greatest sums, tables of the greatest numbers, eight
/// guides, sixteen rounds.
pub fn large_jobs(seed: u64, sink: &mut dyn FnMut(&Plan, &Job)) {
    let mut random = Random::new(seed);
    path_jobs(1_000_000, sink);
    path_jobs(MOST_COST, sink);
    // Sixteen rounds and eight guides on the largest bench plan.
    let mut bench = connected(&mut random, 256);
    bench.costs.fill_with(|| random.range32(0, 99));
    for _ in 0..3 {
        let mut job = job_on(&mut random, &bench);
        job.barred = 1 << random.pick(&bench.classes);
        job.guide_count = 8;
        let sheets = (0..8).map(|_| random_sheet(&mut random, &bench, job.goal, &job.anchor));
        job.guides = sheets.collect::<Vec<_>>().concat();
        job.schedule = falling_factors(&mut random, 16, [1_000, 1_000]);
        job.log_room = 8_192;
        sink(&bench, &job);
    }
    // All vertices and all edges that a plan may have.
    let most = generate::random_plan(&mut random, 4_096, 32_768);
    for _ in 0..2 {
        let mut job = job_on(&mut random, &most);
        job.schedule = vec![300, 300, 150, 150];
        job.log_room = 9_000;
        sink(&most, &job);
    }
    // And all guides and rounds, with budgets around the ends of some rounds.
    let mut most = connected(&mut random, 4_096);
    most.costs.fill_with(|| random.range32(0, 999));
    let mut job = job_on(&mut random, &most);
    (job.start, job.goal, job.barred) = (17, 4_000, 0b10_0000);
    job.anchor = random_anchor(&mut random, &most, job.goal);
    job.guide_count = 8;
    let sheets = (0..8).map(|_| random_sheet(&mut random, &most, job.goal, &job.anchor));
    job.guides = sheets.collect::<Vec<_>>().concat();
    job.schedule = falling_factors(&mut random, 16, [1_000, 1_000]);
    job.schedule[30..].fill(100);
    job.log_room = 2 * 16 * 4_096;
    sink(&most, &job);
    for end in ends_of_rounds(&job).into_iter().step_by(5) {
        for budget in [end.saturating_sub(1), end, end + 1] {
            job.budget = budget;
            sink(&most, &job);
        }
    }
}

/// A plan in which every vertex has eight edges: a walk leads from almost
/// every vertex to almost every other.
fn connected(random: &mut Random, vertices: u32) -> Plan {
    let mut plan = Plan {
        costs: vec![0; 8 * vertices as usize],
        classes: (0..8 * vertices).map(|_| random.range32(0, 7)).collect(),
        ..Plan::without_edges(vertices)
    };
    for tail in 0..plan.vertices {
        let mut heads: Vec<u32> = Vec::new();
        while heads.len() < 8 {
            let head = random.range32(0, plan.vertices - 1);
            if !heads.contains(&head) {
                heads.push(head);
            }
        }
        heads.sort_unstable();
        plan.tails.extend([tail; 8]);
        plan.heads.extend(heads);
    }
    plan
}

/// Bytes for the bench program with the text that their making decides:
/// valid jobs, jobs damaged for each refusal that can be met there, changed
/// and random bytes. Bytes say no default schedule: the standard one stands.
pub fn bench_jobs(seed: u64, count: usize, sink: &mut dyn FnMut(&[u8], Option<String>)) {
    let mut random = Random::new(seed);
    let refused = |number: u32, position: usize| Some(format!("refused {number} at {position}\n"));
    let mut turn = 0;
    handed_jobs(seed ^ 0xB5, count, &mut |_| (), &mut |plan, job| {
        turn += 1;
        let mut job = job.clone();
        match turn % 5 {
            0 => sink(&damage_bench(&mut random, plan, &job), refused(14, 0)),
            1 => {
                let number = random.pick(&[1, 2, 3, 4, 5, 6, 7, 15, 8, 10, 12, 13]);
                let Some(position) = damage_job(&mut random, plan, &mut job, number) else {
                    return;
                };
                // An odd schedule cannot be written as a bench job, and one
                // that is too long is refused as 14.
                if job.schedule.len() % 2 == 1 || job.schedule.len() > 32 {
                    return;
                }
                // Tables that are short or leave bytes over count after the
                // plan's faults and before the call's.
                let tables = random.below(6);
                match tables {
                    0 => drop(job.anchor.pop()),
                    1 => job.anchor.push(0),
                    _ => {}
                }
                let mut bytes = job.bench_bytes();
                if is_of_plan(number) && tables == 2 {
                    bytes.resize(bench_text::MOST_JOB_BYTES, 0);
                }
                match is_of_plan(number) || tables >= 2 {
                    true => sink(&bytes, refused(number, position)),
                    false => sink(&bytes, refused(14, 0)),
                }
            }
            2 => {
                let mut bytes = job.bench_bytes();
                for _ in 0..random.range(1, 2) {
                    let at = random.index(bytes.len());
                    match random.below(4) {
                        0 => bytes[at] ^= 1 << random.below(8),
                        1 => bytes[at] = random.byte(),
                        2 if bytes.len() > 1 => drop(bytes.remove(at)),
                        _ => bytes.insert(at, bytes[at]),
                    }
                }
                sink(&bytes, None);
            }
            3 if random.one_in(4) => {
                let length = random.index(40);
                let bytes: Vec<u8> = (0..length).map(|_| random.byte() % 6).collect();
                sink(&bytes, None);
            }
            _ => sink(&job.bench_bytes(), None),
        }
    });
}
