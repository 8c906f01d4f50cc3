//! The bench program's text, written from the papers alone: a job is read
//! from its bytes, planned, and its turns and ending are printed.

use crate::planner::{self, Answer, Event, Fault, Memory, Request, STANDARD_SCHEDULE};
use crate::reference;

/// The most bytes of a bench job.
pub const MOST_JOB_BYTES: usize = 32_768;
/// The most vertices and edges of a bench job.
pub const MOST_BENCH_VERTICES: usize = 256;
pub const MOST_BENCH_EDGES: usize = 2_048;

/// A turn: its table and the vertex expanded.
pub type Turn = (u32, u32);

/// The numbers of a bench job up to its tables.
struct BenchJob<'a> {
    plan: &'a [u8],
    start: u32,
    goal: u32,
    barred: u32,
    budget: u32,
    schedule: Vec<u32>,
    guide_count: u32,
    /// The bytes of the tables.
    tables: &'a [u8],
}

/// A job's numbers, read from the front.
struct Numbers<'a> {
    bytes: &'a [u8],
}

impl<'a> Numbers<'a> {
    fn number(&mut self) -> Option<u32> {
        let (value, next) = reference::read_job_number(self.bytes, 0).ok()?;
        self.bytes = &self.bytes[next..];
        Some(value)
    }

    fn take(&mut self, length: u32) -> Option<&'a [u8]> {
        let (taken, rest) = self.bytes.split_at_checked(length as usize)?;
        self.bytes = rest;
        Some(taken)
    }
}

impl<'a> BenchJob<'a> {
    /// `None` is refusal 14.
    fn read(bytes: &'a [u8]) -> Option<BenchJob<'a>> {
        if bytes.len() > MOST_JOB_BYTES {
            return None;
        }
        let mut numbers = Numbers { bytes };
        let plan_length = numbers.number()?;
        let plan = numbers.take(plan_length)?;
        let (start, goal) = (numbers.number()?, numbers.number()?);
        let (barred, budget) = (numbers.number()?, numbers.number()?);
        let rounds = numbers.number()?;
        if rounds > 16 {
            return None;
        }
        let schedule = (0..2 * rounds)
            .map(|_| numbers.number())
            .collect::<Option<Vec<u32>>>()?;
        let guide_count = numbers.number()?;
        if guide_count > 8 {
            return None;
        }
        Some(BenchJob {
            plan,
            start,
            goal,
            barred,
            budget,
            schedule,
            guide_count,
            tables: numbers.bytes,
        })
    }

    /// Anchor table and guide sheets of a plan in range; `None` is refusal 14.
    fn read_tables(&self, vertices: usize, edges: usize) -> Option<(Vec<u32>, Vec<u32>)> {
        if vertices > MOST_BENCH_VERTICES || edges > MOST_BENCH_EDGES {
            return None;
        }
        let mut numbers = Numbers { bytes: self.tables };
        let mut table =
            |length: usize| -> Option<Vec<u32>> { (0..length).map(|_| numbers.number()).collect() };
        let anchor = table(vertices)?;
        let guides = table(vertices * self.guide_count as usize)?;
        numbers.bytes.is_empty().then_some((anchor, guides))
    }
}

/// What is printed of a refusal.
pub fn refused(number: u32, position: usize) -> String {
    format!("refused {number} at {position}\n")
}

/// A job's bytes as a planner call can take them: the bench program's own
/// refusals and the plan's do not apply.
pub struct Taken<'a> {
    job: BenchJob<'a>,
    vertices: usize,
    edges: usize,
    anchor: Vec<u32>,
    guides: Vec<u32>,
}

impl<'a> Taken<'a> {
    /// Reads a job, or gives the text that is printed of its refusal.
    pub fn read(bytes: &'a [u8]) -> Result<Taken<'a>, String> {
        let job = BenchJob::read(bytes).ok_or_else(|| refused(14, 0))?;
        let (vertices, edges) = match reference::check_plan(job.plan) {
            Ok((vertices, edges)) => (vertices as usize, edges as usize),
            Err(refusal) => return Err(refused(refusal.number, refusal.position)),
        };
        let tables = job.read_tables(vertices, edges);
        let (anchor, guides) = tables.ok_or_else(|| refused(14, 0))?;
        Ok(Taken {
            job,
            vertices,
            edges,
            anchor,
            guides,
        })
    }

    pub fn request(&self) -> Request<'_> {
        Request {
            bytes: self.job.plan,
            start: self.job.start,
            goal: self.job.goal,
            barred: self.job.barred,
            anchor: &self.anchor,
            guides: &self.guides,
            guide_count: self.job.guide_count,
            schedule: &self.job.schedule,
            default_schedule: &STANDARD_SCHEDULE,
            budget: self.job.budget,
        }
    }

    /// Makes a call that is lent enough memory and no log: its answer, and
    /// what it leaves in route memory.
    pub fn call<A>(&self, call: impl FnOnce(&Request, Memory) -> A) -> (A, Vec<u32>) {
        let mut route = vec![0; self.vertices];
        let mut work = vec![0; planner::work_words(self.vertices, self.edges)];
        let mut wide = vec![0; planner::wide_numbers(self.vertices)];
        let memory = Memory {
            route: &mut route,
            log: &mut [],
            work: &mut work,
            wide: &mut wide,
        };
        let answer = call(&self.request(), memory);
        (answer, route)
    }
}

/// What the bench program prints for a job's bytes.
pub fn bench_text(bytes: &[u8]) -> String {
    bench_text_by(bytes, None)
}

/// What the bench program prints for a job's bytes, with a fault if one is
/// wanted. The turns are those that the planner itself names: it is lent no
/// log.
pub fn bench_text_by(bytes: &[u8], fault: Option<Fault>) -> String {
    let taken = match Taken::read(bytes) {
        Ok(taken) => taken,
        Err(refused) => return refused,
    };
    let mut turns = Vec::new();
    let (answer, route) = taken.call(|request, memory| {
        planner::plan_observed(request, memory, fault, &mut |event| {
            if let Event::Turn { table, vertex, .. } = event {
                turns.push((table, vertex));
            }
        })
    });
    answer_text(&answer, &route, &turns)
}

/// The first turns that a log shows.
pub fn logged(log: &[u32], turns: usize) -> Vec<Turn> {
    let turn = |word: &u32| (word / 65_536, word % 65_536);
    log.iter().take(turns).map(turn).collect()
}

/// What is printed of an answer: a line for each turn, then how the call
/// ended.
pub fn answer_text(answer: &Answer, route: &[u32], turns: &[Turn]) -> String {
    let mut text = String::new();
    for (number, (table, vertex)) in (1..).zip(turns) {
        text.push_str(&format!("turn {number} table {table} place {vertex}\n"));
    }
    match *answer {
        Answer::Refused { number, position } => refused(number, position),
        Answer::Route {
            cost,
            length,
            rounds,
            turns,
            bound,
        } => {
            text.push_str("route");
            for vertex in &route[..length as usize] {
                text.push_str(&format!(" {vertex}"));
            }
            text + &format!("\nend cost {cost} rounds {rounds} turns {turns} bound {bound}\n")
        }
        Answer::NoRoute { turns } => text + &format!("no route turns {turns}\n"),
        Answer::Unfinished { turns } => text + &format!("unfinished turns {turns}\n"),
    }
}
