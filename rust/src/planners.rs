//! Planners under comparison: the library, the second planner and faulty
//! ones. One job runs on two of them, and figures, text and the whole lent
//! memory are compared, the words around it included.

use crate::bench_text::{self, logged, Turn};
use crate::default_schedule::{DefaultSchedule, Numbers};
use crate::ffi;
use crate::guarded::{Guarded, GUARD};
use crate::jobs::Job;
use crate::planner::{self, Answer, Fault, Figures, Memory, Request};
use crate::reference::LAST_REFUSAL;

/// The planner call and the bench program's text.
pub trait Planner {
    fn plan(&self, request: &Request, memory: Memory) -> Figures;

    /// The length of the printed text; its first bytes are written as far as
    /// there is room.
    fn bench_text(&self, job: &[u8], text: &mut [u8]) -> usize;
}

/// Who keeps a site's default schedule, in lent numbers and a lent count.
pub trait Loader {
    /// The default schedule until a sheet is accepted.
    fn standard_schedule(&self, numbers: &mut Numbers, count: &mut u32);

    /// Loads a sheet: 0, or the refusal's number.
    fn load_default_schedule(&self, sheet: &[u32], numbers: &mut Numbers, count: &mut u32) -> u32;
}

/// The whole text that a planner prints for a job's bytes.
pub fn printed(planner: &dyn Planner, job: &[u8]) -> String {
    let mut text = vec![0; planner.bench_text(job, &mut [])];
    planner.bench_text(job, &mut text);
    String::from_utf8(text).expect("a printed text has plain letters")
}

/// The library under test.
pub struct Library;

impl Planner for Library {
    fn plan(&self, request: &Request, memory: Memory) -> Figures {
        ffi::plan(request, memory)
    }

    fn bench_text(&self, job: &[u8], text: &mut [u8]) -> usize {
        ffi::bench_text(job, text)
    }
}

impl Loader for Library {
    fn standard_schedule(&self, numbers: &mut Numbers, count: &mut u32) {
        ffi::standard_schedule(numbers, count);
    }

    fn load_default_schedule(&self, sheet: &[u32], numbers: &mut Numbers, count: &mut u32) -> u32 {
        ffi::load_default_schedule(sheet, numbers, count)
    }
}

/// Writes the first bytes of a text as far as there is room.
pub fn write_text(printed: &str, text: &mut [u8]) -> usize {
    let written = printed.len().min(text.len());
    text[..written].copy_from_slice(&printed.as_bytes()[..written]);
    printed.len()
}

/// The second planner.
pub struct SecondPlanner;

impl Planner for SecondPlanner {
    fn plan(&self, request: &Request, memory: Memory) -> Figures {
        planner::plan(request, memory).figures()
    }

    fn bench_text(&self, job: &[u8], text: &mut [u8]) -> usize {
        write_text(&bench_text::bench_text(job), text)
    }
}

impl Loader for SecondPlanner {
    fn standard_schedule(&self, numbers: &mut Numbers, count: &mut u32) {
        let standard = DefaultSchedule::standard();
        (*numbers, *count) = (standard.numbers, standard.count);
    }

    fn load_default_schedule(&self, sheet: &[u32], numbers: &mut Numbers, count: &mut u32) -> u32 {
        let mut schedule = DefaultSchedule {
            numbers: *numbers,
            count: *count,
        };
        let refusal = schedule.load(sheet);
        (*numbers, *count) = (schedule.numbers, schedule.count);
        refusal
    }
}

/// The second planner with a fault.
pub struct FaultyPlanner(pub Fault);

impl Planner for FaultyPlanner {
    fn plan(&self, request: &Request, memory: Memory) -> Figures {
        planner::plan_observed(request, memory, Some(self.0), &mut |_| ()).figures()
    }

    fn bench_text(&self, job: &[u8], text: &mut [u8]) -> usize {
        write_text(&bench_text::bench_text_by(job, Some(self.0)), text)
    }
}

/// A call's figures, the memory it was lent and the memory it read, guards
/// included.
#[derive(Clone, Debug, PartialEq, Eq)]
pub struct Outcome {
    pub figures: Figures,
    pub route: Vec<u32>,
    pub log: Vec<u32>,
    pub work: Vec<u32>,
    pub wide: Vec<u64>,
    /// The plan's bytes; anchor table, guide sheets, schedule and default
    /// schedule.
    pub bytes: Vec<u8>,
    pub numbers: [Vec<u32>; 4],
}

impl Outcome {
    /// The answer that the figures give.
    pub fn answer(&self) -> Answer {
        Answer::of_figures(self.figures).expect("figures of an answer")
    }

    /// The turns that the log shows.
    pub fn turns(&self) -> Vec<Turn> {
        let [.., turns, _] = self.figures;
        let log = &self.log[GUARD..self.log.len() - GUARD];
        logged(log, turns as usize)
    }
}

/// The memory that a job's call is lent.
pub struct Lent {
    pub route: Guarded<u32>,
    pub log: Guarded<u32>,
    pub work: Guarded<u32>,
    pub wide: Guarded<u64>,
}

impl Lent {
    /// The memory as it is before a call.
    pub fn before(job: &Job, salt: u64) -> Lent {
        Lent {
            route: Guarded::with_room(job.route_room, 3 * salt),
            log: Guarded::with_room(job.log_room, 3 * salt + 1),
            work: Guarded::with_room(job.work_room, 3 * salt + 2),
            wide: Guarded::with_room(job.wide_room, salt),
        }
    }

    /// Whether a call left all of it as it was.
    pub fn is_untouched(&self, outcome: &Outcome) -> bool {
        let words = [&self.route, &self.log, &self.work].map(|lent| &lent.all);
        words == [&outcome.route, &outcome.log, &outcome.work] && self.wide.all == outcome.wide
    }

    fn memory(&mut self) -> Memory<'_> {
        Memory {
            route: self.route.lent_mut(),
            log: self.log.lent_mut(),
            work: self.work.lent_mut(),
            wide: self.wide.lent_mut(),
        }
    }
}

/// Runs a job in guarded memory; `salt` selects the pattern that fills it.
pub fn run(planner: &dyn Planner, job: &Job, salt: u64) -> Outcome {
    run_by(job, salt, |request, memory| planner.plan(request, memory))
}

/// The same with any call that leaves the figures of a planner call.
pub fn run_by(job: &Job, salt: u64, call: impl FnOnce(&Request, Memory) -> Figures) -> Outcome {
    let bytes = Guarded::with_contents(&job.bytes, salt);
    let anchor = Guarded::with_contents(&job.anchor, salt);
    let guides = Guarded::with_contents(&job.guides, salt);
    let schedule = Guarded::with_contents(&job.schedule, salt);
    let default_schedule = Guarded::with_contents(&job.default_schedule, salt);
    let mut lent = Lent::before(job, salt);
    let request = Request {
        bytes: bytes.lent(),
        anchor: anchor.lent(),
        guides: guides.lent(),
        schedule: schedule.lent(),
        default_schedule: default_schedule.lent(),
        ..job.request()
    };
    let figures = call(&request, lent.memory());
    Outcome {
        figures,
        route: lent.route.all,
        log: lent.log.all,
        work: lent.work.all,
        wide: lent.wide.all,
        bytes: bytes.all,
        numbers: [anchor, guides, schedule, default_schedule].map(|lent| lent.all),
    }
}

/// The length of a printed text, its memory and the job's bytes, guards
/// included.
#[derive(Clone, Debug, PartialEq, Eq)]
pub struct TextOutcome {
    pub length: usize,
    pub text: Vec<u8>,
    pub job: Vec<u8>,
}

/// Runs the bench program's text in guarded memory.
pub fn run_text(planner: &dyn Planner, bytes: &[u8], room: usize, salt: u64) -> TextOutcome {
    run_text_by(bytes, room, salt, |job, text| planner.bench_text(job, text))
}

/// The same with any call that writes a text of a job's bytes.
pub fn run_text_by(
    bytes: &[u8],
    room: usize,
    salt: u64,
    call: impl FnOnce(&[u8], &mut [u8]) -> usize,
) -> TextOutcome {
    let job = Guarded::with_contents(bytes, salt);
    let mut text = Guarded::with_room(room, salt);
    let length = call(job.lent(), text.lent_mut());
    TextOutcome {
        length,
        text: text.all,
        job: job.all,
    }
}

/// The kinds of ending that are not a refusal; a refusal's kind is its number.
pub const ROUTE: usize = 0;
pub const NO_ROUTE: usize = LAST_REFUSAL as usize + 1;
pub const UNFINISHED: usize = NO_ROUTE + 1;
/// How many kinds of ending there are.
pub const KINDS: usize = UNFINISHED + 1;

/// Whether a kind of ending is a refusal.
pub fn is_refusal(kind: usize) -> bool {
    (1..NO_ROUTE).contains(&kind)
}

/// The kind of ending that figures tell.
pub fn kind_of(figures: &Figures) -> usize {
    match Answer::of_figures(*figures).expect("figures of an answer") {
        Answer::Route { .. } => ROUTE,
        Answer::NoRoute { .. } => NO_ROUTE,
        Answer::Unfinished { .. } => UNFINISHED,
        Answer::Refused { number, .. } => number as usize,
    }
}

/// The kind of ending that a printed text tells, an explanation's too.
pub fn kind_of_text(text: &str) -> usize {
    let is_listed = |line: &&str| line.starts_with("reach ") || line.starts_with("barred lane ");
    let mut lines = text.lines().rev().skip_while(is_listed);
    let last = lines.next().expect("a text has a line");
    let words: Vec<&str> = last.split(' ').collect();
    match words[..] {
        ["refused", number, "at", _] => number.parse().expect("a refusal has a number"),
        ["end", "cost", _, "rounds", _, "turns", _, "bound", _] => ROUTE,
        ["no", "route", "turns", _] => NO_ROUTE,
        ["unfinished", "turns", _] => UNFINISHED,
        _ => panic!("an ending that the paper does not name: {last}"),
    }
}

/// A text of bounded length for a failed comparison.
pub fn shortened(mut text: String) -> String {
    if text.len() > 3_000 {
        text.truncate(3_000);
        text.push_str("...");
    }
    text
}

/// Compares two planners job by job and counts what was seen.
pub struct Comparison<'a> {
    left: &'a dyn Planner,
    right: &'a dyn Planner,
    pub jobs: u64,
    pub texts: u64,
    /// Jobs and texts by their kind of ending, as the right side gives it.
    pub job_kinds: [u64; KINDS],
    pub text_kinds: [u64; KINDS],
}

impl<'a> Comparison<'a> {
    pub fn new(left: &'a dyn Planner, right: &'a dyn Planner) -> Self {
        Comparison {
            left,
            right,
            jobs: 0,
            texts: 0,
            job_kinds: [0; KINDS],
            text_kinds: [0; KINDS],
        }
    }

    /// Runs one job on both sides; gives a text if they differ, or if the
    /// left side differs from the answer known from the job's making.
    pub fn job_differs(&mut self, job: &Job, known: Option<Answer>) -> Option<String> {
        let salt = self.jobs;
        let left = run(self.left, job, salt);
        let right = run(self.right, job, salt);
        self.jobs += 1;
        self.job_kinds[kind_of(&right.figures)] += 1;
        if let Some(known) = known {
            if left.figures != known.figures() {
                return Some(shortened(format!(
                    "figures {:?}, by the job's making {known:?}: {job:02X?}",
                    left.figures
                )));
            }
        }
        let differing = [
            ("figures", left.figures != right.figures),
            ("route memory", left.route != right.route),
            ("log memory", left.log != right.log),
            ("work memory", left.work != right.work),
            ("wide memory", left.wide != right.wide),
            ("what a call only reads", left != right),
        ];
        let (name, _) = differing.into_iter().find(|&(_, differs)| differs)?;
        Some(shortened(format!(
            "{name} differ: {:?} and {:?}: {job:02X?}",
            left.figures, right.figures
        )))
    }

    /// Runs the bench program's text on both sides, with room to spare and
    /// with a room up to the text's length; gives a text if they differ.
    pub fn text_differs(&mut self, bytes: &[u8], known: Option<&str>) -> Option<String> {
        let salt = self.texts;
        let length = self.right.bench_text(bytes, &mut []);
        let less = match salt % 4 {
            0 => length,
            1 => length - 1,
            2 => salt as usize * 7 % length,
            _ => 0,
        };
        self.texts += 1;
        for room in [length + 1 + salt as usize % 40, less] {
            let left = run_text(self.left, bytes, room, salt);
            let right = run_text(self.right, bytes, room, salt);
            let lent = |outcome: &TextOutcome| {
                let all = Guarded {
                    all: outcome.text.clone(),
                };
                String::from_utf8_lossy(&all.lent()[..room.min(length)]).into_owned()
            };
            if room > length {
                let printed = lent(&right);
                self.text_kinds[kind_of_text(&printed)] += 1;
                if known.is_some_and(|known| known != lent(&left)) {
                    return Some(shortened(format!(
                        "printed {:?}, by the job's making {known:?}: {bytes:02X?}",
                        lent(&left)
                    )));
                }
            }
            if left != right {
                return Some(shortened(format!(
                    "texts of length {} and {} in {room} bytes differ: {:?} and {:?}: {bytes:02X?}",
                    left.length,
                    right.length,
                    lent(&left),
                    lent(&right)
                )));
            }
        }
        None
    }

    /// Runs one job on both sides and panics if they differ.
    pub fn job(&mut self, job: &Job, known: Option<Answer>) {
        if let Some(text) = self.job_differs(job, known) {
            panic!("job {}: {text}", self.jobs - 1);
        }
    }

    /// Runs the bench program's text on both sides and panics if they differ.
    pub fn text(&mut self, bytes: &[u8], known: Option<&str>) {
        if let Some(text) = self.text_differs(bytes, known) {
            panic!("text {}: {text}", self.texts - 1);
        }
    }

    /// Prints how many jobs and texts were compared, by their ending.
    pub fn report(&self, name: &str) {
        let met = |kinds: &[u64; KINDS]| {
            let met: Vec<String> = (0..)
                .zip(kinds)
                .filter(|&(_, &count)| count > 0)
                .map(|(kind, count)| match kind {
                    ROUTE => format!("route {count}"),
                    NO_ROUTE => format!("no route {count}"),
                    UNFINISHED => format!("unfinished {count}"),
                    number => format!("refusal {number}: {count}"),
                })
                .collect();
            met.join(", ")
        };
        if self.jobs > 0 {
            println!("{name}: {} jobs: {}", self.jobs, met(&self.job_kinds));
        }
        if self.texts > 0 {
            println!("{name}: {} texts: {}", self.texts, met(&self.text_kinds));
        }
    }
}

/// Lent memory as it was before a call, for planners that spoil it.
pub struct Before {
    pub route: Vec<u32>,
    pub log: Vec<u32>,
    pub work: Vec<u32>,
    pub wide: Vec<u64>,
}

impl Before {
    pub fn of(memory: &Memory) -> Before {
        Before {
            route: memory.route.to_vec(),
            log: memory.log.to_vec(),
            work: memory.work.to_vec(),
            wide: memory.wide.to_vec(),
        }
    }

    pub fn restore(&self, memory: &mut Memory) {
        memory.route.copy_from_slice(&self.route);
        memory.log.copy_from_slice(&self.log);
        memory.work.copy_from_slice(&self.work);
        memory.wide.copy_from_slice(&self.wide);
    }
}

#[cfg(test)]
mod tests {
    use super::*;
    use crate::jobs;
    use crate::random::Random;

    #[test]
    fn an_outcome_holds_the_guards() {
        let (_, mut job) = jobs::random_job(&mut Random::new(1), jobs::Shape::Tiny);
        job.log_room = 3;
        let outcome = run(&SecondPlanner, &job, 4);
        assert_eq!(outcome.route.len(), job.route_room + 2 * GUARD);
        assert_eq!(outcome.log.len(), 3 + 2 * GUARD);
        assert_eq!(outcome.work.len(), job.work_room + 2 * GUARD);
        assert_eq!(outcome.wide.len(), job.wide_room + 2 * GUARD);
        let before = Lent::before(&job, 4);
        fn guards<T: Copy>(all: &[T]) -> [&[T]; 2] {
            [&all[..GUARD], &all[all.len() - GUARD..]]
        }
        assert_eq!(guards(&outcome.route), guards(&before.route.all));
        assert_eq!(guards(&outcome.log), guards(&before.log.all));
        assert_eq!(guards(&outcome.work), guards(&before.work.all));
        assert_eq!(guards(&outcome.wide), guards(&before.wide.all));
        assert!(!before.is_untouched(&outcome));
    }

    /// The second planner, and one bit of wide memory changed after it.
    struct Changed {
        index: usize,
        bit: u32,
    }

    impl Planner for Changed {
        fn plan(&self, request: &Request, memory: Memory) -> Figures {
            let Memory {
                route,
                log,
                work,
                wide,
            } = memory;
            let lent = Memory {
                route,
                log,
                work,
                wide: &mut wide[..],
            };
            let figures = SecondPlanner.plan(request, lent);
            wide[self.index] ^= 1 << self.bit;
            figures
        }

        fn bench_text(&self, job: &[u8], text: &mut [u8]) -> usize {
            SecondPlanner.bench_text(job, text)
        }
    }

    /// A change of one bit is seen in every number of wide memory, also in
    /// those past the ones that the call needs.
    #[test]
    fn every_wide_number_is_compared() {
        let (_, mut job) = jobs::random_job(&mut Random::new(2), jobs::Shape::Grid);
        job.wide_room += 3;
        let changes = (0..job.wide_room).flat_map(|index| {
            let bits = [0, 31, 32, 63].into_iter();
            bits.map(move |bit| Changed { index, bit })
        });
        for changed in changes {
            let mut comparison = Comparison::new(&changed, &SecondPlanner);
            let words = comparison.job_differs(&job, None).expect("a difference");
            assert!(words.starts_with("wide memory differ: "), "{words}");
        }
    }

    #[test]
    fn figures_are_those_of_an_answer_or_of_none() {
        for answer in [
            Answer::Route {
                cost: 1,
                length: 2,
                rounds: 3,
                turns: 4,
                bound: 5,
            },
            Answer::Route {
                cost: 65_520_000_000,
                length: 4_096,
                rounds: 16,
                turns: u32::MAX,
                bound: 100_000_000,
            },
            Answer::NoRoute { turns: 7 },
            Answer::Unfinished { turns: 0 },
            Answer::Refused {
                number: 13,
                position: 32_767,
            },
        ] {
            assert_eq!(Answer::of_figures(answer.figures()), Some(answer));
        }
        for figures in [
            [0, 1, 0, 0, 0, 0, 0, 0],
            [1, 0, 0, 0, 0, 0, 7, 10_000],
            [2, 0, 0, 1, 0, 0, 7, 0],
            [3, 8, 0, 0, 0, 0, 1, 0],
            [4, 8, 0, 0, 0, 0, 0, 0],
            [0, 0, 0, 1, 1 << 32, 1, 1, 1],
            [0, 0, 0, 1, 1, 1, 1, 1 << 32],
            [1 << 32, 0, 0, 1, 1, 1, 1, 1],
        ] {
            assert_eq!(Answer::of_figures(figures), None);
        }
    }
}
