//! The reason for no route: the library against the second side on seeded
//! jobs, equal figures, lists, memory and lines; what is listed against
//! Dijkstra; lists short, exact and longer, alone and beside other refusals;
//! what a call leaves untouched; jobs at the limits.
//!
//! The variable `SECONDCOOP_JOBS` is about the count of jobs in the first
//! test, with a fifth as many texts; `SECONDCOOP_SEED` asks for other jobs.

use std::collections::BTreeMap;

use secondcoop_tests::asked::{self, seed};
use secondcoop_tests::cut_off::cut_off_jobs;
use secondcoop_tests::dijkstra::{distances_from, is_permitted};
use secondcoop_tests::explainers::{self, Explained, Explainer, Question};
use secondcoop_tests::explanation::{self, Figures, Lists};
use secondcoop_tests::fenced::Fenced;
use secondcoop_tests::generate::Plan;
use secondcoop_tests::guarded::{Guarded, GUARD};
use secondcoop_tests::jobs::{self, Job};
use secondcoop_tests::planner::{Answer, Memory, Request, MOST_BARRED};
use secondcoop_tests::planners::{self, kind_of, shortened, Library, SecondPlanner};
use secondcoop_tests::random::Random;
use secondcoop_tests::reference::{MOST_EDGES, MOST_VERTICES};

const JOBS: usize = 60_000;

/// What the jobs met, by name.
#[derive(Default)]
struct Met(BTreeMap<&'static str, u64>);

impl Met {
    fn add(&mut self, name: &'static str, met: bool) {
        *self.0.entry(name).or_default() += u64::from(met);
    }

    /// Prints the counts; each is at least so great, if the jobs were as many
    /// as the test's own.
    fn report(&self, test: &str, least: u64) {
        for (name, count) in &self.0 {
            println!("{test}: {name}: {count}");
        }
        if asked::jobs(JOBS) >= JOBS {
            for (name, &count) in &self.0 {
                assert!(count >= least, "{name}: {count}");
            }
        }
    }

    /// Counts an explanation of a valid job.
    fn count(&mut self, plan: &Plan, job: &Job, explained: &Explained) {
        let answer = explained.answer();
        self.add("routes", matches!(answer, Answer::Route { .. }));
        self.add("unfinished", matches!(answer, Answer::Unfinished { .. }));
        let none = matches!(answer, Answer::NoRoute { .. });
        self.add("no routes", none);
        if none {
            self.count_listed(plan, job, explained);
        }
    }

    fn count_listed(&mut self, plan: &Plan, job: &Job, explained: &Explained) {
        let [places, lanes] = explained.listed();
        let vertices = plan.vertices as usize;
        self.add("no lane leaves", lanes.is_empty());
        self.add(
            "no lane leaves, classes barred",
            lanes.is_empty() && job.barred > 0,
        );
        self.add("one lane leaves", lanes.len() == 1);
        self.add("several lanes leave", lanes.len() > 1);
        self.add("nothing barred", job.barred == 0);
        self.add("all classes barred", job.barred == MOST_BARRED);
        self.add("the start alone", places.len() == 1);
        self.add("all places but the goal", places.len() == vertices - 1);
        self.add(
            "places with gaps",
            places.windows(2).any(|p| p[0] + 1 < p[1]),
        );
        let classes: Vec<u32> = lanes.iter().map(|&l| plan.classes[l as usize]).collect();
        self.add(
            "lanes of two classes leave",
            classes.iter().any(|&c| c != classes[0]),
        );
        let within = |vertex: u32| places.contains(&vertex);
        let has = |wanted: &dyn Fn(u32, u32) -> bool| {
            (0..plan.edges()).any(|edge| {
                let barred = !is_permitted(job.barred, plan.classes[edge]);
                barred && wanted(plan.tails[edge], plan.heads[edge])
            })
        };
        self.add(
            "barred lanes inside",
            has(&|t, h| within(t) && within(h) && t != h),
        );
        self.add(
            "barred lanes to themselves",
            has(&|t, h| t == h && within(t)),
        );
        self.add("barred lanes back", has(&|t, h| !within(t) && within(h)));
        self.add("barred lanes beyond", has(&|t, h| !within(t) && !within(h)));
        let (vertices, words) = (plan.vertices as usize, &explained.call.work[GUARD..]);
        let state = &words[vertices + 1 + 3 * plan.edges()..][..2 * vertices];
        let held = state.chunks_exact(2).any(|pair| pair[1] & 8 > 0);
        self.add("no route with held places", held);
    }
}

/// What the papers say of a list, by Dijkstra's algorithm: the start is in the
/// set and the goal is not, what is in it has a chain from the start and what
/// is not has none, no permitted lane leaves it, and the lanes are those that
/// leave it at all.
fn is_right(plan: &Plan, job: &Job, explained: &Explained) {
    let [places, lanes] = explained.listed();
    assert!(places.contains(&job.start) && !places.contains(&job.goal));
    assert!(places.windows(2).all(|pair| pair[0] < pair[1]));
    let costs = distances_from(plan, job.start, job.barred);
    let reached = (0..plan.vertices).filter(|&v| costs[v as usize].is_some());
    assert!(reached.eq(places.iter().copied()));
    let is_in = |vertex: u32| costs[vertex as usize].is_some();
    let leaving = (0..plan.edges()).filter(|&e| is_in(plan.tails[e]) && !is_in(plan.heads[e]));
    assert!(leaving.eq(lanes.iter().map(|&lane| lane as usize)));
    let barred = |&lane: &u32| !is_permitted(job.barred, plan.classes[lane as usize]);
    assert!(lanes.iter().all(barred));
}

/// A question in words, for a comparison that fails.
fn words(question: &Question) -> String {
    shortened(format!("{question:02X?}"))
}

/// Asks both sides; the library's explanation, which is that of the second
/// side, leaves what its planner call leaves, and the rest as it was.
fn asked_alike(question: &Question, salt: u64) -> Explained {
    let [library, second] =
        [&Library as &dyn Explainer, &SecondPlanner].map(|e| explainers::run(e, question, salt));
    let differing = explainers::difference(&library, &second);
    assert_eq!(differing, None, "{}", words(question));
    assert!(
        library.keeps_the_rest(question, salt),
        "{}",
        words(question)
    );
    let none = matches!(library.answer(), Answer::NoRoute { .. });
    assert!(none || library.counts == [0; 2], "{}", words(question));
    library
}

/// The same of a job whose lists are long enough: the call is the planner's.
fn explained_alike(question: &Question, salt: u64) -> Explained {
    let explained = asked_alike(question, salt);
    let call = planners::run(&Library, &question.job, salt);
    assert_eq!(explained.call, call, "{}", words(question));
    explained
}

#[test]
fn seeded_jobs_are_explained_alike() {
    let wanted = asked::jobs(JOBS);
    let (mut met, mut salt) = (Met::default(), 0);
    let mut random = Random::new(seed(91));
    let mut explain = |plan: &Plan, job: &Job| {
        // Just enough, and longer.
        let [places, lanes] = [(); 2].map(|()| random.pick(&[0, 0, 1, 5]));
        let question = Question::with_more(job, places, lanes);
        let explained = explained_alike(&question, salt);
        if let Answer::NoRoute { .. } = explained.answer() {
            is_right(plan, job, &explained);
        }
        met.count(plan, job, &explained);
        met.add("longer lists of places", places > 0);
        met.add("longer lists of lanes", lanes > 0);
        salt += 1;
    };
    // A cut off job comes with three budgets, a valid one with five or so.
    cut_off_jobs(seed(92), wanted / 6, &mut explain);
    jobs::valid_jobs(seed(93), wanted / 10, &mut explain);
    jobs::long_jobs(seed(94), wanted / 2_000, &mut explain);
    println!("{salt} jobs");
    met.report("seeded_jobs_are_explained_alike", 50);
}

/// Small jobs with every barred number, and some above.
#[test]
fn every_barred_number_is_explained_alike() {
    let (mut met, mut salt) = (Met::default(), 0);
    jobs::every_barred(seed(95), 40, &mut |job| {
        let explained = explained_alike(&Question::of(job), salt);
        let refused = job.barred > MOST_BARRED;
        assert_eq!(
            refused,
            matches!(explained.answer(), Answer::Refused { number: 8, .. })
        );
        met.add("refused", refused);
        if !refused {
            met.count(&Plan::of_bytes(&job.bytes), job, &explained);
        }
        salt += 1;
    });
    println!("{salt} jobs");
    for name in [
        "refused",
        "routes",
        "no routes",
        "no lane leaves",
        "one lane leaves",
    ] {
        assert!(met.0[name] >= 100, "{name}: {}", met.0[name]);
    }
    assert!(met.0["several lanes leave"] >= 100);
}

/// Every budget: unfinished up to some turns, and then as with turns without
/// end.
#[test]
fn every_budget_is_explained_alike() {
    let (mut met, mut salt) = (Met::default(), 0);
    jobs::every_budget(seed(96), 1_500, &mut |plan, job| {
        let explained = explained_alike(&Question::of(job), salt);
        met.count(plan, job, &explained);
        salt += 1;
    });
    cut_off_jobs(seed(97), 300, &mut |plan, job| {
        let mut job = job.clone();
        for budget in 0..=2 * plan.vertices {
            job.budget = budget;
            let explained = explained_alike(&Question::of(&job), salt);
            met.count(plan, &job, &explained);
            salt += 1;
        }
    });
    println!("{salt} jobs");
    for name in ["routes", "unfinished", "no routes", "several lanes leave"] {
        assert!(met.0[name] >= 500, "{name}: {}", met.0[name]);
    }
}

/// Damaged jobs are refused as the planner call refuses them, and wild ones
/// are answered alike.
#[test]
fn damaged_and_wild_jobs_are_answered_alike() {
    let mut kinds = [0; planners::KINDS];
    let mut salt = 0;
    jobs::damaged_jobs(seed(98), 14_000, &mut |job, known| {
        let explained = explained_alike(&Question::of(job), salt);
        assert_eq!(explained.answer(), known, "{job:02X?}");
        kinds[kind_of(&explained.call.figures)] += 1;
        salt += 1;
    });
    jobs::wild_jobs(seed(99), 10_000, &mut |job| {
        let explained = explained_alike(&Question::of(job), salt);
        kinds[kind_of(&explained.call.figures)] += 1;
        salt += 1;
    });
    println!("{salt} jobs");
    for (kind, count) in kinds.into_iter().enumerate() {
        // Refusal 14 is the bench program's.
        assert_eq!(count > 100, kind != 14, "kind {kind}: {count}");
    }
}

/// How short each list is, by words; lists of M words where M is 0 cannot be.
const SHORT: [[usize; 2]; 5] = [[1, 0], [0, 1], [1, 1], [2, 0], [0, 3]];

/// A question with lists shorter than they have to be.
fn shorter(job: &Job, [places, lanes]: [usize; 2]) -> Question {
    let exact = Question::of(job);
    Question {
        places_room: exact.places_room.saturating_sub(places),
        lanes_room: exact.lanes_room.saturating_sub(lanes),
        ..exact
    }
}

fn refused(number: u32, position: usize) -> Answer {
    Answer::Refused { number, position }
}

/// Short lists of a job that is refused for nothing else, or for a row behind
/// row 11, give refusal 11; those of a job that is refused for a row before
/// it, that refusal.
fn short_lists_count(job: &Job, known: Answer, salt: u64) -> u64 {
    let mut count = 0;
    for short in SHORT {
        let question = shorter(job, short);
        let exact = Question::of(job);
        if question.places_room == exact.places_room && question.lanes_room == exact.lanes_room {
            continue;
        }
        let known = match known {
            Answer::Refused { number, .. } if ![11, 12, 13].contains(&number) => known,
            _ => refused(11, 0),
        };
        let explained = asked_alike(&question, salt);
        assert_eq!(explained.answer(), known, "{}", words(&question));
        count += 1;
    }
    count
}

/// A list one word short is refused, alone and beside each other row; all
/// memory is untouched.
#[test]
fn short_lists_are_refused_in_their_row() {
    let mut counts = [0; planners::KINDS];
    let mut salt = 0;
    let mut count = |job: &Job| {
        let known = planners::run(&SecondPlanner, job, 0).answer();
        let kind = kind_of(&known.figures());
        counts[kind] += short_lists_count(job, known, salt);
        salt += 1;
    };
    jobs::damaged_jobs(seed(100), 4_200, &mut |job, _| count(job));
    cut_off_jobs(seed(101), 300, &mut |_, job| count(job));
    jobs::valid_jobs(seed(102), 300, &mut |_, job| count(job));
    println!("{counts:?}");
    for (kind, count) in counts.into_iter().enumerate() {
        assert_eq!(count > 200, kind != 14, "kind {kind}: {count}");
    }
}

/// Lists of every length up to one word more than enough, that of places with
/// some lengths of the other and the other way round: under V words or under M
/// refusal 11, else the same explanation.
#[test]
fn lists_of_every_length() {
    let (mut short, mut enough) = (0, 0);
    cut_off_jobs(seed(103), 60, &mut |plan, job| {
        let exact = explained_alike(&Question::of(job), 0);
        let [vertices, edges] = [plan.vertices as usize, plan.edges()];
        let near = |room: usize| [0, room / 2, room.saturating_sub(1), room, room + 1];
        let all = |room: usize| 0..=room + 1;
        let by_places = all(vertices).flat_map(|places| near(edges).map(|lanes| [places, lanes]));
        let by_lanes = all(edges).flat_map(|lanes| near(vertices).map(|places| [places, lanes]));
        for [places_room, lanes_room] in by_places.chain(by_lanes) {
            let question = Question {
                job: job.clone(),
                places_room,
                lanes_room,
            };
            let explained = asked_alike(&question, 0);
            if places_room < vertices || lanes_room < edges {
                assert_eq!(explained.answer(), refused(11, 0));
                short += 1;
            } else {
                assert_eq!(explained.call, exact.call);
                assert_eq!(explained.listed(), exact.listed());
                enough += 1;
            }
        }
    });
    println!("{short} short, {enough} long enough");
    assert!(short > 10_000 && enough > 1_000);
}

/// A plan of these lanes, each with tail, head and class.
fn plan_of(vertices: u32, lanes: &[[u32; 3]]) -> Plan {
    let list = |part: usize| lanes.iter().map(|lane| lane[part]).collect();
    Plan {
        vertices,
        tails: list(0),
        heads: list(1),
        costs: vec![1; lanes.len()],
        classes: list(2),
    }
}

/// A row of the table: its number, its position, and ways to damage a question
/// for it.
type Row = (u32, usize, &'static [fn(&mut Question)]);

/// The rows from the last to the first, on the floor below: of several the
/// last in this order counts.
const ROWS: [Row; 9] = [
    (13, 1, &[|asked| asked.job.anchor[1] = 9]),
    (12, 0, &[|asked| asked.job.anchor[3] = 1]),
    (
        11,
        0,
        &[
            |asked| asked.places_room -= 1,
            |asked| asked.lanes_room -= 1,
            |asked| (asked.places_room, asked.lanes_room) = (0, 0),
            |asked| asked.job.route_room -= 1,
            |asked| (asked.job.work_room, asked.lanes_room) = (0, 2),
            |asked| (asked.job.wide_room, asked.places_room) = (7, 3),
        ],
    ),
    (
        10,
        0,
        &[
            |asked| asked.job.schedule = vec![100],
            |asked| asked.job.default_schedule.clear(),
        ],
    ),
    (
        9,
        0,
        &[
            |asked| asked.job.guide_count = 9,
            |asked| asked.job.anchor.push(0),
        ],
    ),
    (
        8,
        0,
        &[
            |asked| asked.job.start = 4,
            |asked| asked.job.goal = 4,
            |asked| asked.job.barred = MOST_BARRED + 1,
        ],
    ),
    (7, 14, &[|asked| asked.job.bytes.push(0)]),
    (15, 13, &[|asked| asked.job.bytes[13] = 8]),
    (2, 0, &[|asked| asked.job.bytes[0] = 0]),
];

/// Each row in each of its ways or left out, in every combination: the first
/// row counts, and where all are left out there is no route.
#[test]
fn the_first_row_counts_in_every_combination() {
    let plan = plan_of(4, &[[0, 1, 0], [1, 3, 1], [2, 3, 0]]);
    let mut job = Job::new(&plan, 0, 3, vec![0; 4], vec![], 0, vec![], 9);
    job.barred = 2;
    let choices: usize = ROWS.iter().map(|(_, _, ways)| ways.len() + 1).product();
    for mut choice in 0..choices {
        let mut question = Question::of(&job);
        let mut known = Answer::NoRoute { turns: 2 };
        for (number, position, ways) in ROWS {
            if let Some(damage) = ways.get(choice % (ways.len() + 1)) {
                damage(&mut question);
                known = refused(number, position);
            }
            choice /= ways.len() + 1;
        }
        let explained = asked_alike(&question, 9);
        assert_eq!(explained.answer(), known, "{}", words(&question));
        if known == (Answer::NoRoute { turns: 2 }) {
            assert_eq!(explained.listed(), [&[0, 1][..], &[1]]);
        }
    }
    assert_eq!(choices, 2 * 2 * 7 * 3 * 3 * 4 * 8);
}

/// What both sides list of a job without guides and with turns without end;
/// nothing if there is a route.
fn listed(plan: &Plan, start: u32, goal: u32, barred: u32) -> Option<[Vec<u32>; 2]> {
    let anchor = vec![0; plan.vertices as usize];
    let mut job = Job::new(plan, start, goal, anchor, vec![], 0, vec![], u32::MAX);
    job.barred = barred;
    let explained = explained_alike(&Question::with_more(&job, 2, 2), 7);
    match explained.answer() {
        Answer::NoRoute { .. } => Some(explained.listed().map(<[u32]>::to_vec)),
        answer => {
            assert!(matches!(answer, Answer::Route { .. }), "{answer:?}");
            None
        }
    }
}

/// Small floors whose lists are known.
#[test]
fn small_floors_are_listed_as_is_known() {
    let some = |places: &[u32], lanes: &[u32]| Some([places.to_vec(), lanes.to_vec()]);
    // One place: its own goal, whatever is barred, with and without a lane.
    for plan in [plan_of(1, &[]), plan_of(1, &[[0, 0, 3]])] {
        for barred in [0, 8, MOST_BARRED] {
            assert_eq!(listed(&plan, 0, 0, barred), None);
        }
    }
    // Start and goal are one: a route, whatever is barred.
    let plan = plan_of(3, &[[0, 1, 0], [1, 2, 1], [2, 0, 2]]);
    for barred in 0..=MOST_BARRED {
        assert_eq!(listed(&plan, 1, 1, barred), None);
    }
    // Round and round, with each lane barred in turn.
    assert_eq!(listed(&plan, 0, 2, 0), None);
    assert_eq!(listed(&plan, 0, 2, 0b001), some(&[0], &[0]));
    assert_eq!(listed(&plan, 0, 2, 0b010), some(&[0, 1], &[1]));
    assert_eq!(listed(&plan, 0, 2, 0b100), None);
    assert_eq!(listed(&plan, 2, 1, 0b001), some(&[0, 2], &[0]));
    assert_eq!(listed(&plan, 0, 2, MOST_BARRED), some(&[0], &[0]));
    // No lanes; no lane out; a lane to itself alone.
    assert_eq!(listed(&plan_of(4, &[]), 2, 1, 0), some(&[2], &[]));
    assert_eq!(listed(&plan_of(4, &[]), 2, 1, MOST_BARRED), some(&[2], &[]));
    let own = plan_of(2, &[[0, 0, 5], [1, 0, 5]]);
    assert_eq!(listed(&own, 0, 1, 0), some(&[0], &[]));
    assert_eq!(listed(&own, 0, 1, 1 << 5), some(&[0], &[]));
    // Out of place 2, which is reached over a place with a higher number; the
    // lanes are numbered among all lanes. Barred are classes 1 and 7.
    let floor = plan_of(
        6,
        &[
            [0, 0, 1],
            [0, 2, 1],
            [0, 4, 0],
            [1, 0, 7],
            [2, 1, 7],
            [2, 3, 1],
            [2, 4, 0],
            [3, 5, 0],
            [4, 2, 0],
            [5, 3, 7],
        ],
    );
    assert_eq!(listed(&floor, 0, 5, 0b1000_0010), some(&[0, 2, 4], &[4, 5]));
    assert_eq!(listed(&floor, 0, 5, 0b0000_0010), some(&[0, 1, 2, 4], &[5]));
    assert_eq!(listed(&floor, 0, 5, 0b1000_0000), None);
    assert_eq!(listed(&floor, 0, 5, MOST_BARRED), some(&[0], &[1, 2]));
}

/// A job's lists in memory that ends with them, all that the call reads in
/// memory that ends with it.
fn explained_in_fences(explainer: &dyn Explainer, question: &Question) -> (Figures, [Vec<u32>; 2]) {
    let job = &question.job;
    let mut fences: [Fenced; 7] = [(); 7].map(|()| Fenced::new());
    let [bytes, anchor, guides, schedule, default_schedule, places, lanes] = &mut fences;
    let request = Request {
        bytes: bytes.at_the_end(&job.bytes),
        anchor: anchor.words_at_the_end(&job.anchor),
        guides: guides.words_at_the_end(&job.guides),
        schedule: schedule.words_at_the_end(&job.schedule),
        default_schedule: default_schedule.words_at_the_end(&job.default_schedule),
        ..job.request()
    };
    let memory = Memory {
        route: &mut vec![0; job.route_room],
        log: &mut vec![0; job.log_room],
        work: &mut vec![0; job.work_room],
        wide: &mut vec![0; job.wide_room],
    };
    let places = places.words_at_the_end(&vec![7; question.places_room]);
    let lanes = lanes.words_at_the_end(&vec![8; question.lanes_room]);
    let lists = Lists {
        places: &mut *places,
        lanes: &mut *lanes,
    };
    let figures = explainer.explain(&request, memory, lists);
    (figures, [places.to_vec(), lanes.to_vec()])
}

#[test]
fn nothing_is_touched_behind_the_lists() {
    let mut kinds = [0; planners::KINDS];
    let mut explain = |question: &Question| {
        let library = explained_in_fences(&Library, question);
        assert_eq!(library, explained_in_fences(&SecondPlanner, question));
        let (call, _) = explanation::parts(library.0);
        kinds[kind_of(&call)] += 1;
    };
    cut_off_jobs(seed(104), 200, &mut |_, job| explain(&Question::of(job)));
    jobs::valid_jobs(seed(105), 100, &mut |_, job| explain(&Question::of(job)));
    jobs::damaged_jobs(seed(106), 280, &mut |job, _| {
        explain(&Question::of(job));
        explain(&shorter(job, [1, 1]));
    });
    for (kind, count) in kinds.into_iter().enumerate() {
        assert_eq!(count > 5, kind != 14, "kind {kind}: {count}");
    }
}

/// The lines of a job's bytes without those of turns, or of what is listed.
fn without(text: &str, words: &[&str]) -> String {
    let listed = |line: &&str| words.iter().any(|word| line.starts_with(word));
    let lines = text.lines().filter(|line| !listed(line));
    lines.map(|line| format!("{line}\n")).collect()
}

/// The library's lines are the second side's, in any room, and but for what
/// is listed the bench program's without its turns.
fn lines_alike(bytes: &[u8], rooms: impl Iterator<Item = usize>, salt: u64) -> String {
    let printed = explainers::printed(&Library, bytes);
    for room in rooms {
        let differing = explainers::texts_differ(&Library, &SecondPlanner, bytes, room, salt);
        assert_eq!(differing, None);
        let lent = planners::run_text_by(bytes, room, salt, |job, text| {
            Library.explain_text(job, text)
        });
        assert_eq!(lent.length, printed.len());
        let all = Guarded { all: lent.text };
        let whole = room.min(printed.len());
        assert!(all.lent()[..whole] == printed.as_bytes()[..whole]);
    }
    let bench = planners::printed(&Library, bytes);
    let call = without(&printed, &["reach ", "barred lane "]);
    assert_eq!(call, without(&bench, &["turn "]), "{bytes:02X?}");
    printed
}

#[test]
fn lines_are_printed_alike() {
    let wanted = asked::jobs(JOBS) / 5;
    let mut kinds = [0; planners::KINDS];
    let (mut several, mut salt) = (0, 0);
    let mut random = Random::new(seed(107));
    let mut print = |bytes: &[u8]| {
        let length = Library.explain_text(bytes, &mut []);
        let some = random.index(length);
        let rooms = [length + 1 + random.index(40), length, length - 1, some, 0];
        let printed = lines_alike(bytes, rooms.into_iter(), salt);
        kinds[planners::kind_of_text(&printed)] += 1;
        several += u64::from(printed.matches("barred lane ").count() > 1);
        salt += 1;
    };
    jobs::bench_jobs(seed(108), wanted / 10, &mut |bytes, _| print(bytes));
    cut_off_jobs(seed(109), wanted / 6, &mut |_, job| {
        print(&job.bench_bytes())
    });
    println!("{salt} texts, several barred lanes in {several}");
    if wanted < JOBS / 5 {
        return;
    }
    for (kind, count) in kinds.into_iter().enumerate() {
        // Refusals 9 and 11 cannot occur.
        assert_eq!(count > 20, ![9, 11].contains(&kind), "kind {kind}: {count}");
    }
    assert!(several > 500);
}

/// Every room from none to more than enough.
#[test]
fn lines_in_every_room() {
    let mut salt = 0;
    cut_off_jobs(seed(110), 100, &mut |_, job| {
        let bytes = job.bench_bytes();
        let length = Library.explain_text(&bytes, &mut []);
        lines_alike(&bytes, 0..length + 3, salt);
        salt += 1;
    });
    assert_eq!(salt, 300);
}

/// Text memory that ends with the text, or before it.
#[test]
fn nothing_is_touched_behind_the_text() {
    let (mut job_fence, mut text_fence) = (Fenced::new(), Fenced::new());
    cut_off_jobs(seed(111), 100, &mut |_, job| {
        let bytes = job.bench_bytes();
        let printed = explainers::printed(&SecondPlanner, &bytes);
        let lent = job_fence.at_the_end(&bytes);
        for room in [printed.len(), printed.len() - 1, printed.len() / 2, 0] {
            let text = text_fence.at_the_end(&vec![0; room]);
            assert_eq!(Library.explain_text(lent, text), printed.len());
            assert_eq!(text, &printed.as_bytes()[..room]);
        }
    });
}

/// All places and lanes that a plan may have, eight lanes from each place. The
/// first half has six lanes inside it from each of its places, and two to the
/// other half, which are of class 1.
fn two_halves() -> Plan {
    let half = MOST_VERTICES / 2;
    let lanes = (0..MOST_VERTICES).flat_map(|tail| {
        let (first, place) = (tail / half * half, tail % half);
        let own = (1..=6).map(|step| first + (place + step * 37) % half);
        let other = [place * 5 + 3, place * 5 + 4].map(|head| half - first + head % half);
        let mut heads: Vec<u32> = own.chain(other).collect();
        heads.sort_unstable();
        let class = move |head: u32| u32::from((head < half) != (tail < half));
        heads.into_iter().map(move |head| [tail, head, class(head)])
    });
    plan_of(MOST_VERTICES, &lanes.collect::<Vec<_>>())
}

/// As many lanes from eight places, one to each place; those among the eight
/// are of class 0.
fn eight_hubs() -> Plan {
    let heads = 0..MOST_VERTICES;
    let lanes = (0..8).flat_map(|tail| {
        let class = |head: u32| if head < 8 { 0 } else { 1 + head % 7 };
        heads.clone().map(move |head| [tail, head, class(head)])
    });
    plan_of(MOST_VERTICES, &lanes.collect::<Vec<_>>())
}

/// 4,096 places and 32,768 lanes: half of the places, eight, one, and all but
/// the goal; and both lists one word short.
#[test]
fn jobs_at_the_limits_are_explained_alike() {
    let counts = |lists: Option<[Vec<u32>; 2]>| lists.map(|lists| lists.map(|list| list.len()));
    let halves = two_halves();
    assert_eq!(halves.edges(), MOST_EDGES as usize);
    let last = MOST_VERTICES - 1;
    assert_eq!(counts(listed(&halves, 5, last, 2)), Some([2_048, 4_096]));
    assert_eq!(counts(listed(&halves, last, 5, 2)), Some([2_048, 4_096]));
    assert_eq!(counts(listed(&halves, 5, last, MOST_BARRED)), Some([1, 8]));
    let hubs = eight_hubs();
    assert_eq!(hubs.edges(), MOST_EDGES as usize);
    assert_eq!(counts(listed(&hubs, 3, last, 254)), Some([8, 8 * 4_088]));
    assert_eq!(counts(listed(&hubs, 3, last, 255)), Some([1, 4_095]));
    assert_eq!(counts(listed(&hubs, last, 0, 0)), Some([1, 0]));
    // Lane 4,094 of the path leads to its last place.
    let mut path = jobs::whole_path(16_000_000);
    path.classes[4_094] = 7;
    path.classes[..4_094].fill(0);
    let lists = listed(&path, 0, last, 128).expect("no route");
    assert_eq!(lists, [(0..last).collect(), vec![4_094]]);
    for short in SHORT {
        let anchor = vec![0; MOST_VERTICES as usize];
        let mut job = Job::new(&halves, 5, last, anchor, vec![], 0, vec![], u32::MAX);
        job.barred = 2;
        let explained = asked_alike(&shorter(&job, short), 3);
        assert_eq!(explained.answer(), refused(11, 0));
    }
}

/// The largest bench job, whose lines are far shorter than those of turns.
#[test]
fn the_longest_lines_are_printed_alike() {
    let lanes = (0..8).flat_map(|tail| {
        let class = |head: u32| if head < 8 { 0 } else { 1 };
        (0..256).map(move |head| [tail, head, class(head)])
    });
    let mut plan = plan_of(256, &lanes.collect::<Vec<_>>());
    plan.costs.fill(16_000_000);
    let mut job = Job::new(&plan, 0, 255, vec![0; 256], vec![], 0, vec![], u32::MAX);
    job.barred = 2;
    let bytes = job.bench_bytes();
    let printed = lines_alike(&bytes, [300_000].into_iter(), 1);
    assert_eq!(printed.matches("\nbarred lane ").count(), 8 * 248);
    assert!(printed.starts_with("no route turns 8\nreach 0 1 2 3 4 5 6 7\nbarred lane 8 tail 0 "));
    let last = "barred lane 2047 tail 7 head 255 cost 16000000 class 1\n";
    assert!(printed.ends_with(last));
}
