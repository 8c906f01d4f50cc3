//! The library and the second planner on seeded jobs: demand 3 and the
//! properties that an independent Dijkstra search decides. Costs and
//! expansions come from the second planner's events.

use secondcoop_tests::dijkstra::{self, is_permitted};
use secondcoop_tests::events::Events;
use secondcoop_tests::generate::Plan;
use secondcoop_tests::guarded::GUARD;
use secondcoop_tests::jobs::{self, Job};
use secondcoop_tests::planner::{self, Answer, Event, NONE, UNREACHED};
use secondcoop_tests::planners::{self, Lent, Library, Planner, SecondPlanner};
use secondcoop_tests::random::Random;
use secondcoop_tests::reference::LAST_REFUSAL;

const BOTH: [&dyn Planner; 2] = [&Library, &SecondPlanner];

/// The sum of a walk's edges; each must be a permitted edge of the plan.
fn walk_cost(plan: &Plan, barred: u32, walk: &[u32]) -> u64 {
    walk.windows(2)
        .map(|pair| {
            let edge = (0..plan.edges())
                .find(|&edge| plan.tails[edge] == pair[0] && plan.heads[edge] == pair[1])
                .expect("a route follows edges");
            assert!(is_permitted(barred, plan.classes[edge]), "a barred edge");
            u64::from(plan.costs[edge])
        })
        .sum()
}

/// What the checks below met.
#[derive(Default)]
struct Met {
    routes: u64,
    optimal_rounds: u64,
    no_routes: u64,
    unfinished: u64,
    twice: u64,
}

/// One valid job: answer, route, bound and the expansions of demand 3.
fn check(planner: &dyn Planner, plan: &Plan, job: &Job, met: &mut Met) {
    let outcome = planners::run(planner, job, 5);
    let (answer, events) = job.events();
    assert_eq!(outcome.figures, answer.figures());
    let least = dijkstra::distances_from(plan, job.start, job.barred)[job.goal as usize];
    let vertices = plan.vertices as usize;
    let lent = Lent::before(job, 5);
    let untouched = lent.route.all;
    let turns = match answer {
        Answer::Route {
            cost,
            length,
            rounds,
            turns,
            bound,
        } => {
            met.routes += 1;
            let least = least.expect("a route is given only where there is one");
            let route = &outcome.route[GUARD..GUARD + vertices];
            let (walk, rest) = route.split_at(length as usize);
            assert_eq!((walk[0], walk[walk.len() - 1]), (job.start, job.goal));
            assert_eq!(walk_cost(plan, job.barred, walk), cost);
            assert!(rest.iter().all(|&word| word == NONE));
            assert_eq!(
                outcome.route[GUARD + vertices..],
                untouched[GUARD + vertices..]
            );
            assert_eq!(outcome.route[..GUARD], untouched[..GUARD]);
            let schedule = job.factors();
            let last = rounds as usize - 1;
            assert_eq!(bound, schedule[2 * last] * schedule[2 * last + 1]);
            assert!(10_000 * u128::from(cost) <= u128::from(bound) * u128::from(least));
            if bound == 10_000 {
                met.optimal_rounds += 1;
                assert_eq!(cost, least);
            }
            assert!(rounds as usize <= schedule.len() / 2);
            // Fewer rounds only where the budget ran out.
            assert!(rounds as usize == schedule.len() / 2 || turns == job.budget);
            turns
        }
        Answer::NoRoute { turns } => {
            met.no_routes += 1;
            assert_eq!(least, None);
            assert_eq!(outcome.route, untouched);
            turns
        }
        Answer::Unfinished { turns } => {
            met.unfinished += 1;
            assert_eq!(turns, job.budget);
            assert_eq!(outcome.route, untouched);
            turns
        }
        Answer::Refused { .. } => panic!("a valid job is refused: {answer:?}, {job:?}"),
    };
    assert!(turns <= job.budget);

    // Demand 3: in a round a vertex is expanded at most once for the guides
    // and at most once for the anchor, for the guides first, and its cost
    // fell in between. A vertex is never expanded twice at one cost.
    let mut for_guides: Vec<Option<u64>> = vec![None; vertices];
    let mut for_anchor: Vec<Option<u64>> = vec![None; vertices];
    let mut before: Vec<Option<u64>> = vec![None; vertices];
    let mut count = 0;
    for event in &events {
        match *event {
            Event::Begin { .. } => {
                for_guides.fill(None);
                for_anchor.fill(None);
            }
            Event::Turn {
                turn,
                table,
                vertex,
                g,
                ..
            } => {
                count += 1;
                assert_eq!(turn, count);
                if (turn as usize) <= job.log_room {
                    let word = outcome.log[GUARD + turn as usize - 1];
                    assert_eq!(word, vertex + 65_536 * table);
                }
                let vertex = vertex as usize;
                assert!(table <= job.guide_count);
                assert_eq!(for_anchor[vertex], None);
                if table == 0 {
                    for_anchor[vertex] = Some(g);
                    if let Some(first) = for_guides[vertex] {
                        met.twice += 1;
                        assert!(g < first);
                    }
                } else {
                    assert_eq!(for_guides[vertex], None);
                    for_guides[vertex] = Some(g);
                }
                assert!(before[vertex].is_none_or(|before| g < before));
                before[vertex] = Some(g);
                // Every g is the cost of a walk, so no less than the least.
                assert_ne!(vertex as u32, job.goal);
            }
            _ => {}
        }
    }
    assert_eq!(count, turns);
    let logged = (turns as usize).min(job.log_room);
    for (index, &word) in outcome.log.iter().enumerate() {
        if !(GUARD..GUARD + logged).contains(&index) {
            assert_eq!(word, lent.log.all[index]);
        }
    }

    // Work and wide memory against the plan and the expansions.
    let needed = 3 * vertices + 1 + 3 * plan.edges();
    let work = &outcome.work[GUARD..GUARD + needed];
    for (index, &word) in outcome.work.iter().enumerate() {
        if !(GUARD..GUARD + needed).contains(&index) {
            assert_eq!(word, lent.work.all[index]);
        }
    }
    let wide = &outcome.wide[GUARD..GUARD + 2 * vertices];
    assert_eq!(outcome.wide[..GUARD], lent.wide.all[..GUARD]);
    let behind = GUARD + 2 * vertices;
    assert_eq!(outcome.wide[behind..], lent.wide.all[behind..]);
    for (vertex, &first) in work[..=vertices].iter().enumerate() {
        let smaller = plan.tails.iter().filter(|&&tail| (tail as usize) < vertex);
        assert_eq!(first as usize, smaller.count());
    }
    let (heads, rest) = work[vertices + 1..].split_at(plan.edges());
    let (costs, rest) = rest.split_at(plan.edges());
    let (classes, rest) = rest.split_at(plan.edges());
    assert_eq!((heads, costs), (&plan.heads[..], &plan.costs[..]));
    assert_eq!(classes, plan.classes);
    let least = dijkstra::distances_from(plan, job.start, job.barred);
    for (vertex, words) in rest.chunks_exact(2).enumerate() {
        let &[predecessor, marks] = words else {
            unreachable!()
        };
        let [g, expanded] = [wide[2 * vertex], wide[2 * vertex + 1]];
        assert_eq!(expanded, before[vertex].unwrap_or(UNREACHED));
        assert!(marks < 16 && marks & 12 != 12);
        if g == UNREACHED {
            assert_eq!((expanded, predecessor, marks), (UNREACHED, NONE, 0));
            continue;
        }
        assert!(g >= least[vertex].expect("a reached vertex has a walk"));
        // Open or held exactly where g is news.
        assert_eq!(marks & 12 != 0, g < expanded);
        assert_eq!(predecessor == NONE, vertex as u32 == job.start);
        if predecessor != NONE {
            let expanded = wide[2 * predecessor as usize + 1];
            let cost = walk_cost(plan, job.barred, &[predecessor, vertex as u32]);
            assert!(expanded + cost <= g);
        }
    }
}

#[test]
fn demand_3_and_dijkstra() {
    for planner in BOTH {
        let mut met = Met::default();
        let mut count = 0;
        jobs::valid_jobs(41, 12_000, &mut |plan, job| {
            check(planner, plan, job, &mut met);
            count += 1;
        });
        println!(
            "{count} jobs: {} routes, {} of them after a finished 100/100 round, {} without a \
             route, {} unfinished, {} vertices twice in a round",
            met.routes, met.optimal_rounds, met.no_routes, met.unfinished, met.twice
        );
        assert!(count >= 40_000, "{count} jobs");
        assert!(met.routes >= 15_000, "{} routes", met.routes);
        assert!(met.optimal_rounds >= 3_000, "{}", met.optimal_rounds);
        assert!(met.no_routes >= 2_000, "{}", met.no_routes);
        assert!(met.unfinished >= 4_000, "{}", met.unfinished);
        assert!(met.twice >= 500, "{}", met.twice);
    }
}

/// The same along paths whose costs pass 32 bits.
#[test]
fn demand_3_and_dijkstra_beyond_32_bits() {
    for planner in BOTH {
        let mut met = Met::default();
        let mut wide = 0;
        jobs::long_jobs(40, 80, &mut |plan, job| {
            check(planner, plan, job, &mut met);
            let [.., cost, _, _, _, _] = planners::run(planner, job, 5).figures;
            wide += u64::from(cost > u32::MAX.into());
        });
        assert!(met.routes >= 80 && met.unfinished >= 20 && met.no_routes >= 5);
        assert!(met.optimal_rounds >= 10, "{}", met.optimal_rounds);
        assert!(wide >= 80, "{wide} routes");
    }
}

/// The same at every rate of opinions on the guide sheets, from all to none.
#[test]
fn demand_3_and_dijkstra_at_every_rate_of_opinions() {
    for planner in BOTH {
        let mut random = Random::new(39);
        let mut met = Met::default();
        for (index, hundredths) in (0..2_200).map(|index| (index, index as u64 % 11 * 10)) {
            let (plan, mut job) = match index % 4 {
                0 => jobs::far_job(&mut random),
                1 => jobs::twisted_job(&mut random),
                2 => jobs::steep_job(&mut random),
                _ => jobs::detour_job(&mut random),
            };
            jobs::take_opinions(&mut random, &mut job, hundredths);
            if random.one_in(2) {
                let last = job.schedule.len() - 2;
                job.schedule[last..].fill(100);
            }
            check(planner, &plan, &job, &mut met);
            for end in jobs::ends_of_rounds(&job) {
                job.budget = random.range32(0, end);
                check(planner, &plan, &job, &mut met);
            }
        }
        println!(
            "{} routes, {} of them after a finished 100/100 round, {} without a route, {} \
             unfinished, {} vertices twice in a round",
            met.routes, met.optimal_rounds, met.no_routes, met.unfinished, met.twice
        );
        assert!(met.routes >= 2_500 && met.unfinished >= 2_000);
        assert!(met.no_routes >= 800 && met.optimal_rounds >= 500);
    }
}

/// With budget enough, no route exactly where there is none.
#[test]
fn no_route_exactly_where_there_is_none() {
    for planner in BOTH {
        let mut random = Random::new(42);
        let mut counts = [0; 2];
        for index in 0..8_000 {
            let shape = jobs::SHAPES[index % jobs::SHAPES.len()];
            let (plan, job) = jobs::random_job(&mut random, shape);
            let walks = dijkstra::distances_from(&plan, job.start, job.barred);
            let reached = walks[job.goal as usize].is_some();
            match planners::run(planner, &job, 6).answer() {
                Answer::Route { .. } => assert!(reached),
                Answer::NoRoute { .. } => assert!(!reached),
                answer => panic!("{answer:?}"),
            }
            counts[usize::from(reached)] += 1;
        }
        assert!(counts[0] > 800 && counts[1] > 800, "{counts:?}");
    }
}

/// Every barred number on small plans: over permitted edges the cheapest
/// route, or none, and the others change nothing.
#[test]
fn every_barred_number() {
    for planner in BOTH {
        let mut random = Random::new(46);
        let mut met = Met::default();
        let mut dearer = 0;
        for index in 0..150 {
            let shape = jobs::SHAPES[index % jobs::SHAPES.len()];
            let (plan, mut job) = jobs::random_job(&mut random, shape);
            job.schedule = match index % 3 {
                0 => vec![],
                1 => vec![100, 100],
                _ => vec![1_000, 300, 100, 100],
            };
            let whole = dijkstra::distances_from(&plan, job.start, 0)[job.goal as usize];
            for barred in 0..=planner::MOST_BARRED {
                job.barred = barred;
                check(planner, &plan, &job, &mut met);
                let walks = dijkstra::distances_from(&plan, job.start, barred);
                dearer += u64::from(walks[job.goal as usize] > whole);
            }
        }
        // The last round of each is exact, so every route is the cheapest.
        assert_eq!(met.routes, met.optimal_rounds);
        assert_eq!(met.unfinished, 0);
        assert!(met.routes >= 5_000, "{} routes", met.routes);
        assert!(met.no_routes >= 5_000, "{} without", met.no_routes);
        assert!(dearer >= 1_000, "{dearer} dearer");
    }
}

/// What a job's call leaves that depends on the search alone: figures and wide
/// memory; route, log, and the vertices in work memory, of a plan of V
/// vertices and M edges.
fn searched(
    planner: &dyn Planner,
    job: &Job,
    (vertices, edges): (usize, usize),
) -> ([Vec<u64>; 2], [Vec<u32>; 3]) {
    let outcome = planners::run(planner, job, 8);
    let state = GUARD + vertices + 1 + 3 * edges;
    let vertices = outcome.work[state..state + 2 * vertices].to_vec();
    (
        [outcome.figures.to_vec(), outcome.wide],
        [outcome.route, outcome.log, vertices],
    )
}

/// A search goes as if barred edges were not there, and as if all others were
/// of one class.
#[test]
fn barred_edges_are_as_if_they_were_not_there() {
    for planner in BOTH {
        let (mut fewer, mut count) = (0, 0);
        jobs::valid_jobs(48, 4_000, &mut |plan, job| {
            let vertices = plan.vertices as usize;
            let left = searched(planner, job, (vertices, plan.edges()));
            let mut other = plan.with_edges(|edge| is_permitted(job.barred, plan.classes[edge]));
            other.classes.fill(3);
            let mut without = job.clone();
            (without.bytes, without.barred) = (other.bytes(), 0);
            let right = searched(planner, &without, (vertices, other.edges()));
            assert_eq!(left, right, "{job:?}");
            fewer += u64::from(other.edges() < plan.edges());
            count += 1;
        });
        assert!(
            fewer >= 4_000 && count - fewer >= 4_000,
            "{fewer} of {count}"
        );
    }
}

/// A call is refused for short memory and leaves all of it untouched.
fn must_be_short(planner: &dyn Planner, job: &Job) {
    let outcome = planners::run(planner, job, 3);
    let refused = Answer::Refused {
        number: 11,
        position: 0,
    };
    assert_eq!(outcome.answer(), refused);
    assert!(Lent::before(job, 3).is_untouched(&outcome));
}

/// Work memory of 3V+1+3M words and wide memory of 2V numbers are enough, and
/// one less of either is not.
#[test]
fn work_and_wide_memory_are_exact() {
    for planner in BOTH {
        let mut random = Random::new(47);
        for index in 0..500 {
            let shape = jobs::SHAPES[index % jobs::SHAPES.len()];
            let (plan, mut job) = jobs::random_job(&mut random, shape);
            let vertices = plan.vertices as usize;
            job.work_room = 3 * vertices + 1 + 3 * plan.edges();
            job.wide_room = 2 * vertices;
            let answer = planners::run(planner, &job, 3).answer();
            assert!(!matches!(answer, Answer::Refused { .. }), "{answer:?}");
            let work_room = job.work_room - 1;
            must_be_short(
                planner,
                &Job {
                    work_room,
                    ..job.clone()
                },
            );
            let wide_room = job.wide_room - 1;
            must_be_short(planner, &Job { wide_room, ..job });
        }
    }
}

#[test]
fn damaged_jobs_are_refused() {
    for planner in BOTH {
        let mut counts = [0; LAST_REFUSAL as usize + 1];
        jobs::damaged_jobs(43, 28_000, &mut |job, known| {
            let outcome = planners::run(planner, job, 9);
            assert_eq!(outcome.figures, known.figures(), "{job:?}");
            assert!(Lent::before(job, 9).is_untouched(&outcome), "{job:?}");
            if let Answer::Refused { number, .. } = known {
                counts[number as usize] += 1;
            }
        });
        for number in jobs::CALL_REFUSALS {
            let count = counts[number as usize];
            assert!(count >= 800, "refusal {number}: {count}");
        }
    }
}

/// Every rare event is met.
#[test]
fn rare_events() {
    let mut events = Events::default();
    let mut count = |_: &Plan, job: &Job| {
        events.count(job);
    };
    jobs::valid_jobs(44, 60_000, &mut count);
    jobs::long_jobs(49, 250, &mut count);
    for (name, count) in events.names() {
        println!("{name}: {count} in {} jobs", events.jobs);
    }
    for (name, count) in events.names() {
        assert!(count >= 100, "{name}: {count} in {} jobs", events.jobs);
    }
}

#[test]
fn jobs_at_the_limits() {
    for planner in BOTH {
        let mut met = Met::default();
        let mut costs = Vec::new();
        jobs::large_jobs(45, &mut |plan, job| {
            check(planner, plan, job, &mut met);
            if let Answer::Route { cost, .. } = planners::run(planner, job, 7).answer() {
                costs.push(cost);
            }
        });
        assert_eq!(costs[..6], [4_095_000_000; 6]);
        assert_eq!(costs[6..12], [65_520_000_000; 6]);
        assert!(met.routes >= 5);
    }
}
