//! The paper's cases, on the library and on the second planner, word for
//! word.

use secondcoop_tests::generate::{self, Plan};
use secondcoop_tests::planner::{
    Answer, Memory, Request, MOST_OPINION, NONE, NO_OPINION, STANDARD_SCHEDULE, UNREACHED,
};
use secondcoop_tests::planners::{Library, Planner, SecondPlanner};

/// Plan A of the paper.
const PLAN_A: [u8; 18] = [4, 4, 0, 1, 1, 0, 0, 2, 4, 0, 1, 2, 2, 0, 1, 3, 3, 0];
/// Job A after the plan.
const JOB_A_TAIL: [u8; 20] = [
    0x00, 0x03, 0x00, 0x64, 0x02, 0xC8, 0x01, 0xC8, 0x01, 0x64, 0x64, 0x01, 0x06, 0x05, 0x03, 0x00,
    0x00, 0x09, 0x00, 0x00,
];

fn on_both(test: impl Fn(&dyn Planner)) {
    test(&Library);
    test(&SecondPlanner);
}

fn job_a_bytes() -> Vec<u8> {
    let mut bytes = vec![0x12];
    bytes.extend(PLAN_A);
    bytes.extend(JOB_A_TAIL);
    bytes
}

/// Job A as a call.
const JOB_A: Request = Request {
    bytes: &PLAN_A,
    start: 0,
    goal: 3,
    barred: 0,
    anchor: &[6, 5, 3, 0],
    guides: &[0, 9, 0, 0],
    guide_count: 1,
    schedule: &[200, 200, 100, 100],
    default_schedule: &STANDARD_SCHEDULE,
    budget: 100,
};

/// Lent memory with some room to spare on plan A.
struct Lent {
    route: [u32; 6],
    log: [u32; 6],
    work: [u32; 27],
    wide: [u64; 10],
}

const UNTOUCHED: Lent = Lent {
    route: [77; 6],
    log: [78; 6],
    work: [79; 27],
    wide: [80; 10],
};

fn plan(planner: &dyn Planner, request: &Request) -> (Answer, Lent) {
    let mut lent = UNTOUCHED;
    let memory = Memory {
        route: &mut lent.route,
        log: &mut lent.log,
        work: &mut lent.work,
        wide: &mut lent.wide,
    };
    let figures = planner.plan(request, memory);
    let answer = Answer::of_figures(figures).expect("figures of an answer");
    (answer, lent)
}

fn job_a(planner: &dyn Planner, budget: u32) -> (Answer, Lent) {
    plan(planner, &Request { budget, ..JOB_A })
}

#[test]
fn job_a_word_for_word() {
    on_both(|planner| {
        for budget in [4, 5, 100, u32::MAX] {
            let (answer, lent) = job_a(planner, budget);
            let expected = Answer::Route {
                cost: 6,
                length: 4,
                rounds: 2,
                turns: 4,
                bound: 10_000,
            };
            assert_eq!(answer, expected);
            assert_eq!(lent.route, [0, 1, 2, 3, 77, 77]);
            assert_eq!(lent.log, [65_536, 65_538, 1, 65_538, 78, 78]);
            let work = [
                0, 2, 3, 4, 4, // first edges
                1, 2, 2, 3, // heads
                1, 4, 2, 3, // costs
                0, 0, 0, 0, // classes
                NONE, 0, // vertex 0, its guide mark gone with round one
                0, 2, // vertex 1, anchor mark
                1, 1, // vertex 2, guide mark
                2, 4, // vertex 3, open
                79, 79,
            ];
            assert_eq!(lent.work, work);
            assert_eq!(lent.wide, [0, 0, 1, 1, 3, 3, 6, UNREACHED, 80, 80]);
        }
    });
}

/// Job A on its schedule as the default one, the paper's house schedule, is job
/// A; beside its own schedule no default one is looked at.
#[test]
fn job_a_on_a_default_schedule() {
    let words = |lent: Lent| (lent.route, lent.log, lent.work, lent.wide);
    on_both(|planner| {
        let (answer, lent) = job_a(planner, 100);
        let expected = (answer, words(lent));
        let (own, bad): (&[u32], &[u32]) = (JOB_A.schedule, &[100, 100, 101, 100]);
        for (schedule, default_schedule) in [(&[][..], own), (own, &[]), (own, bad), (own, own)] {
            let request = Request {
                schedule,
                default_schedule,
                ..JOB_A
            };
            let (answer, lent) = plan(planner, &request);
            assert_eq!((answer, words(lent)), expected);
        }
    });
}

#[test]
fn job_a_with_budget_3() {
    on_both(|planner| {
        let (answer, lent) = job_a(planner, 3);
        let expected = Answer::Route {
            cost: 7,
            length: 3,
            rounds: 1,
            turns: 3,
            bound: 40_000,
        };
        assert_eq!(answer, expected);
        assert_eq!(lent.route, [0, 2, 3, NONE, 77, 77]);
        assert_eq!(lent.log, [65_536, 65_538, 1, 78, 78, 78]);
    });
}

#[test]
fn job_a_with_budget_2() {
    on_both(|planner| {
        let (answer, lent) = job_a(planner, 2);
        let expected = Answer::Route {
            cost: 7,
            length: 3,
            rounds: 1,
            turns: 2,
            bound: 40_000,
        };
        assert_eq!(answer, expected);
        assert_eq!(lent.route, [0, 2, 3, NONE, 77, 77]);
        assert_eq!(lent.log, [65_536, 65_538, 78, 78, 78, 78]);
        // Round two began: the guide marks are gone.
        assert_eq!(lent.work[17..], [NONE, 0, 0, 4, 0, 0, 2, 4, 79, 79]);
        let wide = [0, 0, 1, UNREACHED, 4, 4, 7, UNREACHED, 80, 80];
        assert_eq!(lent.wide, wide);
    });
}

#[test]
fn job_a_unfinished() {
    on_both(|planner| {
        let (answer, lent) = job_a(planner, 1);
        assert_eq!(answer, Answer::Unfinished { turns: 1 });
        assert_eq!(lent.route, [77; 6]);
        assert_eq!(lent.log, [65_536, 78, 78, 78, 78, 78]);
        assert_eq!(lent.work[17..], [NONE, 1, 0, 4, 0, 4, NONE, 0, 79, 79]);
        assert_eq!(lent.wide[..6], [0, 0, 1, UNREACHED, 4, UNREACHED]);
        assert_eq!(lent.wide[6..], [UNREACHED, UNREACHED, 80, 80]);

        let (answer, lent) = job_a(planner, 0);
        assert_eq!(answer, Answer::Unfinished { turns: 0 });
        assert_eq!(lent.log, [78; 6]);
        assert_eq!(lent.work[17..19], [NONE, 4]);
        assert_eq!(lent.work[19..], [NONE, 0, NONE, 0, NONE, 0, 79, 79]);
        assert_eq!(lent.wide[..2], [0, UNREACHED]);
        assert_eq!(lent.wide[2..8], [UNREACHED; 6]);
        assert_eq!(lent.wide[8..], [80, 80]);
    });
}

/// Job A with another guide sheet.
fn job_a_by(planner: &dyn Planner, guides: &[u32], budget: u32) -> (Answer, Lent) {
    let request = Request {
        guides,
        budget,
        ..JOB_A
    };
    plan(planner, &request)
}

/// Job A without an opinion on any vertex: the anchor expands 0, then 2, whose
/// key 400 + 200·3 is below 100 + 200·5 at 1; 7 ≤ 2·7 finishes round one. In
/// round two 1 and then 2 have the key 600, and 6 ≤ 6 finishes it.
#[test]
fn job_a_without_opinions() {
    on_both(|planner| {
        for budget in [4, 5, 100, u32::MAX] {
            let (answer, lent) = job_a_by(planner, &[NO_OPINION; 4], budget);
            assert_eq!(answer, job_a(planner, budget).0);
            assert_eq!(lent.route, [0, 1, 2, 3, 77, 77]);
            assert_eq!(lent.log, [0, 2, 1, 2, 78, 78]);
            assert_eq!(lent.work[17..], [NONE, 0, 0, 2, 1, 2, 2, 4, 79, 79]);
            assert_eq!(lent.wide, [0, 0, 1, 1, 3, 3, 6, UNREACHED, 80, 80]);
        }
        let route = |turns| Answer::Route {
            cost: 7,
            length: 3,
            rounds: 1,
            turns,
            bound: 40_000,
        };
        let (answer, lent) = job_a_by(planner, &[NO_OPINION; 4], 3);
        assert_eq!(answer, route(3));
        assert_eq!(lent.route, [0, 2, 3, NONE, 77, 77]);
        assert_eq!(lent.log, [0, 2, 1, 78, 78, 78]);
        assert_eq!(lent.work[17..], [NONE, 0, 0, 2, 1, 4, 2, 4, 79, 79]);
        assert_eq!(lent.wide, [0, 0, 1, 1, 3, 4, 7, UNREACHED, 80, 80]);
        let (answer, lent) = job_a_by(planner, &[NO_OPINION; 4], 2);
        assert_eq!(answer, route(2));
        assert_eq!(lent.route, [0, 2, 3, NONE, 77, 77]);
        assert_eq!(lent.log, [0, 2, 78, 78, 78, 78]);
        assert_eq!(lent.work[17..], [NONE, 0, 0, 4, 0, 0, 2, 4, 79, 79]);
    });
}

#[test]
fn job_a_without_opinions_unfinished() {
    on_both(|planner| {
        let (answer, lent) = job_a_by(planner, &[NO_OPINION; 4], 1);
        assert_eq!(answer, Answer::Unfinished { turns: 1 });
        assert_eq!(lent.route, [77; 6]);
        assert_eq!(lent.log, [0, 78, 78, 78, 78, 78]);
        assert_eq!(lent.work[17..], [NONE, 2, 0, 4, 0, 4, NONE, 0, 79, 79]);
        let (answer, lent) = job_a_by(planner, &[NO_OPINION; 4], 0);
        assert_eq!(answer, Answer::Unfinished { turns: 0 });
        assert_eq!(lent.log, [78; 6]);
    });
}

/// Job A's guide takes 2 in its second turn. Without an opinion there it takes
/// 1, whose key 100 + 200·9 is within 2·1000; then no vertex is left to it,
/// and the anchor takes 2. Round two is finished at once.
#[test]
fn job_a_without_an_opinion_on_one_vertex() {
    on_both(|planner| {
        let sheet = [0, 9, NO_OPINION, 0];
        for budget in [3, 4, 100, u32::MAX] {
            let (answer, lent) = job_a_by(planner, &sheet, budget);
            let expected = Answer::Route {
                cost: 6,
                length: 4,
                rounds: 2,
                turns: 3,
                bound: 10_000,
            };
            assert_eq!(answer, expected);
            assert_eq!(lent.route, [0, 1, 2, 3, 77, 77]);
            assert_eq!(lent.log, [65_536, 65_537, 2, 78, 78, 78]);
            assert_eq!(lent.work[17..], [NONE, 0, 0, 0, 1, 0, 2, 4, 79, 79]);
            assert_eq!(lent.wide, [0, 0, 1, 1, 3, 3, 6, UNREACHED, 80, 80]);
        }
        let (answer, lent) = job_a_by(planner, &sheet, 2);
        assert_eq!(answer, Answer::Unfinished { turns: 2 });
        assert_eq!(lent.log, [65_536, 65_537, 78, 78, 78, 78]);
        assert_eq!(lent.work[17..], [NONE, 1, 0, 1, 1, 4, NONE, 0, 79, 79]);
        assert_eq!(job_a_by(planner, &sheet, 1).0, job_a(planner, 1).0);
    });
}

/// The log of a call over three edges at 16,000,000, one after another.
fn log_along_three(planner: &dyn Planner, guides: &[u32]) -> [u32; 3] {
    let bytes = Plan {
        vertices: 4,
        tails: vec![0, 1, 2],
        heads: vec![1, 2, 3],
        costs: vec![16_000_000; 3],
        classes: vec![0; 3],
    }
    .bytes();
    let request = Request {
        bytes: &bytes,
        anchor: &[48_000_000, 32_000_000, 16_000_000, 0],
        guides,
        guide_count: guides.len() as u32 / 4,
        schedule: &[100, 10_000],
        ..JOB_A
    };
    let (answer, lent) = plan(planner, &request);
    let expected = Answer::Route {
        cost: 48_000_000,
        length: 4,
        rounds: 1,
        turns: 3,
        bound: 1_000_000,
    };
    assert_eq!(answer, expected);
    let [first, second, third, ..] = lent.log;
    [first, second, third]
}

/// 4,294,967,294 is within 100 times 48,000,000, so a guide expands vertices
/// at it; without an opinion the anchor does, and then the next guide has the
/// turn.
#[test]
fn the_greatest_opinion_is_a_number() {
    let (most, none) = (MOST_OPINION, NO_OPINION);
    on_both(|planner| {
        let log = |guides: &[u32]| log_along_three(planner, guides);
        assert_eq!(log(&[most; 4]), [65_536, 65_537, 65_538]);
        assert_eq!(log(&[none; 4]), [0, 1, 2]);
        assert_eq!(log(&[most, none, most, most]), [65_536, 1, 65_538]);
        assert_eq!(log(&[none, most, most, none]), [0, 65_537, 65_538]);
        assert_eq!(log(&[most, most, none, most]), [65_536, 65_537, 2]);
        assert_eq!(log(&[none; 8]), [0, 1, 2]);
        // Two guides: one's number is nothing to the other.
        let second = [most, most, most, most, most, none, most, most];
        assert_eq!(log(&second), [65_536, 1, 65_538]);
        let both = [none, most, most, most, none, most, none, most];
        assert_eq!(log(&both), [0, 131_073, 65_538]);
    });
}

/// In the anchor table 4,294,967,295 is a number: the anchor expands vertex 1,
/// from which no walk leads to the goal, and the edge 0 → 2 is barred.
#[test]
fn the_anchor_has_numbers_alone() {
    let bytes = [3, 2, 0, 1, 1, 0, 0, 2, 5, 1];
    let (most, none) = (MOST_OPINION, NO_OPINION);
    on_both(|planner| {
        for (guides, log) in [
            (&[][..], [0, 1]),
            (&[none; 3], [0, 1]),
            (&[0, none, 0], [65_536, 1]),
            (&[0, most, 0], [65_536, 65_537]),
            (&[none, most, 0], [0, 65_537]),
        ] {
            let request = Request {
                bytes: &bytes,
                goal: 2,
                barred: 0b10,
                anchor: &[5, NONE, 0],
                guides,
                guide_count: guides.len() as u32 / 3,
                schedule: &[100, 100],
                ..JOB_A
            };
            let (answer, lent) = plan(planner, &request);
            assert_eq!(answer, Answer::NoRoute { turns: 2 });
            assert_eq!(lent.log[..3], [log[0], log[1], 78], "{guides:?}");
        }
    });
}

/// The smallest job in which the number tells: no edges, and m is 100 times
/// the anchor's number at the start.
#[test]
fn the_number_of_no_opinion_is_exact() {
    on_both(|planner| {
        for (anchor, sheet, log) in [
            (NONE, NO_OPINION, 0),
            (NONE, MOST_OPINION, 65_536),
            (NONE - 1, MOST_OPINION, 65_536),
            (NONE - 1, NO_OPINION, 0),
            (0, NO_OPINION, 0),
            (0, 0, 65_536),
        ] {
            let request = Request {
                bytes: &[2, 0],
                goal: 1,
                anchor: &[anchor, 0],
                guides: &[sheet, 0],
                schedule: &[100, 100],
                ..JOB_A
            };
            let (answer, lent) = plan(planner, &request);
            assert_eq!(answer, Answer::NoRoute { turns: 1 });
            assert_eq!(lent.log[..2], [log, 78], "{anchor} {sheet}");
        }
    });
}

#[test]
fn no_route() {
    on_both(|planner| {
        for (budget, barred) in [1, 2, 100, u32::MAX]
            .into_iter()
            .flat_map(|budget| (0..=255).map(move |barred| (budget, barred)))
        {
            let request = Request {
                bytes: &[2, 0],
                start: 0,
                goal: 1,
                barred,
                anchor: &[0, 0],
                guides: &[],
                guide_count: 0,
                schedule: &[],
                default_schedule: &STANDARD_SCHEDULE,
                budget,
            };
            let (answer, lent) = plan(planner, &request);
            assert_eq!(answer, Answer::NoRoute { turns: 1 });
            assert_eq!(lent.route, [77; 6]);
            assert_eq!(lent.log, [0, 78, 78, 78, 78, 78]);
            assert_eq!(lent.work[..8], [0, 0, 0, NONE, 2, NONE, 0, 79]);
            assert_eq!(lent.work[8..], [79; 19]);
            assert_eq!(lent.wide[..4], [0, 0, UNREACHED, UNREACHED]);
            assert_eq!(lent.wide[4..], [80; 6]);
        }
    });
}

#[test]
fn start_is_goal() {
    on_both(|planner| {
        for (schedule, default_schedule, rounds, bound) in [
            (&[][..], &STANDARD_SCHEDULE[..], 6, 10_000),
            (&[200, 150], &[], 1, 30_000),
            (&[200, 150, 200, 120], &STANDARD_SCHEDULE, 2, 24_000),
            (&[10_000; 32], &[100, 100], 16, 100_000_000),
            (&[], &[200, 150], 1, 30_000),
            (&[], &[10_000; 32], 16, 100_000_000),
        ] {
            let request = Request {
                start: 1,
                goal: 1,
                anchor: &[0, 0, 0, 0],
                guides: &[9; 8],
                guide_count: 2,
                schedule,
                default_schedule,
                budget: 0,
                ..JOB_A
            };
            let (answer, lent) = plan(planner, &request);
            let expected = Answer::Route {
                cost: 0,
                length: 1,
                rounds,
                turns: 0,
                bound,
            };
            assert_eq!(answer, expected);
            assert_eq!(lent.route, [1, NONE, NONE, NONE, 77, 77]);
            assert_eq!(lent.log, [78; 6]);
            let (n, u) = (NONE, UNREACHED);
            assert_eq!(lent.work[17..], [n, 0, n, 4, n, 0, n, 0, 79, 79]);
            assert_eq!(lent.wide, [u, u, 0, u, u, u, u, u, 80, 80]);
        }
    });
}

/// Plan A with its edges of these classes.
fn plan_a_of(classes: [u8; 4]) -> [u8; 18] {
    let mut bytes = PLAN_A;
    for (edge, class) in classes.into_iter().enumerate() {
        bytes[5 + 4 * edge] = class;
    }
    bytes
}

/// Without the edge 0 → 1 the dearer route is the cheapest; the edge still
/// stands in work memory.
#[test]
fn a_barred_class_is_not_used() {
    on_both(|planner| {
        let bytes = plan_a_of([1, 0, 0, 0]);
        let request = Request {
            bytes: &bytes,
            barred: 0b10,
            ..JOB_A
        };
        let (answer, lent) = plan(planner, &request);
        let expected = Answer::Route {
            cost: 7,
            length: 3,
            rounds: 2,
            turns: 2,
            bound: 10_000,
        };
        assert_eq!(answer, expected);
        assert_eq!(lent.route, [0, 2, 3, NONE, 77, 77]);
        assert_eq!(lent.log, [65_536, 65_538, 78, 78, 78, 78]);
        let work = [
            0, 2, 3, 4, 4, // first edges
            1, 2, 2, 3, // heads
            1, 4, 2, 3, // costs
            1, 0, 0, 0, // classes
            NONE, 0, // vertex 0
            NONE, 0, // vertex 1, not reached
            0, 0, // vertex 2
            2, 4, // vertex 3, open
            79, 79,
        ];
        assert_eq!(lent.work, work);
        assert_eq!(lent.wide[..4], [0, 0, UNREACHED, UNREACHED]);
        assert_eq!(lent.wide[4..], [4, 4, 7, UNREACHED, 80, 80]);
        // Where another class is barred, all is as in job A.
        for barred in [0, 1 << 2, 1 << 7, 0b1111_1100] {
            let (answer, lent) = plan(planner, &Request { barred, ..request });
            assert_eq!(answer, job_a(planner, 100).0);
            assert_eq!(lent.work[13..17], [1, 0, 0, 0]);
        }
    });
}

#[test]
fn no_route_where_every_edge_is_barred() {
    on_both(|planner| {
        for (classes, barred) in [
            ([0; 4], 1),
            ([0; 4], 255),
            ([7; 4], 128),
            ([3, 4, 5, 6], 0b0111_1000),
            ([3, 4, 5, 6], 255),
        ] {
            let bytes = plan_a_of(classes);
            for guide_count in [0, 1] {
                let request = Request {
                    bytes: &bytes,
                    barred,
                    guides: &JOB_A.guides[..4 * guide_count],
                    guide_count: guide_count as u32,
                    ..JOB_A
                };
                let (answer, lent) = plan(planner, &request);
                assert_eq!(answer, Answer::NoRoute { turns: 1 });
                assert_eq!(lent.route, [77; 6]);
                let first = 65_536 * guide_count as u32;
                assert_eq!(lent.log, [first, 78, 78, 78, 78, 78]);
                assert_eq!(lent.work[13..17], classes.map(u32::from));
                assert_eq!(lent.work[19..25], [NONE, 0].repeat(3));
                assert_eq!(lent.wide[..2], [0, 0]);
                assert_eq!(lent.wide[2..8], [UNREACHED; 6]);
            }
        }
    });
}

/// The lengths of route, work and wide memory that plan A needs.
const ROOM_A: [usize; 3] = [4, 25, 8];

/// The refusal of a call on so much route, work and wide memory, which it must
/// leave untouched, or (0, 0); the memory past these lengths it always leaves.
fn refused(planner: &dyn Planner, request: &Request, room: [usize; 3]) -> (u32, usize) {
    let mut lent = UNTOUCHED;
    let [route, work, wide] = room;
    let memory = Memory {
        route: &mut lent.route[..route],
        log: &mut lent.log,
        work: &mut lent.work[..work],
        wide: &mut lent.wide[..wide],
    };
    let figures = planner.plan(request, memory);
    assert_eq!(lent.route[route..], UNTOUCHED.route[route..]);
    assert_eq!(lent.work[work..], UNTOUCHED.work[work..]);
    assert_eq!(lent.wide[wide..], UNTOUCHED.wide[wide..]);
    match Answer::of_figures(figures).expect("figures of an answer") {
        Answer::Refused { number, position } => {
            assert_eq!(lent.route, UNTOUCHED.route);
            assert_eq!(lent.log, UNTOUCHED.log);
            assert_eq!(lent.work, UNTOUCHED.work);
            assert_eq!(lent.wide, UNTOUCHED.wide);
            (number, position)
        }
        _ => (0, 0),
    }
}

/// The refusal of plan bytes in a call that has every other fault too.
fn refused_plan(planner: &dyn Planner, bytes: &[u8]) -> (u32, usize) {
    let request = Request {
        bytes,
        start: 9,
        goal: 9,
        barred: 256,
        anchor: &[],
        guides: &[],
        guide_count: 9,
        schedule: &[1],
        default_schedule: &[],
        budget: 0,
    };
    refused(planner, &request, [0; 3])
}

#[test]
fn plan_bytes_are_refused() {
    on_both(|planner| {
        let refused = |bytes: &[u8]| refused_plan(planner, bytes);
        assert_eq!(refused(&[]), (1, 0));
        assert_eq!(refused(&[0x80, 0x00]), (1, 0));
        assert_eq!(refused(&[0x04]), (1, 1));
        // A cost of 16,000,001; one of 16,000,000, and what stands behind it.
        assert_eq!(refused(&[2, 1, 0, 1, 0x81, 0xC8, 0xD0, 7, 8]), (5, 4));
        let with = |behind: &[u8]| refused(&[&[2, 1, 0, 1, 0x80, 0xC8, 0xD0, 7], behind].concat());
        assert_eq!(with(&[8]), (15, 8));
        assert_eq!(with(&[0x87, 0]), (1, 8));
        assert_eq!(with(&[]), (1, 8));
        assert_eq!(with(&[7]), (8, 0));
        // A class above 7 at each edge, at its first byte.
        for edge in 0..4 {
            for class in [8, 9, 127] {
                let mut classes = [7; 4];
                classes[edge] = class;
                assert_eq!(refused(&plan_a_of(classes)), (15, 5 + 4 * edge));
            }
        }
    });
}

/// What was refused as a number of four groups is one, and what was refused
/// as a cost above 1,000,000 is one.
#[test]
fn plan_bytes_within_the_new_limits() {
    on_both(|planner| {
        let refused = |bytes: &[u8]| refused_plan(planner, bytes);
        assert_eq!(refused(&[0x80, 0x80, 0x80, 1, 0]), (2, 0));
        assert_eq!(refused(&[2, 0x80, 0x80, 0x80, 1]), (3, 1));
        assert_eq!(refused(&[2, 1, 0x80, 0x80, 0x80, 1]), (4, 2));
        assert_eq!(refused(&[2, 1, 0, 0x80, 0x80, 0x80, 1]), (4, 3));
        assert_eq!(refused(&[2, 1, 0, 1, 0x80, 0x80, 0x80, 0x80, 1]), (1, 4));
        assert_eq!(refused(&[2, 1, 0, 1, 0xC1, 0x84, 0x3D, 7]), (8, 0));
    });
}

#[test]
fn costs_up_to_16_000_000_are_planned() {
    on_both(|planner| {
        for cost in [1_000_000, 1_000_001, 15_999_999, 16_000_000, 16_000_001] {
            let mut bytes = vec![2, 1, 0, 1];
            generate::push_number(&mut bytes, cost);
            bytes.push(0);
            let request = Request {
                bytes: &bytes,
                goal: 1,
                anchor: &[cost, 0],
                guides: &[],
                guide_count: 0,
                ..JOB_A
            };
            if cost > 16_000_000 {
                assert_eq!(refused(planner, &request, ROOM_A), (5, 4));
                continue;
            }
            let (answer, lent) = plan(planner, &request);
            let expected = Answer::Route {
                cost: cost.into(),
                length: 2,
                rounds: 2,
                turns: 1,
                bound: 10_000,
            };
            assert_eq!(answer, expected);
            assert_eq!(lent.route, [0, 1, 77, 77, 77, 77]);
            assert_eq!(lent.work[..6], [0, 1, 1, 1, cost, 0]);
            assert_eq!(lent.wide[..4], [0, 0, cost.into(), UNREACHED]);
        }
    });
}

#[test]
fn the_anchor_table_is_checked() {
    on_both(|planner| {
        let refused = |anchor: &[u32]| refused(planner, &Request { anchor, ..JOB_A }, ROOM_A);
        assert_eq!(refused(&[7, 5, 3, 0]), (13, 0));
        assert_eq!(refused(&[6, 5, 3, 1]), (12, 0));
        assert_eq!(refused(&[6, 5, 3, 0]), (0, 0));
    });
}

/// The anchor table keeps its rule on barred edges too.
#[test]
fn the_anchor_table_is_checked_on_barred_edges() {
    on_both(|planner| {
        let bytes = plan_a_of([1, 0, 0, 2]);
        for barred in [0, 0b10, 0b110, 255] {
            let refused = |anchor: &[u32]| {
                let request = Request {
                    bytes: &bytes,
                    barred,
                    anchor,
                    ..JOB_A
                };
                refused(planner, &request, ROOM_A)
            };
            assert_eq!(refused(&[7, 5, 3, 0]), (13, 0));
            assert_eq!(refused(&[4, 5, 4, 0]), (13, 3));
            assert_eq!(refused(&[6, 5, 3, 0]), (0, 0));
        }
    });
}

/// Barred numbers go from 0 to 255, and a greater one counts before tables
/// that are wrong.
#[test]
fn a_barred_number_above_255_is_refused() {
    on_both(|planner| {
        let refused = |barred: u32, guide_count: u32| {
            let request = Request {
                barred,
                guide_count,
                ..JOB_A
            };
            refused(planner, &request, ROOM_A)
        };
        for barred in 0..=255 {
            assert_eq!(refused(barred, 1), (0, 0));
            assert_eq!(refused(barred, 9), (9, 0));
        }
        for barred in [
            256,
            257,
            511,
            512,
            1 << 16,
            1 << 31,
            u32::MAX - 255,
            u32::MAX,
        ] {
            assert_eq!(refused(barred, 1), (8, 0));
            assert_eq!(refused(barred, 9), (8, 0));
        }
    });
}

#[test]
fn each_refusal_of_the_call_in_order() {
    type Call<'a> = (u32, u32, &'a [u32], &'a [u32], u32, &'a [u32], [usize; 3]);
    on_both(|planner| {
        let refused = |call: Call| {
            let (start, goal, anchor, guides, guide_count, schedule, room) = call;
            let request = Request {
                start,
                goal,
                anchor,
                guides,
                guide_count,
                schedule,
                ..JOB_A
            };
            refused(planner, &request, room)
        };
        let (good, bad): (&[u32], &[u32]) = (&[6, 5, 3, 0], &[6, 5, 3, 1]);
        let rises: &[u32] = &[100, 100, 100, 101];
        assert_eq!(refused((4, 3, bad, &[], 9, rises, [0; 3])), (8, 0));
        assert_eq!(refused((0, 4, bad, &[], 9, rises, [0; 3])), (8, 0));
        assert_eq!(refused((0, 3, bad, &[], 9, rises, [0; 3])), (9, 0));
        assert_eq!(refused((0, 3, bad, &[0; 36], 9, rises, [0; 3])), (9, 0));
        assert_eq!(refused((0, 3, &bad[..3], &[], 0, rises, [0; 3])), (9, 0));
        assert_eq!(refused((0, 3, bad, &[0; 3], 1, rises, [0; 3])), (9, 0));
        assert_eq!(refused((0, 3, bad, &[0; 5], 1, rises, [0; 3])), (9, 0));
        assert_eq!(refused((0, 3, bad, &[0; 4], 0, rises, [0; 3])), (9, 0));
        assert_eq!(refused((0, 3, bad, &[], u32::MAX, rises, [0; 3])), (9, 0));
        assert_eq!(refused((0, 3, bad, &[], 1 << 30, rises, [0; 3])), (9, 0));
        assert_eq!(refused((0, 3, bad, &[], 0, rises, [0; 3])), (10, 0));
        assert_eq!(refused((0, 3, bad, &[], 0, &[100], [0; 3])), (10, 0));
        assert_eq!(refused((0, 3, bad, &[], 0, &[99, 100], [0; 3])), (10, 0));
        assert_eq!(
            refused((0, 3, bad, &[], 0, &[100, 10_001], [0; 3])),
            (10, 0)
        );
        assert_eq!(refused((0, 3, bad, &[], 0, &[100; 34], [0; 3])), (10, 0));
        assert_eq!(
            refused((0, 3, bad, &[], 0, &[100; 32], [3, 25, 8])),
            (11, 0)
        );
        assert_eq!(refused((0, 3, bad, &[], 0, &[], [4, 24, 8])), (11, 0));
        assert_eq!(refused((0, 3, bad, &[], 0, &[], [4, 25, 7])), (11, 0));
        assert_eq!(refused((0, 3, bad, &[], 0, &[], [6, 27, 7])), (11, 0));
        assert_eq!(refused((0, 3, bad, &[], 0, &[], [0; 3])), (11, 0));
        assert_eq!(refused((0, 3, bad, &[], 0, &[], ROOM_A)), (12, 0));
        let steep: &[u32] = &[7, 5, 3, 0];
        assert_eq!(refused((0, 3, steep, &[], 0, &[], ROOM_A)), (13, 0));
        let steep: &[u32] = &[6, 6, 4, 0];
        assert_eq!(refused((0, 3, steep, &[], 0, &[], ROOM_A)), (13, 3));
        let steep: &[u32] = &[5, NONE, NONE, 0];
        assert_eq!(refused((0, 3, steep, &[], 0, &[], ROOM_A)), (13, 3));
        assert_eq!(refused((0, 3, good, &[0; 32], 8, &[], ROOM_A)), (0, 0));
        assert_eq!(refused((0, 3, good, &[], 0, &[], ROOM_A)), (0, 0));
    });
}

/// Row 11 for every length of each kind of memory: under V words of route,
/// 3V+1+3M of work or 2V numbers of wide memory, and no other.
#[test]
fn memory_of_every_length() {
    let lengths = |kind: usize| (0..=ROOM_A[kind] + 2).map(move |length| (kind, length));
    on_both(|planner| {
        for (kind, length) in (0..3).flat_map(lengths) {
            let expected = match length < ROOM_A[kind] {
                true => (11, 0),
                false => (0, 0),
            };
            // With nothing else to spare, and with room to spare.
            let rooms = [ROOM_A, [6, 27, 10]].map(|mut room| {
                room[kind] = length;
                room
            });
            let answers = rooms.map(|room| refused(planner, &JOB_A, room));
            assert_eq!(answers, [expected; 2], "{rooms:?}");
        }
    });
}

/// What is printed for a job's bytes.
fn printed(planner: &dyn Planner, bytes: &[u8]) -> String {
    let mut text = vec![0xEE; 1_000];
    let length = planner.bench_text(bytes, &mut text);
    assert!(text[length..].iter().all(|&byte| byte == 0xEE));
    text.truncate(length);
    String::from_utf8(text).expect("a text")
}

#[test]
fn the_bench_program_on_job_a() {
    let text = "turn 1 table 1 place 0\n\
                turn 2 table 1 place 2\n\
                turn 3 table 0 place 1\n\
                turn 4 table 1 place 2\n\
                route 0 1 2 3\n\
                end cost 6 rounds 2 turns 4 bound 10000\n";
    on_both(|planner| {
        assert_eq!(printed(planner, &job_a_bytes()), text);
        // Less room takes the beginning.
        for room in 0..text.len() {
            let mut lent = vec![0xEE; room];
            assert_eq!(planner.bench_text(&job_a_bytes(), &mut lent), text.len());
            assert_eq!(lent, text.as_bytes()[..room]);
        }
    });
}

#[test]
fn the_bench_program_with_other_budgets() {
    on_both(|planner| {
        let with_budget = |budget: u8| {
            let mut bytes = job_a_bytes();
            bytes[22] = budget;
            printed(planner, &bytes)
        };
        let text = "turn 1 table 1 place 0\n\
                    turn 2 table 1 place 2\n\
                    route 0 2 3\n\
                    end cost 7 rounds 1 turns 2 bound 40000\n";
        assert_eq!(with_budget(2), text);
        assert_eq!(
            with_budget(1),
            "turn 1 table 1 place 0\nunfinished turns 1\n"
        );
        assert_eq!(with_budget(0), "unfinished turns 0\n");
    });
}

/// No opinion in a bench job: five groups.
#[test]
fn the_bench_program_without_opinions() {
    let mut bytes = job_a_bytes();
    bytes.truncate(bytes.len() - 4);
    bytes.extend([0xFF, 0xFF, 0xFF, 0xFF, 0x0F].repeat(4));
    let text = "turn 1 table 0 place 0\n\
                turn 2 table 0 place 2\n\
                turn 3 table 0 place 1\n\
                turn 4 table 0 place 2\n\
                route 0 1 2 3\n\
                end cost 6 rounds 2 turns 4 bound 10000\n";
    on_both(|planner| assert_eq!(printed(planner, &bytes), text));
}

#[test]
fn the_bench_program_without_a_route() {
    on_both(|planner| {
        for barred in 0..=255u8 {
            let mut bytes = vec![2, 2, 0, 0, 1];
            generate::push_number(&mut bytes, barred.into());
            bytes.extend([1, 0, 0, 0, 0]);
            assert_eq!(
                printed(planner, &bytes),
                "turn 1 table 0 place 0\nno route turns 1\n"
            );
        }
    });
}

#[test]
fn the_bench_program_refuses() {
    on_both(|planner| {
        let changed = |at: usize, byte: u8| {
            let mut bytes = job_a_bytes();
            bytes[at] = byte;
            printed(planner, &bytes)
        };
        let refused = |number: u32, position: u32| format!("refused {number} at {position}\n");
        let job = job_a_bytes();
        assert_eq!(printed(planner, &[]), refused(14, 0));
        for length in 0..job.len() {
            assert_eq!(printed(planner, &job[..length]), refused(14, 0));
        }
        // Positions are those inside the plan.
        assert_eq!(changed(1, 0), refused(2, 0));
        assert_eq!(changed(3, 4), refused(4, 2));
        assert_eq!(changed(2, 3), refused(7, 14));
        // A plan fault comes before tables that are short, but not before a
        // number of bad form up to the guide count.
        let mut short = job.clone();
        short.truncate(35);
        assert_eq!(printed(planner, &short), refused(14, 0));
        short[1] = 0;
        assert_eq!(printed(planner, &short), refused(2, 0));
        short.truncate(29);
        assert_eq!(printed(planner, &short), refused(14, 0));
        // A start that is no vertex, a schedule out of range, the anchor's
        // rows.
        assert_eq!(changed(19, 4), refused(8, 0));
        assert_eq!(changed(20, 4), refused(8, 0));
        assert_eq!(changed(28, 99), refused(10, 0));
        assert_eq!(changed(31, 7), refused(13, 0));
        assert_eq!(changed(34, 1), refused(12, 0));
        // Classes, at their offsets in the plan.
        for edge in 0..4 {
            assert_eq!(changed(6 + 4 * edge, 8), refused(15, 5 + 4 * edge as u32));
        }
        // Bytes left over, counts too large.
        let mut longer = job.clone();
        longer.push(0);
        assert_eq!(printed(planner, &longer), refused(14, 0));
        assert_eq!(changed(23, 17), refused(14, 0));
        assert_eq!(changed(30, 9), refused(14, 0));
    });
}

/// The barred number stands after the goal: of bad form or missing it is
/// refusal 14, above 255 refusal 8.
#[test]
fn the_bench_program_reads_a_barred_number() {
    on_both(|planner| {
        let with = |groups: &[u8]| {
            let mut bytes = job_a_bytes();
            bytes.splice(21..22, groups.iter().copied());
            printed(planner, &bytes)
        };
        let (whole, no_route) = (with(&[0]), "turn 1 table 1 place 0\nno route turns 1\n");
        assert!(whole.ends_with("end cost 6 rounds 2 turns 4 bound 10000\n"));
        assert_eq!(with(&[1]), no_route);
        assert_eq!(with(&[2]), whole);
        assert_eq!(with(&[0xFE, 1]), whole);
        assert_eq!(with(&[0xFF, 1]), no_route);
        for above in [&[0x80, 2][..], &[0xFF, 0xFF, 0xFF, 0xFF, 0x0F]] {
            assert_eq!(with(above), "refused 8 at 0\n");
        }
        for bad in [
            &[0x80, 0][..],
            &[0xFF, 0xFF, 0xFF, 0xFF, 0x1F],
            &[0x80, 0x80, 0x80, 0x80, 0x80, 1],
        ] {
            assert_eq!(with(bad), "refused 14 at 0\n");
        }
        // Nothing after the goal, and a number that is cut.
        let job = job_a_bytes();
        assert_eq!(printed(planner, &job[..21]), "refused 14 at 0\n");
        let cut = [&job[..21], &[0x80]].concat();
        assert_eq!(printed(planner, &cut), "refused 14 at 0\n");
        // Without it the allowance is read in its place, and a factor as the
        // count of rounds.
        assert_eq!(with(&[]), "refused 14 at 0\n");
    });
}

/// Job A on plan A with class 1 on the edge 0 → 1, class 1 barred.
#[test]
fn the_bench_program_keeps_off_a_barred_class() {
    let mut bytes = job_a_bytes();
    (bytes[6], bytes[21]) = (1, 2);
    on_both(|planner| {
        assert_eq!(
            printed(planner, &bytes),
            "turn 1 table 1 place 0\nturn 2 table 1 place 2\nroute 0 2 3\n\
             end cost 7 rounds 2 turns 2 bound 10000\n"
        );
    });
}
