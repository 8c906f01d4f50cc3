//! The second planner's text for the bench program on seeded jobs.

use secondcoop_tests::bench_text;
use secondcoop_tests::guarded::GUARD;
use secondcoop_tests::jobs;
use secondcoop_tests::planner::{Answer, MOST_OPINION, NO_OPINION};
use secondcoop_tests::planners::{self, SecondPlanner, KINDS};

#[test]
fn every_ending_and_refusal_is_met() {
    let mut counts = [0; KINDS];
    jobs::bench_jobs(61, 6_000, &mut |bytes, known| {
        let text = bench_text::bench_text(bytes);
        if let Some(known) = known {
            assert_eq!(text, known, "{bytes:02X?}");
        }
        assert!(text.ends_with('\n') && !text.contains("\n\n"));
        counts[planners::kind_of_text(&text)] += 1;
    });
    for (kind, &count) in counts.iter().enumerate() {
        match kind {
            // The bench program's job has tables of V numbers and memory.
            9 | 11 => assert_eq!(count, 0, "kind {kind}"),
            _ => assert!(count >= 100, "kind {kind}: {count}"),
        }
    }
}

/// The text of a valid job says what the call hands over.
#[test]
fn the_text_and_the_call_agree() {
    let mut count = 0;
    jobs::valid_jobs(62, 1_000, &mut |plan, job| {
        let mut job = job.as_bench_job();
        // All turns: 2·V in each of 16 rounds at most.
        job.log_room = 2 * plan.vertices as usize * 16;
        let outcome = planners::run(&SecondPlanner, &job, count);
        let text = bench_text::bench_text(&job.bench_bytes());
        let lines: Vec<&str> = text.lines().collect();
        let (turns, ending) = match outcome.answer() {
            Answer::Route {
                cost,
                length,
                rounds,
                turns,
                bound,
            } => {
                assert!(length <= plan.vertices);
                let route = &outcome.route[GUARD..GUARD + length as usize];
                let places: Vec<String> = route.iter().map(u32::to_string).collect();
                let ending = vec![
                    format!("route {}", places.join(" ")),
                    format!("end cost {cost} rounds {rounds} turns {turns} bound {bound}"),
                ];
                (turns, ending)
            }
            Answer::NoRoute { turns } => (turns, vec![format!("no route turns {turns}")]),
            Answer::Unfinished { turns } => (turns, vec![format!("unfinished turns {turns}")]),
            Answer::Refused { .. } => panic!("a valid job is refused"),
        };
        assert_eq!(lines[turns as usize..], ending);
        for (index, line) in lines[..turns as usize].iter().enumerate() {
            let word = outcome.log[GUARD + index];
            let (table, vertex) = (word >> 16, word & 0xFFFF);
            assert_eq!(
                *line,
                format!("turn {} table {table} place {vertex}", index + 1)
            );
        }
        count += 1;
    });
    assert!(count >= 3_000);
}

/// 32,768 bytes are read, 32,769 are not.
#[test]
fn the_limit_of_job_bytes() {
    let plan = secondcoop_tests::generate::Plan::without_edges(256);
    // Sheets of numbers in five groups, 256 × 8 × 5 bytes: the greatest, and no
    // opinion.
    let [mut bytes, other] = [MOST_OPINION, NO_OPINION].map(|number| {
        let sheets = vec![number; 8 * 256];
        jobs::Job::new(&plan, 0, 1, vec![0; 256], sheets, 8, vec![], 1).bench_bytes()
    });
    assert_eq!(bytes.len(), other.len());
    for bytes in [&bytes, &other] {
        assert_eq!(
            bench_text::bench_text(bytes),
            "turn 1 table 0 place 0\nno route turns 1\n"
        );
    }
    bytes.resize(32_768, 0);
    // The fault of the plan counts before the bytes left over, but not
    // before a job that is too long.
    bytes[2] = 0x80;
    bytes[3] = 0x00;
    assert_eq!(bench_text::bench_text(&bytes), "refused 1 at 0\n");
    bytes.push(0);
    assert_eq!(bench_text::bench_text(&bytes), "refused 14 at 0\n");
}
