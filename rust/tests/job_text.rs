//! The text form of jobs: round trips with bytes, and what is said about a
//! line that is wrong.

use secondcoop_tests::bench_text;
use secondcoop_tests::default_schedule::DefaultSchedule;
use secondcoop_tests::generate::push_number;
use secondcoop_tests::jobs;
use secondcoop_tests::planners::{is_refusal, kind_of_text, KINDS};
use secondcoop_tests::random::Random;
use secondcoop_tests::refusals::{default_remarks, remarks, Remark, Taker};
use secondcoop_tests::text::{begins, pairs, pairs_text, Begins, PlanLines, TextJob};

/// Job A of the paper.
const JOB_A: &str = "\
# Job A
places 4
lane 0 1 1 0
lane 0 2 4 0
lane 1 2 2 0
lane 2 3 3 0
start 0
goal 3
barred 0
allowance 100
round 200 200
round 100 100
anchor 6 5 3 0
guide 0 9 0 0
";
const JOB_A_PAIRS: &str = "12 04 04 00 01 01 00 00 02 04 00 01 02 02 00 01 03 03 00 00 03 00 64 \
                           02 C8 01 C8 01 64 64 01 06 05 03 00 00 09 00 00";

#[test]
fn job_a() {
    let job = TextJob::parse(JOB_A).unwrap();
    assert_eq!(job.bytes(), pairs(JOB_A_PAIRS).unwrap());
    assert_eq!(remarks(&job, Taker::Bench), []);
    let text = TextJob::of_bytes(&job.bytes()).to_string();
    assert_eq!(format!("# Job A\n{text}"), JOB_A);
    assert_eq!(
        bench_text::bench_text(&job.bytes()),
        "turn 1 table 1 place 0\nturn 2 table 1 place 2\nturn 3 table 0 place 1\n\
         turn 4 table 1 place 2\nroute 0 1 2 3\nend cost 6 rounds 2 turns 4 bound 10000\n"
    );
}

/// Classes and a barred number that are left out are 0; where they stand they
/// are said.
#[test]
fn classes_and_barred_numbers() {
    let old = JOB_A
        .replace(" 0\nlane", "\nlane")
        .replace("3 3 0\n", "3 3\n");
    let old = old.replace("barred 0\n", "");
    assert_eq!(
        old.matches("lane 0 2 4\nlane 1 2 2\nlane 2 3 3\nstart")
            .count(),
        1
    );
    let job = TextJob::parse(&old).unwrap();
    assert_eq!(job.bytes(), pairs(JOB_A_PAIRS).unwrap());
    assert_eq!(format!("# Job A\n{job}"), JOB_A);
    for (class, barred) in [(0, 255), (7, 128), (8, 256), (300, u32::MAX)] {
        let text = JOB_A
            .replace("lane 0 1 1 0", &format!("lane 0 1 1 {class}"))
            .replace("barred 0", &format!("barred {barred}"));
        let job = TextJob::parse(&text).unwrap();
        assert_eq!(format!("# Job A\n{job}"), text);
        let again = TextJob::of_bytes(&job.bytes());
        assert_eq!(again.to_string(), job.to_string());
        let mut bytes = pairs(JOB_A_PAIRS).unwrap();
        let mut number = Vec::new();
        push_number(&mut number, barred);
        bytes.splice(21..22, number);
        let mut number = Vec::new();
        push_number(&mut number, class);
        bytes[0] += number.len() as u8 - 1;
        bytes.splice(6..7, number);
        assert_eq!(job.bytes(), bytes);
    }
}

/// No opinion is said by a word in a guide's line: it is read and written, and
/// its number is read as well. In the anchor table the number is written.
#[test]
fn no_opinion_is_a_word() {
    let most = [0xFF, 0xFF, 0xFF, 0xFF, 0x0F];
    let whole = pairs(JOB_A_PAIRS).unwrap();
    for (says, written, at) in [
        ("0 - 0 0", "0 - 0 0", 1),
        ("0 4294967295 0 0", "0 - 0 0", 1),
        ("- 9 0 0", "- 9 0 0", 0),
        ("0 9 0 -", "0 9 0 -", 3),
    ] {
        let text = JOB_A.replace("guide 0 9 0 0", &format!("guide {says}"));
        let job = TextJob::parse(&text).unwrap();
        let mut bytes = whole.clone();
        let first = bytes.len() - 4 + at;
        bytes.splice(first..=first, most);
        assert_eq!(job.bytes(), bytes);
        assert_eq!(remarks(&job, Taker::Bench), []);
        let text = JOB_A.replace("guide 0 9 0 0", &format!("guide {written}"));
        assert_eq!(format!("# Job A\n{job}"), text);
        assert_eq!(TextJob::of_bytes(&bytes).to_string(), job.to_string());
    }
    // One less is a number, and so is the greatest in the anchor table.
    let text = JOB_A.replace("guide 0 9", "guide 4294967294 -");
    let text = text.replace("places 4", "places 5");
    let text = text.replace("anchor 6 5 3 0", "anchor 6 5 3 0 4294967295");
    let text = text.replace("- 0 0", "- 0 0 -");
    let job = TextJob::parse(&text).unwrap();
    assert_eq!(remarks(&job, Taker::Bench), []);
    assert_eq!(format!("# Job A\n{job}"), text);
    assert_eq!(TextJob::of_bytes(&job.bytes()).to_string(), job.to_string());
}

/// Which guides have no opinion on any place.
#[test]
fn guides_without_opinions() {
    let without = |sheets: &[&str]| {
        let lines: Vec<String> = sheets.iter().map(|says| format!("guide {says}")).collect();
        let text = JOB_A.replace("guide 0 9 0 0", &lines.join("\n"));
        let lines = TextJob::parse(&text).unwrap().lines().unwrap();
        lines.tables.without_opinions(4)
    };
    assert_eq!(without(&[]), []);
    assert_eq!(without(&["0 - 0 0"]), []);
    assert_eq!(without(&["- - - 0"]), []);
    assert_eq!(without(&["- - - -"]), [1]);
    assert_eq!(without(&["- - - -", "0 0 0 0", "- 4294967295 - -"]), [1, 3]);
    assert_eq!(without(&["- - - 4294967294", "- - - -"]), [2]);
}

/// Job A without rounds, on a sheet of these pairs.
fn on_a_sheet(pairs: &[[u32; 2]]) -> String {
    let line = |[w1, w2]: &[u32; 2]| format!("house {w1} {w2}\n");
    let lines: String = pairs.iter().map(line).collect();
    JOB_A.replace("round 200 200\nround 100 100\n", &lines)
}

/// The lines of a sheet are read in their order and printed; the bytes do not
/// say them, and the planner call takes the job.
#[test]
fn the_lines_of_a_sheet() {
    let text = on_a_sheet(&[[700, 600], [700, 100], [99, 4_294_967_295]]);
    let job = TextJob::parse(&text).unwrap();
    assert_eq!(format!("# Job A\n{job}"), text);
    assert_eq!(job.default_line(), Some(11));
    assert_eq!(Taker::of(&job), Taker::Call);
    let lines = job.lines().unwrap();
    let pairs: Vec<_> = lines
        .default_schedule
        .iter()
        .map(|pair| (pair.number, pair.says))
        .collect();
    assert_eq!(
        pairs,
        [(11, [700, 600]), (12, [700, 100]), (13, [99, u32::MAX])]
    );
    let without = TextJob::parse(&on_a_sheet(&[])).unwrap();
    assert_eq!(without.default_line(), None);
    assert_eq!(Taker::of(&without), Taker::Bench);
    assert_eq!(job.bytes(), without.bytes());
    // They stand anywhere, beside rounds too.
    let text = JOB_A.replace("# Job A\n", "house 700 600\n") + "house 100 100\n";
    let job = TextJob::parse(&text).unwrap();
    let printed = JOB_A.replace("anchor", "house 700 600\nhouse 100 100\nanchor");
    assert_eq!(format!("# Job A\n{job}"), printed);
}

/// What is wrong with a sheet is told by its lines, and only where it is
/// rejected.
#[test]
fn a_sheet_that_is_rejected_is_told() {
    let words = |pairs: &[[u32; 2]]| {
        let job = TextJob::parse(&on_a_sheet(pairs)).unwrap();
        assert_eq!(remarks(&job, Taker::of(&job)), []);
        let remarks: Vec<String> = default_remarks(&job)
            .iter()
            .map(Remark::to_string)
            .collect();
        remarks.join("; ")
    };
    assert_eq!(words(&[]), "");
    assert_eq!(words(&[[100, 10_000]; 16]), "");
    assert_eq!(
        words(&[[100, 100]; 17]),
        "line 27: there are 17 rounds, over 16 (refusal 10)"
    );
    assert_eq!(
        words(&[[10_001, 99]]),
        "line 11: W1 10001 is not from 100 to 10000 (refusal 10); line 11: W2 99 is not from 100 \
         to 10000 (refusal 10)"
    );
    assert_eq!(
        words(&[[300, 200], [200, 201], [201, 200]]),
        "line 12: W2 rises from 200 to 201 (refusal 10); line 13: W1 rises from 200 to 201 \
         (refusal 10)"
    );
}

/// There are remarks on a sheet exactly where the second implementation
/// rejects it.
#[test]
fn remarks_on_seeded_sheets() {
    let mut random = Random::new(94);
    let mut refusals = [0; 2];
    for _ in 0..3_000 {
        let sheet = match random.one_in(2) {
            true => jobs::random_default(&mut random),
            false => jobs::bad_default(&mut random),
        };
        let (pairs, rest) = sheet.as_chunks();
        if pairs.is_empty() || !rest.is_empty() {
            continue;
        }
        let refusal = DefaultSchedule::standard().load(&sheet);
        let job = TextJob::parse(&on_a_sheet(pairs)).unwrap();
        assert_eq!(default_remarks(&job).is_empty(), refusal == 0, "{job}");
        refusals[usize::from(refusal > 0)] += 1;
    }
    assert!(refusals.iter().all(|&count| count > 500), "{refusals:?}");
}

/// Costs up to 16,000,000 stand in a lane's line, and are planned.
#[test]
fn costs_of_a_yard() {
    for cost in [1_000_000, 1_000_001, 2_097_152, 15_999_999, 16_000_000] {
        let text = JOB_A.replace("lane 2 3 3 0", &format!("lane 2 3 {cost} 0"));
        let job = TextJob::parse(&text).unwrap();
        assert_eq!(remarks(&job, Taker::Bench), []);
        assert_eq!(format!("# Job A\n{job}"), text);
        let again = TextJob::of_bytes(&job.bytes());
        assert_eq!(again.to_string(), job.to_string());
        let ending = format!("end cost {} rounds 2 ", 3 + cost);
        let printed = bench_text::bench_text(&job.bytes());
        assert!(printed.contains(&ending), "{printed}");
    }
}

/// Every job's bytes have a text form that gives them back, and its remarks
/// say what the bench program prints.
fn round_trip(bytes: &[u8]) -> usize {
    let text = TextJob::of_bytes(bytes).to_string();
    let job = TextJob::parse(&text).unwrap_or_else(|wrong| panic!("{wrong}: {text}"));
    assert_eq!(job.bytes(), bytes, "{text}");
    assert_eq!(job.to_string(), text);
    let kind = kind_of_text(&bench_text::bench_text(bytes));
    let remarks = remarks(&job, Taker::Bench);
    match remarks.first() {
        Some(first) => assert_eq!(first.refusal as usize, kind, "{remarks:?}: {text}"),
        None => assert!(!is_refusal(kind), "refusal {kind}: {text}"),
    }
    // A remark about a line of the text names it.
    for remark in &remarks {
        assert!(remark.line <= text.lines().count());
    }
    kind
}

#[test]
fn all_bytes_have_a_text_form() {
    let mut kinds = [0; KINDS];
    jobs::bench_jobs(91, 1_500, &mut |bytes, _| kinds[round_trip(bytes)] += 1);
    for (kind, count) in kinds.into_iter().enumerate() {
        assert!(
            count > 20 || kind == 9 || kind == 11,
            "kind {kind}: {count}"
        );
    }
    let mut random = Random::new(92);
    for length in 0..6_000 {
        let most = random.pick(&[3, 10, 129, 256]);
        let bytes: Vec<u8> = (0..length % 60).map(|_| random.below(most) as u8).collect();
        round_trip(&bytes);
    }
    // Text made from a job says the same as the job.
    jobs::valid_jobs(93, 500, &mut |_, job| {
        let text = TextJob::of_bytes(&job.bench_bytes());
        assert!(matches!(text, TextJob::Lines(_)) && remarks(&text, Taker::Bench).is_empty());
    });
}

#[test]
fn pairs_are_read_and_printed() {
    let bytes: Vec<u8> = (0..=255).collect();
    assert_eq!(pairs(&pairs_text("", &bytes)), Ok(bytes));
    assert_eq!(pairs("0e 0E # two\n\tfF"), Ok(vec![14, 14, 255]));
    for wrong in ["0", "000", "0g", "+1", "0x", "00,"] {
        let words = format!("line 2: '{wrong}' is not a hexadecimal pair from 00 to FF");
        assert_eq!(pairs(&format!("00\n01 {wrong}")), Err(words.clone()));
        assert_eq!(pairs(&format!("00\n{wrong} 01")), Err(words));
    }
    for text in ["0E", "# a comment\n0e 04", "FF places"] {
        assert_eq!(begins(text), Begins::Pair, "{text}");
    }
    for text in ["places 4", "# 0E\n\n  bytes", "plan 04 00"] {
        assert_eq!(begins(text), Begins::Line, "{text}");
    }
    for text in ["", "# 0E", "\n \n"] {
        assert_eq!(begins(text), Begins::Nothing, "{text}");
    }
    for text in ["0G", "0E04", "7", "4 places", "Places 4"] {
        let word = text.split(' ').next().unwrap();
        let words = format!(
            "line 1: '{word}' is neither the first word of a line (places, lane, start, goal, \
             barred, allowance, round, house, anchor, guide) nor a hexadecimal pair such as 0E; pairs stand apart"
        );
        assert_eq!(begins(text), Begins::Neither(words), "{text}");
    }
}

/// The text with one line in place of another.
fn with(line: usize, other: &str) -> String {
    let mut lines: Vec<&str> = JOB_A.lines().collect();
    lines[line - 1] = other;
    lines.join("\n")
}

#[test]
fn a_line_that_bytes_cannot_say_is_told() {
    let wrong = |text: &str| TextJob::parse(text).unwrap_err();
    for (line, other, words) in [
        (
            2,
            "places",
            "line 2: 'places' takes 1 number, and 0 stand there",
        ),
        (
            2,
            "places 4 # four\nplaces 4",
            "line 3: 'places' stands there a second time",
        ),
        (2, "", "there is no line 'places V'"),
        (
            2,
            "places four",
            "line 2: 'four' is not a number from 0 to 4294967295",
        ),
        (
            2,
            "places -1",
            "line 2: '-1' is not a number from 0 to 4294967295",
        ),
        (
            2,
            "places 268435456",
            "line 2: a plan has 1 to 4096 places, not 268435456",
        ),
        (
            3,
            "lane 0 1 268435456 0",
            "line 3: cost 268435456 is above 16000000",
        ),
        (
            3,
            "lane 0 1 1 268435456",
            "line 3: class 268435456 is above 7",
        ),
        (
            6,
            "lane 268435457 3 3 0",
            "line 6: tail 268435457 is not a place; places are 0 to 3",
        ),
        (
            6,
            "lane 2 268435456 3 0",
            "line 6: head 268435456 is not a place; places are 0 to 3",
        ),
        (
            3,
            "lane 0 1",
            "line 3: 'lane' takes 3 or 4 numbers, and 2 stand there",
        ),
        (
            3,
            "lane 0 1 1 0 0",
            "line 3: 'lane' takes 3 or 4 numbers, and 5 stand there",
        ),
        (
            4,
            "lane 0 2 4",
            "line 4: this lane has no class, and that of line 3 has one; classes stand on all \
             lanes or on none",
        ),
        (
            3,
            "lane 0 1 1",
            "line 4: this lane has a class, and that of line 3 has none; classes stand on all \
             lanes or on none",
        ),
        (
            9,
            "barred 1 2",
            "line 9: 'barred' takes 1 number, and 2 stand there",
        ),
        (
            9,
            "barred 1\nbarred 2",
            "line 10: 'barred' stands there a second time",
        ),
        (
            9,
            "barred 4294967296",
            "line 9: '4294967296' is not a number from 0 to 4294967295",
        ),
        (
            3,
            "lanes 0 1 1",
            "line 3: 'lanes' begins no line; a line is places, lane, start, goal, barred, \
             allowance, round, house, anchor, guide",
        ),
        (
            3,
            "Lane 0 1 1",
            "line 3: 'Lane' begins no line; 'lane' does, in small letters",
        ),
        (
            13,
            "anchor 6 5\n3 0",
            "line 14: '3' begins no line; a table stands on one line",
        ),
        (
            8,
            "goal \"3\"",
            "line 8: '\"3\"' is not a number from 0 to 4294967295",
        ),
        (
            14,
            "guides 0 9 0 0",
            "line 14: 'guides' takes 1 number, and 4 stand there; the line of a guide sheet is \
             'guide'",
        ),
        (
            3,
            "lane 1 1 1 0",
            "line 4: tail 0 stands after tail 1; lanes stand by rising tails, and under one \
             tail by rising heads",
        ),
        (
            3,
            "plan 04 00",
            "line 3: 'plan' stands in place of 'places' and 'lane'",
        ),
        (7, "", "there is no line 'start PLACE'"),
        (8, "", "there is no line 'goal PLACE'"),
        (10, "", "there is no line 'allowance TURNS'"),
        (
            10,
            "allowance 4294967296",
            "line 10: '4294967296' is not a number from 0 to 4294967295",
        ),
        (
            11,
            "round 200",
            "line 11: 'round' takes 2 numbers, and 1 stands there",
        ),
        (
            11,
            "house 200",
            "line 11: 'house' takes 2 numbers, and 1 stands there",
        ),
        (
            11,
            "house 200 -",
            "line 11: '-' means that a guide has no opinion; it stands in the line of a guide \
             sheet alone",
        ),
        (13, "", "there is no line 'anchor NUMBERS'"),
        (
            14,
            "guide 0 9 0",
            "line 14: guide 1 has 3 numbers, and the plan has 4 places",
        ),
        (
            13,
            "anchor 6 5 3",
            "line 13: the anchor table has 3 numbers, and the plan has 4 places",
        ),
        (
            13,
            "anchor 0",
            "line 13: the anchor table has 1 number, and the plan has 4 places",
        ),
        (
            14,
            "guide 0 9 0 0\nguide 0 9 0 0 0",
            "line 15: guide 2 has 5 numbers, and the plan has 4 places",
        ),
        (
            14,
            "tables 00 00",
            "line 14: 'guides' and 'tables' stand in place of 'anchor' and 'guide'",
        ),
        (
            14,
            "bytes 00",
            "line 14: 'bytes' stands in place of all other lines",
        ),
    ] {
        assert_eq!(wrong(&with(line, other)), words);
    }
    assert_eq!(
        wrong("bytes 0"),
        "line 1: '0' is not a hexadecimal pair from 00 to FF"
    );
    assert_eq!(
        wrong("bytes 00\nhouse 200 200"),
        "line 2: 'bytes' stands in place of all other lines"
    );
    assert_eq!(wrong(""), "there is no line 'places V'");
    // Where the plan's places are not known, tables are held to the anchor's.
    let unknown = "plan 04\nstart 0\ngoal 0\nallowance 1\nanchor 0\nguide 0 0";
    assert_eq!(
        wrong(unknown),
        "line 6: guide 1 has 2 numbers, and the anchor table in line 5 has 1"
    );
    // What nobody sees is spelt out, and a long word is cut.
    assert!(wrong("\u{feff}places 4").starts_with("line 1: '\\u{feff}places' begins no line"));
    assert!(wrong(&"x".repeat(99)).starts_with(&format!("line 1: '{}'.. begins", "x".repeat(40))));
    assert_eq!(
        PlanLines::parse("places 1\nstart 0").unwrap_err(),
        "line 2: 'start' is not 'places' or 'lane'"
    );
}

/// The word for no opinion stands nowhere but in a guide's line.
#[test]
fn no_opinion_elsewhere_is_told() {
    let wrong = |line: usize, other: &str| TextJob::parse(&with(line, other)).unwrap_err();
    let means = "'-' means that a guide has no opinion;";
    let alone = "it stands in the line of a guide sheet alone";
    assert_eq!(
        wrong(13, "anchor 6 - 3 0"),
        format!("line 13: {means} the anchor table has a number for every place")
    );
    for (line, other) in [(8, "goal -"), (4, "lane 0 2 - 0"), (9, "barred -")] {
        let words = format!("line {line}: {means} {alone}");
        assert_eq!(wrong(line, other), words);
    }
    assert_eq!(
        wrong(14, "guides - - - -"),
        format!("line 14: {means} {alone}; the line of a guide sheet is 'guide'")
    );
    for word in ["--", "-1", "x", "4294967296"] {
        let neither = "is neither a number from 0 to 4294967295 nor '-', which is no opinion";
        let other = format!("guide 0 9 {word} 0");
        assert_eq!(wrong(14, &other), format!("line 14: '{word}' {neither}"));
    }
    assert_eq!(
        wrong(14, "guide 0 - -"),
        "line 14: guide 1 has 3 numbers, and the plan has 4 places"
    );
    assert_eq!(
        wrong(14, "guide 0 9\n- 0"),
        "line 15: '-' begins no line; a table stands on one line"
    );
}

#[test]
fn a_line_that_the_bench_program_refuses_is_told() {
    let remarks = |line: usize, other: &str| {
        let job = TextJob::parse(&with(line, other)).unwrap();
        let remarks = remarks(&job, Taker::Bench);
        let refusal = remarks[0].refusal as usize;
        assert_eq!(kind_of_text(&bench_text::bench_text(&job.bytes())), refusal);
        let remarks: Vec<String> = remarks.iter().map(|remark| remark.to_string()).collect();
        remarks.join("; ")
    };
    for (line, other, words) in [
        (
            3,
            "lane 0 1 16000001 0",
            "line 3: cost 16000001 is above 16000000 (refusal 5)",
        ),
        (
            3,
            "lane 0 1 268435455 0",
            "line 3: cost 268435455 is above 16000000 (refusal 5)",
        ),
        (4, "lane 0 2 4 8", "line 4: class 8 is above 7 (refusal 15)"),
        (
            4,
            "lane 0 2 16000001 9",
            "line 4: cost 16000001 is above 16000000 (refusal 5); line 4: class 9 is above 7 \
             (refusal 15)",
        ),
        (
            4,
            "lane 0 2 4 268435455",
            "line 4: class 268435455 is above 7 (refusal 15)",
        ),
        (
            6,
            "lane 2 268435455 3 0",
            "line 6: head 268435455 is not a place; places are 0 to 3 (refusal 4)",
        ),
        (
            9,
            "barred 256",
            "line 9: barred 256 is above 255; it has bit k for class k, classes 0 to 7 (refusal 8)",
        ),
        (
            9,
            "barred 4294967295",
            "line 9: barred 4294967295 is above 255; it has bit k for class k, classes 0 to 7 \
             (refusal 8)",
        ),
        (
            5,
            "lane 1 1 2 0\nlane 1 1 2 0",
            "line 6: head 1 is not above head 1 of the lane before; heads rise under one tail \
             (refusal 6)",
        ),
        (
            6,
            "lane 2 4 3 0",
            "line 6: head 4 is not a place; places are 0 to 3 (refusal 4)",
        ),
        (
            7,
            "start 4",
            "line 7: start 4 is not a place; places are 0 to 3 (refusal 8)",
        ),
        (
            11,
            "round 99 200",
            "line 11: W1 99 is not from 100 to 10000 (refusal 10)",
        ),
        (
            12,
            "round 200 201",
            "line 12: W2 rises from 200 to 201 (refusal 10)",
        ),
        (
            13,
            "anchor 6 5 3 1",
            "line 13: the anchor table has 1 at the goal 3, not 0 (refusal 12)",
        ),
        (
            13,
            "anchor 7 5 3 0",
            "line 3: on lane 0, counted from 0, the anchor table has 7 at tail 0, above cost 1 \
             + 5 at head 1 (refusal 13)",
        ),
        (
            2,
            "places 5",
            "line 13: the anchor table and 1 guide have 4 numbers each, and the plan has 5 places \
             (refusal 14)",
        ),
        (
            2,
            "places 0",
            "line 2: a plan has 1 to 4096 places, not 0 (refusal 2)",
        ),
        (
            2,
            "places 4097",
            "line 2: a plan has 1 to 4096 places, not 4097 (refusal 2)",
        ),
        (
            2,
            "places 268435455",
            "line 2: a plan has 1 to 4096 places, not 268435455 (refusal 2)",
        ),
    ] {
        assert_eq!(remarks(line, other), words);
    }
    let many = "round 100 100\n".repeat(16);
    assert_eq!(
        remarks(12, &many),
        "line 27: there are 17 rounds, over 16 (refusal 14)"
    );
}

/// What is wrong with a job's bytes, by the text form that they have.
#[test]
fn bytes_that_the_bench_program_refuses_are_told() {
    let whole = pairs(JOB_A_PAIRS).unwrap();
    let words = |bytes: &[u8]| {
        let job = TextJob::parse(&TextJob::of_bytes(bytes).to_string()).unwrap();
        let remarks = remarks(&job, Taker::Bench);
        let remarks: Vec<String> = remarks.iter().map(|remark| remark.to_string()).collect();
        remarks.join("; ")
    };
    let with = |more: &[u8]| [&whole[..], more].concat();
    for (bytes, expected) in [
        (
            whole[..20].to_vec(),
            "the bytes end before the goal is whole, after 20 bytes (refusal 14)",
        ),
        (
            whole[..21].to_vec(),
            "the bytes end before the barred number is whole, after 21 bytes (refusal 14)",
        ),
        (
            vec![1, 0, 0, 0, 0x80, 0],
            "at byte 4, counted from 0, the barred number is over 32 bits or not in its shortest \
             form (refusal 14)",
        ),
        (
            whole[..9].to_vec(),
            "the bytes end before the plan is whole, after 9 bytes (refusal 14)",
        ),
        (
            vec![1, 0, 0x80, 0],
            "at byte 2, counted from 0, the start is over 32 bits or not in its shortest form \
             (refusal 14)",
        ),
        (
            whole[..whole.len() - 1].to_vec(),
            "line 13: the tables have 7 numbers; an anchor table and 1 guide for 4 places take 8 \
             (refusal 14)",
        ),
        (
            with(&[0, 0]),
            "line 13: the tables have 10 numbers; an anchor table and 1 guide for 4 places take \
             8 (refusal 14)",
        ),
        (
            with(&[0x80]),
            "line 13: in the tables the bytes end before a table's number is whole, after 9 \
             bytes (refusal 14)",
        ),
    ] {
        assert_eq!(words(&bytes), expected);
    }
}
