//! The files in `examples`: each text form gives the bytes beside it, but for
//! one with a sheet for the default schedule, and the library and the second
//! planner print the text beside them, and the explanation where there is one.

use std::fs;
use std::path::{Path, PathBuf};
use std::process::Command;

use secondcoop_tests::explainers;
use secondcoop_tests::explanation::Reason;
use secondcoop_tests::generate::Plan;
use secondcoop_tests::lead;
use secondcoop_tests::planners::{self, printed, Library, Planner, SecondPlanner};
use secondcoop_tests::refusals::{remarks, Taker};
use secondcoop_tests::run;
use secondcoop_tests::text::{PlanLines, TextJob};

fn examples() -> PathBuf {
    PathBuf::from(env!("CARGO_MANIFEST_DIR")).join("../examples")
}

/// The names of the files with an ending.
fn names_of(ending: &str) -> Vec<String> {
    let mut names: Vec<String> = fs::read_dir(examples())
        .expect("there are examples")
        .filter_map(|entry| {
            let name = entry.ok()?.file_name().into_string().ok()?;
            name.strip_suffix(ending).map(String::from)
        })
        .collect();
    names.sort();
    names
}

/// The names of the jobs that have bytes.
fn names() -> Vec<String> {
    names_of(".job")
}

/// The names of the jobs that have none.
fn names_without_bytes() -> Vec<String> {
    let (texts, printed, bytes) = (names_of(".txt"), names_of(".out"), names());
    let without = |name: &String| printed.contains(name) && !bytes.contains(name);
    texts.into_iter().filter(without).collect()
}

fn read(name: &str, form: &str) -> Vec<u8> {
    let path = examples().join(format!("{name}.{form}"));
    fs::read(&path).unwrap_or_else(|error| panic!("{}: {error}", path.display()))
}

fn read_text(name: &str, form: &str) -> String {
    String::from_utf8(read(name, form)).expect("a text")
}

#[test]
fn all_are_there() {
    let mut wanted: Vec<String> = [1, 2, 3, 4, 5, 6, 7, 8, 10, 12, 13, 14, 15]
        .map(|number| format!("refusal-{number:02}"))
        .into();
    let floors = [
        "job-a",
        "wall",
        "no-route",
        "start-is-goal",
        "cut-round-two",
        "held",
        "ramp",
        "ramp-barred",
        "yard",
        "no-opinion",
        "no-way-through",
        "silly-guide",
        "only-ramp",
    ];
    wanted.extend(floors.map(String::from));
    wanted.sort();
    assert_eq!(names(), wanted);
    let read_me = read_text("README", "md");
    assert_eq!(names_without_bytes(), ["cold-store"]);
    assert_eq!(names_of(".explain"), ["only-ramp"]);
    assert_eq!(names_of(".lines"), names_of(".explain"));
    let others = ["cold-store", "cold_store.c", "explain.c"];
    for name in floors.into_iter().chain(others) {
        assert!(read_me.contains(&format!("`{name}`")), "{name}");
    }
}

#[test]
fn the_text_form_gives_the_bytes() {
    for name in names() {
        let job = TextJob::parse(&read_text(&name, "txt")).expect("a text form");
        let bytes = read(&name, "job");
        assert_eq!(job.bytes(), bytes, "{name}");
        // And the bytes give a text form of the same job.
        let text = TextJob::of_bytes(&bytes).to_string();
        let again = TextJob::parse(&text).expect("a text form");
        assert_eq!(again.bytes(), bytes, "{name}");
    }
    PlanLines::parse(&read_text("plan-a", "txt")).expect("a plan");
}

#[test]
fn the_expected_text_is_printed() {
    for name in names() {
        let (bytes, expected) = (read(&name, "job"), read_text(&name, "out"));
        assert_eq!(printed(&SecondPlanner, &bytes), expected, "{name}");
        assert_eq!(printed(&Library, &bytes), expected, "{name}");
        if let Some(number) = name.strip_prefix("refusal-") {
            let number: u32 = number.parse().expect("a number");
            assert!(expected.starts_with(&format!("refused {number} at ")));
            let job = TextJob::parse(&read_text(&name, "txt")).expect("a text form");
            assert_eq!(remarks(&job, Taker::Bench)[0].refusal, number);
        }
    }
}

/// The two jobs on a floor with a ramp differ in the barred number alone, and
/// in their routes.
#[test]
fn a_barred_ramp_is_not_used() {
    let text = |name| TextJob::parse(&read_text(name, "txt")).expect("a text form");
    let (open, barred) = (text("ramp").to_string(), text("ramp-barred").to_string());
    assert_eq!(open.replace("barred 0", "barred 2"), barred);
    let route = |name| {
        let printed = read_text(name, "out");
        let line = printed.lines().find(|line| line.starts_with("route "));
        line.expect("a route").to_string()
    };
    assert_eq!(route("ramp"), "route 0 1 2 3");
    assert_eq!(route("ramp-barred"), "route 0 4 5 3");
}

/// What one example prints in a turn.
fn turn_of(printed: &str, turn: u32) -> &str {
    let begin = format!("turn {turn} ");
    let line = printed.lines().find(|line| line.starts_with(&begin));
    line.expect("a turn")
}

/// Without opinions on any place all turns are the anchor's; without one on
/// the shed the guide leaves it, and with the greatest number it does not.
#[test]
fn a_guide_without_opinion_leaves_the_turn() {
    let printed_without = read_text("no-opinion", "out");
    assert_eq!(printed_without.matches(" table 0 ").count(), 4);
    assert_eq!(printed_without.matches(" table ").count(), 4);
    let shed = read_text("no-way-through", "txt");
    assert_eq!(shed.matches(" - ").count(), 1);
    for (number, turn) in [
        ("-", "turn 3 table 0 place 1"),
        ("4294967295", "turn 3 table 0 place 1"),
        ("4294967294", "turn 3 table 1 place 1"),
        ("0", "turn 3 table 1 place 2"),
    ] {
        let text = shed.replace(" - ", &format!(" {number} "));
        let bytes = TextJob::parse(&text).expect("a text form").bytes();
        assert_eq!(turn_of(&printed(&SecondPlanner, &bytes), 3), turn);
        assert_eq!(turn_of(&printed(&Library, &bytes), 3), turn);
    }
}

/// The silly guide takes the places of the alley up to cost 12, 3 times the
/// cheapest cost, and the next one neither in this round nor in the next; with
/// the alley's last step longer by 1 it takes one place less. The route is the
/// cheapest one.
#[test]
fn a_silly_guide_is_kept_on_its_lead() {
    let text = read_text("silly-guide", "txt");
    let longer = text.replace("lane 5 6 4 0", "lane 5 6 5 0");
    for planner in [&Library as &dyn Planner, &SecondPlanner] {
        for (text, alley) in [(&text, &[0, 4, 5, 6][..]), (&longer, &[0, 4, 5])] {
            let job = TextJob::parse(text).expect("a text form");
            let job = run::asked(&Library, &job).expect("a job");
            let turns = lead::of_log(planner, &job);
            let (guides, anchor) = turns.split_at(alley.len());
            assert!(guides.iter().all(|turn| turn.table == 1));
            assert!(guides.iter().map(|turn| &turn.vertex).eq(alley));
            assert!(anchor.iter().all(|turn| turn.table == 0));
            assert!(anchor.iter().map(|turn| turn.vertex).eq([1, 2]));
            let last = guides[guides.len() - 1].share(4);
            assert_eq!(last.is_whole(), alley.len() == 4);
            assert!(planners::run(planner, &job, 0).figures[3] == 4);
        }
    }
}

/// The cold store's floor is that of the wall, and so is its job but for the
/// sheet for the default schedule. On that both planners print what stands
/// beside it: other turns, more rounds, the same route.
#[test]
fn a_cold_store_is_planned_on_its_own_default_schedule() {
    let (text, wall) = (read_text("cold-store", "txt"), read_text("wall", "txt"));
    let job = TextJob::parse(&text).expect("a text form");
    let lines = job.to_string();
    let without: Vec<&str> = lines
        .lines()
        .filter(|line| !line.starts_with("house "))
        .collect();
    let wall = TextJob::parse(&wall).expect("a text form").to_string();
    assert!(without.into_iter().eq(wall.lines()));
    let expected = read_text("cold-store", "out");
    assert_eq!(run::run(&Library, &job), expected);
    assert_eq!(run::run(&SecondPlanner, &job), expected);
    let ours = read_text("wall", "out");
    let route = |printed: &str| printed[printed.find("route").expect("a route")..].to_string();
    let rounds = route(&ours).replace("rounds 6 turns 21", "rounds 9 turns 15");
    assert_eq!(route(&expected), rounds);
    assert_ne!(turn_of(&expected, 5), turn_of(&ours, 5));
}

/// The example's explanation in plain words and in lines, through the tool on
/// each form, and its lines by both explainers.
#[test]
fn the_only_ramp_is_named() {
    for name in names_of(".explain") {
        let (bytes, lines) = (read(&name, "job"), read_text(&name, "lines"));
        assert_eq!(explainers::printed(&Library, &bytes), lines);
        assert_eq!(explainers::printed(&SecondPlanner, &bytes), lines);
        for form in ["txt", "job"] {
            let path = examples().join(format!("{name}.{form}"));
            assert_eq!(job("explain", &path), (false, read(&name, "explain")));
            let mut tool = Command::new(env!("CARGO_BIN_EXE_job"));
            let tool = tool.args(["explain", "--lines"]).arg(path);
            assert_eq!(
                tool.output().expect("the tool runs").stdout,
                lines.as_bytes()
            );
        }
    }
}

/// Of the example's barred lanes one leaves what can be reached: the others
/// stay inside it, lead back into it or begin beyond it. Opened, their class
/// leads to the goal.
#[test]
fn the_only_ramp_is_the_only_one() {
    let text = read_text("only-ramp", "txt");
    let job = TextJob::parse(&text).expect("a text form");
    let explained = run::explained(&Library, &job).expect("an explanation");
    let Reason { places, lanes } = explained.reason;
    let plan = Plan::of_bytes(&explained.job.bytes);
    let within = |vertex: u32| places.contains(&vertex);
    let kinds: Vec<[bool; 2]> = (0..plan.edges())
        .filter(|&edge| plan.classes[edge] == 1)
        .map(|edge| [within(plan.tails[edge]), within(plan.heads[edge])])
        .collect();
    for (kind, count) in [
        ([true, true], 1),
        ([true, false], lanes.len()),
        ([false, true], 1),
        ([false, false], 1),
    ] {
        assert_eq!(kinds.iter().filter(|&&other| other == kind).count(), count);
    }
    assert_eq!(lanes, [10]);
    let open = text.replace("barred 2", "barred 0");
    let open = TextJob::parse(&open).expect("a text form");
    assert!(run::explained_lines(&Library, &open).starts_with("route 0 1 3 4 5 6 7 8\n"));
}

/// The bench program's own job is job A.
#[test]
fn the_bench_programs_job_is_job_a() {
    let own = examples().join("../crates/bench/stdin");
    assert_eq!(fs::read(own).expect("a job"), read("job-a", "job"));
}

/// The tool on a file: whether all is well, and its output.
fn job(command: &str, path: &Path) -> (bool, Vec<u8>) {
    let mut tool = Command::new(env!("CARGO_BIN_EXE_job"));
    let output = tool.arg(command).arg(path).output().expect("the tool runs");
    (output.status.success(), output.stdout)
}

/// A job without bytes is planned and printed, and its text form gives itself.
#[test]
fn the_tool_on_jobs_without_bytes() {
    for name in names_without_bytes() {
        let path = examples().join(format!("{name}.txt"));
        for command in ["run", "print"] {
            assert_eq!(job(command, &path), (true, read(&name, "out")));
        }
        let (good, text) = job("text", &path);
        let other = Path::new(env!("CARGO_TARGET_TMPDIR")).join(format!("{name}.text"));
        fs::write(&other, &text).expect("a file is written");
        assert_eq!(job("text", &other), (good, text));
        assert!(job("check", &path).1.starts_with(b"nothing is wrong: "));
        for command in ["bytes", "hex"] {
            assert_eq!(job(command, &path), (false, vec![]));
        }
    }
}

/// The tool on the files: bytes, hexadecimal pairs, text, what is wrong.
#[test]
fn the_tool_turns_each_form_into_the_others() {
    let directory = PathBuf::from(env!("CARGO_TARGET_TMPDIR"));
    for name in names() {
        let bytes = read(&name, "job");
        for form in ["txt", "job"] {
            let path = examples().join(format!("{name}.{form}"));
            assert_eq!(job("bytes", &path), (true, bytes.clone()), "{name}.{form}");
            for command in ["run", "print"] {
                let (_, printed) = job(command, &path);
                assert_eq!(printed, read(&name, "out"));
            }
            let (good, words) = job("check", &path);
            assert_eq!(good, !name.starts_with("refusal"));
            assert_eq!(good, words.starts_with(b"nothing is wrong: "));
            for form in ["hex", "text"] {
                let (good, contents) = job(form, &path);
                assert!(good);
                let other = directory.join(format!("{name}.{form}"));
                fs::write(&other, contents).expect("a file is written");
                assert_eq!(job("bytes", &other), (true, bytes.clone()));
            }
        }
    }
    let (good, words) = job("describe", Path::new("13"));
    assert!(good && String::from_utf8_lossy(&words).starts_with("refusal 13: the anchor table"));
    assert!(!job("describe", Path::new("0")).0);
    assert!(!job("bytes", &examples().join("plan-a.txt")).0);
}
