//! The tools `job` and `plan` as people use them: forms of input, messages
//! and exit statuses.

use std::ffi::OsStr;
use std::fs;
use std::io::Write as _;
use std::os::unix::ffi::OsStrExt as _;
use std::path::{Path, PathBuf};
use std::process::{Command, Output, Stdio};

use secondcoop_tests::generate::{self, random_plan};
use secondcoop_tests::input::Input;
use secondcoop_tests::jobs;
use secondcoop_tests::planners::SecondPlanner;
use secondcoop_tests::random::Random;
use secondcoop_tests::reference::LAST_REFUSAL;
use secondcoop_tests::run;
use secondcoop_tests::text::TextJob;

/// What a tool leaves.
#[derive(Debug, PartialEq, Eq)]
struct Left {
    status: i32,
    out: String,
    err: String,
}

/// Runs a tool with something on standard input.
fn output(program: &str, arguments: &[&str], input: &[u8]) -> Output {
    let mut child = Command::new(program)
        .args(arguments)
        .stdin(Stdio::piped())
        .stdout(Stdio::piped())
        .stderr(Stdio::piped())
        .spawn()
        .expect("the tool runs");
    // A tool that reads nothing may have ended by now.
    let _ = child.stdin.take().expect("a pipe").write_all(input);
    child.wait_with_output().expect("the tool ends")
}

fn tool(program: &str, arguments: &[&str], input: &[u8]) -> Left {
    let output = output(program, arguments, input);
    let text = |bytes| String::from_utf8(bytes).expect("plain text");
    Left {
        status: output.status.code().expect("a status"),
        out: text(output.stdout),
        err: text(output.stderr),
    }
}

fn job(arguments: &[&str], input: impl AsRef<[u8]>) -> Left {
    tool(env!("CARGO_BIN_EXE_job"), arguments, input.as_ref())
}

fn plan(arguments: &[&str], input: impl AsRef<[u8]>) -> Left {
    tool(env!("CARGO_BIN_EXE_plan"), arguments, input.as_ref())
}

fn example(name: &str) -> PathBuf {
    Path::new(env!("CARGO_MANIFEST_DIR"))
        .join("../examples")
        .join(name)
}

fn read(name: &str) -> String {
    fs::read_to_string(example(name)).expect("an example")
}

/// An example with some text in place of another.
fn with(name: &str, old: &str, new: &str) -> String {
    let text = read(name);
    assert!(text.contains(old), "{name} has no {old}");
    text.replace(old, new)
}

fn left(status: i32, out: &str, err: &str) -> Left {
    let (out, err) = (out.into(), err.into());
    Left { status, out, err }
}

#[test]
fn the_line_of_the_wrong_length_is_blamed() {
    let text = with("job-a.txt", "anchor 6 5 3 0", "anchor 6 5 3");
    let words = "standard input: line 14: the anchor table has 3 numbers, and the plan has 4 \
                 places\n";
    for command in ["check", "run", "print", "lead", "explain", "bytes"] {
        assert_eq!(job(&[command], &text), left(4, "", words));
    }
    assert_eq!(job(&["explain", "--lines"], &text), left(4, "", words));
}

#[test]
fn an_empty_file_holds_no_job() {
    let words = "standard input: nothing stands there\n";
    assert_eq!(job(&["check"], ""), left(4, "", words));
    assert_eq!(job(&["run"], "\u{feff}"), left(4, "", words));
    assert_eq!(plan(&[], ""), left(4, "", words));
    let words = "standard input: there is no line 'places V'\n";
    assert_eq!(job(&["run"], "\n \n# only a comment\n"), left(4, "", words));
    assert_eq!(plan(&[], "\n"), left(4, "", words));
}

#[test]
fn a_comment_in_latin_1_is_a_comment() {
    let mut text = b"# Gabelh\xF6he, Bl\xE4tter 1\xBD\n".to_vec();
    text.extend(read("job-a.txt").into_bytes());
    assert_eq!(job(&["run"], &text), left(0, &read("job-a.out"), ""));
    let mut text = b"# Stra\xDFe\n".to_vec();
    text.extend(read("plan-a.txt").into_bytes());
    assert_eq!(plan(&[], &text).status, 0);
    // Outside a comment its line is told.
    let text = [b"places 4\nl\xE4ne 0 1 1".as_slice()].concat();
    let words = "standard input: line 2: 'l\u{e4}ne' begins no line; a line is places, lane, \
                 start, goal, barred, allowance, round, house, anchor, guide\n";
    assert_eq!(job(&["check"], text), left(4, "", words));
}

#[test]
fn a_wrong_pair_is_told() {
    for (text, line, word) in [
        ("0E 04 04\n00 0G 01", 2, "0G"),
        ("0E 04\n\nplaces", 3, "places"),
        ("0E 04 0x05", 1, "0x05"),
    ] {
        let wrong = format!("'{word}' is not a hexadecimal pair from 00 to FF");
        let words = format!("standard input: line {line}: {wrong}\n");
        assert_eq!(job(&["check"], text), left(4, "", &words));
        assert_eq!(plan(&[], text), left(4, "", &words));
    }
    // At the beginning it may be meant as a line as well.
    for word in [
        "0G", "0E0404", "0x0E", "bc01183e", "4", "My", "//", "PLACES",
    ] {
        let words = format!(
            "standard input: line 2: '{word}' is neither the first word of a line (places, lane, \
             start, goal, barred, allowance, round, house, anchor, guide) nor a hexadecimal pair such as 0E; \
             pairs stand apart\n"
        );
        let text = format!("# a comment\n{word} 04 places\n");
        assert_eq!(job(&["check"], &text), left(4, "", &words));
        assert_eq!(plan(&[], &text), left(4, "", &words));
    }
    // Pairs may have comments.
    let pairs = job(&["hex"], read("job-a.txt")).out;
    let text = format!("# job A\n{pairs}");
    assert_eq!(job(&["run"], text), left(0, &read("job-a.out"), ""));
}

#[test]
fn a_byte_order_mark_is_left_out() {
    let text = format!("\u{feff}{}", read("job-a.txt"));
    assert_eq!(job(&["run"], &text), left(0, &read("job-a.out"), ""));
    let pairs = format!("\u{feff}{}", job(&["hex"], &text).out);
    assert_eq!(job(&["run"], pairs), left(0, &read("job-a.out"), ""));
    let text = format!("\u{feff}{}", read("plan-a.txt"));
    assert_eq!(plan(&[], text).status, 0);
    // In the middle of a text it is spelt out.
    let text = with("job-a.txt", "start", "\u{feff}start");
    let left = job(&["check"], text);
    assert!(left.err.contains("line 8: '\\u{feff}start' begins no line"));
}

#[test]
fn a_text_in_utf_16_is_told() {
    let words = "standard input: this text is in UTF-16; it is read in UTF-8\n";
    for mark in ["", "\u{feff}"] {
        let text = format!("{mark}{}", read("job-a.txt"));
        let units: Vec<u16> = text.encode_utf16().collect();
        let little: Vec<u8> = units.iter().flat_map(|unit| unit.to_le_bytes()).collect();
        let big: Vec<u8> = units.iter().flat_map(|unit| unit.to_be_bytes()).collect();
        for text in [little, big] {
            assert_eq!(job(&["check"], &text), left(4, "", words));
            assert_eq!(plan(&["-"], &text), left(4, "", words));
        }
    }
}

#[test]
fn line_ends_and_stray_characters() {
    let (text, out) = (read("job-a.txt"), read("job-a.out"));
    for end in ["\r\n", "\r", "\n\n"] {
        assert_eq!(job(&["run"], text.replace('\n', end)), left(0, &out, ""));
    }
    assert_eq!(job(&["run"], text.trim_end()), left(0, &out, ""));
    assert_eq!(job(&["run"], format!("{text}\u{1a}")), left(0, &out, ""));
    let stray = with("job-a.txt", "goal 3", "goal 3\u{1b}");
    let words = "standard input: line 9: the control character 1B stands in no text\n";
    for tool in [job(&["run"], &stray), plan(&[], &stray)] {
        assert_eq!(tool, left(4, "", words));
    }
    // Without a comment in front even a zero is one in a text.
    let stray = with("job-a.txt", "goal 3", "goal 3\0");
    let (_, stray) = stray.split_once("6.\n").expect("a comment");
    let words = "standard input: line 7: the control character 00 stands in no text\n";
    assert_eq!(job(&["run"], stray), left(4, "", words));
    // White space beyond ASCII may be a number of a job.
    let bytes = b"\xA0 \xA0\tlane \0";
    assert_eq!(Input::of(bytes), Ok(Input::Bytes(bytes.to_vec())));
}

/// A job whose bytes look like a comment and a line is planned: its plan has
/// 35 bytes, one cost taking two, and its guide sheet a newline and the
/// letters of a line's word.
#[test]
fn a_job_that_looks_like_a_text() {
    let floor = generate::Plan {
        vertices: 20,
        tails: vec![0; 8],
        heads: vec![0, 1, 2, 3, 4, 5, 11, 12],
        costs: vec![200, 1, 1, 1, 1, 1, 1, 1],
        classes: vec![7; 8],
    };
    let mut sheet = vec![0; 20];
    sheet[..6].copy_from_slice(&[10, 108, 97, 110, 101, 32]);
    let looks = jobs::Job::new(&floor, 0, 12, vec![0; 20], sheet, 1, vec![], 40);
    let bytes = looks.bench_bytes();
    let (comment, line) = bytes.split_at(bytes.iter().position(|&byte| byte == 10).unwrap());
    assert!(comment.starts_with(b"#") && line.starts_with(b"\nlane "));
    let left = job(&["run"], &bytes);
    assert_eq!((left.status, left.err.as_str()), (0, ""));
    assert!(left.out.contains("route 0 12\n"), "{}", left.out);
}

/// Bytes that are no job, and a job's bytes cut off, are refused as the
/// bench program does it.
#[test]
fn bytes_that_are_no_job() {
    let whole = fs::read(example("job-a.job")).expect("an example");
    let words = "the bytes end before the plan is whole, after 9 bytes (refusal 14)\n\
                 (read as a job's bytes)\n";
    let refused = "refused 14 at 0\n";
    assert_eq!(job(&["run"], &whole[..9]), left(3, refused, words));
    for bytes in [
        &[0xBC][..],
        &[0xFF; 300],
        b"\x7FELF\x02\x01",
        b"\x89PNG\r\n\x1A\n",
    ] {
        let left = job(&["run"], bytes);
        assert_eq!((left.status, left.out.as_str()), (3, refused), "{bytes:?}");
        assert!(left.err.ends_with("(read as a job's bytes)\n"));
    }
}

#[test]
fn one_fault_is_told_once() {
    for (old, new, words) in [
        (
            "places 24",
            "places 0",
            "line 11: a plan has 1 to 4096 places, not 0 (refusal 2)\n\
             the bench program prints: refused 2 at 0\n",
        ),
        (
            "places 24",
            "places 5000",
            "line 11: a plan has 1 to 4096 places, not 5000 (refusal 2)\n\
             'job run' prints: refused 2 at 0\n",
        ),
        (
            "start 6",
            "start 24",
            "line 74: start 24 is not a place; places are 0 to 23 (refusal 8)\n\
             the bench program prints: refused 8 at 0\n",
        ),
    ] {
        let text = with("wall.txt", old, new);
        assert_eq!(job(&["check"], text), left(3, words, ""));
    }
    // Many faults of one sort are counted.
    let text = with("wall.txt", "places 24", "places 2");
    let left = job(&["check"], text);
    let lines: Vec<&str> = left.out.lines().collect();
    let fourth = lines.iter().filter(|line| line.ends_with("(refusal 4)"));
    assert_eq!((left.status, fourth.count()), (3, 9), "{}", left.out);
    assert!(lines.contains(&"and 106 more such lines (refusal 4)"));
}

/// Where output cannot be written, that is told; a reader that wants no more
/// is none the worse.
#[test]
fn output_that_cannot_be_written() {
    let full = || fs::OpenOptions::new().write(true).open("/dev/full");
    let run = |program: &str, arguments: &[&str], out: Stdio, err: Stdio| {
        let mut command = Command::new(program);
        let command = command.args(arguments).current_dir(example("")).stdout(out);
        command.stderr(err).output().expect("the tool runs")
    };
    let (job, plan) = (env!("CARGO_BIN_EXE_job"), env!("CARGO_BIN_EXE_plan"));
    for (program, arguments) in [
        (job, &["run", "job-a.txt"][..]),
        (job, &["bytes", "job-a.txt"]),
        (job, &["check", "job-a.txt"]),
        (plan, &["plan-a.txt"]),
    ] {
        let full = full().expect("a full device").into();
        let left = run(program, arguments, full, Stdio::piped());
        assert_eq!(left.status.code(), Some(4), "{arguments:?}");
        assert!(left.stderr.starts_with(b"standard output: "));
    }
    let full = full().expect("a full device").into();
    let left = run(job, &["run", "refusal-13.txt"], Stdio::piped(), full);
    assert_eq!(
        (left.status.code(), &left.stdout[..]),
        (Some(3), &b"refused 13 at 0\n"[..])
    );
    let (reader, writer) = std::io::pipe().expect("a pipe");
    drop(reader);
    let left = run(job, &["run", "wall.txt"], writer.into(), Stdio::piped());
    assert_eq!((left.status.code(), left.stderr.len()), (Some(0), 0));
}

#[test]
fn help_is_printed() {
    for arguments in [
        &["--help"][..],
        &["-h"],
        &["help"],
        &["run", "--help"],
        &["check", "-h"],
    ] {
        let left = job(arguments, "");
        assert_eq!((left.status, left.err.as_str()), (0, ""), "{arguments:?}");
        for command in [
            "run", "check", "print", "lead", "explain", "bytes", "hex", "text", "describe",
        ] {
            assert!(left.out.contains(&format!(" job {command} ")), "{command}");
        }
        // The second planner is named where it is used.
        let print = left.out.lines().find(|line| line.contains(" job print "));
        assert!(print.is_some_and(|line| line.contains("second planner")));
    }
    for argument in ["--help", "-h", "help"] {
        let left = plan(&[argument], "");
        assert_eq!((left.status, left.err.as_str()), (0, ""));
        assert!(left.out.starts_with("usage: plan FILE\n"));
    }
    assert_eq!(job(&["run", "no such file", "--help"], "").status, 0);
    assert_eq!(plan(&["no such file", "-h"], "").status, 0);
    // Wrong use shows the same on standard error.
    for arguments in [
        &[][..],
        &["plan"],
        &["run", "a", "b"],
        &["run", "--lines", "a"],
        &["explain", "a", "b"],
        &["explain", "--lines", "a", "b"],
        &["describe", "4", "5"],
    ] {
        let left = job(arguments, "");
        assert_eq!((left.status, left.out.as_str()), (4, ""), "{arguments:?}");
        assert!(left.err.contains("usage: job run FILE"));
    }
    let unknown = job(&["RUN", "a"], "").err;
    assert!(unknown.starts_with("'RUN' is not a command\nusage: job run FILE"));
    assert_eq!(plan(&["a", "b"], "").status, 4);
}

#[test]
fn standard_input_is_read() {
    for name in ["job-a", "wall", "no-route", "refusal-13"] {
        let path = example(&format!("{name}.txt"));
        let path = path.to_str().expect("a path");
        for command in [
            &["run"][..],
            &["check"],
            &["print"],
            &["lead"],
            &["explain"],
            &["explain", "--lines"],
            &["bytes"],
            &["hex"],
            &["text"],
        ] {
            let program = env!("CARGO_BIN_EXE_job");
            let of_file = output(program, &[command, &[path]].concat(), b"");
            let text = fs::read(path).expect("an example");
            let dash = output(program, &[command, &["-"]].concat(), &text);
            assert_eq!(dash, of_file);
            assert_eq!(output(program, command, &text), of_file);
        }
    }
    let path = example("plan-a.txt");
    let of_file = plan(&[path.to_str().expect("a path")], "");
    let pairs = "04 04 00 01 01 00 00 02 04 00 01 02 02 00 01 03 03 00\n";
    assert_eq!(of_file.out, pairs);
    assert_eq!(plan(&["-"], read("plan-a.txt")), of_file);
    assert_eq!(plan(&[], read("plan-a.txt")), of_file);
    let mut odd = Command::new(env!("CARGO_BIN_EXE_job"));
    let odd = odd.arg("run").arg(OsStr::from_bytes(b"caf\xE9"));
    assert_eq!(odd.output().expect("the tool runs").status.code(), Some(4));
    let no_file = job(&["check", "no such file"], "");
    assert_eq!((no_file.status, no_file.out.as_str()), (4, ""));
    assert!(no_file.err.starts_with("no such file: "));
}

#[test]
fn check_says_that_all_is_well() {
    for (name, words) in [
        ("job-a", "4 places, 4 lanes, 1 guide, 2 rounds"),
        (
            "wall",
            "24 places, 62 lanes, 1 guide, the house schedule of 6 rounds",
        ),
        (
            "ramp-barred",
            "6 places, 12 lanes, 1 guide, the house schedule of 6 rounds; class 1 is barred, 2 \
             lanes",
        ),
    ] {
        let words = format!("nothing is wrong: {words}\n");
        assert_eq!(
            job(&["check"], read(&format!("{name}.txt"))),
            left(0, &words, "")
        );
    }
    for (barred, words) in [
        ("128", "; class 7 is barred, 0 lanes\n"),
        ("5", "; classes 0, 2 are barred, 10 lanes\n"),
        (
            "255",
            "; classes 0, 1, 2, 3, 4, 5, 6, 7 are barred, 12 lanes\n",
        ),
    ] {
        let text = with("ramp.txt", "barred 0", &format!("barred {barred}"));
        assert!(job(&["check"], text).out.ends_with(words), "{barred}");
    }
}

#[test]
fn positions_are_described_for_reader_and_writer() {
    let writer = "where a plan was to be written, it is a lane, counted from 0\n";
    for number in ["4", "5", "6", "15"] {
        let left = job(&["describe", number], "");
        assert_eq!(left.status, 0);
        assert!(left.out.contains("the position is a byte of the plan"));
        assert!(left.out.ends_with(writer), "{}", left.out);
    }
    for number in 1..=LAST_REFUSAL {
        let left = job(&["describe", &number.to_string()], "");
        assert!(left.out.starts_with(&format!("refusal {number}: ")));
    }
    for number in ["0", "16", "four", "-1"] {
        let words = format!("'{number}' is not a refusal's number, 1 to 15\n");
        assert_eq!(job(&["describe", number], ""), left(4, "", &words));
    }
    // The writer's lane is named by `plan` too.
    let text = "places 4\nlane 0 1 1\nlane 0 9 1\n";
    let words = "refused 4 at 1, lane 1 counted from 0, line 3: a tail or head is not a place\n";
    assert_eq!(plan(&[], text), left(3, "", words));
    let words = "refused 4 at 3, byte 3 counted from 0: a tail or head is not a place\n";
    assert_eq!(plan(&[], "04 01 00 09 01 00"), left(3, "", words));
    let text = "places 4\nlane 0 1 1 7\nlane 0 2 1 8\n";
    let words = "refused 15 at 1, lane 1 counted from 0, line 3: a class is above 7\n";
    assert_eq!(plan(&[], text), left(3, "", words));
    let words = "refused 15 at 5, byte 5 counted from 0: a class is above 7\n";
    assert_eq!(plan(&[], "04 01 00 01 01 08"), left(3, "", words));
}

/// A plan's text without classes is one of class 0, and is printed with them.
#[test]
fn a_plan_without_classes() {
    let text = read("plan-a.txt");
    let without = text.replace(" 0\n", "\n");
    assert!(without.contains("lane 0 1 1\n"));
    assert_eq!(plan(&[], &without), plan(&[], &text));
    let (_, lines) = text.split_once("\nplaces 4\n").expect("a line");
    let printed = plan(&[], plan(&[], &without).out);
    assert_eq!(printed, left(0, &format!("places 4\n{lines}"), ""));
    // All classes are read and printed.
    let mut text = "places 9\n".to_string();
    for class in 0..8 {
        text += &format!("lane 0 {} 5 {class}\n", class + 1);
    }
    assert_eq!(plan(&[], plan(&[], &text).out), left(0, &text, ""));
}

/// A barred class is named on a line, and a wrong number is told there.
#[test]
fn a_barred_class_is_kept_off() {
    let ramp = read("ramp.txt");
    assert_eq!(job(&["run"], &ramp), left(0, &read("ramp.out"), ""));
    for (barred, printed) in [
        ("2", "ramp-barred.out"),
        ("254", "ramp-barred.out"),
        ("4", "ramp.out"),
    ] {
        let text = with("ramp.txt", "barred 0", &format!("barred {barred}"));
        assert_eq!(job(&["run"], text), left(0, &read(printed), ""));
    }
    let all = with("ramp.txt", "barred 0", "barred 255");
    let printed = "turn 1 table 1 place 0\nno route turns 1\n";
    assert_eq!(job(&["run"], all), left(1, printed, ""));
    let above = with("ramp.txt", "barred 0", "barred 256");
    let words = "line 24: barred 256 is above 255; it has bit k for class k, classes 0 to 7 \
                 (refusal 8)\n";
    assert_eq!(job(&["run"], &above), left(3, "refused 8 at 0\n", words));
    let words = format!("{words}the bench program prints: refused 8 at 0\n");
    assert_eq!(job(&["check"], above), left(3, &words, ""));
    let words = "line 4: class 8 is above 7 (refusal 15)\n";
    let refused = job(&["run"], read("refusal-15.txt"));
    assert_eq!(refused, left(3, "refused 15 at 9\n", words));
}

/// No opinion is a word in a guide's line, and is told anywhere else.
#[test]
fn a_place_without_opinion() {
    for name in ["no-opinion", "no-way-through"] {
        let text = read(&format!("{name}.txt"));
        let out = read(&format!("{name}.out"));
        assert_eq!(job(&["run"], &text), left(0, &out, ""));
        let printed = job(&["text"], job(&["hex"], &text).out);
        let lines = text.lines().filter(|line| !line.starts_with('#'));
        let lines: String = lines.map(|line| format!("{line}\n")).collect();
        assert_eq!(printed, left(0, &lines, ""));
    }
    let text = with("job-a.txt", "anchor 6 5 3 0", "anchor 6 - 3 0");
    let words = "standard input: line 14: '-' means that a guide has no opinion; the anchor table \
                 has a number for every place\n";
    for command in ["run", "check", "bytes"] {
        assert_eq!(job(&[command], &text), left(4, "", words));
    }
    let text = "places 2\nlane 0 1 - 0\n";
    let words = "standard input: line 2: '-' means that a guide has no opinion; it stands in the \
                 line of a guide sheet alone\n";
    assert_eq!(plan(&[], text), left(4, "", words));
    let help = job(&["--help"], "").out;
    let word = "In a text the word - in the line of a guide sheet";
    assert!(help.contains(word), "{help}");
}

#[test]
fn check_names_guides_without_opinions() {
    for (sheets, words) in [
        ("guide - 9 - -", "1 guide, 2 rounds\n"),
        (
            "guide - - - -",
            "1 guide, 2 rounds; guide 1 has no opinion on any place: all its turns go to the \
             anchor\n",
        ),
        (
            "guide - - - -\nguide 0 - - -\nguide - - - -",
            "3 guides, 2 rounds; guides 1, 3 have no opinion on any place: all their turns go to \
             the anchor\n",
        ),
    ] {
        let text = with("job-a.txt", "guide 0 9 0 0", sheets);
        let words = format!("nothing is wrong: 4 places, 4 lanes, {words}");
        assert_eq!(job(&["check"], text), left(0, &words, ""));
    }
}

/// Costs go to 16,000,000, and one above is told in words.
#[test]
fn a_cost_above_the_limit() {
    let yard = job(&["run"], read("yard.txt"));
    assert_eq!(yard, left(0, &read("yard.out"), ""));
    let above = with("yard.txt", "lane 4 3 16000000 0", "lane 4 3 16000001 0");
    let line = above.lines().position(|line| line.contains("16000001"));
    let line = line.expect("a lane") + 1;
    let words = format!("line {line}: cost 16000001 is above 16000000 (refusal 5)\n");
    let refused = job(&["run"], &above);
    assert_eq!((refused.status, &refused.err), (3, &words));
    assert!(refused.out.starts_with("refused 5 at "), "{}", refused.out);
    // What no plan number says is told as a line that cannot be read.
    let above = with("yard.txt", "16000000", "268435456");
    let words = format!("standard input: line {line}: cost 268435456 is above 16000000\n");
    assert_eq!(job(&["run"], above), left(4, "", &words));
    let pairs = "02 01 00 01 80 C8 D0 07 00\n";
    let text = "places 2\nlane 0 1 16000000 0\n";
    assert_eq!(plan(&[], text), left(0, pairs, ""));
    assert_eq!(plan(&[], pairs), left(0, text, ""));
    let words = "refused 5 at 0, lane 0 counted from 0, line 2: a cost is above 16000000\n";
    let above = text.replace("16000000", "16000001");
    assert_eq!(plan(&[], above), left(3, "", words));
    let words = "refused 5 at 4, byte 4 counted from 0: a cost is above 16000000\n";
    let above = pairs.replace("80 C8", "81 C8");
    assert_eq!(plan(&[], above), left(3, "", words));
    let five = job(&["describe", "5"], "").out;
    assert!(five.starts_with("refusal 5: a cost is above 16000000; "));
    let one = job(&["describe", "1"], "").out;
    assert!(one.contains("longer than four groups"), "{one}");
}

#[test]
fn the_exit_status_tells_the_ending() {
    for (name, status) in [
        ("job-a", 0),
        ("wall", 0),
        ("cut-round-two", 0),
        ("start-is-goal", 0),
        ("ramp", 0),
        ("ramp-barred", 0),
        ("yard", 0),
        ("no-opinion", 0),
        ("no-way-through", 0),
        ("silly-guide", 0),
        ("no-route", 1),
        ("refusal-01", 3),
        ("refusal-13", 3),
        ("refusal-14", 3),
        ("refusal-15", 3),
    ] {
        let printed = read(&format!("{name}.out"));
        for form in ["txt", "job"] {
            let contents = fs::read(example(&format!("{name}.{form}"))).expect("an example");
            for command in ["run", "print"] {
                let left = job(&[command], &contents);
                assert_eq!((left.status, left.out.as_str()), (status, printed.as_str()));
                assert_eq!(left.err.is_empty(), status != 3, "{}", left.err);
            }
        }
    }
    let cut = with("job-a.txt", "allowance 100", "allowance 1");
    let printed = "turn 1 table 1 place 0\nunfinished turns 1\n";
    assert_eq!(job(&["run"], cut), left(2, printed, ""));
}

/// Each turn with its key and its lead, then how near they came.
#[test]
fn the_lead_is_told_turn_by_turn() {
    let lines = "\
turn 1 table 1 place 0 round 1: cost 0, number 0, key 0 of at most 12
turn 2 table 1 place 4 round 1: cost 4, number 0, key 4 of at most 12
turn 3 table 1 place 5 round 1: cost 8, number 0, key 8 of at most 12
turn 4 table 1 place 6 round 1: cost 12, number 0, key 12 of at most 12
turn 5 table 0 place 1 round 1: cost 0, number 4, key 8 of at most 8
turn 6 table 0 place 2 round 1: cost 2, number 2, key 6 of at most 8
the cheapest chain costs 4; the guides came exactly to their lead, 3 times that, in turn 4; \
the anchor came exactly to its lead, 2 times that, in turn 5
";
    assert_eq!(job(&["lead"], read("silly-guide.txt")), left(0, lines, ""));
    let bytes = fs::read(example("silly-guide.job")).expect("an example");
    assert_eq!(job(&["lead"], bytes), left(0, lines, ""));
    // Factors and shares that are no whole numbers.
    let odd = with("silly-guide.txt", "round 200 150", "round 133 101");
    let lines = "\
turn 1 table 1 place 0 round 1: cost 0, number 0, key 0 of at most 5.3732
turn 2 table 1 place 4 round 1: cost 4, number 0, key 4 of at most 5.3732
turn 3 table 0 place 1 round 1: cost 0, number 4, key 5.32 of at most 5.32
turn 4 table 0 place 2 round 1: cost 2, number 2, key 4.66 of at most 5.32
the cheapest chain costs 4; the guides came to at most 74.45% of their lead, 1.3433 times that, \
in turn 2; the anchor came exactly to its lead, 1.33 times that, in turn 3
";
    assert_eq!(job(&["lead"], odd), left(0, lines, ""));
}

/// Rounds are told too, and no turns, no chain, a cut and refusals.
#[test]
fn the_lead_of_other_endings() {
    let lead = |text: String| job(&["lead"], text);
    let second = "turn 3 table 0 place 1 round 2: cost 1, number 5, key 6 of at most 6\n";
    let whole = lead(read("job-a.txt"));
    assert!(whole.out.contains(second), "{}", whole.out);
    // Unfinished: the turns that were taken.
    let cut = lead(with("job-a.txt", "allowance 100", "allowance 1"));
    let first = whole.out.lines().next().expect("a turn");
    let near =
        "the cheapest chain costs 6; the guides came to at most 0.00% of their lead, 4 times \
                that, in turn 1; the anchor had no turn";
    assert_eq!(cut, left(2, &format!("{first}\n{near}\n"), ""));
    let none = "the cheapest chain costs 0; the guides had no turn; the anchor had no turn\n";
    assert_eq!(lead(read("start-is-goal.txt")), left(0, none, ""));
    let none = "no chain of permitted lanes leads from start to goal, so there is no lead\n";
    assert_eq!(lead(read("no-route.txt")), left(1, none, ""));
    let barred = with("ramp.txt", "barred 0", "barred 255");
    assert_eq!(lead(barred.clone()), left(1, none, ""));
    let cut = barred.replace("allowance 1000", "allowance 0");
    assert_ne!(cut, barred);
    assert_eq!(lead(cut), left(2, none, ""));
    for number in [1, 8, 12, 13, 14, 15] {
        let text = read(&format!("refusal-{number:02}.txt"));
        assert_eq!(lead(text.clone()), job(&["run"], text));
    }
    // What is proved is told where it is used.
    let help = job(&["--help"], "").out;
    assert!(help.contains("Turns and rounds\nare the proved library's; "));
    assert!(help.contains("tested and not proved.\n"), "{help}");
}

/// No route: what can be reached, and what opening a class takes the tug past.
#[test]
fn no_route_is_explained() {
    let ramp = job(&["explain"], read("only-ramp.txt"));
    assert_eq!(ramp, left(1, &read("only-ramp.explain"), ""));
    let lines = job(&["explain", "--lines"], read("only-ramp.txt"));
    assert_eq!(lines, left(1, &read("only-ramp.lines"), ""));
    // The option may stand behind the file.
    let path = example("only-ramp.txt");
    let path = path.to_str().expect("a path");
    assert_eq!(job(&["explain", path, "--lines"], ""), lines);
    // Two lanes, of two classes.
    let all = with("ramp.txt", "barred 0", "barred 255");
    let all = all.replace("lane 0 4 5 0", "lane 0 4 5 3");
    let words = "there is no route from place 0 to place 3 over permitted lanes\n\
                 from place 0 the tug can reach 1 of the 6 places: 0\n\
                 2 barred lanes, of classes 0, 3, lead out of these places:\n\
                 open class 0 and the tug gets past lane 0 -> 1 (lane number 0, cost 2)\n\
                 open class 3 and the tug gets past lane 0 -> 4 (lane number 1, cost 5)\n\
                 whether it then comes to place 3 is not said here: run the job again with \
                 fewer classes barred\n";
    assert_eq!(job(&["explain"], &all), left(1, words, ""));
    let lines = "no route turns 1\nreach 0\nbarred lane 0 tail 0 head 1 cost 2 class 0\n\
                 barred lane 1 tail 0 head 4 cost 5 class 3\n";
    assert_eq!(job(&["explain", "--lines"], all), left(1, lines, ""));
    // No lane leaves.
    let words = "there is no route from place 0 to place 3 over permitted lanes\n\
                 from place 0 the tug can reach 2 of the 4 places: 0 1\n\
                 no lane at all, barred or not, leads out of these places, so opening classes \
                 does not help\n";
    let none = read("no-route.txt");
    assert_eq!(job(&["explain"], &none), left(1, words, ""));
    let lines = "no route turns 2\nreach 0 1\n";
    assert_eq!(job(&["explain", "--lines"], none), left(1, lines, ""));
}

/// A route, a cut and refusals have nothing to explain.
#[test]
fn the_explanation_of_other_endings() {
    let explain = |text: &str| job(&["explain"], text);
    let route = "there is a route, cost 7; nothing to explain\n";
    assert_eq!(explain(&read("ramp.txt")), left(0, route, ""));
    let lines = job(&["explain", "--lines"], read("ramp.txt"));
    let printed = read("ramp.out");
    let route = &printed[printed.find("route").expect("a route")..];
    assert_eq!(lines, left(0, route, ""));
    let cut = with("only-ramp.txt", "allowance 1000", "allowance 3");
    let words = "unfinished after 3 turns: the allowance ended the first round, so nothing is \
                 known; give it 20 turns, 2 for each of the 10 places, which are enough for that \
                 round\n";
    assert_eq!(explain(&cut), left(2, words, ""));
    let lines = job(&["explain", "--lines"], &cut);
    assert_eq!(lines, left(2, "unfinished turns 3\n", ""));
    let enough = cut.replace("allowance 3", "allowance 20");
    assert_eq!(explain(&enough), explain(&read("only-ramp.txt")));
    for number in [1, 2, 3, 4, 5, 6, 7, 8, 10, 12, 13, 14, 15] {
        let text = read(&format!("refusal-{number:02}.txt"));
        let run = job(&["run"], &text);
        assert_eq!((run.status, explain(&text)), (3, job(&["run"], &text)));
        assert_eq!(job(&["explain", "--lines"], &text), run);
    }
    // What is proved, and what opening a class does not do, is told.
    let help = job(&["--help"], "").out;
    assert!(help.contains("The explanation is the proved library's. "));
    assert!(
        help.contains("past that lane and not yet to the goal"),
        "{help}"
    );
}

/// A job with the site's sheet, good or rejected, is explained on what is then
/// in force.
#[test]
fn an_explanation_beside_a_sheet() {
    let (text, explained) = (read("only-ramp.txt"), read("only-ramp.explain"));
    let good = format!("{text}house 200 200\n");
    assert_eq!(job(&["explain"], &good), left(1, &explained, ""));
    let lines = job(&["explain", "--lines"], good);
    assert_eq!(lines, left(1, &read("only-ramp.lines"), ""));
    let bad = job(&["explain"], format!("{text}house 200 99\n"));
    assert_eq!((bad.status, bad.out), (1, explained));
    let rejected = "the sheet for the house schedule is rejected (refusal 10): ";
    assert!(bad.err.contains(rejected), "{}", bad.err);
}

/// The cold store's job on a sheet that is rejected.
fn on_a_bad_sheet() -> String {
    with("cold-store.txt", "house 150 150", "house 170 99")
}

/// A rejected sheet is told by its line, and the job is planned on our six
/// rounds: the wall's turns.
#[test]
fn a_rejected_sheet_leaves_our_six_rounds() {
    let words = "line 84: W1 rises from 160 to 170 (refusal 10)\n\
                 line 84: W2 99 is not from 100 to 10000 (refusal 10)\n\
                 the sheet for the house schedule is rejected (refusal 10): it stays what it was, \
                 our six rounds\n";
    for command in ["run", "print"] {
        let printed = job(&[command], on_a_bad_sheet());
        assert_eq!(printed, left(0, &read("wall.out"), words));
    }
    let lead = job(&["lead"], on_a_bad_sheet());
    let wall = job(&["lead"], read("wall.txt"));
    assert_eq!(lead, left(0, &wall.out, words));
    let summary = "nothing else is wrong: 24 places, 62 lanes, 1 guide, the house schedule of 6 \
                   rounds; not one for the bench program, which takes our own house schedule \
                   alone, 'job run' plans it\n";
    let check = job(&["check"], on_a_bad_sheet());
    assert_eq!(check, left(3, &format!("{words}{summary}"), ""));
}

/// Beside a rejected sheet a job's own faults are told too.
#[test]
fn a_rejected_sheet_beside_other_faults() {
    let text = on_a_bad_sheet().replace("goal 11", "goal 24");
    let rejected = "the sheet for the house schedule is rejected (refusal 10): ";
    let goal = "line 77: goal 24 is not a place; places are 0 to 23 (refusal 8)\n";
    let run = job(&["run"], &text);
    assert_eq!((run.status, run.out.as_str()), (3, "refused 8 at 0\n"));
    assert!(
        run.err.contains(rejected) && run.err.ends_with(goal),
        "{}",
        run.err
    );
    let check = job(&["check"], &text);
    let end = format!("{goal}'job run' prints: refused 8 at 0\n");
    assert!(
        check.out.contains(rejected) && check.out.ends_with(&end),
        "{}",
        check.out
    );
}

/// The site's own rounds, and rounds of the job's own beside them.
#[test]
fn check_says_whose_rounds_a_job_has() {
    let beyond = "; not one for the bench program, which takes our own house schedule alone, 'job \
                  run' plans it\n";
    let own = with(
        "cold-store.txt",
        "allowance 1000",
        "allowance 1000\nround 120 120",
    );
    let one = read("wall.txt") + "house 120 120\n";
    for (text, rounds) in [
        (
            read("cold-store.txt"),
            "the site's house schedule of 9 rounds",
        ),
        (one, "the site's house schedule of 1 round"),
        (
            own.clone(),
            "1 round of its own, beside which no house schedule is looked at",
        ),
    ] {
        let words = format!("nothing is wrong: 24 places, 62 lanes, 1 guide, {rounds}{beyond}");
        assert_eq!(job(&["check"], text), left(0, &words, ""));
    }
    let without = with(
        "wall.txt",
        "allowance 1000",
        "allowance 1000\nround 120 120",
    );
    for command in ["run", "print", "lead"] {
        assert_eq!(job(&[command], &own), job(&[command], &without));
    }
}

/// The bytes of a job cannot say a sheet: nothing is done, and what to do
/// instead is said.
#[test]
fn bytes_cannot_say_a_sheet() {
    let own = with(
        "cold-store.txt",
        "allowance 1000",
        "allowance 1000\nround 120 120",
    );
    let (give, leave) = (
        "give its pairs as 'round' lines",
        "leave the 'house' lines out, which the job does not take",
    );
    for (text, line, instead) in [
        (read("cold-store.txt"), 81, give),
        (on_a_bad_sheet(), 81, leave),
        (own, 82, leave),
    ] {
        let words = format!(
            "standard input: line {line}: a job's bytes cannot say a house schedule; {instead}\n"
        );
        for command in ["bytes", "hex"] {
            assert_eq!(job(&[command], &text), left(4, "", &words));
        }
        let printed = job(&["text"], &text);
        assert_eq!(printed.out.matches("house ").count(), 9);
        let end = "the job is not one for the bench program, which takes our own house schedule \
                   alone; 'job run' takes it\n";
        assert!(
            printed.status == 0 && printed.err.ends_with(end),
            "{}",
            printed.err
        );
    }
    // As rounds the pairs are planned alike.
    let rounds = read("cold-store.txt").replace("house ", "round ");
    assert_eq!(job(&["run"], rounds), left(0, &read("cold-store.out"), ""));
}

/// By text and by bytes.
#[test]
fn a_refusal_is_told_in_plain_words() {
    let words = "on lane 0, counted from 0, the anchor table has 7 at tail 0, above cost 1 + 5 \
                 at head 1 (refusal 13)\n";
    assert_eq!(
        job(&["run"], read("refusal-13.txt")),
        left(3, "refused 13 at 0\n", &format!("line 3: {words}"))
    );
    let note = "(read as a job's bytes; the lines are those that 'job text' prints)\n";
    assert_eq!(
        job(&["run"], fs::read(example("refusal-13.job")).unwrap()),
        left(3, "refused 13 at 0\n", &format!("line 2: {words}{note}"))
    );
}

#[test]
fn jobs_beyond_the_bench_program_are_planned() {
    let mut random = Random::new(81);
    let plan = random_plan(&mut random, 4_096, 32_768);
    let mut large = jobs::job_on(&mut random, &plan);
    (large.start, large.goal, large.budget) = (0, 1, u32::MAX);
    large.anchor = vec![0; 4_096];
    large.barred = 1 << 3;
    let bytes = large.bench_bytes();
    let text = TextJob::of_bytes(&bytes);
    let printed = run::run(&SecondPlanner, &text);
    let status = i32::from(!printed.contains("\nend cost "));
    for contents in [bytes.clone(), text.to_string().into_bytes()] {
        assert_eq!(job(&["run"], &contents), left(status, &printed, ""));
        let check = job(&["check"], &contents);
        assert_eq!(check.status, 0);
        let size = "nothing is wrong: 4096 places, 32768 lanes, ";
        assert!(check.out.starts_with(size), "{}", check.out);
        let end = "; too large for the bench program, 'job run' plans it\n";
        assert!(check.out.ends_with(end), "{}", check.out);
    }
    let lead = job(&["lead"], &bytes);
    assert_eq!((lead.status, lead.err.as_str()), (status, ""));
    let turns = printed.lines().filter(|line| line.starts_with("turn "));
    if status == 0 {
        let lines = lead.out.lines().zip(turns.clone());
        let shown = lines.filter(|(lead, turn)| lead.starts_with(&format!("{turn} round ")));
        assert_eq!(shown.count(), turns.count());
    }
    // With all lanes barred the explanation is the call's.
    large.barred = 255;
    let barred = large.bench_bytes();
    let lines = run::explained_lines(&SecondPlanner, &TextJob::of_bytes(&barred));
    assert_eq!(job(&["explain", "--lines"], &barred), left(1, &lines, ""));
    let named = job(&["explain"], &barred)
        .out
        .matches("open class ")
        .count();
    let from_start = plan.tails.iter().zip(&plan.heads);
    let leaving = from_start.filter(|&(&tail, &head)| tail == 0 && head != 0);
    assert_eq!(named, leaving.count());
    // Its refusals are those of the planner call.
    large.anchor[1] = 1;
    let goal = large.bench_bytes();
    large.schedule = vec![100; 34];
    let rounds = large.bench_bytes();
    for (bytes, number, words) in [
        (goal, 12, "the anchor table has 1 at the goal 1, not 0"),
        (rounds, 10, "there are 17 rounds, over 16"),
    ] {
        let refused = job(&["run"], bytes);
        let printed = format!("refused {number} at 0\n");
        assert_eq!((refused.status, refused.out), (3, printed));
        let words = format!("{words} (refusal {number})\n");
        assert!(refused.err.contains(&words), "{}", refused.err);
    }
}
