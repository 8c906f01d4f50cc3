//! The bench program itself, as `rt` builds it: a job on standard input, its
//! text on standard output.

use std::fs::{self, File};
use std::path::{Path, PathBuf};
use std::process::Command;

use secondcoop_tests::bench_text::{bench_text, MOST_JOB_BYTES};
use secondcoop_tests::generate::push_number;

fn root() -> PathBuf {
    Path::new(env!("CARGO_MANIFEST_DIR")).join("..")
}

/// What the bench program prints for the job in a file.
fn program_text(job: &Path) -> String {
    let program = root().join("crates/bench/out/bench");
    let input = File::open(job).expect("a job is read");
    let output = Command::new(&program)
        .stdin(input)
        .output()
        .unwrap_or_else(|error| {
            panic!(
                "`rt run` in crates/bench makes {}: {error}",
                program.display()
            );
        });
    assert!(output.status.success(), "{}", job.display());
    String::from_utf8(output.stdout).expect("a printed text has plain letters")
}

#[test]
fn the_examples_are_printed() {
    let mut count = 0;
    for entry in fs::read_dir(root().join("examples")).expect("there are examples") {
        let job = entry.expect("a file").path();
        if job.extension().is_some_and(|form| form == "job") {
            let expected = fs::read_to_string(job.with_extension("out")).expect("a text");
            assert_eq!(program_text(&job), expected, "{}", job.display());
            count += 1;
        }
    }
    assert!(count >= 22, "{count} examples");
}

/// A job of 32,768 bytes, and more bytes after it: a plan of one place with
/// bytes left over, and the guide count as the job's last byte.
fn long_job(guide_count: u8, more: usize) -> Vec<u8> {
    // The plan's length in three groups, the plan, and six numbers.
    let plan = MOST_JOB_BYTES - 9;
    let mut job = Vec::new();
    push_number(&mut job, plan as u32);
    job.extend([1, 0]);
    job.resize(3 + plan, 0);
    job.extend([0, 0, 0, 0, 0, guide_count]);
    assert_eq!(job.len(), 32_768);
    job.resize(32_768 + more, 0);
    job
}

/// 32,768 bytes are read up to the last: with nine guides the job is refused
/// before its plan is. So it is with a byte more.
#[test]
fn the_most_bytes_are_read_to_the_last() {
    for (guide_count, more, expected) in [
        (8, 0, "refused 7 at 2\n"),
        (9, 0, "refused 14 at 0\n"),
        (8, 1, "refused 14 at 0\n"),
        (8, 100_000, "refused 14 at 0\n"),
    ] {
        let bytes = long_job(guide_count, more);
        let case = format!("{guide_count} guides, {} bytes", bytes.len());
        assert_eq!(bench_text(&bytes), expected, "{case}");
        let job = Path::new(env!("CARGO_TARGET_TMPDIR")).join(format!("{case}.job"));
        fs::write(&job, bytes).expect("a file is written");
        assert_eq!(program_text(&job), expected, "{case}");
    }
}
