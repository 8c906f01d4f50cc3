//! Turns a plan from its text form into plan bytes, or plan bytes into the
//! text form, with the proved library.
//!
//! The text form has a line `places V`, then a line `lane TAIL HEAD COST
//! CLASS` for each lane, without CLASS one of class 0; `#` begins a comment.
//! Bytes are read and printed as hexadecimal pairs.

use std::ffi::OsStr;
use std::process::ExitCode;

use secondcoop_tests::ffi;
use secondcoop_tests::input::{name_of, Input};
use secondcoop_tests::refusals::refusal_words;
use secondcoop_tests::text::{pairs_text, Line, PlanLines};
use secondcoop_tests::tool::{self, Done, NOTHING_DONE, REFUSED};

const USAGE: &str = "\
usage: plan FILE
Turns a plan from text into bytes, or from bytes into text, with the proved library. The text has
a line 'places V', then a line 'lane TAIL HEAD COST CLASS' for each lane by rising tails and heads;
a class that is left out is 0. Bytes are hexadecimal pairs. - is standard input, and so is no FILE
where nobody types.
Exit status: 0 done; 3 refused, with the reason in plain words; 4 nothing was done: wrong use, a
file or a line that cannot be read, or output that cannot be written.
";

/// A refusal with its place in words.
fn refused(number: u64, position: u64, place: &str) -> Done {
    let words = refusal_words(number as u32).unwrap_or("a refusal that the paper does not name");
    let words = format!("refused {number} at {position}{place}: {words}");
    Done::wrong(REFUSED, words)
}

fn to_bytes(plan: &PlanLines) -> Done {
    let [tails, heads, costs, classes] = plan.lists();
    let mut out = vec![0; 5 + 9 * tails.len()];
    let places = plan.places.says;
    let [number, position, count, _] =
        ffi::write_plan(places, &tails, &heads, &costs, &classes, &mut out);
    match (number, plan.lanes.get(position as usize)) {
        (0, _) => Done::well(pairs_text("", &out[..count as usize])),
        (4..=6 | 15, Some(lane)) => {
            let place = format!(", lane {position} counted from 0, line {}", lane.number);
            refused(number, position, &place)
        }
        _ => refused(number, position, ""),
    }
}

fn to_text(bytes: &[u8]) -> Done {
    let place = |position: u64| format!(", byte {position} counted from 0");
    let [number, position, _, lanes] = ffi::check_plan(bytes);
    if number != 0 {
        return refused(number, position, &place(position));
    }
    let mut lists = [(); 4].map(|()| vec![0; lanes as usize]);
    let [tails, heads, costs, classes] = &mut lists;
    let [number, position, places, _] = ffi::read_plan(bytes, tails, heads, costs, classes);
    if number != 0 {
        return refused(number, position, &place(position));
    }
    let lane = |lane: usize| Line {
        number: 0,
        says: lists.each_ref().map(|list| list[lane]),
    };
    let plan = PlanLines {
        places: Line {
            number: 0,
            says: places as u32,
        },
        lanes: (0..lanes as usize).map(lane).collect(),
    };
    Done::well(plan.to_string())
}

fn convert(path: Option<&OsStr>) -> Result<Done, String> {
    let name = name_of(path);
    match Input::read(path)? {
        Input::Pairs(bytes) => Ok(to_text(&bytes)),
        Input::Lines(text) => match PlanLines::parse(&text) {
            Ok(plan) => Ok(to_bytes(&plan)),
            Err(wrong) => Err(format!("{name}: {wrong}")),
        },
        Input::Bytes(_) => Err(format!(
            "{name}: this is no text; a plan's bytes are read as hexadecimal pairs"
        )),
    }
}

fn main() -> ExitCode {
    let Some(arguments) = tool::arguments() else {
        return Done::well(USAGE).leave();
    };
    let converted = match &arguments[..] {
        [] => convert(None),
        [path] => convert(Some(path)),
        _ => Err(USAGE.into()),
    };
    let done = converted.unwrap_or_else(|wrong| Done::wrong(NOTHING_DONE, wrong));
    done.leave()
}
