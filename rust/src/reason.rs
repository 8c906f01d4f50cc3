//! The reason for no route in plain words, for whoever is rung up when a tug
//! reports none: how far the tug comes, and which barred lanes leave
//! what it can reach.

use std::collections::BTreeSet;

use crate::bench_text::refused;
use crate::explanation::edges_of;
use crate::jobs::Job;
use crate::planner::Answer;
use crate::reference::Edge;
use crate::run::Explained;
use crate::words::{class_words, count, ranges};

/// What `job explain` says of a job that is planned.
pub fn text(explained: &Explained) -> String {
    let job = &explained.job;
    match explained.answer {
        Answer::Route { cost, .. } => {
            format!("there is a route, cost {cost}; nothing to explain\n")
        }
        Answer::Unfinished { turns } => unfinished(job, turns),
        Answer::NoRoute { .. } => no_route(explained),
        Answer::Refused { number, position } => refused(number, position),
    }
}

fn unfinished(job: &Job, turns: u32) -> String {
    let places = job.anchor.len();
    format!(
        "unfinished after {}: the allowance ended the first round, so nothing is known; give it \
         {}, 2 for each of the {}, which are enough for that round\n",
        count(turns as usize, "turn"),
        count(2 * places, "turn"),
        count(places, "place"),
    )
}

fn no_route(explained: &Explained) -> String {
    let Explained { job, reason, .. } = explained;
    let (edges, places) = edges_of(&job.bytes);
    let [start, goal] = [job.start, job.goal];
    let reached = format!(
        "there is no route from place {start} to place {goal} over permitted lanes\n\
         from place {start} the tug can reach {} of the {}: {}\n",
        reason.places.len(),
        count(places, "place"),
        ranges(&reason.places),
    );
    let leaving = |&number: &u32| (number, edges[number as usize]);
    let leaving: Vec<(u32, Edge)> = reason.lanes.iter().map(leaving).collect();
    match leaving.is_empty() {
        true => reached + NO_LANE,
        false => format!(
            "{reached}{}whether it then comes to place {goal} is not said here: run the job \
             again with fewer classes barred\n",
            leaving_words(&leaving)
        ),
    }
}

/// The barred lanes that leave what can be reached, a line for each.
fn leaving_words(lanes: &[(u32, Edge)]) -> String {
    let classes = BTreeSet::from_iter(lanes.iter().map(|(_, edge)| edge.class));
    let classes = class_words(&Vec::from_iter(classes));
    let title = match lanes.len() {
        1 => "1 barred lane leads out of these places:\n".to_string(),
        lanes => format!("{lanes} barred lanes, of {classes}, lead out of these places:\n"),
    };
    lanes.iter().fold(title, |text, &(number, edge)| {
        text + &lane_words(number, edge)
    })
}

const NO_LANE: &str = "no lane at all, barred or not, leads out of these places, so \
                       opening classes does not help\n";

fn lane_words(number: u32, edge: Edge) -> String {
    let Edge {
        tail,
        head,
        cost,
        class,
    } = edge;
    format!(
        "open class {class} and the tug gets past lane {tail} -> {head} (lane number {number}, \
         cost {cost})\n"
    )
}
