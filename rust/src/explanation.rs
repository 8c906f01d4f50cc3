//! The reason for no route, written from the papers and the header alone: the
//! places that the tug can reach, found by a search in breadth over permitted
//! lanes, and the barred lanes that leave them; the call around it; its lines.
//!
//! Whether there is a route is the second planner's answer. What it leaves in
//! memory is not looked at: the lists come from the plan alone.

use std::collections::VecDeque;

use crate::bench_text::{answer_text, Taken};
use crate::dijkstra::is_permitted;
use crate::planner::{self, Answer, Memory, Request, Room};
use crate::reference::{self, Edge};

/// What an explanation leaves in figures: the eight of a planner call, then
/// how many places and how many lanes are listed.
pub type Figures = [u64; 10];

/// The lists that an explanation is lent beside a call's memory.
pub struct Lists<'a> {
    pub places: &'a mut [u32],
    pub lanes: &'a mut [u32],
}

/// Why there is no route: the places that can be reached from the start, and
/// the numbers of the barred lanes that lead from one of them to a place
/// outside them, both rising.
#[derive(Clone, Debug, Default, PartialEq, Eq)]
pub struct Reason {
    pub places: Vec<u32>,
    pub lanes: Vec<u32>,
}

/// The edges of a plan that is accepted, by number, and its count of vertices.
pub fn edges_of(bytes: &[u8]) -> (Vec<Edge>, usize) {
    let mut edges = Vec::new();
    let counts = reference::walk_plan(bytes, |_, edge| edges.push(edge));
    let (vertices, _) = counts.expect("the plan is accepted");
    (edges, vertices as usize)
}

/// Whether each vertex can be reached from `start` over permitted edges.
fn reached(edges: &[Edge], vertices: usize, start: u32, barred: u32) -> Vec<bool> {
    let mut heads = vec![Vec::new(); vertices];
    for edge in edges.iter().filter(|edge| is_permitted(barred, edge.class)) {
        heads[edge.tail as usize].push(edge.head as usize);
    }
    let mut seen = vec![false; vertices];
    seen[start as usize] = true;
    let mut line = VecDeque::from([start as usize]);
    while let Some(vertex) = line.pop_front() {
        for &head in &heads[vertex] {
            if !seen[head] {
                seen[head] = true;
                line.push_back(head);
            }
        }
    }
    seen
}

impl Reason {
    /// What can be reached from the start of a call that is accepted, and the
    /// barred edges that leave it, whether there is a route or not.
    pub fn of(request: &Request) -> Reason {
        let (edges, vertices) = edges_of(request.bytes);
        let seen = reached(&edges, vertices, request.start, request.barred);
        let is_seen = |vertex: u32| seen[vertex as usize];
        let leaves = |edge: &Edge| {
            !is_permitted(request.barred, edge.class) && is_seen(edge.tail) && !is_seen(edge.head)
        };
        let numbered = (0..).zip(&edges);
        Reason {
            places: (0..vertices as u32).filter(|&v| is_seen(v)).collect(),
            lanes: numbered
                .filter(|(_, edge)| leaves(edge))
                .map(|(number, _)| number)
                .collect(),
        }
    }

    /// How many places and lanes there are.
    pub fn counts(&self) -> [u64; 2] {
        [self.places.len() as u64, self.lanes.len() as u64]
    }
}

/// The room that row 11 looks at in an explanation.
pub fn room_of(memory: &Memory, lists: &Lists) -> Room {
    Room {
        lists: Some([lists.places.len(), lists.lanes.len()]),
        ..Room::of(memory)
    }
}

/// An explanation: the planner call, and the lists where it gives no route.
pub fn explain(request: &Request, memory: Memory, lists: Lists) -> (Answer, Reason) {
    let room = room_of(&memory, &lists);
    let answer = planner::plan_in(request, memory, room);
    let reason = match answer {
        Answer::NoRoute { .. } => Reason::of(request),
        _ => Reason::default(),
    };
    lists.places[..reason.places.len()].copy_from_slice(&reason.places);
    lists.lanes[..reason.lanes.len()].copy_from_slice(&reason.lanes);
    (answer, reason)
}

/// The figures of an explanation.
pub fn figures(answer: &Answer, counts: [u64; 2]) -> Figures {
    let mut figures = [0; 10];
    figures[..8].copy_from_slice(&answer.figures());
    figures[8..].copy_from_slice(&counts);
    figures
}

/// The figures of the call, and how many places and lanes are listed.
pub fn parts(figures: Figures) -> (planner::Figures, [u64; 2]) {
    let [call @ .., places, lanes] = figures;
    (call, [places, lanes])
}

/// What is printed of an explanation: how the call ended, and where it gave
/// no route the places and lanes that are listed.
pub fn lines(answer: &Answer, route: &[u32], plan: &[u8], reason: &Reason) -> String {
    let text = answer_text(answer, route, &[]);
    match answer {
        Answer::NoRoute { .. } => text + &reason_lines(plan, reason),
        _ => text,
    }
}

fn reason_lines(plan: &[u8], reason: &Reason) -> String {
    let (edges, _) = edges_of(plan);
    let mut text = String::from("reach");
    for place in &reason.places {
        text += &format!(" {place}");
    }
    text.push('\n');
    for &number in &reason.lanes {
        let Edge {
            tail,
            head,
            cost,
            class,
        } = edges[number as usize];
        text +=
            &format!("barred lane {number} tail {tail} head {head} cost {cost} class {class}\n");
    }
    text
}

/// The explanation of a job's bytes as lines.
pub fn explain_text(bytes: &[u8]) -> String {
    let taken = match Taken::read(bytes) {
        Ok(taken) => taken,
        Err(refused) => return refused,
    };
    let request = taken.request();
    let (edges, vertices) = edges_of(request.bytes);
    let ((answer, reason), route) = taken.call(|request, memory| {
        let lists = Lists {
            places: &mut vec![0; vertices],
            lanes: &mut vec![0; edges.len()],
        };
        explain(request, memory, lists)
    });
    lines(&answer, &route, request.bytes, &reason)
}

#[cfg(test)]
mod tests {
    use super::*;
    use crate::generate::Plan;
    use crate::jobs::Job;

    /// Two storeys, 0 to 2 and 3 and 4. Barred: the ramps up from 2 and down
    /// to it, a lane inside the lower storey, one from a place to itself.
    fn storeys() -> Plan {
        Plan {
            vertices: 5,
            tails: vec![0, 0, 1, 2, 2, 2, 3, 3, 4],
            heads: vec![1, 2, 2, 0, 2, 3, 2, 4, 0],
            costs: vec![1, 9, 1, 1, 0, 7, 7, 1, 1],
            classes: vec![0, 1, 0, 0, 1, 1, 1, 0, 0],
        }
    }

    fn text_of(start: u32, barred: u32, budget: u32) -> String {
        let mut job = Job::new(&storeys(), start, 4, vec![0; 5], vec![], 0, vec![], budget);
        job.barred = barred;
        explain_text(&job.bench_bytes())
    }

    #[test]
    fn a_storey_behind_a_ramp() {
        assert_eq!(
            text_of(0, 2, 99),
            "no route turns 3\nreach 0 1 2\nbarred lane 5 tail 2 head 3 cost 7 class 1\n"
        );
        assert_eq!(
            text_of(0, 255, 99),
            "no route turns 1\nreach 0\nbarred lane 0 tail 0 head 1 cost 1 class 0\n\
             barred lane 1 tail 0 head 2 cost 9 class 1\n"
        );
        assert_eq!(text_of(0, 2, 2), "unfinished turns 2\n");
        assert_eq!(text_of(0, 256, 99), "refused 8 at 0\n");
        assert!(text_of(0, 0, 99).starts_with("route 0 1 2 3 4\nend cost 10 "));
        assert!(text_of(3, 2, 99).starts_with("route 3 4\nend cost 1 "));
    }
}
