//! Explainers under comparison: the library, the second side and faulty ones.
//! One job, or one text, runs on two of them, and figures, lists, text and the
//! whole lent memory are compared, the words around it included.

use crate::explanation::{self, Figures, Lists};
use crate::ffi;
use crate::guarded::{Guarded, GUARD};
use crate::jobs::Job;
use crate::planner::{Answer, Memory, Request};
use crate::planners::{self, shortened, write_text, Library, Outcome, SecondPlanner};
use crate::reference;

/// The explanation of a call, and of a job's bytes as lines.
pub trait Explainer {
    fn explain(&self, request: &Request, memory: Memory, lists: Lists) -> Figures;

    /// The length of the printed lines; their first bytes are written as far
    /// as there is room.
    fn explain_text(&self, job: &[u8], text: &mut [u8]) -> usize;
}

impl Explainer for Library {
    fn explain(&self, request: &Request, memory: Memory, lists: Lists) -> Figures {
        ffi::explain(request, memory, lists)
    }

    fn explain_text(&self, job: &[u8], text: &mut [u8]) -> usize {
        ffi::explain_text(job, text)
    }
}

impl Explainer for SecondPlanner {
    fn explain(&self, request: &Request, memory: Memory, lists: Lists) -> Figures {
        let (answer, reason) = explanation::explain(request, memory, lists);
        explanation::figures(&answer, reason.counts())
    }

    fn explain_text(&self, job: &[u8], text: &mut [u8]) -> usize {
        write_text(&explanation::explain_text(job), text)
    }
}

/// The whole lines that an explainer prints for a job's bytes.
pub fn printed(explainer: &dyn Explainer, job: &[u8]) -> String {
    let mut text = vec![0; explainer.explain_text(job, &mut [])];
    explainer.explain_text(job, &mut text);
    String::from_utf8(text).expect("a printed text has plain letters")
}

/// A job whose reason for no route is asked for, with the lengths of the
/// lists.
#[derive(Clone, Debug)]
pub struct Question {
    pub job: Job,
    pub places_room: usize,
    pub lanes_room: usize,
}

impl Question {
    /// With lists that are just long enough; where the plan is refused, they
    /// have some words.
    pub fn of(job: &Job) -> Question {
        let (places, lanes) = reference::check_plan(&job.bytes).unwrap_or((3, 3));
        Question {
            job: job.clone(),
            places_room: places as usize,
            lanes_room: lanes as usize,
        }
    }

    /// With lists that are longer by so many words.
    pub fn with_more(job: &Job, places: usize, lanes: usize) -> Question {
        let exact = Question::of(job);
        Question {
            places_room: exact.places_room + places,
            lanes_room: exact.lanes_room + lanes,
            ..exact
        }
    }

    /// The lists as they are before a call.
    fn lists(&self, salt: u64) -> [Guarded<u32>; 2] {
        [
            Guarded::with_room(self.places_room, 5 * salt + 3),
            Guarded::with_room(self.lanes_room, 5 * salt + 4),
        ]
    }
}

/// What an explanation leaves, guards included: the call's own, how many
/// places and lanes are listed, and both lists.
#[derive(Clone, Debug, PartialEq, Eq)]
pub struct Explained {
    pub call: Outcome,
    pub counts: [u64; 2],
    pub lists: [Vec<u32>; 2],
}

impl Explained {
    pub fn answer(&self) -> Answer {
        self.call.answer()
    }

    /// The places and lanes listed.
    pub fn listed(&self) -> [&[u32]; 2] {
        [0, 1].map(|list| &self.lists[list][GUARD..][..self.counts[list] as usize])
    }

    /// Whether both lists, and what stands around them, are as they were but
    /// for what is listed.
    pub fn keeps_the_rest(&self, question: &Question, salt: u64) -> bool {
        let before = question.lists(salt);
        (0..2).all(|list| {
            let (before, after) = (&before[list].all, &self.lists[list]);
            let behind = GUARD + self.counts[list] as usize;
            before[..GUARD] == after[..GUARD] && before[behind..] == after[behind..]
        })
    }
}

/// Asks in guarded memory; `salt` selects the pattern that fills it, and the
/// call's own memory is filled as `planners::run` does it.
pub fn run(explainer: &dyn Explainer, question: &Question, salt: u64) -> Explained {
    let [mut places, mut lanes] = question.lists(salt);
    let mut counts = [0; 2];
    let call = planners::run_by(&question.job, salt, |request, memory| {
        let lists = Lists {
            places: places.lent_mut(),
            lanes: lanes.lent_mut(),
        };
        let (call, listed) = explanation::parts(explainer.explain(request, memory, lists));
        counts = listed;
        call
    });
    Explained {
        call,
        counts,
        lists: [places.all, lanes.all],
    }
}

/// What differs between two explanations, by name.
pub fn difference(left: &Explained, right: &Explained) -> Option<&'static str> {
    let differing = [
        ("figures", left.call.figures != right.call.figures),
        ("counts", left.counts != right.counts),
        ("places", left.lists[0] != right.lists[0]),
        ("lanes", left.lists[1] != right.lists[1]),
        ("route memory", left.call.route != right.call.route),
        ("log memory", left.call.log != right.call.log),
        ("work memory", left.call.work != right.call.work),
        ("wide memory", left.call.wide != right.call.wide),
        ("what a call only reads", left != right),
    ];
    let (name, _) = differing.into_iter().find(|&(_, differs)| differs)?;
    Some(name)
}

/// Asks two explainers; gives a text if they differ.
pub fn differ(
    left: &dyn Explainer,
    right: &dyn Explainer,
    question: &Question,
    salt: u64,
) -> Option<String> {
    let [left, right] = [left, right].map(|explainer| run(explainer, question, salt));
    let name = difference(&left, &right)?;
    Some(shortened(format!(
        "{name} differ: {:?} {:?} and {:?} {:?}: {question:02X?}",
        left.call.figures, left.counts, right.call.figures, right.counts,
    )))
}

/// Prints the lines of a job's bytes on two explainers in so much room; gives
/// a text if they differ.
pub fn texts_differ(
    left: &dyn Explainer,
    right: &dyn Explainer,
    bytes: &[u8],
    room: usize,
    salt: u64,
) -> Option<String> {
    let [left, right] = [left, right].map(|explainer| {
        planners::run_text_by(bytes, room, salt, |job, text| {
            explainer.explain_text(job, text)
        })
    });
    (left != right).then(|| {
        shortened(format!(
            "texts of length {} and {} in {room} bytes differ: {bytes:02X?}",
            left.length, right.length
        ))
    })
}
