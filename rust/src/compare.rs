//! Running one case on two implementations and comparing the answers and
//! the whole lent memory, the words around it included.

use crate::ffi::{self, Figures};
use crate::guarded::Guarded;
use crate::reference::{self, Refusal, LAST_REFUSAL};

/// The six calls on plan bytes, each leaving four figures.
pub trait Codec {
    fn read_plan_number(&self, bytes: &[u8], at: usize) -> Figures;
    fn read_job_number(&self, bytes: &[u8], at: usize) -> Figures;
    fn write_plan_number(&self, out: &mut [u8], at: usize, value: u32) -> Figures;
    fn check_plan(&self, bytes: &[u8]) -> Figures;
    fn read_plan(
        &self,
        bytes: &[u8],
        tails: &mut [u32],
        heads: &mut [u32],
        costs: &mut [u32],
        classes: &mut [u32],
    ) -> Figures;
    fn write_plan(
        &self,
        vertices: u32,
        tails: &[u32],
        heads: &[u32],
        costs: &[u32],
        classes: &[u32],
        out: &mut [u8],
    ) -> Figures;
}

/// The library under test.
pub struct Library;

impl Codec for Library {
    #[inline]
    fn read_plan_number(&self, bytes: &[u8], at: usize) -> Figures {
        ffi::read_plan_number(bytes, at)
    }
    #[inline]
    fn read_job_number(&self, bytes: &[u8], at: usize) -> Figures {
        ffi::read_job_number(bytes, at)
    }
    fn write_plan_number(&self, out: &mut [u8], at: usize, value: u32) -> Figures {
        ffi::write_plan_number(out, at, value)
    }
    fn check_plan(&self, bytes: &[u8]) -> Figures {
        ffi::check_plan(bytes)
    }
    fn read_plan(
        &self,
        bytes: &[u8],
        tails: &mut [u32],
        heads: &mut [u32],
        costs: &mut [u32],
        classes: &mut [u32],
    ) -> Figures {
        ffi::read_plan(bytes, tails, heads, costs, classes)
    }
    fn write_plan(
        &self,
        vertices: u32,
        tails: &[u32],
        heads: &[u32],
        costs: &[u32],
        classes: &[u32],
        out: &mut [u8],
    ) -> Figures {
        ffi::write_plan(vertices, tails, heads, costs, classes, out)
    }
}

/// The second implementation.
pub struct Reference;

/// The figures of an answer with two values.
pub fn two_values<A: TryInto<u64>, B: TryInto<u64>>(answer: Result<(A, B), Refusal>) -> Figures {
    let figure = |value: Result<u64, ()>| value.expect("a value has at most 64 bits");
    match answer {
        Ok((first, second)) => [
            0,
            0,
            figure(first.try_into().map_err(|_| ())),
            figure(second.try_into().map_err(|_| ())),
        ],
        Err(Refusal { number, position }) => [number.into(), position as u64, 0, 0],
    }
}

/// The figures of an answer with one value.
pub fn one_value(answer: Result<usize, Refusal>) -> Figures {
    two_values(answer.map(|value| (value, 0u64)))
}

impl Codec for Reference {
    #[inline]
    fn read_plan_number(&self, bytes: &[u8], at: usize) -> Figures {
        two_values(reference::read_plan_number(bytes, at))
    }
    #[inline]
    fn read_job_number(&self, bytes: &[u8], at: usize) -> Figures {
        two_values(reference::read_job_number(bytes, at))
    }
    fn write_plan_number(&self, out: &mut [u8], at: usize, value: u32) -> Figures {
        one_value(reference::write_plan_number(out, at, value))
    }
    fn check_plan(&self, bytes: &[u8]) -> Figures {
        two_values(reference::check_plan(bytes))
    }
    fn read_plan(
        &self,
        bytes: &[u8],
        tails: &mut [u32],
        heads: &mut [u32],
        costs: &mut [u32],
        classes: &mut [u32],
    ) -> Figures {
        two_values(reference::read_plan(bytes, tails, heads, costs, classes))
    }
    fn write_plan(
        &self,
        vertices: u32,
        tails: &[u32],
        heads: &[u32],
        costs: &[u32],
        classes: &[u32],
        out: &mut [u8],
    ) -> Figures {
        one_value(reference::write_plan(
            vertices, tails, heads, costs, classes, out,
        ))
    }
}

/// One call with its inputs; `room` is the length of lent memory.
#[derive(Clone, Debug)]
pub enum Case {
    ReadPlanNumber {
        bytes: Vec<u8>,
        at: usize,
    },
    ReadJobNumber {
        bytes: Vec<u8>,
        at: usize,
    },
    WritePlanNumber {
        room: usize,
        at: usize,
        value: u32,
    },
    CheckPlan {
        bytes: Vec<u8>,
    },
    ReadPlan {
        bytes: Vec<u8>,
        room: [usize; 4],
    },
    WritePlan {
        vertices: u32,
        tails: Vec<u32>,
        heads: Vec<u32>,
        costs: Vec<u32>,
        classes: Vec<u32>,
        room: usize,
    },
}

/// How many kinds of case there are.
pub const KINDS: usize = 6;

/// Cases by refusal number; a number that the paper does not name is the last.
pub type Tally = [u64; LAST_REFUSAL as usize + 2];

impl Case {
    /// The number of this kind of case.
    pub fn kind(&self) -> usize {
        match self {
            Case::ReadPlanNumber { .. } => 0,
            Case::ReadJobNumber { .. } => 1,
            Case::WritePlanNumber { .. } => 2,
            Case::CheckPlan { .. } => 3,
            Case::ReadPlan { .. } => 4,
            Case::WritePlan { .. } => 5,
        }
    }

    /// A text of bounded length for a failed comparison.
    pub fn describe(&self) -> String {
        let mut text = format!("{self:02X?}");
        if text.len() > 3_000 {
            text.truncate(3_000);
            text.push_str("...");
        }
        text
    }
}

/// A call's figures and all the memory it was lent, guards included.
#[derive(Clone, Debug, PartialEq, Eq)]
pub struct Outcome {
    pub figures: Figures,
    pub bytes: Vec<Vec<u8>>,
    pub words: Vec<Vec<u32>>,
}

/// The outcome of a call that only reads bytes.
fn run_on_bytes(bytes: &[u8], salt: u64, call: impl FnOnce(&[u8]) -> Figures) -> Outcome {
    let bytes = Guarded::with_contents(bytes, salt);
    let figures = call(bytes.lent());
    Outcome {
        figures,
        bytes: vec![bytes.all],
        words: vec![],
    }
}

/// Reads a plan into lists of so much room.
fn run_read_plan(codec: &dyn Codec, bytes: &[u8], room: &[usize; 4], salt: u64) -> Outcome {
    let bytes = Guarded::with_contents(bytes, salt);
    let mut list = salt;
    let mut lists = room.map(|room| {
        list += 1;
        Guarded::<u32>::with_room(room, list)
    });
    let [tails, heads, costs, classes] = lists.each_mut().map(Guarded::lent_mut);
    let figures = codec.read_plan(bytes.lent(), tails, heads, costs, classes);
    Outcome {
        figures,
        bytes: vec![bytes.all],
        words: lists.map(|list| list.all).into(),
    }
}

/// Writes a plan from tails, heads, costs and classes into so much room.
fn run_write_plan(
    codec: &dyn Codec,
    vertices: u32,
    lists: [&[u32]; 4],
    room: usize,
    salt: u64,
) -> Outcome {
    let lists = lists.map(|list| Guarded::with_contents(list, salt));
    let mut out = Guarded::<u8>::with_room(room, salt);
    let [tails, heads, costs, classes] = lists.each_ref().map(Guarded::lent);
    let figures = codec.write_plan(vertices, tails, heads, costs, classes, out.lent_mut());
    Outcome {
        figures,
        bytes: vec![out.all],
        words: lists.map(|list| list.all).into(),
    }
}

/// Runs a case; `salt` selects the pattern that fills the memory.
pub fn run(codec: &dyn Codec, case: &Case, salt: u64) -> Outcome {
    match case {
        Case::ReadPlanNumber { bytes, at } => {
            run_on_bytes(bytes, salt, |bytes| codec.read_plan_number(bytes, *at))
        }
        Case::ReadJobNumber { bytes, at } => {
            run_on_bytes(bytes, salt, |bytes| codec.read_job_number(bytes, *at))
        }
        Case::WritePlanNumber { room, at, value } => {
            let mut out = Guarded::<u8>::with_room(*room, salt);
            let figures = codec.write_plan_number(out.lent_mut(), *at, *value);
            Outcome {
                figures,
                bytes: vec![out.all],
                words: vec![],
            }
        }
        Case::CheckPlan { bytes } => run_on_bytes(bytes, salt, |bytes| codec.check_plan(bytes)),
        Case::ReadPlan { bytes, room } => run_read_plan(codec, bytes, room, salt),
        Case::WritePlan {
            vertices,
            tails,
            heads,
            costs,
            classes,
            room,
        } => {
            let lists = [&tails[..], heads, costs, classes];
            run_write_plan(codec, *vertices, lists, *room, salt)
        }
    }
}

/// Compares two implementations case by case and counts what was seen.
pub struct Comparison<'a> {
    left: &'a dyn Codec,
    right: &'a dyn Codec,
    /// Cases by kind and refusal number, as the right side answers.
    pub tally: [Tally; KINDS],
    /// All cases.
    pub cases: u64,
    /// Cases whose answer was known from their making.
    pub known: u64,
}

impl<'a> Comparison<'a> {
    pub fn new(left: &'a dyn Codec, right: &'a dyn Codec) -> Self {
        Comparison {
            left,
            right,
            tally: [Tally::default(); KINDS],
            cases: 0,
            known: 0,
        }
    }

    /// Runs one case on both sides; gives a text if they differ, or if the
    /// left side differs from the answer known from the case's making.
    pub fn differs(&mut self, case: &Case, known: Option<Figures>) -> Option<String> {
        let left = run(self.left, case, self.cases);
        let right = run(self.right, case, self.cases);
        self.cases += 1;
        let tally = &mut self.tally[case.kind()];
        tally[(right.figures[0] as usize).min(tally.len() - 1)] += 1;
        if let Some(known) = known {
            self.known += 1;
            if left.figures != known {
                return Some(format!(
                    "answer {:?}, by its making {known:?}: {}",
                    left.figures,
                    case.describe()
                ));
            }
        }
        if left.figures != right.figures {
            return Some(format!(
                "answers {:?} and {:?}: {}",
                left.figures,
                right.figures,
                case.describe()
            ));
        }
        if left != right {
            return Some(format!(
                "same answer {:?}, different memory: {}",
                left.figures,
                case.describe()
            ));
        }
        None
    }

    /// Prints how many cases were compared, and how often each refusal was
    /// met by each kind of case.
    pub fn report(&self, name: &str) {
        println!("{name}: {} cases, {} known", self.cases, self.known);
        for (kind, tally) in self.tally.iter().enumerate() {
            let met: Vec<String> = (0..)
                .zip(tally)
                .filter(|&(_, &count)| count > 0)
                .map(|(number, count): (u32, _)| format!("{number}: {count}"))
                .collect();
            if !met.is_empty() {
                println!("  kind {kind}: {}", met.join(", "));
            }
        }
    }

    /// Runs one case on both sides and panics if they differ.
    pub fn must_agree(&mut self, case: &Case, known: Option<Figures>) {
        if let Some(text) = self.differs(case, known) {
            panic!("case {}: {text}", self.cases - 1);
        }
    }
}

#[cfg(test)]
mod tests {
    use super::*;
    use crate::guarded::GUARD;

    #[test]
    fn an_outcome_holds_the_guards() {
        let case = Case::ReadPlan {
            bytes: vec![1, 0],
            room: [0, 1, 5, 3],
        };
        let outcome = run(&Reference, &case, 3);
        assert_eq!(outcome.figures, [0, 0, 1, 0]);
        let lengths: Vec<usize> = outcome.words.iter().map(Vec::len).collect();
        assert_eq!(lengths, [0, 1, 5, 3].map(|room| 2 * GUARD + room));
        assert_eq!(outcome.bytes[0].len(), 2 * GUARD + 2);
        for index in 0..GUARD {
            let mut changed = outcome.clone();
            changed.words[1][index] ^= 1;
            assert_ne!(changed, outcome);
            let mut changed = outcome.clone();
            changed.words[2][GUARD + 5 + index] ^= 1;
            assert_ne!(changed, outcome);
            let mut changed = outcome.clone();
            changed.words[3][GUARD + 3 + index] ^= 1;
            assert_ne!(changed, outcome);
        }
    }

    #[test]
    fn the_pattern_changes_from_case_to_case() {
        let case = Case::WritePlanNumber {
            room: 3,
            at: 9,
            value: 0,
        };
        let (first, second) = (run(&Reference, &case, 0), run(&Reference, &case, 1));
        assert_eq!(first.figures, second.figures);
        let pairs = first.bytes[0].iter().zip(&second.bytes[0]);
        assert!(pairs.into_iter().all(|(left, right)| left != right));
    }
}
