//! The comparison finds planted faults: each faulty implementation below
//! differs from the second implementation in one way, and the streams of the
//! differential tests, at a fraction of their length, must find it.

use secondcoop_tests::compare::{Codec, Comparison, Reference};
use secondcoop_tests::ffi::Figures;
use secondcoop_tests::generate;

/// What is wrong.
#[derive(Clone, Copy, Debug, PartialEq, Eq)]
enum Fault {
    /// Nothing: the comparison must find nothing.
    None,
    /// A number that is not shortest is read.
    NotShortest,
    /// A number of four groups is refused.
    ThreeGroups,
    /// A number of five groups is read.
    FiveGroups,
    /// The fourth group is left out.
    FourthGroup,
    /// A plan with a number of four groups is refused.
    PlanOfThreeGroups,
    /// A number of four groups is not written.
    WriterThreeGroups,
    /// 268,435,456 is written, cut to four groups.
    WriterFiveGroups,
    /// The offset of a number's last byte instead of its first.
    LastByte,
    /// A job number of 33 bits is read, cut to 32.
    JobNumberOf33Bits,
    /// A job number of six groups is read.
    SixGroups,
    /// No room counts before a number too large.
    RoomBeforeValue,
    /// One byte is written where two have no room.
    HalfANumber,
    /// V and M change places.
    Swapped,
    /// A vertex count of 4,097 passes.
    VertexLimit,
    /// An edge count out of range is refusal 2.
    EdgeLimit,
    /// A cost of 16,000,001 passes.
    CostLimit,
    /// A cost above 1,000,000 is refused.
    OldCostLimit,
    /// A cost of 16,777,215 passes, as 24 bits would have it.
    CostOf24Bits,
    /// A class of 8 passes.
    ClassLimit,
    /// A class above 7 stands at the cost.
    ClassPosition,
    /// A class of bad form is refusal 15.
    ClassForm,
    /// A class above 7 counts before a cost too large.
    ClassBeforeCost,
    /// A tail out of range stands at the head.
    TailPosition,
    /// A head out of order is refusal 4.
    HeadOrder,
    /// Bytes left over pass.
    LeftOver,
    /// Lists too short count before bytes left over.
    ListsBeforeEnd,
    /// A refused plan leaves words in the lists.
    ListsAtRefusal,
    /// A list longer than M gets one word more.
    ListBeyond,
    /// The last cost is wrong.
    LastCost,
    /// The last class is wrong.
    LastClass,
    /// Classes that have no room are left out.
    ShortClasses,
    /// Unequal lists are cut to the shortest.
    UnequalLists,
    /// Classes that are left out are written as 0.
    UnequalClasses,
    /// The writer refuses a head out of order as a cost.
    WriterOrder,
    /// The writer's position is one too high.
    WriterPosition,
    /// The writer passes a class of 8 as 7.
    WriterClassLimit,
    /// The writer passes a cost of 16,000,001 as 16,000,000.
    WriterCostLimit,
    /// The writer refuses a cost above 1,000,000.
    WriterOldCostLimit,
    /// The writer refuses a class before a cost.
    WriterClassBeforeCost,
    /// The writer begins to write where it has no room.
    OutputAtRefusal,
    /// The writer clears the byte after the last.
    OutputBeyond,
}

const FAULTS: [Fault; 41] = [
    Fault::NotShortest,
    Fault::ThreeGroups,
    Fault::FiveGroups,
    Fault::FourthGroup,
    Fault::PlanOfThreeGroups,
    Fault::WriterThreeGroups,
    Fault::WriterFiveGroups,
    Fault::LastByte,
    Fault::JobNumberOf33Bits,
    Fault::SixGroups,
    Fault::RoomBeforeValue,
    Fault::HalfANumber,
    Fault::Swapped,
    Fault::VertexLimit,
    Fault::EdgeLimit,
    Fault::CostLimit,
    Fault::OldCostLimit,
    Fault::CostOf24Bits,
    Fault::ClassLimit,
    Fault::ClassPosition,
    Fault::ClassForm,
    Fault::ClassBeforeCost,
    Fault::TailPosition,
    Fault::HeadOrder,
    Fault::LeftOver,
    Fault::ListsBeforeEnd,
    Fault::ListsAtRefusal,
    Fault::ListBeyond,
    Fault::LastCost,
    Fault::LastClass,
    Fault::ShortClasses,
    Fault::UnequalLists,
    Fault::UnequalClasses,
    Fault::WriterOrder,
    Fault::WriterPosition,
    Fault::WriterClassLimit,
    Fault::WriterCostLimit,
    Fault::WriterOldCostLimit,
    Fault::WriterClassBeforeCost,
    Fault::OutputAtRefusal,
    Fault::OutputBeyond,
];

struct Faulty(Fault);

/// The plan numbers of bytes that are accepted: offset, value and count of
/// groups of each.
fn plan_numbers(bytes: &[u8], answer: Figures) -> Vec<(u64, u64, u64)> {
    let mut numbers = Vec::new();
    let mut at = 0;
    while answer[0] == 0 && at < bytes.len() as u64 {
        let [_, _, value, next] = Reference.read_plan_number(bytes, at as usize);
        numbers.push((at, value, next - at));
        at = next;
    }
    numbers
}

/// The refusal of an accepted plan that has a number of four groups.
fn first_of_four_groups(bytes: &[u8], answer: Figures) -> Option<Figures> {
    let numbers = plan_numbers(bytes, answer);
    let first = numbers.iter().find(|(_, _, groups)| *groups == 4)?;
    Some([1, first.0, 0, 0])
}

/// The refusal of an accepted plan that has a cost above 1,000,000, which no
/// other number of it is.
fn first_above_a_million(bytes: &[u8], answer: Figures) -> Option<Figures> {
    let numbers = plan_numbers(bytes, answer);
    let first = numbers.iter().find(|(_, value, _)| *value > 1_000_000)?;
    Some([5, first.0, 0, 0])
}

/// Whether lists of so much room are too short for a plan.
fn is_short(bytes: &[u8], room: [usize; 4]) -> bool {
    let mut lists = room.map(|room| vec![0; room]);
    let [tails, heads, costs, classes] = &mut lists;
    Reference.read_plan(bytes, tails, heads, costs, classes)[0] == 11
}

impl Faulty {
    /// The lists that are written in place of refused ones.
    fn other_lists(&self, lists: [&[u32]; 4], number: u64) -> Option<[Vec<u32>; 4]> {
        let edges = lists.map(<[u32]>::len);
        let mut other = lists.map(<[u32]>::to_vec);
        let [_, _, costs, classes] = &mut other;
        match self.0 {
            Fault::UnequalLists if number == 3 => {
                let least = edges.into_iter().min().unwrap_or(0);
                other = lists.map(|list| list[..least].to_vec());
            }
            Fault::UnequalClasses if number == 3 && edges[3] < edges[0] => {
                classes.resize(edges[0], 0);
            }
            Fault::WriterClassLimit if number == 15 => {
                for class in classes.iter_mut().filter(|class| **class == 8) {
                    *class = 7;
                }
            }
            Fault::WriterCostLimit if number == 5 => {
                for cost in costs.iter_mut().filter(|cost| **cost == 16_000_001) {
                    *cost = 16_000_000;
                }
            }
            _ => return None,
        }
        Some(other)
    }
}

impl Codec for Faulty {
    fn read_plan_number(&self, bytes: &[u8], at: usize) -> Figures {
        let answer = Reference.read_plan_number(bytes, at);
        match (self.0, answer[0], bytes.get(at..)) {
            (Fault::NotShortest, 1, Some(&[a, 0, ..])) if a >= 128 => {
                [0, 0, u64::from(a) - 128, at as u64 + 2]
            }
            (Fault::LastByte, 1, Some(&[128..=255, 0, ..])) => [1, at as u64 + 1, 0, 0],
            (Fault::ThreeGroups, 0, _) if answer[3] == at as u64 + 4 => [1, at as u64, 0, 0],
            (Fault::FourthGroup, 0, _) => [0, 0, answer[2] % (1 << 21), answer[3]],
            (
                Fault::FiveGroups,
                1,
                Some(&[128..=255, 128..=255, 128..=255, 128..=255, 1..=127, ..]),
            ) => [0, 0, 0, at as u64 + 5],
            _ => answer,
        }
    }

    fn read_job_number(&self, bytes: &[u8], at: usize) -> Figures {
        let answer = Reference.read_job_number(bytes, at);
        match (self.0, answer[0], bytes.get(at..)) {
            (
                Fault::JobNumberOf33Bits,
                1,
                Some(
                    &[a @ 128..=255, b @ 128..=255, c @ 128..=255, d @ 128..=255, e @ 16..=31, ..],
                ),
            ) => {
                let mut value = 0u32;
                for (index, byte) in [a, b, c, d, e].into_iter().enumerate() {
                    value |= u32::from(byte % 128) << (7 * index);
                }
                [0, 0, value.into(), at as u64 + 5]
            }
            (
                Fault::SixGroups,
                1,
                Some(&[128..=255, 128..=255, 128..=255, 128..=255, 128..=255, 1..=127, ..]),
            ) => [0, 0, 0, at as u64 + 6],
            _ => answer,
        }
    }

    fn write_plan_number(&self, out: &mut [u8], at: usize, value: u32) -> Figures {
        let answer = Reference.write_plan_number(out, at, value);
        match self.0 {
            Fault::RoomBeforeValue if answer[0] == 1 && at >= out.len() => [11, 0, 0, 0],
            Fault::WriterThreeGroups if answer[0] == 0 && value >= 1 << 21 => [1, 0, 0, 0],
            Fault::WriterFiveGroups if value == 1 << 28 => {
                Reference.write_plan_number(out, at, value - 1)
            }
            Fault::HalfANumber if answer[0] == 11 && at < out.len() => {
                out[at] = value as u8 | 128;
                answer
            }
            _ => answer,
        }
    }

    fn check_plan(&self, bytes: &[u8]) -> Figures {
        let answer = Reference.check_plan(bytes);
        let [number, position, first, second] = answer;
        let at = position as usize;
        let changed = |from: usize, to: usize, with: &[u8]| {
            let mut bytes = bytes.to_vec();
            bytes.splice(from..to, with.iter().copied());
            Reference.check_plan(&bytes)
        };
        match self.0 {
            Fault::Swapped => [number, position, second, first],
            Fault::VertexLimit if number == 2 && bytes.starts_with(&[0x81, 0x20]) => {
                changed(0, 2, &[0x80, 0x20])
            }
            Fault::EdgeLimit if number == 3 => [2, position, 0, 0],
            Fault::CostLimit if number == 5 && bytes[at..].starts_with(&[0x81, 0xC8, 0xD0, 7]) => {
                changed(at, at + 1, &[0x80])
            }
            Fault::CostOf24Bits if number == 5 && bytes[at + 3] == 7 => changed(at, at + 4, &[0]),
            Fault::PlanOfThreeGroups => first_of_four_groups(bytes, answer).unwrap_or(answer),
            Fault::OldCostLimit => first_above_a_million(bytes, answer).unwrap_or(answer),
            Fault::ClassLimit if number == 15 && bytes[at] == 8 => changed(at, at + 1, &[7]),
            Fault::ClassPosition if number == 15 => [15, position - 1, 0, 0],
            Fault::ClassForm if number == 1 => {
                // Where any class would do, the number is a class.
                match changed(at, bytes.len(), &[8]) {
                    [15, other, ..] if other == position => [15, position, 0, 0],
                    _ => answer,
                }
            }
            Fault::ClassBeforeCost if number == 5 => {
                let end = Reference.read_plan_number(bytes, at)[3] as usize;
                match changed(at, end, &[0]) {
                    [15, other, ..] if other == position + 1 => [15, end as u64, 0, 0],
                    _ => answer,
                }
            }
            Fault::TailPosition if number == 4 => [4, position + 1, 0, 0],
            Fault::HeadOrder if number == 6 => [4, position, 0, 0],
            Fault::LeftOver if number == 7 => Reference.check_plan(&bytes[..at]),
            _ => answer,
        }
    }

    fn read_plan(
        &self,
        bytes: &[u8],
        tails: &mut [u32],
        heads: &mut [u32],
        costs: &mut [u32],
        classes: &mut [u32],
    ) -> Figures {
        let answer = Reference.read_plan(bytes, tails, heads, costs, classes);
        let edges = answer[3] as usize;
        match self.0 {
            Fault::ListsBeforeEnd if answer[0] == 7 => {
                let room = [tails.len(), heads.len(), costs.len(), classes.len()];
                if is_short(&bytes[..answer[1] as usize], room) {
                    return [11, 0, 0, 0];
                }
            }
            Fault::ListsAtRefusal if answer[0] > 0 => {
                if let Some(word) = tails.first_mut() {
                    *word = 0;
                }
            }
            Fault::ListBeyond if answer[0] == 0 => {
                if let Some(word) = heads.get_mut(edges) {
                    *word = 0;
                }
            }
            Fault::LastCost if answer[0] == 0 && edges > 5 => costs[edges - 1] ^= 1 << 16,
            Fault::LastClass if answer[0] == 0 && edges > 5 => classes[edges - 1] ^= 4,
            Fault::ShortClasses if answer[0] == 11 => {
                let mut longer = vec![0; 40_000];
                let other = Reference.read_plan(bytes, tails, heads, costs, &mut longer);
                if other[0] == 0 {
                    classes.copy_from_slice(&longer[..classes.len()]);
                }
                return other;
            }
            _ => {}
        }
        answer
    }

    fn write_plan(
        &self,
        vertices: u32,
        tails: &[u32],
        heads: &[u32],
        costs: &[u32],
        classes: &[u32],
        out: &mut [u8],
    ) -> Figures {
        let answer = Reference.write_plan(vertices, tails, heads, costs, classes, out);
        let [number, position, count, _] = answer;
        if let Some(lists) = self.other_lists([tails, heads, costs, classes], number) {
            let [tails, heads, costs, classes] = lists;
            return Reference.write_plan(vertices, &tails, &heads, &costs, &classes, out);
        }
        match self.0 {
            Fault::WriterClassBeforeCost if number == 5 && classes[position as usize] > 7 => {
                return [15, position, 0, 0];
            }
            Fault::WriterOrder if number == 6 && costs[position as usize] > 16_000_000 => {
                return [5, position, 0, 0];
            }
            Fault::WriterOldCostLimit if number == 0 => {
                if let Some(edge) = costs.iter().position(|&cost| cost > 1_000_000) {
                    return [5, edge as u64, 0, 0];
                }
            }
            Fault::WriterPosition if number == 5 => return [5, position + 1, 0, 0],
            Fault::OutputAtRefusal if number == 11 && !out.is_empty() => out[0] ^= 1,
            Fault::OutputBeyond if number == 0 => {
                if let Some(byte) = out.get_mut(count as usize) {
                    *byte ^= 255;
                }
            }
            _ => {}
        }
        answer
    }
}

/// Runs all streams, shortened, up to the first case that differs; gives
/// whether there is one and the number of cases run.
fn found(fault: Fault) -> (u64, u64) {
    let faulty = Faulty(fault);
    let mut comparison = Comparison::new(&faulty, &Reference);
    let mut differing = 0;
    let mut check = |case, known| {
        // The answer known from a case's making is left aside: the
        // comparison alone must find the fault.
        let _ = known;
        if differing == 0 {
            differing += u64::from(comparison.differs(&case, None).is_some());
        }
    };
    generate::numbers(21, 5_000, &mut check);
    generate::written_numbers(22, 2_000, &mut check);
    generate::valid_plans(23, 64, &mut check);
    generate::damaged_plans(24, 3_000, &mut |_, _| (), &mut check);
    generate::truncations(25, 50, &mut check);
    generate::random_bytes(26, 3_000, &mut check);
    generate::changed_bytes(27, 3_000, &mut check);
    generate::damaged_classes(32, 100, &mut check);
    generate::damaged_lists(28, 3_000, &mut check);
    generate::random_lists(29, 3_000, &mut check);
    generate::short_numbers(&mut check);
    (differing, comparison.cases)
}

#[test]
fn each_planted_fault_is_found() {
    for fault in FAULTS {
        let (differing, cases) = found(fault);
        assert!(differing > 0, "{fault:?} is not found in {cases} cases");
    }
}

#[test]
fn nothing_is_found_where_nothing_is_planted() {
    let (differing, cases) = found(Fault::None);
    assert_eq!(differing, 0);
    assert!(cases > 150_000);
}

/// An answer that contradicts a case's making is found even where both sides
/// give it.
#[test]
fn the_known_answer_is_compared_too() {
    let faulty = Faulty(Fault::CostLimit);
    let mut comparison = Comparison::new(&faulty, &faulty);
    let mut differing = 0;
    generate::damaged_plans(24, 3_000, &mut |_, _| (), &mut |case, known| {
        differing += u64::from(comparison.differs(&case, known).is_some());
    });
    assert!(differing > 0);
}
