//! The reader of one plan number: every number at each distance from the end
//! of the bytes, every damaged form, every short slice, offsets past the end,
//! memory that ends with the bytes; and that faulty readers are told.

use std::thread;

use secondcoop_tests::compare::{Codec, Library, Reference};
use secondcoop_tests::fenced::Fenced;
use secondcoop_tests::ffi::Figures;
use secondcoop_tests::generate;
use secondcoop_tests::numbers::{self, Groups, Laid, PlanNumbers, Reader, MEMORY};
use secondcoop_tests::random::Random;

/// Plan numbers are below this.
const NUMBERS: u32 = 1 << 28;
/// 0 to 5 bytes stand between a number and the end.
const DISTANCES: usize = 6;

type Seen = numbers::Seen<PlanNumbers>;

fn library(laid: &Laid) -> Figures {
    numbers::library::<PlanNumbers>(laid)
}

/// The numbers of one to four groups, all of them or one in `step`, shared
/// among the processors.
fn numbers(reader: &impl Reader, step: u32) -> Seen {
    let threads = thread::available_parallelism().map_or(1, usize::from) as u32;
    let share = |thread| (thread * step..NUMBERS).step_by((threads * step) as usize);
    let read = move |thread| numbers::read_numbers(reader, share(thread).map(u64::from));
    let mut seen = Seen::default();
    thread::scope(|scope| {
        let start = |thread| scope.spawn(move || read(thread));
        let running: Vec<_> = (0..threads).map(start).collect();
        for thread in running {
            seen.add(thread.join().expect("a thread ends"));
        }
    });
    seen
}

/// Bytes that end after one, two or three groups that another follows, at
/// offsets 0 to 5: all such groups, or one in `step`.
fn cut_numbers(reader: &impl Reader, step: usize) -> Seen {
    let all = numbers::one_to_three_groups().step_by(step);
    numbers::refuse_cut_groups(reader, all.map(|(count, low)| Groups::cut(count, low)))
}

/// A last group of zero after one, two or three others, at each distance: all
/// such others, or one in `step`.
fn numbers_not_shortest(reader: &impl Reader, step: usize) -> Seen {
    let all = numbers::one_to_three_groups().step_by(step);
    numbers::refuse_groups(reader, all.map(|(count, low)| Groups::ended(count, low)))
}

/// A fourth group that another follows, at each distance: each of the 128 such
/// groups after one in `step` of the three before it.
fn numbers_of_five_groups(reader: &impl Reader, step: usize) -> Seen {
    let low = (0..1 << 21).step_by(step);
    let all = low.flat_map(|low| (0..128).map(move |fourth| low | fourth << 21));
    numbers::refuse_groups(reader, all.map(|bits| Groups::cut(4, bits)))
}

/// A fourth group that another follows, with any groups before it: all, or one
/// in `step`, each at one distance.
fn words_without_end(reader: &impl Reader, step: usize) -> Seen {
    let all = (0..NUMBERS).step_by(step).map(u64::from);
    numbers::refuse_groups_once(reader, all.map(|bits| Groups::cut(4, bits)))
}

/// All 268,435,456 numbers, each at all six distances.
#[test]
fn every_number_is_read_at_each_distance() {
    let reads = u64::from(NUMBERS) * DISTANCES as u64;
    numbers(&library, 1).must_be_right("every_number_is_read_at_each_distance", reads);
}

/// All groups that may stand in them.
#[test]
fn every_cut_number_is_refused() {
    let reads = (128 + 16_384 + 2_097_152) * 6;
    cut_numbers(&library, 1).must_be_right("every_cut_number_is_refused", reads);
}

/// All groups that may stand in them.
#[test]
fn every_number_that_is_not_shortest_is_refused() {
    let reads = (128 + 16_384 + 2_097_152) * DISTANCES as u64;
    let seen = numbers_not_shortest(&library, 1);
    seen.must_be_right("every_number_that_is_not_shortest_is_refused", reads);
}

/// All fourth groups, each after every 31st of the three groups before it.
#[test]
fn numbers_of_five_groups_are_refused() {
    let reads = (1u64 << 21).div_ceil(31) * 128 * DISTANCES as u64;
    let seen = numbers_of_five_groups(&library, 31);
    seen.must_be_right("numbers_of_five_groups_are_refused", reads);
}

/// All words of four groups that another follows, each at one distance.
#[test]
fn every_word_without_end_is_refused() {
    let seen = words_without_end(&library, 1);
    seen.must_be_right("every_word_without_end_is_refused", NUMBERS.into());
}

/// All slices of 0 to 3 bytes.
#[test]
fn every_short_slice_is_read_alike() {
    numbers::must_read_short_slices::<PlanNumbers>("every_short_slice_is_read_alike");
}

#[test]
fn offsets_past_the_end_are_refused() {
    let name = "offsets_past_the_end_are_refused";
    numbers::must_refuse_offsets_past_the_end::<PlanNumbers>(name);
}

/// 1 to 8 bytes, of groups 0, 1 or 127, at both ends of the memory.
#[test]
fn no_byte_beyond_the_slice_is_touched() {
    numbers::must_touch_no_byte_beyond::<PlanNumbers>("no_byte_beyond_the_slice_is_touched");
}

/// The same for whole plans, and for every beginning of one.
#[test]
fn no_byte_beyond_a_plan_is_touched() {
    let mut fenced = Fenced::new();
    let mut random = Random::new(41);
    for _ in 0..400 {
        let plan = generate::any_plan(&mut random, 300, 12);
        let bytes = plan.bytes();
        for end in 0..=bytes.len() {
            let right = Reference.check_plan(&bytes[..end]);
            let lent = fenced.at_the_end(&bytes[..end]);
            assert_eq!(Library.check_plan(lent), right, "{lent:?}");
            let mut lists = [(); 4].map(|()| vec![0; plan.edges()]);
            let [tails, heads, costs, classes] = &mut lists;
            let answer = Library.read_plan(lent, tails, heads, costs, classes);
            assert_eq!(answer, right, "{lent:?}");
        }
    }
}

#[test]
fn touching_a_byte_beyond_is_told() {
    numbers::touching_a_byte_beyond_is_told::<PlanNumbers>("touching_a_byte_beyond_is_told");
}

/// What is wrong with a reader.
#[derive(Clone, Copy, Debug, PartialEq, Eq)]
enum Fault {
    /// Nothing. Bytes that are missing from a word count as 255, with which a
    /// number never ends.
    None,
    /// With three bytes left the fourth is what stands behind them.
    WordOfThree,
    /// Bytes that are missing count as 0.
    MissingAsZero,
    /// Bytes that are missing count as 1.
    MissingAsOne,
    /// A number that the bytes cut is read as far as it goes.
    Cut,
    /// Four bytes from an offset past the end count as left.
    LeftBelowZero,
    /// The offset after four bytes may pass 64 bits and then is small.
    OffsetWraps,
    /// The offset is cut to 32 bits.
    OffsetOf32Bits,
    /// The word is taken where its address would be even by four.
    Aligned,
    /// With exactly four bytes left the word is not taken, and the other
    /// reader goes to three groups.
    LastFour,
    /// The groups are taken highest first.
    HighestFirst,
    /// Whether the second group is the last is asked one bit too low.
    SecondBitLow,
    /// The second group has eight bits.
    SecondMaskWide,
    /// A number of two groups has bits of the byte behind it.
    ByteBehind,
    /// The third group stands one bit too high.
    ThirdShift,
    /// The fourth group has six bits.
    FourthMaskNarrow,
    /// The fourth group's top bit is not asked.
    FourthBit,
    /// The offset after a number of three groups is one too far.
    ThirdOffset,
    /// The offset after a number counts from the number.
    OffsetFromNumber,
    /// A second group of zero is read.
    SecondZero,
    /// A third group of zero is read.
    ThirdZero,
    /// A fourth group of zero is read.
    FourthZero,
    /// A refusal stands at the number's last byte.
    LastByte,
    /// A refusal leaves the word.
    RefusedWord,
}

/// Each fault and the checks that tell it, at a fraction of their length.
const FAULTS: [(Fault, &[&str]); 23] = [
    (Fault::WordOfThree, &["cut", "short"]),
    (Fault::MissingAsZero, &["short", "past"]),
    (Fault::MissingAsOne, &["cut", "short", "past"]),
    (Fault::Cut, &["cut", "short"]),
    (Fault::LeftBelowZero, &["short", "past"]),
    (Fault::OffsetWraps, &["past"]),
    (Fault::OffsetOf32Bits, &["past"]),
    (Fault::Aligned, &["numbers", "short"]),
    (Fault::LastFour, &["numbers"]),
    (Fault::HighestFirst, &["numbers", "short"]),
    (
        Fault::SecondBitLow,
        &[
            "numbers",
            "cut",
            "not shortest",
            "five groups",
            "without end",
            "short",
        ],
    ),
    (Fault::SecondMaskWide, &["numbers", "short"]),
    (Fault::ByteBehind, &["numbers", "short"]),
    (Fault::ThirdShift, &["numbers", "short"]),
    (Fault::FourthMaskNarrow, &["numbers"]),
    (Fault::FourthBit, &["five groups", "without end"]),
    (Fault::ThirdOffset, &["numbers", "short"]),
    (Fault::OffsetFromNumber, &["numbers", "short"]),
    (Fault::SecondZero, &["not shortest", "short"]),
    (Fault::ThirdZero, &["not shortest", "short"]),
    (Fault::FourthZero, &["not shortest"]),
    (Fault::LastByte, &["not shortest", "short"]),
    (
        Fault::RefusedWord,
        &[
            "cut",
            "not shortest",
            "five groups",
            "without end",
            "short",
            "past",
        ],
    ),
];

impl Fault {
    /// The four bytes that are taken from an offset.
    fn word(self, laid: &Laid) -> [u8; 4] {
        let Laid { memory, length, at } = *laid;
        let from = match self {
            Fault::OffsetOf32Bits => at as u32 as usize,
            Fault::Aligned if at < length => at / 4 * 4,
            _ => at,
        };
        let left = length.saturating_sub(from);
        let taken = match self {
            Fault::WordOfThree if left == 3 => 4,
            Fault::LeftBelowZero if from > length => 4,
            Fault::OffsetWraps if from.wrapping_add(4) <= length => 4,
            Fault::LastFour if left == 4 => 3,
            _ => left,
        };
        let missing = match self {
            Fault::MissingAsZero => 0,
            Fault::MissingAsOne => 1,
            _ => 255,
        };
        [0, 1, 2, 3].map(|index| match index < taken {
            true => memory[from.wrapping_add(index) % MEMORY],
            false => missing,
        })
    }

    /// How many groups a word's number has, if it ends in the word.
    fn groups(self, word: [u8; 4], left: usize) -> Option<usize> {
        let more = |index: usize| match (self, index) {
            (Fault::SecondBitLow, 1) => word[1] & 0x40 > 0,
            (Fault::FourthBit, 3) if left >= 4 => false,
            _ => word[index] & 0x80 > 0,
        };
        let groups = (1..=4).find(|groups| !more(groups - 1));
        match (self, left) {
            (Fault::Cut, 1..=3) => groups.or(Some(left)),
            _ => groups,
        }
    }

    /// The value of a word's number of so many groups.
    fn value(self, word: [u8; 4], groups: usize) -> u64 {
        let taken = match (self, groups) {
            (Fault::ByteBehind, 2) => 3,
            _ => groups,
        };
        let group = |index: usize| match (self, index) {
            (Fault::SecondMaskWide, 1) => u64::from(word[1]),
            (Fault::FourthMaskNarrow, 3) => u64::from(word[3] & 0x3F),
            _ => u64::from(word[index] & 0x7F),
        };
        let shift = |index: usize| match (self, index) {
            (Fault::ThirdShift, 2) => 15,
            (Fault::HighestFirst, _) => 7 * (groups - 1 - index),
            _ => 7 * index,
        };
        (0..taken).fold(0, |value, index| value | group(index) << shift(index))
    }

    /// A reader by words with this fault.
    fn read(self, laid: &Laid) -> Figures {
        let at = laid.at as u64;
        let word = self.word(laid);
        let groups = self.groups(word, laid.length.saturating_sub(laid.at));
        let zero = match (self, groups) {
            (_, None | Some(1)) => false,
            (Fault::SecondZero, Some(2)) => false,
            (Fault::ThirdZero, Some(3)) => false,
            (Fault::FourthZero, Some(4)) => false,
            (_, Some(groups)) => word[groups - 1] == 0,
        };
        match (self, groups) {
            (Fault::ThirdOffset, Some(3)) if !zero => [0, 0, self.value(word, 3), at + 4],
            (Fault::OffsetFromNumber, Some(groups)) if !zero => {
                [0, 0, self.value(word, groups), groups as u64]
            }
            (_, Some(groups)) if !zero => [
                0,
                0,
                self.value(word, groups),
                at.wrapping_add(groups as u64),
            ],
            (Fault::LastByte, Some(groups)) => [1, at + groups as u64 - 1, 0, 0],
            (Fault::RefusedWord, _) => [1, at, u32::from_le_bytes(word).into(), 0],
            _ => [1, at, 0, 0],
        }
    }
}

/// Which checks, each at a fraction of its length, tell a fault.
fn told(fault: Fault) -> Vec<&'static str> {
    let reader = |laid: &Laid| fault.read(laid);
    numbers::wrong::<PlanNumbers>([
        ("numbers", numbers(&reader, 10_007)),
        ("cut", cut_numbers(&reader, 101)),
        ("not shortest", numbers_not_shortest(&reader, 101)),
        ("five groups", numbers_of_five_groups(&reader, 10_007)),
        ("without end", words_without_end(&reader, 10_007)),
        ("short", numbers::short_slices(&reader, 101)),
        ("past", numbers::offsets_past_the_end(&reader)),
    ])
}

#[test]
fn each_faulty_reader_is_told() {
    for (fault, checks) in FAULTS {
        assert_eq!(told(fault), checks, "{fault:?}");
    }
}

#[test]
fn a_reader_without_fault_is_not_told() {
    assert_eq!(told(Fault::None), [""; 0]);
}
