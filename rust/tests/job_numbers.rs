//! The reader of one number of a bench job: numbers of one to five groups at
//! each distance from the end of the bytes, every damaged form, every short
//! slice, offsets past the end, memory that ends with the bytes; and that
//! faulty readers are told.

use std::iter;

use secondcoop_tests::ffi::Figures;
use secondcoop_tests::numbers::{self, Groups, JobNumbers, Laid, Reader, MEMORY};

/// 0 to 6 bytes stand between a number and the end.
const DISTANCES: u64 = 7;
/// Of the numbers of four groups, and of four groups that another follows, one
/// in so many is read.
const OF_FOUR: usize = 199;
/// Of the numbers of five groups one in so many is read.
const OF_FIVE: usize = 2_003;
/// Of the four groups before a fifth that is wrong one in so many is read.
const BEFORE_FIFTH: usize = 20_011;
/// Near these powers of two every number is read: where a group more begins,
/// and where 31 bits and 32 bits end.
const POWERS: [u32; 6] = [7, 14, 21, 28, 31, 32];
/// So far to either side of them.
const NEAR: u64 = 2_000;

type Seen = numbers::Seen<JobNumbers>;

fn library(laid: &Laid) -> Figures {
    numbers::library::<JobNumbers>(laid)
}

/// The numbers of one to three groups and a sample of those of four and five,
/// or one in `step` of them, at each distance.
fn sampled_numbers(reader: &impl Reader, step: usize) -> Seen {
    let short = (0..1 << 21).step_by(step);
    let of_four = (1 << 21..1 << 28).step_by(OF_FOUR * step);
    let of_five = (1 << 28..1 << 32).step_by(OF_FIVE * step);
    numbers::read_numbers(reader, short.chain(of_four).chain(of_five))
}

/// All that is near the powers, at each distance: numbers, and from 2^32 on
/// what is none.
fn near_powers(reader: &impl Reader) -> Seen {
    let powers = POWERS.map(|power| 1u64 << power).into_iter();
    let all = powers.flat_map(|power| power.saturating_sub(NEAR)..=power + NEAR);
    let (fitting, larger): (Vec<_>, Vec<_>) = all.partition(|&number| number < 1 << 32);
    let mut seen = numbers::read_numbers(reader, fitting.into_iter());
    let larger = larger.into_iter().map(|bits| Groups::ended(4, bits));
    seen.add(numbers::refuse_groups(reader, larger));
    seen
}

/// One to three groups of every value and four of a sample, or one in `step`
/// of them, and the greatest four: their count, and their bits.
fn one_to_four_groups(step: usize) -> impl Iterator<Item = (usize, u64)> {
    let four = (0..1 << 28).step_by(OF_FOUR * step);
    let four = four.chain((1 << 28) - NEAR..1 << 28).map(|low| (4, low));
    numbers::one_to_three_groups().step_by(step).chain(four)
}

/// Bytes that end after one to four groups that another follows, at offsets 0
/// to 5.
fn cut_numbers(reader: &impl Reader, step: usize) -> Seen {
    let all = one_to_four_groups(step).map(|(count, low)| Groups::cut(count, low));
    numbers::refuse_cut_groups(reader, all)
}

/// A last group of zero after one to four others, at each distance.
fn numbers_not_shortest(reader: &impl Reader, step: usize) -> Seen {
    let all = one_to_four_groups(step).map(|(count, low)| Groups::ended(count, low));
    numbers::refuse_groups(reader, all)
}

/// Four groups, one in `step` of all and the greatest, and a fifth of each
/// value from `least` on.
fn five_groups(step: usize, least: u64) -> impl Iterator<Item = u64> {
    let low = (0..1 << 28).step_by(step).chain(iter::once((1 << 28) - 1));
    low.flat_map(move |low| (least..128).map(move |fifth| low | fifth << 28))
}

/// A fifth group of 16 to 127, with which a number passes 32 bits, at each
/// distance.
fn numbers_past_32_bits(reader: &impl Reader, step: usize) -> Seen {
    let all = five_groups(step, 16).map(|bits| Groups::ended(4, bits));
    numbers::refuse_groups(reader, all)
}

/// A fifth group that another follows, at each distance: the sixth is missing
/// at the first of them and stands behind at the others.
fn numbers_of_six_groups(reader: &impl Reader, step: usize) -> Seen {
    let all = five_groups(step, 0).map(|bits| Groups::cut(5, bits));
    numbers::refuse_groups(reader, all)
}

/// All 2,097,152 numbers of one to three groups, and every 199th of four and
/// every 2,003rd of five.
#[test]
fn numbers_are_read_at_each_distance() {
    let of_four = ((1u64 << 28) - (1 << 21)).div_ceil(OF_FOUR as u64);
    let of_five = ((1u64 << 32) - (1 << 28)).div_ceil(OF_FIVE as u64);
    let reads = ((1 << 21) + of_four + of_five) * DISTANCES;
    let seen = sampled_numbers(&library, 1);
    seen.must_be_right("numbers_are_read_at_each_distance", reads);
}

/// All that is up to 2,000 from a power; 2^7 is nearer to zero.
#[test]
fn numbers_near_the_powers_are_read_and_none_from_2_to_the_32() {
    let reads = (128 + NEAR + 1 + 5 * (2 * NEAR + 1)) * DISTANCES;
    let name = "numbers_near_the_powers_are_read_and_none_from_2_to_the_32";
    near_powers(&library).must_be_right(name, reads);
}

/// How many groups `one_to_four_groups` gives.
fn count_of_one_to_four_groups() -> u64 {
    128 + 16_384 + 2_097_152 + (1u64 << 28).div_ceil(OF_FOUR as u64) + NEAR
}

/// All one to three groups that may stand in them, every 199th four and the
/// greatest 2,000.
#[test]
fn cut_numbers_are_refused() {
    let reads = count_of_one_to_four_groups() * 6;
    cut_numbers(&library, 1).must_be_right("cut_numbers_are_refused", reads);
}

/// All one to three groups before the zero, every 199th four and the greatest
/// 2,000.
#[test]
fn numbers_that_are_not_shortest_are_refused() {
    let reads = count_of_one_to_four_groups() * DISTANCES;
    let seen = numbers_not_shortest(&library, 1);
    seen.must_be_right("numbers_that_are_not_shortest_are_refused", reads);
}

/// All such fifth groups, each after every 20,011th of the four before it and
/// after the greatest.
#[test]
fn numbers_past_32_bits_are_refused() {
    let reads = ((1u64 << 28).div_ceil(BEFORE_FIFTH as u64) + 1) * 112 * DISTANCES;
    let seen = numbers_past_32_bits(&library, BEFORE_FIFTH);
    seen.must_be_right("numbers_past_32_bits_are_refused", reads);
}

/// All fifth groups, each after every 20,011th of the four before it and after
/// the greatest.
#[test]
fn numbers_of_six_groups_are_refused() {
    let reads = ((1u64 << 28).div_ceil(BEFORE_FIFTH as u64) + 1) * 128 * DISTANCES;
    let seen = numbers_of_six_groups(&library, BEFORE_FIFTH);
    seen.must_be_right("numbers_of_six_groups_are_refused", reads);
}

/// All slices of 0 to 3 bytes, at offsets 0 to 4.
#[test]
fn every_short_slice_is_read() {
    numbers::must_read_short_slices::<JobNumbers>("every_short_slice_is_read");
}

#[test]
fn offsets_past_the_end_are_refused() {
    let name = "offsets_past_the_end_are_refused";
    numbers::must_refuse_offsets_past_the_end::<JobNumbers>(name);
}

/// 1 to 9 bytes, of groups 0, 1 or 127, at both ends of the memory.
#[test]
fn no_byte_beyond_the_slice_is_touched() {
    numbers::must_touch_no_byte_beyond::<JobNumbers>("no_byte_beyond_the_slice_is_touched");
}

#[test]
fn touching_a_byte_beyond_is_told() {
    numbers::touching_a_byte_beyond_is_told::<JobNumbers>("touching_a_byte_beyond_is_told");
}

/// What is wrong with a reader.
#[derive(Clone, Copy, Debug, PartialEq, Eq)]
enum Fault {
    /// Nothing. Bytes that are missing count as 255, with which a number never
    /// ends.
    None,
    /// The fifth group weighs half as much.
    FifthLight,
    /// The fifth group weighs twice as much.
    FifthHeavy,
    /// All groups but the first weigh twice as much.
    RestHeavy,
    /// The groups are taken highest first.
    HighestFirst,
    /// The first group has eight bits.
    FirstMaskWide,
    /// 2^32 - 1 is refused.
    LargestRefused,
    /// 2^32 is read.
    NextRead,
    /// Numbers from 2^31 on are refused.
    Of31Bits,
    /// All that five groups hold is read.
    Of35Bits,
    /// All that five groups hold is read, and its upper bits are lost.
    BitsLost,
    /// A second group of zero is read: a first group and a rest of zero.
    SecondZero,
    /// A third group of zero is read.
    ThirdZero,
    /// A fourth group of zero is read.
    FourthZero,
    /// A fifth group of zero is read.
    FifthZero,
    /// The third group does not count.
    ThirdLost,
    /// The byte after the first group is passed over.
    SecondPassedOver,
    /// The offset after a number of two groups is one too far.
    SecondOffset,
    /// The offset after a number of five groups is one too near.
    FifthOffset,
    /// The offset after a number counts from the number.
    OffsetFromNumber,
    /// A number has four groups at most.
    FourGroups,
    /// A number has six groups at most, and the bits of the sixth are lost.
    SixGroups,
    /// A refusal stands after the first group.
    AtRest,
    /// A refusal stands at the number's last byte.
    AtLast,
    /// The refusal of what passes 32 bits stands at the fifth group.
    AtFifth,
    /// A refusal leaves the value.
    RefusedValue,
    /// A number that the bytes cut is read as far as it goes.
    Cut,
    /// Bytes that are missing count as 0.
    MissingAsZero,
    /// Bytes that are missing count as 1.
    MissingAsOne,
    /// One byte behind the end counts as left.
    ByteBehind,
    /// With exactly five bytes left four are taken.
    LastFive,
    /// Bytes from an offset past the end count as left.
    LeftBelowZero,
    /// The offset after five bytes may pass 64 bits and then is small.
    OffsetWraps,
    /// The offset is cut to 32 bits.
    OffsetOf32Bits,
}

/// The checks that read numbers of every length.
const READ: &[&str] = &["numbers", "near", "short"];
/// The checks that read numbers of five groups.
const READ_FIVE: &[&str] = &["numbers", "near"];
/// The checks with what passes 32 bits.
const PASSED: &[&str] = &["near", "past 32 bits"];

/// Each fault and the checks that tell it, at a fraction of their length.
const FAULTS: [(Fault, &[&str]); 33] = [
    (Fault::FifthLight, &["numbers", "near", "past 32 bits"]),
    (Fault::FifthHeavy, READ_FIVE),
    (Fault::RestHeavy, READ),
    (
        Fault::HighestFirst,
        &["numbers", "near", "past 32 bits", "short"],
    ),
    (Fault::FirstMaskWide, READ),
    (Fault::LargestRefused, &["near"]),
    (Fault::NextRead, PASSED),
    (Fault::Of31Bits, READ_FIVE),
    (Fault::Of35Bits, PASSED),
    (Fault::BitsLost, PASSED),
    (Fault::SecondZero, &["not shortest", "short"]),
    (Fault::ThirdZero, &["not shortest", "short"]),
    (Fault::FourthZero, &["not shortest"]),
    (Fault::FifthZero, &["not shortest"]),
    (Fault::ThirdLost, READ),
    (
        Fault::SecondPassedOver,
        &[
            "numbers",
            "near",
            "not shortest",
            "past 32 bits",
            "six groups",
            "short",
        ],
    ),
    (Fault::SecondOffset, READ),
    (Fault::FifthOffset, READ_FIVE),
    (Fault::OffsetFromNumber, READ),
    (Fault::FourGroups, READ_FIVE),
    (Fault::SixGroups, &["six groups"]),
    (
        Fault::AtRest,
        &[
            "near",
            "cut",
            "not shortest",
            "past 32 bits",
            "six groups",
            "short",
        ],
    ),
    (
        Fault::AtLast,
        &["near", "not shortest", "past 32 bits", "short"],
    ),
    (Fault::AtFifth, PASSED),
    (
        Fault::RefusedValue,
        &["near", "not shortest", "past 32 bits", "short"],
    ),
    (Fault::Cut, &["cut", "short"]),
    (Fault::MissingAsZero, &["short", "past the end"]),
    (Fault::MissingAsOne, &["cut", "short", "past the end"]),
    (Fault::ByteBehind, &["cut", "short", "past the end"]),
    (Fault::LastFive, READ_FIVE),
    (Fault::LeftBelowZero, &["short", "past the end"]),
    (Fault::OffsetWraps, &["past the end"]),
    (Fault::OffsetOf32Bits, &["past the end"]),
];

impl Fault {
    /// The six bytes that are taken from an offset.
    fn bytes(self, laid: &Laid) -> [u8; 6] {
        let Laid { memory, length, at } = *laid;
        let from = match self {
            Fault::OffsetOf32Bits => at as u32 as usize,
            _ => at,
        };
        let left = length.saturating_sub(from);
        let taken = match self {
            Fault::ByteBehind if from <= length => left + 1,
            Fault::LastFive if left == 5 => 4,
            Fault::LeftBelowZero if from > length => 6,
            Fault::OffsetWraps if from.wrapping_add(5) <= length => 6,
            _ => left,
        };
        let missing = match self {
            Fault::MissingAsZero => 0,
            Fault::MissingAsOne => 1,
            _ => 255,
        };
        let index_of = |group: usize| match self {
            Fault::SecondPassedOver if group > 0 => group + 1,
            _ => group,
        };
        [0, 1, 2, 3, 4, 5].map(index_of).map(|index| match index {
            index if index < taken => memory[from.wrapping_add(index) % MEMORY],
            _ => missing,
        })
    }

    /// How many groups a number has, if it ends in the bytes.
    fn groups(self, bytes: [u8; 6], left: usize) -> Option<usize> {
        let most = match self {
            Fault::FourGroups => 4,
            Fault::SixGroups => 6,
            _ => 5,
        };
        let groups = (1..=most).find(|groups| bytes[groups - 1] < 128);
        match (self, left) {
            (Fault::Cut, 1..=4) => groups.or(Some(left)),
            _ => groups,
        }
    }

    /// The value of a number of so many groups.
    fn value(self, bytes: [u8; 6], groups: usize) -> u64 {
        let group = |index: usize| match (self, index) {
            (Fault::FirstMaskWide, 0) => u64::from(bytes[0]),
            (Fault::ThirdLost, 2) | (Fault::SixGroups, 5) => 0,
            _ => u64::from(bytes[index] & 0x7F),
        };
        let shift = |index: usize| match (self, index) {
            (Fault::FifthLight, 4) => 27,
            (Fault::FifthHeavy, 4) => 29,
            (Fault::RestHeavy, 1..) => 7 * index + 1,
            (Fault::HighestFirst, _) => 7 * (groups - 1 - index),
            _ => 7 * index,
        };
        (0..groups).map(|index| group(index) << shift(index)).sum()
    }

    /// The largest value that is read.
    fn largest(self) -> u64 {
        match self {
            Fault::LargestRefused => (1 << 32) - 2,
            Fault::NextRead => 1 << 32,
            Fault::Of31Bits => (1 << 31) - 1,
            Fault::Of35Bits | Fault::BitsLost => u64::MAX,
            _ => (1 << 32) - 1,
        }
    }

    /// Whether a number of two to five groups may end with zero.
    fn reads_zero(self, groups: usize) -> bool {
        matches!(
            (self, groups),
            (Fault::SecondZero, 2)
                | (Fault::ThirdZero, 3)
                | (Fault::FourthZero, 4)
                | (Fault::FifthZero, 5)
        )
    }

    /// The offset after a number of so many groups.
    fn end(self, at: u64, groups: usize) -> u64 {
        let groups = groups as u64;
        match (self, groups) {
            (Fault::OffsetFromNumber, _) => groups,
            (Fault::SecondOffset, 2) | (Fault::SecondPassedOver, 2..) => at + groups + 1,
            (Fault::FifthOffset, 5) => at + 4,
            _ => at.wrapping_add(groups),
        }
    }

    /// A reader by groups with this fault.
    fn read(self, laid: &Laid) -> Figures {
        let (at, left) = (laid.at as u64, laid.length.saturating_sub(laid.at));
        let bytes = self.bytes(laid);
        let Some(groups) = self.groups(bytes, left) else {
            let rest = u64::from(self == Fault::AtRest && left > 0);
            return [1, at + rest, 0, 0];
        };
        let value = self.value(bytes, groups);
        let zero = groups > 1 && bytes[groups - 1] == 0 && !self.reads_zero(groups);
        match self {
            Fault::BitsLost if !zero => [0, 0, value as u32 as u64, self.end(at, groups)],
            _ if !zero && value <= self.largest() => [0, 0, value, self.end(at, groups)],
            Fault::AtRest => [1, at + 1, 0, 0],
            Fault::AtLast => [1, at + groups as u64 - 1, 0, 0],
            Fault::AtFifth if !zero => [1, at + 4, 0, 0],
            Fault::RefusedValue => [1, at, value, 0],
            _ => [1, at, 0, 0],
        }
    }
}

/// Which checks, each at a fraction of its length, tell a fault.
fn told(fault: Fault) -> Vec<&'static str> {
    let reader = |laid: &Laid| fault.read(laid);
    numbers::wrong::<JobNumbers>([
        ("numbers", sampled_numbers(&reader, 499)),
        ("near", near_powers(&reader)),
        ("cut", cut_numbers(&reader, 499)),
        ("not shortest", numbers_not_shortest(&reader, 47)),
        ("past 32 bits", numbers_past_32_bits(&reader, 4_000_037)),
        ("six groups", numbers_of_six_groups(&reader, 4_000_037)),
        ("short", numbers::short_slices(&reader, 499)),
        ("past the end", numbers::offsets_past_the_end(&reader)),
    ])
}

#[test]
fn each_faulty_reader_is_told() {
    for (fault, checks) in FAULTS {
        assert_eq!(told(fault), checks, "{fault:?}");
    }
}

#[test]
fn a_reader_without_fault_is_not_told() {
    assert_eq!(told(Fault::None), [""; 0]);
}
