//! Checks of a reader of one number, of a plan or of a bench job: bytes that
//! are made for it, what it must answer to them, and memory that ends with
//! them.

use std::env;
use std::marker::PhantomData;
use std::os::unix::process::ExitStatusExt;
use std::process::Command;

use crate::compare::{Codec, Library, Reference};
use crate::fenced::Fenced;
use crate::ffi::Figures;

/// Which numbers are read.
pub trait Numbers {
    /// They have up to so many groups.
    const GROUPS: usize;
    /// So many distances from a number to the end of the bytes are read: from
    /// none to one byte more than a number may have.
    const DISTANCES: usize = Self::GROUPS + 2;

    /// The number at an offset, as an implementation reads it.
    fn read(codec: &impl Codec, bytes: &[u8], at: usize) -> Figures;
}

/// The numbers of a plan.
pub struct PlanNumbers;

impl Numbers for PlanNumbers {
    const GROUPS: usize = 4;

    #[inline(always)]
    fn read(codec: &impl Codec, bytes: &[u8], at: usize) -> Figures {
        codec.read_plan_number(bytes, at)
    }
}

/// The numbers of a bench job.
pub struct JobNumbers;

impl Numbers for JobNumbers {
    const GROUPS: usize = 5;

    #[inline(always)]
    fn read(codec: &impl Codec, bytes: &[u8], at: usize) -> Figures {
        codec.read_job_number(bytes, at)
    }
}

/// The top bits of none to five groups that another group follows.
const MORE: [u64; 6] = [0, 0x80, 0x8080, 0x80_8080, 0x8080_8080, 0x80_8080_8080];
/// What stands behind: groups that end a number and groups that do not. Their
/// count is odd, so that each of them stands behind each group.
const BEHIND: [u64; 11] = [
    0,
    u64::MAX,
    0x8080_8080_8080_8080,
    0x0101_0101_0101_0101,
    0x7F7F_7F7F_7F7F_7F7F,
    0x00FF_00FF_00FF_00FF,
    0xFF00_FF00_FF00_FF00,
    0x0180_0180_0180_0180,
    0x8001_8001_8001_8001,
    0xC07F_40BF_FE01_8055,
    0x2A00_80AA_0381_FFFF,
];
/// Bytes that hold a number, what is before it and what stands behind.
pub const MEMORY: usize = 24;

/// Bytes to read a number from, and what stands behind their end.
#[derive(Clone, Copy)]
pub struct Laid {
    pub memory: [u8; MEMORY],
    pub length: usize,
    pub at: usize,
}

impl Laid {
    /// Nothing laid yet; what stays before a number would not end one.
    #[inline(always)]
    fn new() -> Self {
        Laid {
            memory: [0x81; MEMORY],
            length: 0,
            at: 0,
        }
    }

    /// The bytes that a reader is lent.
    #[inline(always)]
    pub fn bytes(&self) -> &[u8] {
        &self.memory[..self.length]
    }

    /// Puts so many bytes of a word, its lowest first, at an offset, which is
    /// 8 at most, and ends there. The salt selects what stands behind.
    #[inline(always)]
    fn lay(&mut self, word: u64, count: usize, at: usize, salt: u64) {
        let behind = BEHIND[salt as usize % BEHIND.len()];
        let first = word | behind << (8 * count);
        self.memory[at..at + 8].copy_from_slice(&first.to_le_bytes());
        self.memory[at + 8..at + 16].copy_from_slice(&behind.to_le_bytes());
        self.at = at;
        self.length = at + count;
    }

    /// Lays groups at an offset and ends there. The salt and the groups' bits
    /// select what stands behind.
    #[inline(always)]
    fn lay_groups<N: Numbers>(&mut self, groups: Groups, at: usize, salt: u64) {
        let Groups { bits, count, .. } = groups;
        self.lay(groups.word::<N>(), count, at, salt + bits);
    }
}

/// Groups as they stand in bytes, whether or not they are a number.
#[derive(Clone, Copy, Debug)]
pub struct Groups {
    /// The groups' bits, seven of each, the lowest group first.
    pub bits: u64,
    /// How many groups stand there.
    pub count: usize,
    /// How many of them have the top bit set.
    pub followed: usize,
}

impl Groups {
    /// The shortest form of a number.
    #[inline(always)]
    fn of(number: u64) -> Self {
        let count = match number {
            0..=127 => 1,
            128..=16_383 => 2,
            16_384..=2_097_151 => 3,
            2_097_152..=268_435_455 => 4,
            _ => 5,
        };
        Groups {
            bits: number,
            count,
            followed: count - 1,
        }
    }

    /// So many groups that another follows, without it.
    pub fn cut(followed: usize, bits: u64) -> Self {
        Groups {
            bits,
            count: followed,
            followed,
        }
    }

    /// So many groups and one more, the last.
    pub fn ended(followed: usize, bits: u64) -> Self {
        Groups {
            bits,
            count: followed + 1,
            followed,
        }
    }

    /// The bytes of the groups as a word, the lowest first.
    #[inline(always)]
    fn word<N: Numbers>(self) -> u64 {
        let group = |index: usize| self.bits >> (7 * index) & 0x7F;
        (0..N::GROUPS).fold(MORE[self.followed], |word, index| {
            word | group(index) << (8 * index)
        })
    }
}

/// Who reads the number at an offset.
pub trait Reader: Fn(&Laid) -> Figures + Sync {}

impl<R: Fn(&Laid) -> Figures + Sync> Reader for R {}

/// The library as a reader.
#[inline(always)]
pub fn library<N: Numbers>(laid: &Laid) -> Figures {
    N::read(&Library, laid.bytes(), laid.at)
}

/// Whether figures are equal, one by one, as they are written: as lists they
/// take twice the time of all reads.
#[inline(always)]
fn same(one: &Figures, other: &Figures) -> bool {
    one[0] == other[0] && one[1] == other[1] && one[2] == other[2] && one[3] == other[3]
}

/// The figures of a number that is refused at an offset.
#[inline(always)]
fn refused(at: usize) -> Figures {
    [1, at as u64, 0, 0]
}

/// What a check has seen.
pub struct Seen<N> {
    reads: u64,
    wrong: Option<String>,
    numbers: PhantomData<N>,
}

impl<N> Default for Seen<N> {
    fn default() -> Self {
        Seen {
            reads: 0,
            wrong: None,
            numbers: PhantomData,
        }
    }
}

impl<N: Numbers> Seen<N> {
    /// Reads on both sides, which must give the answer that is known.
    #[inline(always)]
    fn read(&mut self, reader: &impl Reader, laid: &Laid, known: Figures) {
        self.reads += 1;
        let second = N::read(&Reference, laid.bytes(), laid.at);
        let answer = reader(laid);
        if !same(&answer, &known) || !same(&second, &known) {
            self.note(laid, [answer, second, known]);
        }
    }

    /// Reads with no byte to some bytes more before the end.
    #[inline(always)]
    fn read_at_each_distance(&mut self, reader: &impl Reader, laid: &mut Laid, known: Figures) {
        let nearest = laid.length;
        for distance in 0..N::DISTANCES {
            laid.length = nearest + distance;
            self.read(reader, laid, known);
        }
    }

    /// Keeps the first answer that is wrong.
    #[cold]
    fn note(&mut self, laid: &Laid, [answer, second, known]: [Figures; 3]) {
        let (bytes, at) = (laid.bytes(), laid.at);
        self.wrong.get_or_insert_with(|| {
            format!("answer {answer:?}, second {second:?}, right {known:?}: {bytes:02X?} at {at}")
        });
    }

    pub fn add(&mut self, other: Self) {
        self.reads += other.reads;
        self.wrong = self.wrong.take().or(other.wrong);
    }

    /// Nothing is wrong in so many reads.
    pub fn must_be_right(self, name: &str, reads: u64) {
        println!("{name}: {} reads", self.reads);
        assert_eq!(self.wrong, None);
        assert_eq!(self.reads, reads);
    }
}

/// The names of the checks that have seen something wrong.
pub fn wrong<N>(seen: impl IntoIterator<Item = (&'static str, Seen<N>)>) -> Vec<&'static str> {
    let wrong = seen.into_iter().filter(|(_, seen)| seen.wrong.is_some());
    wrong.map(|(name, _)| name).collect()
}

/// One, two or three groups of every value: their count, and their bits.
pub fn one_to_three_groups() -> impl Iterator<Item = (usize, u64)> {
    (1..=3).flat_map(|count| (0..1 << (7 * count)).map(move |low| (count, low)))
}

/// Reads each of some numbers or groups.
#[inline(always)]
fn each<N: Numbers, T>(
    all: impl Iterator<Item = T>,
    mut read: impl FnMut(&mut Seen<N>, &mut Laid, T),
) -> Seen<N> {
    let (mut seen, mut laid) = (Seen::default(), Laid::new());
    for one in all {
        read(&mut seen, &mut laid, one);
    }
    seen
}

/// Each of some numbers in its shortest form, at each distance.
pub fn read_numbers<N: Numbers>(
    reader: &impl Reader,
    numbers: impl Iterator<Item = u64>,
) -> Seen<N> {
    each(numbers, |seen, laid, number| {
        let (groups, at) = (Groups::of(number), number as usize % 5);
        laid.lay_groups::<N>(groups, at, 0);
        let known = [0, 0, number, (at + groups.count) as u64];
        seen.read_at_each_distance(reader, laid, known);
    })
}

/// Groups that are not a number, at each distance.
pub fn refuse_groups<N: Numbers>(
    reader: &impl Reader,
    all: impl Iterator<Item = Groups>,
) -> Seen<N> {
    each(all, |seen, laid, groups| {
        let at = groups.bits as usize % 5;
        laid.lay_groups::<N>(groups, at, 0);
        seen.read_at_each_distance(reader, laid, refused(at));
    })
}

/// Groups that are not a number, each at one distance.
pub fn refuse_groups_once<N: Numbers>(
    reader: &impl Reader,
    all: impl Iterator<Item = Groups>,
) -> Seen<N> {
    each(all, |seen, laid, groups| {
        let at = groups.bits as usize % 5;
        laid.lay_groups::<N>(groups, at, 0);
        laid.length += groups.bits as usize / 5 % N::DISTANCES;
        seen.read(reader, laid, refused(at));
    })
}

/// Bytes that end with groups that are not a number, at offsets 0 to 5.
pub fn refuse_cut_groups<N: Numbers>(
    reader: &impl Reader,
    all: impl Iterator<Item = Groups>,
) -> Seen<N> {
    each(all, |seen, laid, groups| {
        for at in 0..6 {
            laid.lay_groups::<N>(groups, at, at as u64);
            seen.read(reader, laid, refused(at));
        }
    })
}

/// What stands at an offset, if up to three bytes are left there.
#[inline(always)]
fn known_of_short(left: &[u8], at: usize) -> Figures {
    let (groups, value) = match *left {
        [a @ 0..=127, ..] => (1, u64::from(a)),
        [a, b @ 1..=127, ..] => (2, u64::from(a) - 128 + 128 * u64::from(b)),
        [a, b @ 128..=255, c @ 1..=127] => {
            let low = u64::from(a) - 128 + 128 * (u64::from(b) - 128);
            (3, low + 16_384 * u64::from(c))
        }
        _ => return refused(at),
    };
    [0, 0, value, at as u64 + groups]
}

/// Slices of 0 to 3 bytes, all or one in `step`, at offsets 0 to 4, which are
/// past the end too.
pub fn short_slices<N: Numbers>(reader: &impl Reader, step: usize) -> Seen<N> {
    let (mut seen, mut laid) = (Seen::default(), Laid::new());
    let all = (0..=3).flat_map(|count| (0..1 << (8 * count)).map(move |word| (count, word)));
    for (count, word) in all.step_by(step) {
        laid.lay(word, count, 0, word);
        for at in 0..=4 {
            laid.at = at;
            let known = known_of_short(laid.bytes().get(at..).unwrap_or(&[]), at);
            seen.read(reader, &laid, known);
        }
    }
    seen
}

/// The library reads all such slices rightly.
pub fn must_read_short_slices<N: Numbers>(name: &str) {
    let reads = (1 + 256 + 65_536 + 16_777_216) * 5;
    short_slices::<N>(&library::<N>, 1).must_be_right(name, reads);
}

/// Offsets at and past the end of 0 to 8 bytes: near it, at the greatest
/// offsets, and where 32 bits would lead back to the bytes.
pub fn offsets_past_the_end<N: Numbers>(reader: &impl Reader) -> Seen<N> {
    let (mut seen, mut laid) = (Seen::default(), Laid::new());
    let lengths = (0..=8).flat_map(|length| (0..11).map(move |salt| (length, salt)));
    for (length, salt) in lengths {
        laid.lay(BEHIND[salt as usize] as u32 as u64, 4, 0, salt);
        laid.length = length;
        let near = (0..=4).map(|more| length + more);
        let far = (0..=8).map(|less| usize::MAX - less);
        let wide = (0..=8).flat_map(|low| [1 << 32, 1 << 63].map(|high| high + low));
        for at in near.chain(far).chain(wide) {
            laid.at = at;
            seen.read(reader, &laid, refused(at));
        }
    }
    seen
}

/// The library refuses all such offsets.
pub fn must_refuse_offsets_past_the_end<N: Numbers>(name: &str) {
    let reads = 9 * 11 * (5 + 9 + 18);
    offsets_past_the_end::<N>(&library::<N>).must_be_right(name, reads);
}

/// Reads at each offset of 1 to 8 or 9 bytes, four more than a number may have,
/// and just past them, with memory that ends behind them and before them; gives
/// the count of reads. Each byte is one of two, so that numbers of every length
/// stand everywhere, and all groups are 0, 1 or 127.
fn read_between_fences<N: Numbers>(reader: impl Fn(&[u8], usize) -> Figures) -> u64 {
    let mut fenced = Fenced::new();
    let mut reads = 0;
    let lengths = 1..=N::GROUPS + 4;
    let slices = lengths.flat_map(|length| (0..1u32 << length).map(move |more| (length, more)));
    let slices = slices.flat_map(|(length, more)| [0, 1, 127].map(|group| (length, more, group)));
    for (length, more, group) in slices {
        let bytes: Vec<u8> = (0..length)
            .map(|index| (more >> index & 1) as u8 * 128 + group)
            .collect();
        for at in 0..length + N::GROUPS + 1 {
            let right = N::read(&Reference, &bytes, at);
            let at_the_end = reader(fenced.at_the_end(&bytes), at);
            let at_the_front = reader(fenced.at_the_front(&bytes), at);
            assert_eq!([at_the_end, at_the_front], [right; 2], "{bytes:?} at {at}");
            reads += 2;
        }
    }
    reads
}

/// The library touches no byte beyond such slices.
pub fn must_touch_no_byte_beyond<N: Numbers>(name: &str) {
    let reads = read_between_fences::<N>(|bytes, at| N::read(&Library, bytes, at));
    println!("{name}: {reads} reads");
    let groups = N::GROUPS as u64;
    let of_length = |length: u64| (1 << length) * 3 * (length + groups + 1) * 2;
    assert_eq!(reads, (1..=groups + 4).map(of_length).sum());
}

/// The variable that asks for a reader which touches bytes beyond its slice.
const BEYOND: &str = "SECONDCOOP_READ_BEYOND";

/// Touches as many bytes as a number has from the offset on, though fewer may
/// be left, or the last ones of the slice, though it may be shorter; or only
/// the one behind the slice or before it.
fn touch_beyond<N: Numbers>(which: &str, bytes: &[u8], at: usize) {
    let (groups, length) = (N::GROUPS as isize, bytes.len() as isize);
    let touched = match which {
        "behind" if at < bytes.len() => at as isize..at as isize + groups,
        "before" => length - groups..length,
        "next" => length..length + 1,
        "previous" => -1..0,
        _ => return,
    };
    for index in touched {
        // SAFETY: there is none, and the process is there to be ended for it.
        unsafe { bytes.as_ptr().wrapping_offset(index).read_volatile() };
    }
}

/// A process whose reader touches bytes beyond its slice is ended for it, and
/// one whose reader does not is not. The test that asks for this is named, and
/// is run again in each process.
pub fn touching_a_byte_beyond_is_told<N: Numbers>(test: &str) {
    if let Ok(which) = env::var(BEYOND) {
        read_between_fences::<N>(|bytes, at| {
            touch_beyond::<N>(&which, bytes, at);
            N::read(&Reference, bytes, at)
        });
        return;
    }
    const FAULT_OF_MEMORY: i32 = 11;
    for (which, signal) in [
        ("nothing", None),
        ("behind", Some(FAULT_OF_MEMORY)),
        ("before", Some(FAULT_OF_MEMORY)),
        ("next", Some(FAULT_OF_MEMORY)),
        ("previous", Some(FAULT_OF_MEMORY)),
    ] {
        let program = env::current_exe().expect("this program has a name");
        let mut program = Command::new(program);
        program.args(["--exact", test]);
        let output = program.env(BEYOND, which).output().expect("it runs");
        assert_eq!(output.status.signal(), signal, "{which}");
        assert_eq!(output.status.success(), signal.is_none(), "{which}");
    }
}

#[cfg(test)]
mod tests {
    use super::*;
    use crate::generate::push_number;

    /// Numbers are laid as they are written elsewhere, wherever they stand.
    #[test]
    fn a_number_is_laid_in_its_groups() {
        let mut laid = Laid::new();
        for (number, at) in (0..=u32::MAX).step_by(99_991).zip((0..=8).cycle()) {
            let mut bytes = vec![];
            push_number(&mut bytes, number);
            laid.lay_groups::<JobNumbers>(Groups::of(number.into()), at, 0);
            assert_eq!(laid.bytes()[at..], bytes);
            if number < 1 << 28 {
                laid.lay_groups::<PlanNumbers>(Groups::of(number.into()), at, 0);
                assert_eq!(laid.bytes()[at..], bytes);
            }
        }
    }

    /// What stands behind is not among the bytes, and is there.
    #[test]
    fn other_bytes_stand_behind() {
        let mut laid = Laid::new();
        for salt in 0..11 {
            laid.lay_groups::<JobNumbers>(Groups::cut(5, 0), 8, salt);
            assert_eq!(laid.bytes()[8..], [0x80; 5]);
            let behind = BEHIND[salt as usize].to_le_bytes();
            assert_eq!(laid.memory[13..16], behind[..3]);
            assert_eq!(laid.memory[16..], behind);
        }
    }
}
