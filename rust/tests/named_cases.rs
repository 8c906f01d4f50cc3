//! The cases that the paper names, on the library and on the second
//! implementation.

use secondcoop_tests::compare::{Codec, Library, Reference};

/// Plan A of the paper.
const PLAN_A: [u8; 18] = [4, 4, 0, 1, 1, 0, 0, 2, 4, 0, 1, 2, 2, 0, 1, 3, 3, 0];

fn on_both(test: impl Fn(&dyn Codec)) {
    test(&Library);
    test(&Reference);
}

#[test]
fn no_bytes_are_refusal_1_at_0() {
    on_both(|codec| {
        assert_eq!(codec.check_plan(&[]), [1, 0, 0, 0]);
        assert_eq!(
            codec.read_plan(&[], &mut [], &mut [], &mut [], &mut []),
            [1, 0, 0, 0]
        );
        assert_eq!(codec.read_plan_number(&[], 0), [1, 0, 0, 0]);
    });
}

#[test]
fn a_number_that_is_not_shortest_is_refusal_1_at_0() {
    on_both(|codec| {
        assert_eq!(codec.check_plan(&[0x80, 0x00]), [1, 0, 0, 0]);
        assert_eq!(codec.read_plan_number(&[0x80, 0x00], 0), [1, 0, 0, 0]);
        assert_eq!(codec.read_job_number(&[0x80, 0x00], 0), [1, 0, 0, 0]);
    });
}

#[test]
fn a_plan_that_ends_after_v_is_refusal_1_at_1() {
    on_both(|codec| {
        assert_eq!(codec.check_plan(&[0x04]), [1, 1, 0, 0]);
        assert_eq!(codec.read_plan_number(&[0x04], 1), [1, 1, 0, 0]);
    });
}

#[test]
fn plan_a_is_read_and_written() {
    on_both(|codec| {
        assert_eq!(codec.check_plan(&PLAN_A), [0, 0, 4, 4]);
        let mut lists = [[9; 4]; 4];
        let [tails, heads, costs, classes] = &mut lists;
        let answer = codec.read_plan(&PLAN_A, tails, heads, costs, classes);
        assert_eq!(answer, [0, 0, 4, 4]);
        assert_eq!(*tails, [0, 0, 1, 2]);
        assert_eq!(*heads, [1, 2, 2, 3]);
        assert_eq!(*costs, [1, 4, 2, 3]);
        assert_eq!(*classes, [0, 0, 0, 0]);
        let mut out = [0xEE; 19];
        let answer = codec.write_plan(4, tails, heads, costs, classes, &mut out);
        assert_eq!(answer, [0, 0, 18, 0]);
        assert_eq!(out[..18], PLAN_A);
        assert_eq!(out[18], 0xEE);
    });
}

#[test]
fn plan_a_does_not_fit_shorter_memory() {
    on_both(|codec| {
        for short in 0..4 {
            let mut lists = [[9u32; 4]; 4];
            let mut lent = lists.each_mut().map(|list| &mut list[..]);
            let list = std::mem::take(&mut lent[short]);
            lent[short] = &mut list[..3];
            let [tails, heads, costs, classes] = lent;
            let answer = codec.read_plan(&PLAN_A, tails, heads, costs, classes);
            assert_eq!(answer, [11, 0, 0, 0]);
            assert_eq!(lists, [[9; 4]; 4]);
        }
        let mut out = [0xEE; 17];
        let [tails, heads, costs, classes] = &LISTS_A;
        let answer = codec.write_plan(4, tails, heads, costs, classes, &mut out);
        assert_eq!(answer, [11, 0, 0, 0]);
        assert_eq!(out, [0xEE; 17]);
    });
}

/// Tails, heads, costs and classes of plan A.
const LISTS_A: [[u32; 4]; 4] = [[0, 0, 1, 2], [1, 2, 2, 3], [1, 4, 2, 3], [0; 4]];

#[test]
fn lists_of_unequal_lengths_are_not_written() {
    on_both(|codec| {
        for short in 0..4 {
            let mut lists = LISTS_A.each_ref().map(|list| &list[..]);
            lists[short] = &lists[short][..3];
            let [tails, heads, costs, classes] = lists;
            let mut out = [0xEE; 20];
            let answer = codec.write_plan(4, tails, heads, costs, classes, &mut out);
            assert_eq!(answer, [3, 0, 0, 0]);
            assert_eq!(out, [0xEE; 20]);
        }
    });
}

/// The answer for a plan whose one edge is read into lists of one element,
/// and what these hold then.
fn read_one(codec: &dyn Codec, bytes: &[u8]) -> ([u64; 4], [u32; 4]) {
    let mut lists = [[9]; 4];
    let [tails, heads, costs, classes] = &mut lists;
    let answer = codec.read_plan(bytes, tails, heads, costs, classes);
    (answer, lists.map(|[word]| word))
}

/// A plan of one edge whose cost is these groups, at offset 4.
fn plan_of_cost(groups: &[u8], class: u8) -> Vec<u8> {
    [&[2, 1, 0, 1], groups, &[class]].concat()
}

#[test]
fn costs_up_to_16_000_000_pass() {
    on_both(|codec| {
        for (cost, groups) in [
            (999_999, &[0xBF, 0x84, 0x3D][..]),
            (1_000_000, &[0xC0, 0x84, 0x3D]),
            // Refused before there were lanes up to 16,000,000.
            (1_000_001, &[0xC1, 0x84, 0x3D]),
            (2_097_151, &[0xFF, 0xFF, 0x7F]),
            (2_097_152, &[0x80, 0x80, 0x80, 1]),
            (15_999_999, &[0xFF, 0xC7, 0xD0, 7]),
            (16_000_000, &[0x80, 0xC8, 0xD0, 7]),
        ] {
            let bytes = plan_of_cost(groups, 0);
            let end = 4 + groups.len() as u64;
            assert_eq!(codec.check_plan(&bytes), [0, 0, 2, 1]);
            assert_eq!(codec.read_plan_number(&bytes, 4), [0, 0, cost, end]);
            let lists = [0, 1, cost as u32, 0];
            assert_eq!(read_one(codec, &bytes), ([0, 0, 2, 1], lists));
            let [tails, heads, costs, classes] = lists.map(|word| [word]);
            let mut out = vec![0xEE; bytes.len()];
            let answer = codec.write_plan(2, &tails, &heads, &costs, &classes, &mut out);
            assert_eq!((answer, out), ([0, 0, end + 1, 0], bytes));
        }
    });
}

#[test]
fn a_cost_above_16_000_000_is_refusal_5_at_its_first_byte() {
    on_both(|codec| {
        for (cost, groups) in [
            (16_000_001, [0x81, 0xC8, 0xD0, 7]),
            (16_777_216, [0x80, 0x80, 0x80, 8]),
            (268_435_455, [0xFF, 0xFF, 0xFF, 0x7F]),
        ] {
            // The class after the cost does not count.
            for class in [0, 8] {
                let bytes = plan_of_cost(&groups, class);
                assert_eq!(codec.check_plan(&bytes), [5, 4, 0, 0]);
                assert_eq!(codec.read_plan_number(&bytes, 4), [0, 0, cost, 8]);
                assert_eq!(read_one(codec, &bytes), ([5, 4, 0, 0], [9; 4]));
                // The writer's position is the edge's number.
                let (costs, classes) = ([0, cost as u32], [0, class.into()]);
                let mut out = [0xEE; 30];
                let answer = codec.write_plan(2, &[0, 1], &[1, 0], &costs, &classes, &mut out);
                assert_eq!((answer, out), ([5, 1, 0, 0], [0xEE; 30]));
            }
        }
        // The writer takes any 32-bit number.
        let written = |cost| codec.write_plan(1, &[0], &[0], &[cost], &[0], &mut []);
        assert_eq!([268_435_456, u32::MAX].map(written), [[5, 0, 0, 0]; 2]);
    });
}

#[test]
fn a_cost_of_five_groups_is_refusal_1() {
    on_both(|codec| {
        for groups in [
            &[0x80, 0xC8, 0xD0, 0x87, 1][..],
            &[0x80, 0xC8, 0xD0, 0x87, 0],
            &[0x80, 0x80, 0x80, 0x80, 1],
            &[0xFF, 0xFF, 0xFF, 0xFF, 0x0F],
            &[0x80, 0xC8, 0xD0, 0x87],
            // Four groups of which the last is 0.
            &[0xC1, 0x84, 0xBD, 0],
        ] {
            for bytes in [plan_of_cost(groups, 0), [&[2, 1, 0, 1], groups].concat()] {
                assert_eq!(codec.check_plan(&bytes), [1, 4, 0, 0], "{groups:02X?}");
                assert_eq!(codec.read_plan_number(&bytes, 4), [1, 4, 0, 0]);
                assert_eq!(read_one(codec, &bytes), ([1, 4, 0, 0], [9; 4]));
            }
        }
    });
}

/// Four groups stand in every plan number: it meets the rows after 1, where
/// three groups were the most and it met 1.
#[test]
fn every_plan_number_may_have_four_groups() {
    // V, M, tail, head, cost and class, and the refusal of a larger number.
    let good = [3, 1, 0, 1, 5, 7];
    on_both(|codec| {
        assert_eq!(codec.check_plan(&good), [0, 0, 3, 1]);
        for (at, number) in [(0, 2), (1, 3), (2, 4), (3, 4), (4, 5), (5, 15)] {
            for (groups, number) in [
                (&[0x80, 0x80, 0x80, 8][..], number),
                (&[0xFF, 0xFF, 0xFF, 0x7F], number),
                (&[0x80, 0x80, 0x80, 0x80, 1], 1),
                (&[0x80, 0x80, 0x80, 0], 1),
                (&[0x80, 0x80, 0x80], 1),
            ] {
                let whole = groups.last().is_some_and(|&group| group < 0x80);
                let behind: &[u8] = if whole { &good[at + 1..] } else { &[] };
                let bytes = [&good[..at], groups, behind].concat();
                let refused = [number, at as u64, 0, 0];
                assert_eq!(codec.check_plan(&bytes), refused, "{bytes:02X?}");
                assert_eq!(read_one(codec, &bytes), (refused, [9; 4]));
            }
        }
        // 2,097,152 is a cost.
        let bytes = [&good[..4], &[0x80, 0x80, 0x80, 1], &good[5..]].concat();
        assert_eq!(codec.check_plan(&bytes), [0, 0, 3, 1]);
    });
}

/// A number's groups are written where there is room for all of them, and
/// nothing where there is not.
fn written_in_every_room(codec: &dyn Codec, value: u32, groups: &[u8]) {
    for room in 0..6 {
        let mut out = vec![0xEE; room];
        let answer = codec.write_plan_number(&mut out, 0, value);
        let mut expected = vec![0xEE; room];
        match expected.get_mut(..groups.len()) {
            Some(written) => {
                written.copy_from_slice(groups);
                assert_eq!(answer, [0, 0, groups.len() as u64, 0]);
            }
            None => assert_eq!(answer, [11, 0, 0, 0]),
        }
        assert_eq!(out, expected);
    }
}

/// Numbers at the ends of groups are read as they are written.
#[test]
fn numbers_at_the_ends_of_groups() {
    on_both(|codec| {
        for (value, groups) in [
            (0, &[0][..]),
            (127, &[0x7F]),
            (128, &[0x80, 1]),
            (16_383, &[0xFF, 0x7F]),
            (16_384, &[0x80, 0x80, 1]),
            (2_097_151, &[0xFF, 0xFF, 0x7F]),
            (2_097_152, &[0x80, 0x80, 0x80, 1]),
            (268_435_455, &[0xFF, 0xFF, 0xFF, 0x7F]),
        ] {
            written_in_every_room(codec, value, groups);
            let figures = [0, 0, value.into(), groups.len() as u64];
            assert_eq!(codec.read_plan_number(groups, 0), figures);
            assert_eq!(codec.read_job_number(groups, 0), figures);
        }
    });
}

/// What four groups cannot hold is not written and not read; job numbers have
/// five.
#[test]
fn numbers_of_five_groups() {
    on_both(|codec| {
        for value in [268_435_456, 1 << 31, u32::MAX] {
            let mut out = [0xEE; 6];
            let answer = codec.write_plan_number(&mut out, 0, value);
            assert_eq!((answer, out), ([1, 0, 0, 0], [0xEE; 6]));
        }
        let five = [0x80, 0x80, 0x80, 0x80, 1];
        assert_eq!(codec.read_plan_number(&five, 0), [1, 0, 0, 0]);
        assert_eq!(codec.read_job_number(&five, 0), [0, 0, 268_435_456, 5]);
    });
}

#[test]
fn a_class_of_7_passes() {
    on_both(|codec| {
        for class in 0..=7 {
            let bytes = [2, 1, 0, 1, 5, class];
            assert_eq!(codec.check_plan(&bytes), [0, 0, 2, 1]);
            let lists = [0, 1, 5, class.into()];
            assert_eq!(read_one(codec, &bytes), ([0, 0, 2, 1], lists));
            let [tails, heads, costs, classes] = lists.map(|word| [word]);
            let mut out = [0xEE; 7];
            let answer = codec.write_plan(2, &tails, &heads, &costs, &classes, &mut out);
            assert_eq!(answer, [0, 0, 6, 0]);
            assert_eq!((&out[..6], out[6]), (&bytes[..], 0xEE));
        }
    });
}

#[test]
fn a_class_above_7_is_refusal_15_at_its_first_byte() {
    on_both(|codec| {
        // The first edge's class stands at offset 5, the second's at 9.
        let good = [2, 2, 0, 1, 5, 7, 1, 0, 5, 7];
        assert_eq!(codec.check_plan(&good), [0, 0, 2, 2]);
        for (edge, at) in [(0, 5), (1, 9)] {
            for (value, groups) in [
                (8, &[8][..]),
                (9, &[9]),
                (127, &[0x7F]),
                (128, &[0x80, 1]),
                (2_097_151, &[0xFF, 0xFF, 0x7F]),
                (268_435_455, &[0xFF, 0xFF, 0xFF, 0x7F]),
            ] {
                let mut bytes = good.to_vec();
                bytes.splice(at..at + 1, groups.iter().copied());
                assert_eq!(codec.check_plan(&bytes), [15, at as u64, 0, 0]);
                assert_eq!(read_one(codec, &bytes), ([15, at as u64, 0, 0], [9; 4]));
                let mut classes = [7; 2];
                classes[edge] = value;
                let mut out = [0xEE; 20];
                let answer = codec.write_plan(2, &[0, 1], &[1, 0], &[5; 2], &classes, &mut out);
                assert_eq!((answer, out), ([15, edge as u64, 0, 0], [0xEE; 20]));
            }
            // A class of bad form is refusal 1 there, and so is none.
            for groups in [&[0x87, 0][..], &[0x88, 0x80, 0x80, 0x80, 1], &[]] {
                let bytes = [&good[..at], groups].concat();
                assert_eq!(codec.check_plan(&bytes), [1, at as u64, 0, 0]);
                assert_eq!(read_one(codec, &bytes), ([1, at as u64, 0, 0], [9; 4]));
            }
        }
        // The writer takes any 32-bit number.
        let answer = codec.write_plan(1, &[0], &[0], &[0], &[u32::MAX], &mut []);
        assert_eq!(answer, [15, 0, 0, 0]);
    });
}

#[test]
fn a_summed_tail_is_refused_at_its_difference() {
    on_both(|codec| {
        // The second edge's difference 2 sums to tail 3, at offset 6.
        let bytes = [3, 2, 1, 0, 0, 0, 2, 0, 0, 0];
        assert_eq!(codec.check_plan(&bytes), [4, 6, 0, 0]);
    });
}

#[test]
fn each_number_goes_through_its_rows_before_the_next_is_read() {
    on_both(|codec| {
        // A tail out of range counts before the head that is missing, and a
        // vertex count out of range before the edge count of bad form.
        assert_eq!(codec.check_plan(&[2, 1, 2]), [4, 2, 0, 0]);
        assert_eq!(codec.check_plan(&[0, 0x80, 0]), [2, 0, 0, 0]);
        assert_eq!(codec.check_plan(&[1, 1, 0, 1]), [4, 3, 0, 0]);
        // A head not in range counts before its order.
        let bytes = [2, 2, 0, 1, 0, 0, 0, 2, 0, 0];
        assert_eq!(codec.check_plan(&bytes), [4, 7, 0, 0]);
        // A class above 7 counts before the next edge, and before bytes left
        // over.
        let bytes = [2, 2, 0, 1, 0, 8, 0, 2, 0, 0, 0];
        assert_eq!(codec.check_plan(&bytes), [15, 5, 0, 0]);
        // Bytes left over count before lists too short.
        let bytes = [2, 1, 0, 1, 0, 0, 0];
        assert_eq!(
            codec.read_plan(&bytes, &mut [], &mut [], &mut [], &mut []),
            [7, 6, 0, 0]
        );
        assert_eq!(
            codec.read_plan(&bytes[..6], &mut [], &mut [], &mut [], &mut []),
            [11, 0, 0, 0]
        );
    });
}

/// The writer's answer for tails, heads, costs and classes and so much room;
/// what it does not write it leaves.
fn written(codec: &dyn Codec, vertices: u32, lists: [&[u32]; 4], room: usize) -> [u64; 4] {
    let mut out = [0xEE; 64];
    let [tails, heads, costs, classes] = lists;
    let answer = codec.write_plan(vertices, tails, heads, costs, classes, &mut out[..room]);
    let written = answer[2] as usize;
    assert!(out[written..].iter().all(|&byte| byte == 0xEE));
    answer
}

#[test]
fn the_writer_takes_its_refusals_in_order() {
    let bad: &[u32] = &[20_000_000];
    let (tails, heads): (&[u32], &[u32]) = (&[1, 1], &[1, 2]);
    let (dear, high): (&[u32], &[u32]) = (&[0, 16_000_001], &[0, 8]);
    let free: &[u32] = &[0, 0];
    on_both(|codec| {
        for (vertices, lists, answer) in [
            (0, [bad, &[], &[], &[]], [2, 0]),
            (4_097, [bad, &[], &[], &[]], [2, 0]),
            (3, [bad, &[], &[], &[]], [3, 0]),
            (3, [bad, bad, bad, &[]], [3, 0]),
            (3, [bad, bad, bad, bad], [4, 0]),
            (3, [&[0], &[3], bad, bad], [4, 0]),
            (3, [&[1, 0], &[1, 3], dear, high], [4, 1]),
            (3, [&[1, 0], &[1, 2], dear, high], [6, 1]),
            (3, [&[1, 1], &[1, 1], dear, high], [6, 1]),
            (3, [tails, heads, dear, free], [5, 1]),
            (3, [tails, heads, dear, high], [5, 1]),
            (3, [tails, heads, &[0, 16_000_000], high], [15, 1]),
            // An earlier edge's fault counts first, whatever its number.
            (3, [&[1, 9], heads, &[16_000_001, 0], free], [5, 0]),
            (3, [&[1, 9], heads, dear, &[8, 0]], [15, 0]),
            (3, [tails, heads, dear, &[8, 0]], [15, 0]),
        ] {
            let [number, position] = answer;
            let figures = [number, position, 0, 0];
            assert_eq!(written(codec, vertices, lists, 0), figures, "{lists:?}");
            assert_eq!(written(codec, vertices, lists, 64), figures, "{lists:?}");
        }
        let good = [tails, heads, free, &[0, 7]];
        assert_eq!(written(codec, 3, good, 9), [11, 0, 0, 0]);
        assert_eq!(written(codec, 3, good, 10), [0, 0, 10, 0]);
        assert_eq!(written(codec, 1, [&[]; 4], 1), [11, 0, 0, 0]);
        assert_eq!(written(codec, 1, [&[]; 4], 2), [0, 0, 2, 0]);
    });
}

#[test]
fn a_number_is_written_or_nothing_is() {
    on_both(|codec| {
        let mut out = [0xEE; 4];
        assert_eq!(
            codec.write_plan_number(&mut out, 1, 1_000_000),
            [0, 0, 4, 0]
        );
        assert_eq!(out, [0xEE, 0xC0, 0x84, 0x3D]);
        let mut out = [0xEE; 4];
        // Too large counts before no room.
        for (at, value, number) in [
            (0, 1 << 28, 1),
            (9, 1 << 28, 1),
            (1, 1 << 21, 11),
            (2, 1 << 14, 11),
            (4, 0, 11),
            (usize::MAX, 128, 11),
        ] {
            assert_eq!(
                codec.write_plan_number(&mut out, at, value),
                [number, 0, 0, 0]
            );
        }
        assert_eq!(out, [0xEE; 4]);
    });
}
