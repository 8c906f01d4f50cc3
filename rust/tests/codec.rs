//! The library against the second implementation on seeded streams: equal
//! answers and equal memory on every case, and every class of case met.

use secondcoop_tests::compare::{Codec, Comparison, Library, Reference};
use secondcoop_tests::generate::{self, Field};
use secondcoop_tests::random::Random;

const READ_PLAN_NUMBER: usize = 0;
const READ_JOB_NUMBER: usize = 1;
const WRITE_PLAN_NUMBER: usize = 2;
const CHECK_PLAN: usize = 3;
const READ_PLAN: usize = 4;
const WRITE_PLAN: usize = 5;

/// Each listed refusal number was met at least so often.
fn met(comparison: &Comparison, kind: usize, least: &[(usize, u64)]) {
    for &(number, least) in least {
        let count = comparison.tally[kind][number];
        assert!(
            count >= least,
            "kind {kind}, refusal {number}: {count} of {least} cases"
        );
    }
    // And no others.
    for (number, &count) in comparison.tally[kind].iter().enumerate() {
        let listed = least.iter().any(|&(listed, _)| listed == number);
        assert!(listed || count == 0, "kind {kind}, refusal {number} met");
    }
}

#[test]
fn numbers_are_read_alike() {
    let mut comparison = Comparison::new(&Library, &Reference);
    generate::short_numbers(&mut |case, known| comparison.must_agree(&case, known));
    generate::numbers(11, 100_000, &mut |case, known| {
        comparison.must_agree(&case, known)
    });
    comparison.report("numbers_are_read_alike");
    met(&comparison, READ_PLAN_NUMBER, &[(0, 60_000), (1, 60_000)]);
    met(&comparison, READ_JOB_NUMBER, &[(0, 60_000), (1, 60_000)]);
    assert!(comparison.cases >= 330_000 && comparison.known >= 10_000);
}

#[test]
fn numbers_are_written_alike() {
    let mut comparison = Comparison::new(&Library, &Reference);
    generate::written_numbers(12, 60_000, &mut |case, known| {
        comparison.must_agree(&case, known)
    });
    comparison.report("numbers_are_written_alike");
    met(
        &comparison,
        WRITE_PLAN_NUMBER,
        &[(0, 10_000), (1, 5_000), (11, 10_000)],
    );
    assert_eq!((comparison.cases, comparison.known), (60_000, 60_000));
}

#[test]
fn valid_plans_are_read_and_written_alike() {
    let mut comparison = Comparison::new(&Library, &Reference);
    generate::valid_plans(13, 1, &mut |case, known| {
        comparison.must_agree(&case, known)
    });
    generate::large_plans(30, &mut |case, known| comparison.must_agree(&case, known));
    comparison.report("valid_plans_are_read_and_written_alike");
    met(&comparison, CHECK_PLAN, &[(0, 5_000)]);
    met(&comparison, READ_PLAN, &[(0, 10_000), (11, 5_000)]);
    met(&comparison, WRITE_PLAN, &[(0, 10_000), (11, 10_000)]);
    assert!(comparison.cases >= 40_000);
    assert_eq!(comparison.cases, comparison.known);
}

#[test]
fn damaged_plans_are_refused_alike() {
    let mut comparison = Comparison::new(&Library, &Reference);
    let mut seen: Vec<((u64, Option<Field>), u64)> = Vec::new();
    generate::damaged_plans(
        14,
        40_000,
        &mut |number, field| match seen.iter_mut().find(|(class, _)| *class == (number, field)) {
            Some((_, count)) => *count += 1,
            None => seen.push(((number, field), 1)),
        },
        &mut |case, known| comparison.must_agree(&case, known),
    );
    comparison.report("damaged_plans_are_refused_alike");
    for class in [
        (1, Some(Field::Vertices)),
        (1, Some(Field::Edges)),
        (1, Some(Field::Tail)),
        (1, Some(Field::Head)),
        (1, Some(Field::Cost)),
        (1, Some(Field::Class)),
        (2, Some(Field::Vertices)),
        (3, Some(Field::Edges)),
        (4, Some(Field::Tail)),
        (4, Some(Field::Head)),
        (5, Some(Field::Cost)),
        (15, Some(Field::Class)),
        (6, Some(Field::Head)),
        (7, None),
    ] {
        let count = seen
            .iter()
            .find(|(other, _)| *other == class)
            .map_or(0, |(_, count)| *count);
        assert!(count >= 700, "class {class:?}: {count} cases");
    }
    assert_eq!(seen.len(), 14, "a class that is not listed: {seen:?}");
    let each = [1, 2, 3, 4, 5, 6, 7, 15].map(|number| (number, 700));
    met(&comparison, CHECK_PLAN, &each);
    met(&comparison, READ_PLAN, &each);
    assert_eq!((comparison.cases, comparison.known), (80_000, 80_000));
}

/// A class above 7 at every edge, read and written, and a class of bad form.
#[test]
fn damaged_classes_are_refused_alike() {
    let mut comparison = Comparison::new(&Library, &Reference);
    generate::damaged_classes(31, 1_500, &mut |case, known| {
        comparison.must_agree(&case, known)
    });
    comparison.report("damaged_classes_are_refused_alike");
    for kind in [CHECK_PLAN, READ_PLAN] {
        met(&comparison, kind, &[(1, 10_000), (15, 5_000)]);
    }
    met(&comparison, WRITE_PLAN, &[(15, 5_000)]);
    assert_eq!(comparison.cases, comparison.known);
}

#[test]
fn every_beginning_of_a_plan_is_refused_alike() {
    let mut comparison = Comparison::new(&Library, &Reference);
    generate::truncations(15, 1_500, &mut |case, known| {
        comparison.must_agree(&case, known)
    });
    comparison.report("every_beginning_of_a_plan_is_refused_alike");
    met(&comparison, CHECK_PLAN, &[(1, 15_000)]);
    met(&comparison, READ_PLAN, &[(1, 15_000)]);
    assert_eq!(comparison.cases, comparison.known);
}

#[test]
fn random_bytes_are_read_alike() {
    let mut comparison = Comparison::new(&Library, &Reference);
    generate::random_bytes(16, 100_000, &mut |case, known| {
        comparison.must_agree(&case, known)
    });
    generate::changed_bytes(17, 60_000, &mut |case, known| {
        comparison.must_agree(&case, known)
    });
    comparison.report("random_bytes_are_read_alike");
    let each: Vec<(usize, u64)> = (0..=7)
        .chain([15])
        .map(|number| (number, if number == 3 { 10 } else { 300 }))
        .collect();
    met(&comparison, CHECK_PLAN, &each);
    let mut each = each;
    each.push((11, 300));
    met(&comparison, READ_PLAN, &each);
    assert_eq!(comparison.cases, 320_000);
}

#[test]
fn lists_are_written_alike() {
    let mut comparison = Comparison::new(&Library, &Reference);
    generate::damaged_lists(18, 50_000, &mut |case, known| {
        comparison.must_agree(&case, known)
    });
    generate::random_lists(19, 60_000, &mut |case, known| {
        comparison.must_agree(&case, known)
    });
    comparison.report("lists_are_written_alike");
    met(
        &comparison,
        WRITE_PLAN,
        &[
            (0, 5_000),
            (2, 3_000),
            (3, 3_000),
            (4, 3_000),
            (5, 3_000),
            (6, 3_000),
            (11, 3_000),
            (15, 3_000),
        ],
    );
    assert!(comparison.cases >= 110_000 && comparison.known >= 50_000);
}

/// What was written is read back as it was, and what was read is written
/// back as it was.
#[test]
fn round_trips() {
    let mut random = Random::new(20);
    let mut trips = 0;
    let mut trip = |plan: &generate::Plan| {
        let (edges, length) = (plan.edges(), plan.bytes().len());
        let mut bytes = vec![0xEE; length + 3];
        let answer = Library.write_plan(
            plan.vertices,
            &plan.tails,
            &plan.heads,
            &plan.costs,
            &plan.classes,
            &mut bytes,
        );
        assert_eq!(answer, [0, 0, length as u64, 0]);
        assert!(length <= 5 + 9 * edges);
        bytes.truncate(length);
        assert_eq!(bytes, plan.bytes());
        let mut lists = [(); 4].map(|()| vec![9; edges]);
        let [tails, heads, costs, classes] = &mut lists;
        let answer = Library.read_plan(&bytes, tails, heads, costs, classes);
        assert_eq!(answer, [0, 0, plan.vertices.into(), edges as u64]);
        assert_eq!((&*tails, &*heads), (&plan.tails, &plan.heads));
        assert_eq!((&*costs, &*classes), (&plan.costs, &plan.classes));
        let mut again = vec![0; length];
        Library.write_plan(plan.vertices, tails, heads, costs, classes, &mut again);
        assert_eq!(again, bytes);
        trips += 1;
    };
    for _ in 0..10_000 {
        trip(&generate::any_plan(&mut random, 12, 40));
    }
    for _ in 0..300 {
        trip(&generate::any_plan(&mut random, 4_096, 4_000));
    }
    trip(&generate::random_plan(&mut random, 4_096, 32_768));
    trip(&generate::random_plan(&mut random, 182, 32_768));
    trip(&generate::random_plan(&mut random, 4_096, 0));
    assert_eq!(trips, 10_303);

    // Every plan number up to three groups, and of four groups every 127th,
    // which the last is too.
    let mut out = [0; 6];
    let of_four = (1 << 21..1 << 28).rev().step_by(127);
    for value in (0..1 << 21).chain(of_four).chain([1 << 21]) {
        let [number, position, next, zero] = Library.write_plan_number(&mut out, 1, value);
        assert_eq!([number, position, zero], [0; 3]);
        assert_eq!(
            Library.read_plan_number(&out, 1),
            [0, 0, value.into(), next]
        );
    }
}
