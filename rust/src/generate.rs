//! Seeded streams of cases for the plan bytes: valid plans of every size,
//! plans damaged in one place, truncations, random bytes and random lists.
//!
//! Where the making of a case decides its answer, the stream hands that
//! answer over as well.

use crate::compare::Case;
use crate::ffi::Figures;
use crate::random::Random;
use crate::reference;

const MOST_VERTICES: u32 = 4_096;
const MOST_EDGES: usize = 32_768;
const MOST_COST: u32 = 16_000_000;
const MOST_CLASS: u32 = 7;
/// The largest plan number, and the largest of three groups.
const MOST_NUMBER: u32 = 268_435_455;
const MOST_OF_THREE: u32 = 2_097_151;

/// Where a stream's cases go, with the answer if their making decides it.
pub type Sink<'a> = &'a mut dyn FnMut(Case, Option<Figures>);

/// A plan as lists.
#[derive(Clone, Debug, PartialEq, Eq)]
pub struct Plan {
    pub vertices: u32,
    pub tails: Vec<u32>,
    pub heads: Vec<u32>,
    pub costs: Vec<u32>,
    pub classes: Vec<u32>,
}

/// The classes of so many edges: mostly of few classes, so that a barred one
/// is met, sometimes of all eight.
pub fn random_classes(random: &mut Random, edges: usize) -> Vec<u32> {
    let all: Vec<u32> = (0..=MOST_CLASS).collect();
    let few: Vec<u32> = (0..random.range(1, 4)).map(|_| random.pick(&all)).collect();
    let classes = if random.one_in(4) { all } else { few };
    (0..edges).map(|_| random.pick(&classes)).collect()
}

/// Costs around the ends of groups, and around the limits of this version and
/// of those before.
const COST_LIMITS: [u32; 15] = [
    0,
    1,
    127,
    128,
    129,
    16_383,
    16_384,
    16_385,
    999_999,
    1_000_000,
    1_000_001,
    MOST_OF_THREE,
    MOST_OF_THREE + 1,
    MOST_COST - 1,
    MOST_COST,
];

/// A cost with all group counts and the limits likely.
pub fn random_cost(random: &mut Random) -> u32 {
    match random.below(8) {
        0 => random.pick(&COST_LIMITS),
        1 | 2 => random.range32(0, 127),
        3 => random.range32(128, 16_383),
        4 => random.range32(16_384, MOST_OF_THREE),
        5 => random.range32(MOST_COST - 1_000, MOST_COST),
        _ => random.range32(MOST_OF_THREE + 1, MOST_COST),
    }
}

/// A cost of so many groups; of three only those that plans had before there
/// were costs of four.
pub fn cost_of_groups(random: &mut Random, groups: u64) -> u32 {
    match groups {
        1 => random.range32(0, 127),
        2 => random.range32(128, 16_383),
        3 => random.range32(16_384, 1_000_000),
        _ => random.range32(2_097_152, 16_000_000),
    }
}

/// A valid plan; `edges` is at most V·V and 32,768.
pub fn random_plan(random: &mut Random, vertices: u32, edges: usize) -> Plan {
    let pairs = u64::from(vertices) * u64::from(vertices);
    assert!(edges as u64 <= pairs && edges <= MOST_EDGES);
    let mut chosen: Vec<u64> = Vec::with_capacity(edges);
    if 2 * edges as u64 > pairs {
        // Selection sampling over all pairs.
        let mut left = edges as u64;
        for pair in 0..pairs {
            if random.below(pairs - pair) < left {
                chosen.push(pair);
                left -= 1;
            }
        }
    } else {
        // Edges spread evenly, or crowded under few tails.
        let crowd = match random.below(3) {
            0 => pairs,
            _ => (2 * edges as u64 + 1).clamp(1, pairs),
        };
        let first = random.range(0, pairs - crowd);
        while chosen.len() < edges {
            while chosen.len() < edges {
                chosen.push(first + random.below(crowd));
            }
            chosen.sort_unstable();
            chosen.dedup();
        }
    }
    let n = u64::from(vertices);
    Plan {
        vertices,
        tails: chosen.iter().map(|pair| (pair / n) as u32).collect(),
        heads: chosen.iter().map(|pair| (pair % n) as u32).collect(),
        costs: chosen.iter().map(|_| random_cost(random)).collect(),
        classes: random_classes(random, edges),
    }
}

/// A valid plan of up to `most_vertices` and `most_edges`.
pub fn any_plan(random: &mut Random, most_vertices: u32, most_edges: usize) -> Plan {
    let vertices = random.range32(1, most_vertices);
    let limit = (u64::from(vertices) * u64::from(vertices)).min(most_edges as u64);
    let edges = random.range(0, limit) as usize;
    random_plan(random, vertices, edges)
}

/// The field that a plan number stands in.
#[derive(Clone, Copy, Debug, PartialEq, Eq)]
pub enum Field {
    Vertices,
    Edges,
    Tail,
    Head,
    Cost,
    Class,
}

/// One plan number in its bytes.
#[derive(Clone, Copy, Debug)]
pub struct Number {
    pub field: Field,
    pub value: u32,
    pub offset: usize,
    pub length: usize,
}

/// Appends a number in its shortest groups.
pub fn push_number(bytes: &mut Vec<u8>, mut value: u32) {
    loop {
        let group = (value % 128) as u8;
        value /= 128;
        if value == 0 {
            bytes.push(group);
            return;
        }
        bytes.push(group + 128);
    }
}

impl Plan {
    pub fn edges(&self) -> usize {
        self.tails.len()
    }

    /// The plan's bytes and where each number stands in them.
    pub fn encode(&self) -> (Vec<u8>, Vec<Number>) {
        let mut bytes = Vec::new();
        let mut numbers = Vec::new();
        let mut push = |field, value| {
            let offset = bytes.len();
            push_number(&mut bytes, value);
            let length = bytes.len() - offset;
            numbers.push(Number {
                field,
                value,
                offset,
                length,
            });
        };
        push(Field::Vertices, self.vertices);
        push(Field::Edges, self.edges() as u32);
        let mut last = 0;
        for edge in 0..self.edges() {
            push(Field::Tail, self.tails[edge] - last);
            push(Field::Head, self.heads[edge]);
            push(Field::Cost, self.costs[edge]);
            push(Field::Class, self.classes[edge]);
            last = self.tails[edge];
        }
        (bytes, numbers)
    }

    pub fn bytes(&self) -> Vec<u8> {
        self.encode().0
    }

    /// The plan that valid bytes hold.
    pub fn of_bytes(bytes: &[u8]) -> Plan {
        let mut plan = Plan::without_edges(0);
        let (vertices, _) = reference::walk_plan(bytes, |_, edge| {
            plan.tails.push(edge.tail);
            plan.heads.push(edge.head);
            plan.costs.push(edge.cost);
            plan.classes.push(edge.class);
        })
        .expect("the plan is valid");
        Plan { vertices, ..plan }
    }

    /// The plan without the edges that `keep` leaves out, by number.
    pub fn with_edges(&self, keep: impl Fn(usize) -> bool) -> Plan {
        let kept = |list: &[u32]| -> Vec<u32> {
            let numbered = list.iter().enumerate();
            let kept = numbered.filter(|&(edge, _)| keep(edge));
            kept.map(|(_, &number)| number).collect()
        };
        Plan {
            vertices: self.vertices,
            tails: kept(&self.tails),
            heads: kept(&self.heads),
            costs: kept(&self.costs),
            classes: kept(&self.classes),
        }
    }

    pub fn without_edges(vertices: u32) -> Plan {
        Plan {
            vertices,
            tails: Vec::new(),
            heads: Vec::new(),
            costs: Vec::new(),
            classes: Vec::new(),
        }
    }

    fn write_case(&self, room: usize) -> Case {
        Case::WritePlan {
            vertices: self.vertices,
            tails: self.tails.clone(),
            heads: self.heads.clone(),
            costs: self.costs.clone(),
            classes: self.classes.clone(),
            room,
        }
    }
}

fn refused(number: u64, position: usize) -> Option<Figures> {
    Some([number, position as u64, 0, 0])
}

/// A number from `first` to the largest plan number, `first` itself likely.
fn number_from(random: &mut Random, first: u32) -> u32 {
    match random.below(5) {
        0 => first,
        1 => MOST_NUMBER,
        2 => random.range32(first, (first + 200).min(MOST_NUMBER)),
        3 => random.range32(first, first.max(MOST_OF_THREE + 1)),
        _ => random.range32(first, MOST_NUMBER),
    }
}

/// A number of bad form in place of a good one: not shortest, over four
/// groups, or (at the end of the bytes only) cut.
fn bad_form(random: &mut Random, value: u32) -> Vec<u8> {
    let mut bytes = Vec::new();
    push_number(&mut bytes, value);
    match random.below(3) {
        // Not shortest.
        0 => {
            let groups = random.range(bytes.len() as u64 + 1, 5) as usize;
            *bytes.last_mut().unwrap() += 128;
            bytes.resize(groups, 128);
            *bytes.last_mut().unwrap() = 0;
        }
        // Over four groups, otherwise well-formed.
        1 => {
            *bytes.last_mut().unwrap() += 128;
            let groups = random.range(5, 7) as usize;
            bytes.resize(groups, 128 + random.byte() % 128);
            *bytes.last_mut().unwrap() = random.range(1, 127) as u8;
        }
        // Four top bits.
        _ => {
            bytes = (0..4).map(|_| 128 | random.byte()).collect();
            bytes.push(random.byte());
        }
    }
    bytes
}

/// Damages one number of a plan: the bytes, the refusal they must get, and
/// the damaged field (none for bytes left over).
pub fn damage(random: &mut Random, plan: &Plan) -> (Vec<u8>, Figures, Option<Field>) {
    let (mut bytes, numbers) = plan.encode();
    let index = random.index(numbers.len());
    let number = numbers[index];
    let (refusal, new) = match random.below(8) {
        0 => {
            // The bytes end at or inside this number.
            bytes.truncate(number.offset + random.index(number.length));
            return (bytes, [1, number.offset as u64, 0, 0], Some(number.field));
        }
        1 => (1, bad_form(random, number.value)),
        2 => {
            // Bytes left over.
            let end = bytes.len() as u64;
            for _ in 0..random.range(1, 4) {
                bytes.push(random.byte());
            }
            return (bytes, [7, end, 0, 0], None);
        }
        _ => {
            let edge = index.wrapping_sub(2) / 4;
            let (refusal, value) = refused_value(random, plan, number, edge);
            let mut new = Vec::new();
            push_number(&mut new, value);
            (refusal, new)
        }
    };
    bytes.splice(number.offset..number.offset + number.length, new);
    let figures = [refusal, number.offset as u64, 0, 0];
    (bytes, figures, Some(number.field))
}

/// A value in place of a plan number, of V or M or of an edge, with the
/// refusal that it gets.
fn refused_value(random: &mut Random, plan: &Plan, number: Number, edge: usize) -> (u64, u32) {
    match number.field {
        Field::Vertices if random.one_in(3) => (2, 0),
        Field::Vertices => (2, number_from(random, MOST_VERTICES + 1)),
        Field::Edges => (3, number_from(random, MOST_EDGES as u32 + 1)),
        Field::Tail => {
            let before = plan.tails[edge] - number.value;
            (4, number_from(random, plan.vertices - before))
        }
        Field::Head => {
            let same_tail = edge > 0 && plan.tails[edge] == plan.tails[edge - 1];
            match random.below(4) {
                0 if same_tail => (6, plan.heads[edge - 1]),
                1 if same_tail => (6, random.range32(0, plan.heads[edge - 1])),
                _ => (4, number_from(random, plan.vertices)),
            }
        }
        Field::Cost => (5, number_from(random, MOST_COST + 1)),
        Field::Class => (15, number_from(random, MOST_CLASS + 1)),
    }
}

/// A number from `limit`, `limit` itself and the greatest ones likely.
fn number_above(random: &mut Random, limit: u32) -> u32 {
    match random.below(3) {
        0 => limit,
        1 => u32::MAX - random.range32(0, 3),
        _ => random.range32(limit, u32::MAX),
    }
}

/// Puts an edge of the lists out of order; whether that can be had.
fn damage_order(random: &mut Random, plan: &mut Plan, edge: usize) -> bool {
    let Some(before) = edge.checked_sub(1) else {
        return false;
    };
    let (tail, head) = (plan.tails[before], plan.heads[before]);
    if tail > 0 && random.one_in(3) {
        // A falling tail.
        plan.tails[edge] = random.range32(0, tail - 1);
        return true;
    }
    // The same tail, a head that is not above.
    plan.tails[edge] = tail;
    plan.heads[edge] = match random.one_in(2) {
        true => head,
        false => random.range32(0, head),
    };
    true
}

/// Damages the lists of a plan in one edge: the refusal that the writer must
/// give. The plan has an edge.
pub fn damage_lists(random: &mut Random, plan: &mut Plan) -> Figures {
    let edge = random.index(plan.edges());
    let number = match random.below(7) {
        0 => {
            plan.tails[edge] = number_above(random, plan.vertices);
            4
        }
        1 => {
            plan.costs[edge] = number_above(random, MOST_COST + 1);
            // A class above 7 as well does not count.
            if random.one_in(3) {
                plan.classes[edge] = number_above(random, MOST_CLASS + 1);
            }
            5
        }
        2 => {
            plan.classes[edge] = number_above(random, MOST_CLASS + 1);
            15
        }
        3..=5 if damage_order(random, plan, edge) => 6,
        _ => {
            plan.heads[edge] = number_above(random, plan.vertices);
            4
        }
    };
    [number, edge as u64, 0, 0]
}

/// Bytes that are often the ends of ranges.
fn telling_byte(random: &mut Random) -> u8 {
    match random.below(3) {
        0 => random.byte(),
        1 => random.pick(&[0, 1, 0x0F, 0x10, 0x1F, 0x7F, 0x80, 0x81, 0x8F, 0xFE, 0xFF]),
        _ => 0x80 | random.byte(),
    }
}

/// All inputs of up to two bytes, for both kinds of number.
pub fn short_numbers(sink: Sink) {
    let mut both = |bytes: &[u8], at: usize| {
        let bytes = bytes.to_vec();
        sink(
            Case::ReadPlanNumber {
                bytes: bytes.clone(),
                at,
            },
            None,
        );
        sink(Case::ReadJobNumber { bytes, at }, None);
    };
    both(&[], 0);
    both(&[], 1);
    for first in 0..=255 {
        both(&[first], 0);
        both(&[first], 1);
        for second in 0..=255 {
            both(&[first, second], 0);
        }
    }
}

/// Numbers read at any offset, also past the end.
pub fn numbers(seed: u64, count: usize, sink: Sink) {
    let mut random = Random::new(seed);
    for _ in 0..count {
        let length = random.index(9);
        let mut bytes: Vec<u8> = (0..length).map(|_| telling_byte(&mut random)).collect();
        if random.one_in(3) {
            // A number in its shortest groups somewhere.
            push_number(&mut bytes, random.of_any_size(32) as u32);
            bytes.push(telling_byte(&mut random));
        }
        let at = match random.below(16) {
            0 => usize::MAX - random.index(6),
            1 => random.draw() as usize,
            _ => random.index(bytes.len() + 3),
        };
        let outside = at >= bytes.len();
        let known = if outside { refused(1, at) } else { None };
        sink(
            Case::ReadPlanNumber {
                bytes: bytes.clone(),
                at,
            },
            known,
        );
        sink(Case::ReadJobNumber { bytes, at }, known);
    }
}

/// Numbers at the ends of groups, and above the largest.
const NUMBER_ENDS: [u32; 13] = [
    0,
    1,
    127,
    128,
    16_383,
    16_384,
    MOST_OF_THREE,
    MOST_OF_THREE + 1,
    MOST_NUMBER - 1,
    MOST_NUMBER,
    MOST_NUMBER + 1,
    1 << 31,
    u32::MAX,
];

/// Numbers written at any offset, with and without room.
pub fn written_numbers(seed: u64, count: usize, sink: Sink) {
    let mut random = Random::new(seed);
    for _ in 0..count {
        let room = random.index(8);
        let at = match random.below(16) {
            0 => usize::MAX - random.index(6),
            1 => random.draw() as usize,
            _ => random.index(room + 3),
        };
        let value = match random.below(3) {
            0 => random.pick(&NUMBER_ENDS),
            1 => random.range32(0, MOST_NUMBER),
            _ => random.of_any_size(32) as u32,
        };
        let known = if value > MOST_NUMBER {
            refused(1, 0)
        } else {
            let mut bytes = Vec::new();
            push_number(&mut bytes, value);
            match at.checked_add(bytes.len()) {
                Some(next) if next <= room => Some([0, 0, next as u64, 0]),
                _ => refused(11, 0),
            }
        };
        sink(Case::WritePlanNumber { room, at, value }, known);
    }
}

/// One plan read and written in all ways: checked, read into lists of M, of
/// more and of fewer places, written with room, with none to spare and with
/// one byte too few.
fn plan_cases(random: &mut Random, plan: &Plan, sink: Sink) {
    let bytes = plan.bytes();
    let (edges, length) = (plan.edges(), bytes.len());
    let good = Some([0, 0, plan.vertices.into(), edges as u64]);
    sink(
        Case::CheckPlan {
            bytes: bytes.clone(),
        },
        good,
    );
    let longer = [(); 4].map(|()| edges + random.index(9));
    for room in [[edges; 4], longer] {
        let bytes = bytes.clone();
        sink(Case::ReadPlan { bytes, room }, good);
    }
    if edges > 0 {
        let mut room = longer;
        let short = random.index(4);
        room[short] = if random.one_in(2) {
            edges - 1
        } else {
            random.index(edges)
        };
        sink(Case::ReadPlan { bytes, room }, refused(11, 0));
    }
    let written = Some([0, 0, length as u64, 0]);
    sink(plan.write_case(length), written);
    sink(plan.write_case(length + 1 + random.index(9)), written);
    sink(plan.write_case(length - 1), refused(11, 0));
    sink(plan.write_case(random.index(length)), refused(11, 0));
}

/// Valid plans of every vertex count up to 4,096 and of every pair of small
/// counts; `step` leaves out vertex counts for a shorter run.
pub fn valid_plans(seed: u64, step: usize, sink: Sink) {
    let mut random = Random::new(seed);
    for vertices in (1..=MOST_VERTICES).step_by(step) {
        let limit = (u64::from(vertices) * u64::from(vertices)).min(MOST_EDGES as u64);
        let edges = random.of_any_size(11).min(limit) as usize;
        let plan = random_plan(&mut random, vertices, edges);
        plan_cases(&mut random, &plan, sink);
    }
    // Every pair of small counts.
    for vertices in 1..=6 {
        for edges in 0..=(vertices * vertices) as usize {
            for _ in 0..20 {
                let plan = random_plan(&mut random, vertices, edges);
                plan_cases(&mut random, &plan, sink);
            }
        }
    }
}

/// Valid plans of many edges, up to 32,768, and of counts where the groups
/// of a number change.
pub fn large_plans(seed: u64, sink: Sink) {
    let mut random = Random::new(seed);
    for (vertices, edges) in [
        (181, 32_761),
        (182, MOST_EDGES),
        (256, MOST_EDGES),
        (1_000, 16_383),
        (1_000, 16_384),
        (1_000, 16_385),
        (2_000, 127),
        (2_000, 128),
        (2_000, 129),
        (MOST_VERTICES, 0),
        (MOST_VERTICES, 1),
        (MOST_VERTICES, MOST_EDGES - 1),
        (MOST_VERTICES, MOST_EDGES),
    ] {
        for _ in 0..3 {
            let plan = random_plan(&mut random, vertices, edges);
            plan_cases(&mut random, &plan, sink);
        }
    }
}

/// Plans damaged in one number or by bytes left over; `seen` learns of each
/// refusal and damaged field.
pub fn damaged_plans(
    seed: u64,
    count: usize,
    seen: &mut dyn FnMut(u64, Option<Field>),
    sink: Sink,
) {
    let mut random = Random::new(seed);
    for _ in 0..count {
        let plan = match random.below(64) {
            0 => any_plan(&mut random, MOST_VERTICES, 600),
            1..=15 => any_plan(&mut random, 300, 40),
            _ => any_plan(&mut random, 6, 12),
        };
        let (bytes, known, field) = damage(&mut random, &plan);
        seen(known[0], field);
        let edges = plan.edges();
        let room = match random.below(3) {
            0 => [edges; 4],
            1 => [edges + 5, edges + 1, edges + 3, edges + 4],
            _ => [(); 4].map(|()| random.index(edges + 2)),
        };
        sink(
            Case::CheckPlan {
                bytes: bytes.clone(),
            },
            Some(known),
        );
        sink(Case::ReadPlan { bytes, room }, Some(known));
    }
}

/// All beginnings of small plans; each is refused with number 1.
pub fn truncations(seed: u64, count: usize, sink: Sink) {
    let mut random = Random::new(seed);
    for _ in 0..count {
        let most_vertices = random.pick(&[1, 3, 8, 200, MOST_VERTICES]);
        let plan = any_plan(&mut random, most_vertices, 8);
        let (bytes, numbers) = plan.encode();
        for length in 0..bytes.len() {
            let cut = numbers
                .iter()
                .find(|number| number.offset + number.length > length)
                .expect("a number ends past a cut");
            let known = refused(1, cut.offset);
            read_refused(&plan, bytes[..length].to_vec(), known, sink);
        }
    }
}

/// Random bytes, many of them small, as plans.
pub fn random_bytes(seed: u64, count: usize, sink: Sink) {
    let mut random = Random::new(seed);
    for _ in 0..count {
        let length = random.of_any_size(6) as usize;
        let small = random.range(1, 5);
        let mut bytes: Vec<u8> = (0..length)
            .map(|_| {
                if random.one_in(12) {
                    telling_byte(&mut random)
                } else {
                    random.range(0, small) as u8
                }
            })
            .collect();
        if length >= 2 && random.one_in(2) {
            // An edge count that fits the length.
            bytes[0] = random.range(1, 6) as u8;
            bytes[1] = ((length - 2) / 4) as u8;
        }
        let room = [(); 4].map(|()| random.index(6));
        sink(
            Case::CheckPlan {
                bytes: bytes.clone(),
            },
            None,
        );
        sink(Case::ReadPlan { bytes, room }, None);
    }
}

/// Bytes of valid plans with single bytes changed, dropped or doubled.
pub fn changed_bytes(seed: u64, count: usize, sink: Sink) {
    let mut random = Random::new(seed);
    for _ in 0..count {
        let most_vertices = random.pick(&[2, 5, 130, MOST_VERTICES]);
        let plan = any_plan(&mut random, most_vertices, 12);
        let mut bytes = plan.bytes();
        for _ in 0..random.range(1, 3) {
            let at = random.index(bytes.len());
            match random.below(4) {
                0 => bytes[at] ^= 1 << random.below(8),
                1 => bytes[at] = telling_byte(&mut random),
                2 if bytes.len() > 1 => drop(bytes.remove(at)),
                _ => bytes.insert(at, bytes[at]),
            }
        }
        let room = [plan.edges() + 2; 4];
        sink(
            Case::CheckPlan {
                bytes: bytes.clone(),
            },
            None,
        );
        sink(Case::ReadPlan { bytes, room }, None);
    }
}

/// Makes one of a plan's lists longer or shorter than the others.
fn make_unequal(random: &mut Random, plan: &mut Plan) {
    let list = match random.below(4) {
        0 => &mut plan.tails,
        1 => &mut plan.heads,
        2 => &mut plan.costs,
        _ => &mut plan.classes,
    };
    if list.is_empty() || random.one_in(2) {
        list.push(random.of_any_size(32) as u32);
    } else {
        list.truncate(random.index(list.len()));
    }
}

/// Lists for the writer: damaged in one edge, unequal, too many, with a
/// vertex count out of range.
pub fn damaged_lists(seed: u64, count: usize, sink: Sink) {
    let mut random = Random::new(seed);
    for _ in 0..count {
        let mut plan = match random.below(64) {
            0 => any_plan(&mut random, MOST_VERTICES, 600),
            1..=15 => any_plan(&mut random, 300, 40),
            _ => any_plan(&mut random, 6, 12),
        };
        let length = plan.bytes().len();
        let room = match random.below(3) {
            0 => length,
            1 => length + 20,
            _ => random.index(length),
        };
        let known = match random.below(8) {
            0 => {
                plan.vertices =
                    random.pick(&[0, MOST_VERTICES + 1, MOST_VERTICES + 2, 70_000, u32::MAX]);
                [2, 0, 0, 0]
            }
            1 => {
                make_unequal(&mut random, &mut plan);
                [3, 0, 0, 0]
            }
            _ if plan.edges() > 0 => damage_lists(&mut random, &mut plan),
            _ if room < length => [11, 0, 0, 0],
            _ => [0, 0, length as u64, 0],
        };
        sink(plan.write_case(room), Some(known));
    }
    too_many_edges(sink);
}

/// Equal lists of more edges than a plan may have.
fn too_many_edges(sink: Sink) {
    for edges in [
        MOST_EDGES + 1,
        MOST_EDGES + 2,
        2 * MOST_EDGES,
        2 * MOST_EDGES + 1,
    ] {
        let plan = Plan {
            vertices: MOST_VERTICES,
            tails: (0..edges).map(|edge| (edge / 16) as u32).collect(),
            heads: (0..edges).map(|edge| (edge % 16) as u32).collect(),
            costs: vec![1; edges],
            classes: vec![7; edges],
        };
        sink(plan.write_case(9 * edges), refused(3, 0));
    }
}

/// Plans whose class numbers are damaged one after another, at every edge:
/// above 7, of bad form, and cut; in bytes and in lists.
pub fn damaged_classes(seed: u64, count: usize, sink: Sink) {
    let mut random = Random::new(seed);
    for _ in 0..count {
        let most_vertices = random.pick(&[2, 6, 300, MOST_VERTICES]);
        let plan = any_plan(&mut random, most_vertices, 12);
        let (bytes, numbers) = plan.encode();
        let classes = numbers.iter().filter(|number| number.field == Field::Class);
        for (edge, number) in classes.enumerate() {
            let mut above = Vec::new();
            let value = number_from(&mut random, MOST_CLASS + 1);
            push_number(&mut above, value);
            let bad = bad_form(&mut random, number.value);
            let here = number.offset;
            for (refusal, new) in [(15, above), (1, bad)] {
                let mut bytes = bytes.clone();
                bytes.splice(here..here + number.length, new);
                read_refused(&plan, bytes, refused(refusal, here), sink);
            }
            read_refused(&plan, bytes[..here].to_vec(), refused(1, here), sink);
            let mut lists = plan.clone();
            lists.classes[edge] = value;
            sink(lists.write_case(bytes.len() + 3), refused(15, edge));
        }
    }
}

/// A plan's damaged bytes, checked and read.
fn read_refused(plan: &Plan, bytes: Vec<u8>, known: Option<Figures>, sink: Sink) {
    let room = [plan.edges(); 4];
    let whole = bytes.clone();
    sink(Case::CheckPlan { bytes: whole }, known);
    sink(Case::ReadPlan { bytes, room }, known);
}

/// Tails and heads of up to six edges, often in order.
fn random_pairs(random: &mut Random, vertices: u32) -> Vec<(u32, u32)> {
    let edges = random.index(7);
    let beyond = u64::from(random.one_in(4));
    let small = u64::from(vertices.clamp(1, 6)) - 1 + beyond;
    let mut pairs: Vec<(u32, u32)> = (0..edges)
        .map(|_| (random.range(0, small) as u32, random.range(0, small) as u32))
        .collect();
    if !random.one_in(4) {
        pairs.sort_unstable();
    }
    if random.one_in(2) {
        pairs.dedup();
    }
    pairs
}

/// Random short lists for the writer, often near a plan.
pub fn random_lists(seed: u64, count: usize, sink: Sink) {
    let mut random = Random::new(seed);
    for _ in 0..count {
        let vertices = if random.one_in(40) {
            random.of_any_size(32) as u32
        } else {
            random.range32(1, 6)
        };
        let pairs = random_pairs(&mut random, vertices);
        let costs = pairs.iter().map(|_| match random.one_in(20) {
            true => MOST_COST + random.range32(0, 2),
            false => random_cost(&mut random),
        });
        let costs = costs.collect();
        let mut classes = random_classes(&mut random, pairs.len());
        for class in &mut classes {
            if random.one_in(20) {
                *class = MOST_CLASS + random.range32(0, 2);
            }
        }
        let case = Case::WritePlan {
            vertices,
            tails: pairs.iter().map(|pair| pair.0).collect(),
            heads: pairs.iter().map(|pair| pair.1).collect(),
            costs,
            classes,
            room: random.index(60),
        };
        sink(case, None);
    }
}
