//! The plan bytes, written from the papers alone.
//!
//! Numbers stand in groups of seven bits, lowest group first; a byte's top
//! bit is set when another group follows, and the last group is not zero
//! unless it is the only one. A plan is V, M and then for each edge the
//! difference of its tail to the tail before, its head, its cost and its
//! class.

/// V is from 1 to this.
pub const MOST_VERTICES: u32 = 4_096;
/// M is from 0 to this.
pub const MOST_EDGES: u32 = 32_768;
/// A cost is from 0 to this.
pub const MOST_COST: u32 = 16_000_000;
/// A class is from 0 to this.
pub const MOST_CLASS: u32 = 7;
/// The largest plan number: what four groups hold.
pub const MOST_IN_FOUR_GROUPS: u32 = (1 << 28) - 1;

/// Refusals are numbered from 1 to this.
pub const LAST_REFUSAL: u32 = 15;

/// A refusal: its number and its position.
#[derive(Clone, Copy, Debug, PartialEq, Eq, Hash)]
pub struct Refusal {
    pub number: u32,
    pub position: usize,
}

fn refuse<T>(number: u32, position: usize) -> Result<T, Refusal> {
    Err(Refusal { number, position })
}

/// Reads the plan number at an offset: its value and the offset after it.
#[inline]
pub fn read_plan_number(bytes: &[u8], at: usize) -> Result<(u32, usize), Refusal> {
    let group = |byte: u8| u32::from(byte & 0x7F);
    match bytes.get(at..) {
        Some(&[a, ..]) if a < 0x80 => Ok((group(a), at + 1)),
        Some(&[a, b, ..]) if 0 < b && b < 0x80 => Ok((group(a) | group(b) << 7, at + 2)),
        Some(&[a, b, c, ..]) if b >= 0x80 && 0 < c && c < 0x80 => {
            Ok((group(a) | group(b) << 7 | group(c) << 14, at + 3))
        }
        Some(&[a, b, c, d, ..]) if b >= 0x80 && c >= 0x80 && 0 < d && d < 0x80 => {
            let low = group(a) | group(b) << 7 | group(c) << 14;
            Ok((low | group(d) << 21, at + 4))
        }
        _ => refuse(1, at),
    }
}

/// Reads the number of a bench job at an offset: up to five groups and 32 bits.
#[inline]
pub fn read_job_number(bytes: &[u8], at: usize) -> Result<(u32, usize), Refusal> {
    let Some(rest) = bytes.get(at..) else {
        return refuse(1, at);
    };
    let mut value = 0u64;
    for (index, &byte) in rest.iter().take(5).enumerate() {
        value |= u64::from(byte & 0x7F) << (7 * index);
        if byte < 0x80 {
            if byte == 0 && index > 0 {
                return refuse(1, at);
            }
            return match u32::try_from(value) {
                Ok(value) => Ok((value, at + index + 1)),
                Err(_) => refuse(1, at),
            };
        }
    }
    refuse(1, at)
}

/// How many groups a plan number takes, if four are enough.
#[inline]
fn plan_number_length(value: u32) -> Option<usize> {
    // Without branches: with four arms of a match it takes nearly twice as long.
    let more = [0x80, 0x4000, 0x20_0000].map(|first| usize::from(value >= first));
    let [two, three, four] = more;
    (value <= MOST_IN_FOUR_GROUPS).then_some(1 + two + three + four)
}

/// Writes a plan number at an offset and gives the offset after it.
#[inline]
pub fn write_plan_number(out: &mut [u8], at: usize, value: u32) -> Result<usize, Refusal> {
    if value > MOST_IN_FOUR_GROUPS {
        return refuse(1, 0);
    }
    // By comparisons: by the count of groups it takes nearly twice as long.
    let length = match out.get_mut(at..) {
        Some([a, ..]) if value < 0x80 => {
            *a = value as u8;
            1
        }
        Some([a, b, ..]) if (0x80..0x4000).contains(&value) => {
            *a = value as u8 | 0x80;
            *b = (value >> 7) as u8;
            2
        }
        Some([a, b, c, ..]) if (0x4000..0x20_0000).contains(&value) => {
            *a = value as u8 | 0x80;
            *b = (value >> 7) as u8 | 0x80;
            *c = (value >> 14) as u8;
            3
        }
        Some([a, b, c, d, ..]) if value >= 0x20_0000 => {
            *a = value as u8 | 0x80;
            *b = (value >> 7) as u8 | 0x80;
            *c = (value >> 14) as u8 | 0x80;
            *d = (value >> 21) as u8;
            4
        }
        _ => return refuse(11, 0),
    };
    Ok(at + length)
}

/// One edge of a plan.
#[derive(Clone, Copy, Debug, PartialEq, Eq)]
pub struct Edge {
    pub tail: u32,
    pub head: u32,
    pub cost: u32,
    pub class: u32,
}

/// Reads V and M; gives the offset after them too.
#[inline]
fn read_counts(bytes: &[u8]) -> Result<(u32, u32, usize), Refusal> {
    let (vertices, edges_at) = read_plan_number(bytes, 0)?;
    if vertices == 0 || vertices > MOST_VERTICES {
        return refuse(2, 0);
    }
    let (edges, at) = read_plan_number(bytes, edges_at)?;
    if edges > MOST_EDGES {
        return refuse(3, edges_at);
    }
    Ok((vertices, edges, at))
}

/// Reads the edge at an offset and gives the offset after it. The tail before
/// it is a vertex, and `least` is the least head that it allows.
// As part of the walk: by itself it is a third slower.
#[inline(always)]
fn read_edge(
    bytes: &[u8],
    at: usize,
    vertices: u32,
    (tail_before, least): (u32, u32),
) -> Result<(Edge, usize), Refusal> {
    let (difference, head_at) = read_plan_number(bytes, at)?;
    // At most 4,095 + 268,435,455: no overflow.
    let tail = tail_before + difference;
    if tail >= vertices {
        return refuse(4, at);
    }
    let (head, cost_at) = read_plan_number(bytes, head_at)?;
    if head >= vertices {
        return refuse(4, head_at);
    }
    if difference == 0 && head < least {
        return refuse(6, head_at);
    }
    let (cost, class_at) = read_plan_number(bytes, cost_at)?;
    if cost > MOST_COST {
        return refuse(5, cost_at);
    }
    let (class, next) = read_plan_number(bytes, class_at)?;
    if class > MOST_CLASS {
        return refuse(15, class_at);
    }
    let edge = Edge {
        tail,
        head,
        cost,
        class,
    };
    Ok((edge, next))
}

/// Goes through a plan's bytes and hands each edge with its number to `take`;
/// gives V and M.
#[inline]
pub fn walk_plan(bytes: &[u8], mut take: impl FnMut(usize, Edge)) -> Result<(u32, u32), Refusal> {
    let (vertices, edges, mut at) = read_counts(bytes)?;
    // The tail in hand and the least head allowed under it.
    let mut last = (0, 0);
    for number in 0..edges as usize {
        let (edge, next) = read_edge(bytes, at, vertices, last)?;
        last = (edge.tail, edge.head + 1);
        at = next;
        take(number, edge);
    }
    if at < bytes.len() {
        return refuse(7, at);
    }
    Ok((vertices, edges))
}

/// Checks a plan's bytes: V and M, or the first fault.
pub fn check_plan(bytes: &[u8]) -> Result<(u32, u32), Refusal> {
    walk_plan(bytes, |_, _| ())
}

/// Reads a plan into four lists, which may be longer than M.
pub fn read_plan(
    bytes: &[u8],
    tails: &mut [u32],
    heads: &mut [u32],
    costs: &mut [u32],
    classes: &mut [u32],
) -> Result<(u32, u32), Refusal> {
    let (_, edges) = check_plan(bytes)?;
    let edges = edges as usize;
    let (Some(tails), Some(heads), Some(costs), Some(classes)) = (
        tails.get_mut(..edges),
        heads.get_mut(..edges),
        costs.get_mut(..edges),
        classes.get_mut(..edges),
    ) else {
        return refuse(11, 0);
    };
    walk_plan(bytes, |number, edge| {
        tails[number] = edge.tail;
        heads[number] = edge.head;
        costs[number] = edge.cost;
        classes[number] = edge.class;
    })
}

/// The edges of four equal lists.
#[inline]
fn listed<'a>(
    tails: &'a [u32],
    heads: &'a [u32],
    costs: &'a [u32],
    classes: &'a [u32],
) -> impl Iterator<Item = Edge> + 'a {
    let pairs = tails.iter().zip(heads).zip(costs).zip(classes);
    pairs.map(|(((&tail, &head), &cost), &class)| Edge {
        tail,
        head,
        cost,
        class,
    })
}

/// The bytes that edges take after V and M, or the first fault.
#[inline]
fn edges_length(vertices: u32, edges: impl Iterator<Item = Edge>) -> Result<usize, Refusal> {
    let length = |value| plan_number_length(value).expect("a checked number fits four groups");
    let mut needed = 0;
    // The edge before, as tail and head.
    let mut last: Option<(u32, u32)> = None;
    for (number, edge) in edges.enumerate() {
        let Edge {
            tail,
            head,
            cost,
            class,
        } = edge;
        if tail >= vertices || head >= vertices {
            return refuse(4, number);
        }
        if last.is_some_and(|last| (tail, head) <= last) {
            return refuse(6, number);
        }
        if cost > MOST_COST {
            return refuse(5, number);
        }
        if class > MOST_CLASS {
            return refuse(15, number);
        }
        let difference = tail - last.map_or(0, |(tail, _)| tail);
        needed += length(difference) + length(head) + length(cost) + length(class);
        last = Some((tail, head));
    }
    Ok(needed)
}

/// Writes a plan from V and four equal lists; gives the count of bytes.
pub fn write_plan(
    vertices: u32,
    tails: &[u32],
    heads: &[u32],
    costs: &[u32],
    classes: &[u32],
    out: &mut [u8],
) -> Result<usize, Refusal> {
    if vertices == 0 || vertices > MOST_VERTICES {
        return refuse(2, 0);
    }
    let edges = tails.len();
    let unequal = [heads, costs, classes]
        .iter()
        .any(|list| list.len() != edges);
    if edges > MOST_EDGES as usize || unequal {
        return refuse(3, 0);
    }
    let counts = [vertices, edges as u32];
    let needed: usize = counts.into_iter().filter_map(plan_number_length).sum();
    let needed = needed + edges_length(vertices, listed(tails, heads, costs, classes))?;
    let Some(out) = out.get_mut(..needed) else {
        return refuse(11, 0);
    };
    let mut at = 0;
    for count in counts {
        at = write_plan_number(out, at, count)?;
    }
    let mut previous = 0;
    for edge in listed(tails, heads, costs, classes) {
        for value in [edge.tail - previous, edge.head, edge.cost, edge.class] {
            at = write_plan_number(out, at, value)?;
        }
        previous = edge.tail;
    }
    Ok(at)
}

#[cfg(test)]
mod tests {
    use super::*;

    /// Plan A of the paper.
    const PLAN_A: [u8; 18] = [4, 4, 0, 1, 1, 0, 0, 2, 4, 0, 1, 2, 2, 0, 1, 3, 3, 0];

    fn at<T>(number: u32, position: usize) -> Result<T, Refusal> {
        Err(Refusal { number, position })
    }

    #[test]
    fn plan_a_is_read_and_written_back() {
        let mut lists = [[9; 5]; 4];
        let [tails, heads, costs, classes] = &mut lists;
        let answer = read_plan(&PLAN_A, tails, heads, costs, classes);
        assert_eq!(answer, Ok((4, 4)));
        assert_eq!(*tails, [0, 0, 1, 2, 9]);
        assert_eq!(*heads, [1, 2, 2, 3, 9]);
        assert_eq!(*costs, [1, 4, 2, 3, 9]);
        assert_eq!(*classes, [0, 0, 0, 0, 9]);
        let mut out = [0xEE; 20];
        let [tails, heads, costs, classes] = lists.each_ref().map(|list| &list[..4]);
        let answer = write_plan(4, tails, heads, costs, classes, &mut out);
        assert_eq!(answer, Ok(18));
        assert_eq!(out[..18], PLAN_A);
        assert_eq!(out[18..], [0xEE, 0xEE]);
    }

    #[test]
    fn each_row_of_the_table_has_its_position() {
        assert_eq!(check_plan(&[]), at(1, 0));
        assert_eq!(check_plan(&[0x80, 0]), at(1, 0));
        assert_eq!(check_plan(&[4]), at(1, 1));
        assert_eq!(check_plan(&[0, 0]), at(2, 0));
        assert_eq!(check_plan(&[0x81, 0x20, 0]), at(2, 0));
        assert_eq!(check_plan(&[0x80, 0x20, 0]), Ok((4_096, 0)));
        assert_eq!(check_plan(&[1, 0x81, 0x80, 2]), at(3, 1));
        assert_eq!(check_plan(&[2, 1, 2, 0, 0, 0]), at(4, 2));
        assert_eq!(check_plan(&[2, 1, 1, 2, 0, 0]), at(4, 3));
        assert_eq!(check_plan(&[2, 2, 1, 1, 0, 0, 0, 1, 0, 0]), at(6, 7));
        let with_cost = |cost: [u8; 4], class: u8| {
            let [a, b, c, d] = cost;
            check_plan(&[2, 1, 1, 1, a, b, c, d, class])
        };
        assert_eq!(with_cost([0x81, 0xC8, 0xD0, 7], 8), at(5, 4));
        assert_eq!(with_cost([0x80, 0xC8, 0xD0, 7], 8), at(15, 8));
        assert_eq!(with_cost([0x80, 0xC8, 0xD0, 7], 7), Ok((2, 1)));
        assert_eq!(with_cost([0xFF, 0xFF, 0xFF, 0x7F], 7), at(5, 4));
        assert_eq!(with_cost([0x80, 0xC8, 0xD0, 0x87], 1), at(1, 4));
        assert_eq!(check_plan(&[2, 1, 1, 1, 0, 0x87, 0]), at(1, 5));
        assert_eq!(check_plan(&[2, 1, 1, 1, 0, 0, 0]), at(7, 6));
    }

    #[test]
    fn plan_numbers_are_written_as_they_are_read() {
        let mut out = [0; 5];
        // Every number up to three groups, and of four groups every 63rd,
        // which the last is too.
        let of_four = (0x20_0000..=MOST_IN_FOUR_GROUPS).rev().step_by(63);
        for value in (0..0x20_0000).chain(of_four).chain([0x20_0000]) {
            let next = write_plan_number(&mut out, 1, value).unwrap();
            assert_eq!(read_plan_number(&out, 1), Ok((value, next)));
        }
        assert_eq!(
            write_plan_number(&mut out, 9, MOST_IN_FOUR_GROUPS + 1),
            at(1, 0)
        );
        assert_eq!(write_plan_number(&mut out, 2, 0x20_0000), at(11, 0));
        assert_eq!(write_plan_number(&mut out, usize::MAX, 0), at(11, 0));
    }

    #[test]
    fn job_numbers_end_at_32_bits() {
        let most = [0xFF, 0xFF, 0xFF, 0xFF, 0x0F];
        assert_eq!(read_job_number(&most, 0), Ok((u32::MAX, 5)));
        assert_eq!(
            read_job_number(&[0xFF, 0xFF, 0xFF, 0xFF, 0x1F], 0),
            at(1, 0)
        );
        assert_eq!(read_job_number(&[0x80, 0x80, 0x80, 0x80, 0], 0), at(1, 0));
        assert_eq!(
            read_job_number(&[0x80, 0x80, 0x80, 0x80, 0x80, 1], 0),
            at(1, 0)
        );
        assert_eq!(read_job_number(&most[..4], 0), at(1, 0));
        assert_eq!(read_job_number(&[], 0), at(1, 0));
        assert_eq!(read_job_number(&[7], 1), at(1, 1));
        assert_eq!(read_job_number(&[7], 5), at(1, 5));
    }
}
