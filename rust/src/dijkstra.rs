//! Shortest walks by Dijkstra's algorithm with a binary heap, over the edges
//! whose class is not barred, and consistent tables made from them: what
//! routes are measured by.

use std::cmp::Reverse;
use std::collections::BinaryHeap;

use crate::generate::Plan;

/// No class is barred.
pub const NO_BAR: u32 = 0;

/// The cost of the cheapest permitted walk from `start` to each vertex.
pub fn distances_from(plan: &Plan, start: u32, barred: u32) -> Vec<Option<u64>> {
    shortest(plan, barred, &[(start, 0)], |edge| {
        (plan.tails[edge], plan.heads[edge])
    })
}

/// The cost of the cheapest permitted walk from each vertex to `goal`.
pub fn distances_to(plan: &Plan, goal: u32, barred: u32) -> Vec<Option<u64>> {
    shortest(plan, barred, &[(goal, 0)], |edge| {
        (plan.heads[edge], plan.tails[edge])
    })
}

/// The greatest table at or below `wish` that breaks no edge's rule, which
/// barred edges have too: from each vertex the least sum of a walk's cost and
/// the wish at its end.
pub fn consistent_table(plan: &Plan, wish: &[u32]) -> Vec<u32> {
    let sources: Vec<(u32, u64)> = (0..).zip(wish.iter().map(|&h| h.into())).collect();
    let ends = |edge: usize| (plan.heads[edge], plan.tails[edge]);
    shortest(plan, NO_BAR, &sources, ends)
        .into_iter()
        .map(|least| least.expect("every vertex is a source") as u32)
        .collect()
}

/// Whether a barred number, bit k for class k, leaves a class out.
pub fn is_permitted(barred: u32, class: u32) -> bool {
    barred >> class & 1 == 0
}

fn shortest(
    plan: &Plan,
    barred: u32,
    sources: &[(u32, u64)],
    ends: impl Fn(usize) -> (u32, u32),
) -> Vec<Option<u64>> {
    let mut edges_from = vec![Vec::new(); plan.vertices as usize];
    let permitted = |&edge: &usize| is_permitted(barred, plan.classes[edge]);
    for edge in (0..plan.edges()).filter(permitted) {
        let (from, to) = ends(edge);
        edges_from[from as usize].push((to, u64::from(plan.costs[edge])));
    }
    let mut best: Vec<Option<u64>> = vec![None; plan.vertices as usize];
    let mut heap: BinaryHeap<Reverse<(u64, u32)>> = sources
        .iter()
        .map(|&(vertex, cost)| Reverse((cost, vertex)))
        .collect();
    while let Some(Reverse((cost, vertex))) = heap.pop() {
        if best[vertex as usize].is_some() {
            continue;
        }
        best[vertex as usize] = Some(cost);
        for &(to, more) in &edges_from[vertex as usize] {
            if best[to as usize].is_none() {
                heap.push(Reverse((cost + more, to)));
            }
        }
    }
    best
}

#[cfg(test)]
mod tests {
    use super::*;

    #[test]
    fn plan_a() {
        let plan = Plan {
            vertices: 5,
            tails: vec![0, 0, 1, 2],
            heads: vec![1, 2, 2, 3],
            costs: vec![1, 4, 2, 3],
            classes: vec![1, 0, 0, 7],
        };
        let some = |costs: [u64; 4]| costs.map(Some);
        assert_eq!(distances_from(&plan, 0, NO_BAR)[..4], some([0, 1, 3, 6]));
        assert_eq!(distances_to(&plan, 3, NO_BAR)[..4], some([6, 5, 3, 0]));
        assert_eq!(distances_to(&plan, 3, NO_BAR)[4], None);
        let barred = |barred| distances_to(&plan, 3, barred)[..4].to_vec();
        assert_eq!(barred(0b10), some([7, 5, 3, 0]));
        assert_eq!(barred(0b0111_1100), some([6, 5, 3, 0]));
        assert_eq!(barred(0b1000_0000), [None, None, None, Some(0)]);
        let wish = [9, 4, 9, 0, 7];
        assert_eq!(consistent_table(&plan, &wish), [5, 4, 3, 0, 7]);
    }
}
