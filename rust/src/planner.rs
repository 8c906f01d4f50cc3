//! The second planner, written from the papers alone: every least key is
//! found by a scan over all vertices, and the search works in the lent
//! memory alone.
//!
//! The paper's places are vertices here, its lanes edges, its chains walks
//! and its allowance the budget of turns.

use std::ops::Range;

use crate::reference::{self, Edge, Refusal};

/// The paper's 4,294,967,295: no predecessor, and what follows a route.
pub const NONE: u32 = u32::MAX;

/// The paper's 2^64 − 1: not reached, never expanded.
pub const UNREACHED: u64 = u64::MAX;

/// On a guide sheet: the guide has no opinion on the vertex. In the anchor
/// table it is a number like the others.
pub const NO_OPINION: u32 = u32::MAX;

/// The greatest number on a guide sheet that is an opinion.
pub const MOST_OPINION: u32 = NO_OPINION - 1;

/// W1 and W2 of our six rounds: the paper's house schedule until a site loads
/// its own.
pub const STANDARD_SCHEDULE: [u32; 12] =
    [500, 500, 300, 300, 200, 200, 150, 150, 120, 120, 100, 100];

/// The factors that a call's rounds have: its schedule's, or if that is empty
/// the default schedule's, which the paper calls the house schedule.
pub fn or_default<'a>(schedule: &'a [u32], default_schedule: &'a [u32]) -> &'a [u32] {
    match schedule {
        [] => default_schedule,
        schedule => schedule,
    }
}

/// The most factors of a schedule, and the greatest of them.
pub const MOST_FACTORS: usize = 32;
pub const MOST_FACTOR: u32 = 10_000;

/// A barred number has a bit for each class and is from 0 to this.
pub const MOST_BARRED: u32 = 255;

/// The words of work memory that a call needs.
pub fn work_words(vertices: usize, edges: usize) -> usize {
    3 * vertices + 1 + 3 * edges
}

/// The numbers of wide memory that a call needs.
pub fn wide_numbers(vertices: usize) -> usize {
    2 * vertices
}

/// What one planner call is asked: the paper's job. Bit k of `barred` bars
/// the edges of class k. The guide sheets stand one after another, with
/// [`NO_OPINION`] where a guide has none; the schedule has W1 and W2 of each
/// round, and so has the default one, the paper's house schedule, which is
/// looked at only if the schedule is empty.
#[derive(Clone, Copy, Debug)]
pub struct Request<'a> {
    pub bytes: &'a [u8],
    pub start: u32,
    pub goal: u32,
    pub barred: u32,
    pub anchor: &'a [u32],
    pub guides: &'a [u32],
    pub guide_count: u32,
    pub schedule: &'a [u32],
    pub default_schedule: &'a [u32],
    pub budget: u32,
}

/// The memory that a call is lent.
pub struct Memory<'a> {
    pub route: &'a mut [u32],
    pub log: &'a mut [u32],
    pub work: &'a mut [u32],
    pub wide: &'a mut [u64],
}

/// What a call leaves in figures: ending (0 route, 1 no route, 2 unfinished,
/// 3 refused), refusal number, position, kept cost, route length, finished
/// rounds, turns and bound; unused figures are 0.
pub type Figures = [u64; 8];

/// What a call hands over.
#[derive(Clone, Copy, Debug, PartialEq, Eq)]
pub enum Answer {
    /// Kept cost, route length in vertices, finished rounds, turns, and
    /// W1·W2 of the last finished round.
    Route {
        cost: u64,
        length: u32,
        rounds: u32,
        turns: u32,
        bound: u32,
    },
    NoRoute {
        turns: u32,
    },
    Unfinished {
        turns: u32,
    },
    Refused {
        number: u32,
        position: usize,
    },
}

impl Answer {
    pub fn figures(&self) -> Figures {
        match *self {
            Answer::Route {
                cost,
                length,
                rounds,
                turns,
                bound,
            } => {
                let [length, rounds, turns, bound] = [length, rounds, turns, bound].map(u64::from);
                [0, 0, 0, cost, length, rounds, turns, bound]
            }
            Answer::NoRoute { turns } => [1, 0, 0, 0, 0, 0, turns.into(), 0],
            Answer::Unfinished { turns } => [2, 0, 0, 0, 0, 0, turns.into(), 0],
            Answer::Refused { number, position } => {
                [3, number.into(), position as u64, 0, 0, 0, 0, 0]
            }
        }
    }

    /// The answer that has these figures, if there is one.
    pub fn of_figures(figures: Figures) -> Option<Answer> {
        let [_, _, position, cost, ..] = figures;
        let [ending, number, _, _, length, rounds, turns, bound] =
            figures.map(|figure| figure as u32);
        let answer = match ending {
            0 => Answer::Route {
                cost,
                length,
                rounds,
                turns,
                bound,
            },
            1 => Answer::NoRoute { turns },
            2 => Answer::Unfinished { turns },
            _ => Answer::Refused {
                number,
                position: position as usize,
            },
        };
        (answer.figures() == figures).then_some(answer)
    }
}

/// What happens in a search, for those who count events.
#[derive(Clone, Debug, PartialEq, Eq)]
pub enum Event {
    /// A round begins; rounds and turns count from 1.
    Begin { round: u32 },
    /// The guide with the turn has no opinion on the vertex whose key would
    /// be the least if the number there was one. `within`: the guide would
    /// expand it; `left`: another vertex is left to the guide.
    NoOpinion {
        guide: u32,
        vertex: u32,
        within: bool,
        left: bool,
    },
    /// A vertex is expanded at cost `g`; table 0 is the anchor. `no_line`:
    /// the guide with the turn had no vertex to take.
    Turn {
        round: u32,
        turn: u32,
        table: u32,
        vertex: u32,
        g: u64,
        no_line: bool,
    },
    /// A round is finished: g(goal), the walk traced with its cost, and the
    /// kept cost before.
    Finish {
        round: u32,
        turns: u32,
        goal_cost: u64,
        traced: Vec<u32>,
        traced_cost: u64,
        kept: Option<u64>,
    },
    /// Step 2 ends the search in this round.
    Cut { round: u32, turns: u32 },
    /// Step 1 ends the search; `held` counts the vertices that are held.
    NoRoute { round: u32, turns: u32, held: u32 },
}

/// A planner that is wrong in one way, to show that a comparison finds it.
/// The first ones are the paper's shortcuts.
#[derive(Clone, Copy, Debug, PartialEq, Eq)]
pub enum Fault {
    /// g(goal) is stated as the cost.
    CostOfGoal,
    /// A vertex with the anchor mark becomes open again in its round.
    OpenAgain,
    /// Held vertices stay held in the next round.
    Forgotten,
    /// A turn without a vertex for the guide ends the search.
    NothingExpanded,
    /// The route of the last finished round is kept.
    LastKept,
    /// A later route of equal cost is kept.
    EqualKept,
    /// Equal keys: the highest vertex.
    HighestVertex,
    /// The guide keeps its turn after one that the anchor filled.
    GuideStays,
    /// A round goes on with the guide after the last one.
    GuideGoesOn,
    /// Guide marks stay in the next round.
    GuideMarksStay,
    /// Anchor marks stay in the next round.
    AnchorMarksStay,
    /// A guide's key must be strictly below the bound.
    GuideStrict,
    /// g(goal) must be strictly below the bound.
    FinishStrict,
    /// W1 in place of W2 where a round finishes.
    FinishByW1,
    /// The budget is looked at before the round is found finished.
    BudgetFirst,
    /// A head not expanded yet takes an equal cost.
    EqualTaken,
    /// Guides take vertices with the guide mark again.
    GuideMarkIgnored,
    /// Costs when last expanded go at a round's beginning.
    ExpandedForgotten,
    /// A round does not begin where no turn is left.
    NoBegin,
    /// W1·W2 of the round that was cut.
    BoundOfCutRound,
    /// Each round's turns are counted anew against the budget.
    BudgetOfRound,
    /// Barred edges are tried all the same.
    BarredTried,
    /// Barred edges are tried where the anchor fills the turn.
    BarredByAnchor,
    /// Bit k bars class k − 1.
    NextClass,
    /// The class is read where the cost stands.
    ClassOfCost,
    /// The anchor table's rule is tested on permitted edges alone.
    RuleOfPermitted,
    /// g is cut to 32 bits.
    NarrowG,
    /// 4,294,967,295 stands for not reached and never expanded.
    NarrowUnreached,
    /// The traced walk is summed in 32 bits.
    NarrowTrace,
    /// Keys have g in 32 bits.
    NarrowKey,
    /// 4,294,967,295 is a number like the others.
    OpinionTaken,
    /// Guides take the vertices alone that they have no opinion on.
    OpinionInverted,
    /// The anchor has no opinion either where its table has the number.
    OpinionOfAnchor,
    /// The anchor leaves out what the guide whose turn it fills has no opinion
    /// on, if another vertex is open.
    OpinionForAnchor,
    /// 4,294,967,294 means no opinion too.
    OpinionOneLessToo,
    /// 4,294,967,294 means no opinion, and 4,294,967,295 is a number.
    OpinionOneLess,
    /// What one guide has no opinion on no guide takes.
    OpinionOfAnyGuide,
    /// What the first guide has no opinion on no guide takes, and other
    /// sheets have numbers alone.
    OpinionOfFirstGuide,
    /// A guide without a vertex to take loses its turn to the next guide.
    OpinionLosesTurn,
    /// A vertex without opinion still has the least key, and the anchor fills
    /// the turn.
    OpinionAfterKey,
    /// A guide has an opinion on the start, whatever its sheet says.
    OpinionOnStart,
    /// From the second round on the number is one like the others.
    OpinionInFirstRound,
    /// No opinion counts as 0.
    OpinionOfZero,
    /// A guide expands the vertex of its least key, however great that is.
    GuideUnbound,
    /// W1 in place of W2 where a guide's key is tested.
    GuideByW1,
    /// W2 in place of W1 in a guide's key.
    GuideKeyByW2,
    /// A guide's key is tested without the number on its sheet.
    GuideByCost,
    /// A guide's key is tested by g(goal) in place of the anchor's least key,
    /// and not at all before the goal is reached.
    GuideByGoal,
    /// A guide's key is tested by the least key that the anchor had when the
    /// round began.
    GuideByFirstLeast,
    /// The anchor expands the lowest open vertex, whatever its key.
    AnchorLowest,
    /// g(goal) must be at most half the bound: the goal is expanded before.
    FinishLate,
    /// Row 10 tests the call's own schedule alone.
    DefaultUntested,
    /// The default schedule is taken before the call's own, unless it is
    /// empty.
    DefaultPreferred,
    /// Row 10 tests the default schedule too where the call has its own.
    DefaultTestedBeside,
    /// The standard schedule is taken in place of a default one that row 10
    /// lets pass.
    StandardForDefault,
    /// An empty default schedule means the standard one.
    StandardForEmpty,
}

/// All faults.
pub const FAULTS: [Fault; 56] = [
    Fault::CostOfGoal,
    Fault::OpenAgain,
    Fault::Forgotten,
    Fault::NothingExpanded,
    Fault::LastKept,
    Fault::EqualKept,
    Fault::HighestVertex,
    Fault::GuideStays,
    Fault::GuideGoesOn,
    Fault::GuideMarksStay,
    Fault::AnchorMarksStay,
    Fault::GuideStrict,
    Fault::FinishStrict,
    Fault::FinishByW1,
    Fault::BudgetFirst,
    Fault::EqualTaken,
    Fault::GuideMarkIgnored,
    Fault::ExpandedForgotten,
    Fault::NoBegin,
    Fault::BoundOfCutRound,
    Fault::BudgetOfRound,
    Fault::BarredTried,
    Fault::BarredByAnchor,
    Fault::NextClass,
    Fault::ClassOfCost,
    Fault::RuleOfPermitted,
    Fault::NarrowG,
    Fault::NarrowUnreached,
    Fault::NarrowTrace,
    Fault::NarrowKey,
    Fault::OpinionTaken,
    Fault::OpinionInverted,
    Fault::OpinionOfAnchor,
    Fault::OpinionForAnchor,
    Fault::OpinionOneLessToo,
    Fault::OpinionOneLess,
    Fault::OpinionOfAnyGuide,
    Fault::OpinionOfFirstGuide,
    Fault::OpinionLosesTurn,
    Fault::OpinionAfterKey,
    Fault::OpinionOnStart,
    Fault::OpinionInFirstRound,
    Fault::OpinionOfZero,
    Fault::GuideUnbound,
    Fault::GuideByW1,
    Fault::GuideKeyByW2,
    Fault::GuideByCost,
    Fault::GuideByGoal,
    Fault::GuideByFirstLeast,
    Fault::AnchorLowest,
    Fault::FinishLate,
    Fault::DefaultUntested,
    Fault::DefaultPreferred,
    Fault::DefaultTestedBeside,
    Fault::StandardForDefault,
    Fault::StandardForEmpty,
];

/// Who looks on at a search: counts its events, or plants a fault.
trait Onlooker {
    fn has(&self, _fault: Fault) -> bool {
        false
    }

    /// Whether there is a fault.
    fn is_faulty(&self) -> bool {
        false
    }

    /// Whether events are told that take a scan of their own.
    fn looks_closely(&self) -> bool {
        false
    }

    fn observe(&mut self, _event: impl FnOnce() -> Event) {}
}

/// The planner as it is.
struct Nobody;

impl Onlooker for Nobody {}

/// Hands events on, with a fault if one is wanted.
struct Observer<'a> {
    fault: Option<Fault>,
    closely: bool,
    observe: &'a mut dyn FnMut(Event),
}

impl Onlooker for Observer<'_> {
    fn has(&self, fault: Fault) -> bool {
        self.fault == Some(fault)
    }

    fn is_faulty(&self) -> bool {
        self.fault.is_some()
    }

    fn looks_closely(&self) -> bool {
        self.closely
    }

    fn observe(&mut self, event: impl FnOnce() -> Event) {
        (self.observe)(event());
    }
}

/// A vertex in the search, as it stands in work memory: the paper's
/// predecessor, and marks as a sum.
type Vertex = [u32; 2];

/// A vertex's costs in wide memory: the paper's cost g, and cost when last
/// expanded.
type Wide = [u64; 2];

const GUIDE_MARK: u32 = 1;
const ANCHOR_MARK: u32 = 2;
const OPEN: u32 = 4;
const HELD: u32 = 8;

/// A vertex that no walk has reached yet.
const NOT_REACHED: Vertex = [NONE, 0];

/// The vertices that predecessors trace from the goal to the start; of a ring,
/// which a faulty planner may leave, V of them.
fn traced(vertices: &[Vertex], goal: usize) -> impl Iterator<Item = u32> + '_ {
    let walk = std::iter::successors(Some(goal as u32), |&vertex| {
        let [before, _] = vertices[vertex as usize];
        (before != NONE).then_some(before)
    });
    walk.take(vertices.len())
}

/// How a search ends.
enum End {
    Route,
    NoRoute,
    Spent,
}

/// The factors of a round.
#[derive(Clone, Copy)]
struct Factors {
    w1: u64,
    w2: u64,
}

/// A plan in work memory, all its edges, barred or not.
#[derive(Clone, Copy)]
struct Graph<'a> {
    /// V + 1 numbers of first edges; the last is M.
    first: &'a [u32],
    heads: &'a [u32],
    costs: &'a [u32],
    classes: &'a [u32],
}

impl<'a> Graph<'a> {
    /// Loads a checked plan of V vertices and M edges into work memory: first
    /// edges, heads, costs, classes; then the vertices stand there, their
    /// predecessors and marks.
    fn load(
        bytes: &[u8],
        (vertices, edges): (usize, usize),
        work: &'a mut [u32],
    ) -> (Graph<'a>, &'a mut [Vertex]) {
        let (first, rest) = work.split_at_mut(vertices + 1);
        let (heads, rest) = rest.split_at_mut(edges);
        let (costs, rest) = rest.split_at_mut(edges);
        let (classes, rest) = rest.split_at_mut(edges);
        // The first edge of a vertex is numbered by the edges of smaller tail.
        let mut known = 0;
        for_each_edge(bytes, |number, edge| {
            while known <= edge.tail as usize {
                first[known] = number as u32;
                known += 1;
            }
            heads[number] = edge.head;
            costs[number] = edge.cost;
            classes[number] = edge.class;
        });
        first[known..].fill(edges as u32);
        let (state, _) = rest.as_chunks_mut();
        let graph = Graph {
            first,
            heads,
            costs,
            classes,
        };
        (graph, state)
    }

    /// The numbers of a vertex's edges.
    fn edges_of(&self, vertex: usize) -> Range<usize> {
        self.first[vertex] as usize..self.first[vertex + 1] as usize
    }

    /// The cost of the one edge from tail to head.
    fn cost_between(&self, tail: u32, head: u32) -> u32 {
        let edge = self
            .edges_of(tail as usize)
            .find(|&edge| self.heads[edge] == head)
            .expect("a predecessor has an edge to its vertex");
        self.costs[edge]
    }
}

/// The search in hand; it works in the lent memory alone.
struct Search<'a, O> {
    graph: Graph<'a>,
    vertices: &'a mut [Vertex],
    wide: &'a mut [Wide],
    start: usize,
    goal: usize,
    barred: u32,
    anchor: &'a [u32],
    /// The guide sheets, one after another.
    guides: &'a [u32],
    guide_count: usize,
    budget: u32,
    route: &'a mut [u32],
    log: &'a mut [u32],
    turns: u32,
    /// Finished rounds, and W1·W2 of the last of them.
    rounds: u32,
    bound: u32,
    /// Cost and length of the kept route, which stands in route memory.
    kept: Option<(u64, u32)>,
    /// Turns before the round in hand; the guide that a faulty planner goes
    /// on with, and the least key that it goes by.
    turns_before: u32,
    next_guide: usize,
    first_least: Option<u64>,
    onlooker: O,
}

impl<O: Onlooker> Search<'_, O> {
    /// The table of a guide, counted from 1.
    fn guide(&self, guide: usize) -> &[u32] {
        let vertices = self.vertices.len();
        &self.guides[(guide - 1) * vertices..guide * vertices]
    }

    /// The least key(s,i) = 100·g(s) + W1·hi(s) over the open vertices
    /// without the marks `without` that count with their number in the table,
    /// and its vertex; equal keys: the lowest vertex.
    fn least(
        &self,
        table: &[u32],
        w1: u64,
        without: u32,
        counts: impl Fn(usize, u32) -> bool,
    ) -> Option<(u64, usize)> {
        // No key is so great: 100 · 65,520,000,000 + 10,000 · 4,294,967,295 is
        // the most.
        let (mut least, mut lowest) = (u64::MAX, None);
        let both = self.vertices.iter().zip(self.wide.iter());
        for (vertex, ((&[_, marks], &[g, _]), &h)) in both.zip(table).enumerate() {
            if marks & (OPEN | without) == OPEN && counts(vertex, h) {
                let key = 100 * self.key_cost(g) + w1 * u64::from(h);
                if key < least || key == least && self.onlooker.has(Fault::HighestVertex) {
                    (least, lowest) = (key, Some(vertex));
                }
            }
        }
        Some((least, lowest?))
    }

    /// What a key takes for g.
    fn key_cost(&self, g: u64) -> u64 {
        match self.onlooker.has(Fault::NarrowKey) {
            true => u64::from(g as u32),
            false => g,
        }
    }

    /// What a head takes for the cost of a walk.
    fn head_cost(&self, cost: u64) -> u64 {
        match self.onlooker.has(Fault::NarrowG) {
            true => u64::from(cost as u32),
            false => cost,
        }
    }

    /// Whether a turn of a table tries an edge.
    fn permits(&self, cost: u32, class: u32, table: usize) -> bool {
        let tried = self.onlooker.has(Fault::BarredTried)
            || self.onlooker.has(Fault::BarredByAnchor) && table == 0;
        let mut bit = class;
        if self.onlooker.has(Fault::NextClass) {
            bit += 1;
        }
        if self.onlooker.has(Fault::ClassOfCost) {
            bit = cost.min(31);
        }
        tried || self.barred >> bit & 1 == 0
    }

    fn expand(&mut self, vertex: usize, table: usize) {
        let [g, expanded_at] = &mut self.wide[vertex];
        *expanded_at = *g;
        let g = *g;
        let [_, marks] = &mut self.vertices[vertex];
        *marks &= !OPEN;
        let (graph, edges) = (self.graph, self.graph.edges_of(vertex));
        let ends = graph.heads[edges.clone()].iter();
        let costs = graph.costs[edges.clone()].iter();
        for ((&head, &cost), &class) in ends.zip(costs).zip(&graph.classes[edges]) {
            if !self.permits(cost, class, table) {
                continue;
            }
            // No walk without a ring costs over 65,520,000,000: no overflow.
            let cost = self.head_cost(g + u64::from(cost));
            let [g, expanded_at] = &mut self.wide[head as usize];
            let never = *expanded_at == UNREACHED;
            let same = self.onlooker.has(Fault::EqualTaken) && cost == *g && never;
            if cost < *g || same {
                *g = cost;
                let [predecessor, marks] = &mut self.vertices[head as usize];
                *predecessor = vertex as u32;
                let hold = *marks & ANCHOR_MARK != 0 && !self.onlooker.has(Fault::OpenAgain);
                *marks |= if hold { HELD } else { OPEN };
            }
        }
    }

    /// The true sum of the traced walk and its length in vertices.
    fn trace(&self) -> (u64, u32) {
        let (mut cost, mut length) = (0, 1);
        let mut head = self.goal as u32;
        for tail in traced(self.vertices, self.goal).skip(1) {
            cost += u64::from(self.graph.cost_between(tail, head));
            length += 1;
            head = tail;
        }
        let [before, _] = self.vertices[head as usize];
        let ring = before != NONE && !self.onlooker.has(Fault::NarrowG);
        assert!(!ring, "a ring is traced");
        if self.onlooker.has(Fault::NarrowTrace) {
            cost = u64::from(cost as u32);
        }
        (cost, length)
    }

    /// Keeps the traced walk: it is written to route memory.
    fn keep(&mut self, cost: u64, length: u32) {
        let (walk, rest) = self.route.split_at_mut(length as usize);
        rest.fill(NONE);
        let places = walk.iter_mut().rev();
        for (place, vertex) in places.zip(traced(self.vertices, self.goal)) {
            *place = vertex;
        }
        self.kept = Some((cost, length));
    }

    /// Held vertices become open, and all guide and anchor marks go.
    fn begin_round(&mut self) {
        let mut stay = OPEN | HELD;
        if self.onlooker.has(Fault::GuideMarksStay) {
            stay |= GUIDE_MARK;
        }
        if self.onlooker.has(Fault::AnchorMarksStay) {
            stay |= ANCHOR_MARK;
        }
        for [_, marks] in self.vertices.iter_mut() {
            *marks &= stay;
            if *marks & HELD != 0 && !self.onlooker.has(Fault::Forgotten) {
                *marks = *marks & !HELD | OPEN;
            }
        }
        if self.onlooker.has(Fault::ExpandedForgotten) {
            self.forget_expansions();
        }
    }

    /// What a faulty planner does at a round's beginning.
    fn forget_expansions(&mut self) {
        for [_, expanded_at] in self.wide.iter_mut() {
            *expanded_at = UNREACHED;
        }
    }

    /// Whether step 2 ends the search.
    fn spent(&self) -> bool {
        let mut turns = self.turns;
        if self.onlooker.has(Fault::BudgetOfRound) {
            turns -= self.turns_before;
        }
        turns == self.budget
    }

    /// Notes a turn in the log, as far as there is room.
    fn note_turn(&mut self, table: usize, vertex: usize) {
        if let Some(word) = self.log.get_mut(self.turns as usize) {
            *word = vertex as u32 + 65_536 * table as u32;
        }
        self.turns += 1;
    }

    /// Whether step 1 finishes a round, m being the anchor's least key.
    fn is_finished(&self, m: u64, factors: Factors) -> bool {
        let [goal_cost, _] = self.wide[self.goal];
        let factor = match self.onlooker.has(Fault::FinishByW1) {
            true => factors.w1,
            false => factors.w2,
        };
        let strict = u64::from(self.onlooker.has(Fault::FinishStrict));
        let times = match self.onlooker.has(Fault::FinishLate) {
            true => 20_000,
            false => 10_000,
        };
        goal_cost != unreached(&self.onlooker) && times * goal_cost + strict <= factor * m
    }

    /// The anchor's least key and its vertex: every number of its table is
    /// one.
    fn anchor_line(&self, w1: u64) -> Option<(u64, usize)> {
        let none = self.onlooker.has(Fault::OpinionOfAnchor);
        self.least(self.anchor, w1, 0, |_, h| h != NO_OPINION || !none)
    }

    /// The vertex that the anchor fills a guide's turn with is that of its
    /// least key; a faulty planner leaves some out, or looks at no key.
    fn filled(&self, guide: usize, anchor_choice: usize, w1: u64) -> usize {
        if self.onlooker.has(Fault::AnchorLowest) {
            let open = |[_, marks]: &Vertex| marks & OPEN != 0;
            return self.vertices.iter().position(open).unwrap_or(anchor_choice);
        }
        if self.guide_count == 0 || !self.onlooker.has(Fault::OpinionForAnchor) {
            return anchor_choice;
        }
        let sheet = self.guide(guide);
        let line = self.least(self.anchor, w1, 0, |vertex, _| sheet[vertex] != NO_OPINION);
        line.map_or(anchor_choice, |(_, vertex)| vertex)
    }

    /// The least key of the guide with the turn over the vertices that it has
    /// an opinion on, and its vertex.
    fn guide_line(&self, guide: usize, factors: Factors) -> Option<(u64, usize)> {
        if self.guide_count == 0 {
            return None;
        }
        let without = match self.onlooker.has(Fault::GuideMarkIgnored) {
            true => 0,
            false => GUIDE_MARK,
        };
        if self.onlooker.is_faulty() {
            return self.faulty_line(guide, factors, without);
        }
        self.least(self.guide(guide), factors.w1, without, |_, h| {
            h != NO_OPINION
        })
    }

    /// What a planner with a fault takes for a guide's least key.
    fn faulty_line(&self, guide: usize, factors: Factors, without: u32) -> Option<(u64, usize)> {
        let sheet = self.guide(guide);
        let w1 = match self.onlooker.has(Fault::GuideKeyByW2) {
            true => factors.w2,
            false => factors.w1,
        };
        if self.onlooker.has(Fault::OpinionOfZero) {
            let zeros: Vec<u32> = sheet.iter().map(|&h| h % NO_OPINION).collect();
            return self.least(&zeros, w1, without, |_, _| true);
        }
        let counts = |vertex, h| self.has_opinion(guide, vertex, h);
        let line = self.least(sheet, w1, without, counts)?;
        let refused = self.onlooker.has(Fault::OpinionAfterKey) && sheet[line.1] == NO_OPINION;
        (!refused).then_some(line)
    }

    /// Whether a planner with a fault takes a guide's number at a vertex for
    /// an opinion.
    fn has_opinion(&self, guide: usize, vertex: usize, h: u32) -> bool {
        let has = |fault| self.onlooker.has(fault);
        let number = has(Fault::OpinionTaken)
            || has(Fault::OpinionAfterKey)
            || has(Fault::OpinionOneLess)
            || has(Fault::OpinionOfFirstGuide) && guide > 1
            || has(Fault::OpinionOnStart) && vertex == self.start
            || has(Fault::OpinionInFirstRound) && self.rounds > 0;
        let mut opinion = h != NO_OPINION || number;
        if has(Fault::OpinionOneLess) || has(Fault::OpinionOneLessToo) {
            opinion &= h != MOST_OPINION;
        }
        if has(Fault::OpinionOfAnyGuide) {
            let mut sheets = self.guides.chunks_exact(self.vertices.len());
            opinion &= sheets.all(|sheet| sheet[vertex] != NO_OPINION);
        }
        if has(Fault::OpinionOfFirstGuide) {
            opinion &= self.guides[vertex] != NO_OPINION;
        }
        opinion != has(Fault::OpinionInverted)
    }

    /// Whether a guide's least key, that of a vertex, is within w2 times the
    /// anchor's, m.
    fn is_within(&self, (key, vertex): (u64, usize), m: u64, factors: Factors) -> bool {
        if self.onlooker.is_faulty() {
            return self.is_within_by_fault((key, vertex), m, factors);
        }
        100 * key <= factors.w2 * m
    }

    /// The same for a planner with a fault.
    fn is_within_by_fault(&self, line: (u64, usize), m: u64, factors: Factors) -> bool {
        let has = |fault| self.onlooker.has(fault);
        let ((mut key, vertex), mut m, mut factor) = (line, m, factors.w2);
        let [[cost, _], [goal_cost, _]] = [vertex, self.goal].map(|vertex| self.wide[vertex]);
        if has(Fault::GuideByCost) {
            key = 100 * cost;
        }
        if has(Fault::GuideByW1) {
            factor = factors.w1;
        }
        if has(Fault::GuideByGoal) && goal_cost != UNREACHED {
            m = 100 * goal_cost;
        }
        if has(Fault::GuideByFirstLeast) {
            m = self.first_least.unwrap_or(m);
        }
        let untested =
            has(Fault::GuideUnbound) || has(Fault::GuideByGoal) && goal_cost == UNREACHED;
        untested || 100 * key + u64::from(has(Fault::GuideStrict)) <= factor * m
    }

    /// Tells of a vertex that the guide with the turn has no opinion on and
    /// that would have the least key with a number there, m being the
    /// anchor's least key.
    fn tell_of_opinion(&mut self, guide: usize, m: u64, factors: Factors, left: bool) {
        if self.guide_count == 0 || !self.onlooker.looks_closely() {
            return;
        }
        let any = self.least(self.guide(guide), factors.w1, GUIDE_MARK, |_, _| true);
        let without = |&(_, vertex): &(u64, usize)| self.guide(guide)[vertex] == NO_OPINION;
        if let Some((key, vertex)) = any.filter(without) {
            self.onlooker.observe(|| Event::NoOpinion {
                guide: guide as u32,
                vertex: vertex as u32,
                within: 100 * key <= factors.w2 * m,
                left,
            });
        }
    }

    /// A turn: a vertex is marked, noted and expanded for a table.
    fn take_turn(&mut self, round: u32, table: usize, vertex: usize, no_line: bool) {
        let [_, marks] = &mut self.vertices[vertex];
        *marks |= if table > 0 { GUIDE_MARK } else { ANCHOR_MARK };
        let ([g, _], turn) = (self.wide[vertex], self.turns + 1);
        self.onlooker.observe(|| Event::Turn {
            round,
            turn,
            table: table as u32,
            vertex: vertex as u32,
            g,
            no_line,
        });
        self.note_turn(table, vertex);
        self.expand(vertex, table);
    }

    /// The guide that follows after a turn of a table.
    fn guide_after(&self, guide: usize, table: usize) -> usize {
        if table == 0 && self.onlooker.has(Fault::GuideStays) {
            return guide;
        }
        if guide >= self.guide_count {
            1
        } else {
            guide + 1
        }
    }

    /// The guide with the turn is the one whose turn it is; a faulty planner
    /// gives the turn to the next one with a vertex to take.
    fn guide_with_turn(&self, guide: usize, factors: Factors) -> usize {
        if !self.onlooker.has(Fault::OpinionLosesTurn) {
            return guide;
        }
        let guides = std::iter::successors(Some(guide), |&guide| Some(self.guide_after(guide, 1)));
        let mut guides = guides.take(self.guide_count);
        let found = guides.find(|&guide| self.guide_line(guide, factors).is_some());
        found.unwrap_or(guide)
    }

    /// Nothing is open any more.
    fn no_route(&mut self, round: u32) -> End {
        let held = |[_, marks]: &&Vertex| marks & HELD != 0;
        let held = self.vertices.iter().filter(held).count() as u32;
        let turns = self.turns;
        self.onlooker
            .observe(|| Event::NoRoute { round, turns, held });
        End::NoRoute
    }

    /// One round; `None` if it is finished.
    fn round(&mut self, round: u32, factors: Factors) -> Option<End> {
        let mut guide = 1;
        if self.onlooker.has(Fault::GuideGoesOn) {
            guide = self.next_guide;
        }
        loop {
            if self.onlooker.has(Fault::BudgetFirst) && self.spent() {
                return Some(End::Spent);
            }
            // Step 1.
            let Some((m, anchor_choice)) = self.anchor_line(factors.w1) else {
                return Some(self.no_route(round));
            };
            if self.is_finished(m, factors) {
                return None;
            }
            // Step 2.
            if self.spent() {
                let turns = self.turns;
                self.onlooker.observe(|| Event::Cut { round, turns });
                return Some(End::Spent);
            }
            // Step 3.
            guide = self.guide_with_turn(guide, factors);
            let line = self.guide_line(guide, factors);
            let no_line = self.guide_count > 0 && line.is_none();
            self.tell_of_opinion(guide, m, factors, !no_line);
            if no_line && self.onlooker.has(Fault::NothingExpanded) {
                return Some(End::NoRoute);
            }
            let (table, vertex) = match line.filter(|&line| self.is_within(line, m, factors)) {
                Some((_, vertex)) => (guide, vertex),
                None => (0, self.filled(guide, anchor_choice, factors.w1)),
            };
            self.take_turn(round, table, vertex, no_line);
            guide = self.guide_after(guide, table);
            self.next_guide = guide;
        }
    }

    /// Traces the walk of a finished round and keeps it if it is the first
    /// or strictly cheaper.
    fn finish_round(&mut self, round: u32) {
        let (mut cost, length) = self.trace();
        let [goal_cost, _] = self.wide[self.goal];
        if self.onlooker.has(Fault::CostOfGoal) {
            cost = goal_cost;
        }
        let (turns, kept) = (self.turns, self.kept.map(|(cost, _)| cost));
        self.onlooker.observe(|| {
            let mut walk: Vec<u32> = traced(self.vertices, self.goal).collect();
            walk.reverse();
            Event::Finish {
                round,
                turns,
                goal_cost,
                traced: walk,
                traced_cost: cost,
                kept,
            }
        });
        let better = |kept: u64| {
            cost < kept
                || self.onlooker.has(Fault::LastKept)
                || self.onlooker.has(Fault::EqualKept) && cost == kept
        };
        if kept.is_none_or(better) {
            self.keep(cost, length);
        }
        self.rounds += 1;
    }

    fn run(&mut self, schedule: &[u32]) -> End {
        for (round, pair) in (1..).zip(schedule.chunks_exact(2)) {
            // Only a faulty planner has factors above the limit.
            let [w1, w2] = [pair[0], pair[1]].map(|factor| factor.min(MOST_FACTOR).into());
            let factors = Factors { w1, w2 };
            self.turns_before = self.turns;
            if !(self.onlooker.has(Fault::NoBegin) && self.spent()) {
                self.begin_round();
            }
            if self.onlooker.has(Fault::GuideByFirstLeast) {
                self.first_least = self.anchor_line(factors.w1).map(|(m, _)| m);
            }
            self.onlooker.observe(|| Event::Begin { round });
            match self.round(round, factors) {
                None => {}
                Some(_) if self.rounds > 0 => {
                    if self.onlooker.has(Fault::BoundOfCutRound) {
                        self.bound = (w1 * w2) as u32;
                    }
                    return End::Route;
                }
                Some(end) => return end,
            }
            self.finish_round(round);
            self.bound = (w1 * w2) as u32;
        }
        // Only a faulty planner has no rounds.
        match self.kept {
            Some(_) => End::Route,
            None => End::Spent,
        }
    }
}

/// Whether row 10 refuses the factors of a call's rounds, or of a sheet that a
/// site loads for its default schedule.
pub fn is_bad_schedule(schedule: &[u32]) -> bool {
    schedule.is_empty()
        || schedule.len() > MOST_FACTORS
        || schedule.len() % 2 == 1
        || schedule
            .iter()
            .any(|factor| !(100..=MOST_FACTOR).contains(factor))
        || schedule
            .iter()
            .zip(schedule.iter().skip(2))
            .any(|(before, after)| after > before)
}

/// One planner call.
pub fn plan(request: &Request, memory: Memory) -> Answer {
    let room = Room::of(&memory);
    plan_with(request, memory, room, Nobody)
}

/// One planner call where row 11 looks at more room than that of its memory.
pub fn plan_in(request: &Request, memory: Memory, room: Room) -> Answer {
    plan_with(request, memory, room, Nobody)
}

/// One planner call whose events are handed to `observe`, all but those of
/// guides without opinion, with a fault if one is wanted.
pub fn plan_observed(
    request: &Request,
    memory: Memory,
    fault: Option<Fault>,
    observe: &mut dyn FnMut(Event),
) -> Answer {
    let observer = Observer {
        fault,
        closely: false,
        observe,
    };
    let room = Room::of(&memory);
    plan_with(request, memory, room, observer)
}

/// One planner call whose events are all handed to `observe`.
pub fn plan_observed_closely(
    request: &Request,
    memory: Memory,
    observe: &mut dyn FnMut(Event),
) -> Answer {
    let observer = Observer {
        fault: None,
        closely: true,
        observe,
    };
    let room = Room::of(&memory);
    plan_with(request, memory, room, observer)
}

fn plan_with<O: Onlooker>(request: &Request, memory: Memory, room: Room, onlooker: O) -> Answer {
    let schedule = taken(request, &onlooker);
    let counts = match admitted(request, schedule, room, &onlooker) {
        Ok(counts) => counts,
        Err(Refusal { number, position }) => return Answer::Refused { number, position },
    };
    let mut search = loaded(request, memory, counts, onlooker);
    let end = search.run(schedule);
    let turns = search.turns;
    match end {
        End::Route => {
            let (cost, length) = search.kept.expect("a finished round keeps a route");
            Answer::Route {
                cost,
                length,
                rounds: search.rounds,
                turns,
                bound: search.bound,
            }
        }
        End::NoRoute => Answer::NoRoute { turns },
        End::Spent => Answer::Unfinished { turns },
    }
}

/// The room of lent memory that row 11 looks at.
#[derive(Clone, Copy, Debug)]
pub struct Room {
    pub route: usize,
    pub work: usize,
    pub wide: usize,
    /// An explanation's lists, of places and of lanes; a planner call has
    /// none.
    pub lists: Option<[usize; 2]>,
}

impl Room {
    pub fn of(memory: &Memory) -> Room {
        Room {
            route: memory.route.len(),
            work: memory.work.len(),
            wide: memory.wide.len(),
            lists: None,
        }
    }

    /// Whether it is too little for V vertices and M edges.
    pub fn is_short(&self, vertices: usize, edges: usize) -> bool {
        let short_list = |[places, lanes]: [usize; 2]| places < vertices || lanes < edges;
        self.route < vertices
            || self.work < work_words(vertices, edges)
            || self.wide < wide_numbers(vertices)
            || self.lists.is_some_and(short_list)
    }
}

/// The factors that a call takes for its rounds, to the end.
fn taken<'a>(request: &Request<'a>, onlooker: &impl Onlooker) -> &'a [u32] {
    let (own, default) = (request.schedule, request.default_schedule);
    let has = |fault| onlooker.has(fault);
    match own {
        _ if has(Fault::DefaultPreferred) => or_default(default, own),
        [] if has(Fault::StandardForEmpty) => or_default(default, &STANDARD_SCHEDULE),
        [] if has(Fault::StandardForDefault) && !is_bad_schedule(default) => &STANDARD_SCHEDULE,
        _ => or_default(own, default),
    }
}

/// Whether row 10 refuses a call that takes these factors.
fn is_refused_for(schedule: &[u32], request: &Request, onlooker: &impl Onlooker) -> bool {
    if onlooker.has(Fault::DefaultUntested) && request.schedule.is_empty() {
        return false;
    }
    let beside = onlooker.has(Fault::DefaultTestedBeside);
    is_bad_schedule(schedule) || beside && is_bad_schedule(request.default_schedule)
}

/// V and M of a call that no row of the paper's table refuses.
fn admitted(
    request: &Request,
    schedule: &[u32],
    room: Room,
    onlooker: &impl Onlooker,
) -> Result<(usize, usize), Refusal> {
    let refused = |number, position| Err(Refusal { number, position });
    let (vertices, edges) = reference::check_plan(request.bytes)?;
    let ends = [request.start, request.goal];
    if ends.iter().any(|&end| end >= vertices) || request.barred > MOST_BARRED {
        return refused(8, 0);
    }
    let (vertices, edges) = (vertices as usize, edges as usize);
    let guides = request.guide_count;
    if guides > 8
        || request.anchor.len() != vertices
        || request.guides.len() != guides as usize * vertices
    {
        return refused(9, 0);
    }
    if is_refused_for(schedule, request, onlooker) {
        return refused(10, 0);
    }
    if room.is_short(vertices, edges) {
        return refused(11, 0);
    }
    if request.anchor[request.goal as usize] != 0 {
        return refused(12, 0);
    }
    match first_broken(request, onlooker) {
        Some(edge) => refused(13, edge),
        None => Ok((vertices, edges)),
    }
}

/// The first edge, barred or not, on which the anchor table breaks its rule.
fn first_broken(request: &Request, onlooker: &impl Onlooker) -> Option<usize> {
    let mut broken = None;
    for_each_edge(request.bytes, |number, edge| {
        let ends = [edge.tail, edge.head].map(|end| request.anchor[end as usize]);
        let [tail, head] = ends.map(u64::from);
        let barred = request.barred >> edge.class & 1 == 1;
        let left_out = barred && onlooker.has(Fault::RuleOfPermitted);
        if broken.is_none() && tail > u64::from(edge.cost) + head && !left_out {
            broken = Some(number);
        }
    });
    broken
}

/// What stands for not reached and never expanded.
fn unreached(onlooker: &impl Onlooker) -> u64 {
    match onlooker.has(Fault::NarrowUnreached) {
        true => u64::from(u32::MAX),
        false => UNREACHED,
    }
}

/// The search of an admitted call with V vertices and M edges, at its
/// beginning.
fn loaded<'a, O: Onlooker>(
    request: &Request<'a>,
    memory: Memory<'a>,
    counts: (usize, usize),
    onlooker: O,
) -> Search<'a, O> {
    let (vertices, edges) = counts;
    let work = &mut memory.work[..work_words(vertices, edges)];
    let (graph, state) = Graph::load(request.bytes, counts, work);
    let (wide, _) = memory.wide[..wide_numbers(vertices)].as_chunks_mut();
    let (start, unreached) = (request.start as usize, unreached(&onlooker));
    state.fill(NOT_REACHED);
    state[start] = [NONE, OPEN];
    wide.fill([unreached; 2]);
    wide[start] = [0, unreached];
    Search {
        graph,
        vertices: state,
        wide,
        start,
        goal: request.goal as usize,
        barred: request.barred,
        anchor: request.anchor,
        guides: request.guides,
        guide_count: request.guide_count as usize,
        budget: request.budget,
        route: &mut memory.route[..vertices],
        log: memory.log,
        turns: 0,
        rounds: 0,
        bound: 0,
        kept: None,
        turns_before: 0,
        next_guide: 1,
        first_least: None,
        onlooker,
    }
}

/// Hands each edge of a checked plan to `take`.
fn for_each_edge(bytes: &[u8], take: impl FnMut(usize, Edge)) {
    reference::walk_plan(bytes, take).expect("the plan is checked");
}
