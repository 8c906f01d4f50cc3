//! The comparison of explanations finds planted faults: seeded questions and
//! texts, a fraction of those that the library gets, tell each faulty explainer
//! from the second side.

use secondcoop_tests::bench_text;
use secondcoop_tests::cut_off::cut_off_jobs;
use secondcoop_tests::dijkstra::is_permitted;
use secondcoop_tests::explainers::{differ, texts_differ, Explainer, Question};
use secondcoop_tests::explanation::{self, edges_of, Figures, Lists, Reason};
use secondcoop_tests::jobs;
use secondcoop_tests::planner::{self, Answer, Memory, Request, Room, NONE};
use secondcoop_tests::planners::{write_text, Before, Library, SecondPlanner};
use secondcoop_tests::reference::{self, Edge};

/// What is wrong with an explanation or with its lines.
#[derive(Clone, Copy, Debug, PartialEq, Eq)]
enum Fault {
    /// Nothing: the comparison must find nothing.
    None,
    /// Chains over any lanes.
    ClassLeftOut,
    /// Chains over barred lanes.
    BarredChains,
    /// Bit k bars class k − 1.
    NextClass,
    /// The places from which a chain leads to the start.
    Backwards,
    /// Lanes are used both ways.
    BothWays,
    /// The start and the heads of its lanes.
    OneStep,
    /// The places from which no chain leads to the goal.
    NotToTheGoal,
    /// Places in the order in which they are found.
    AsFound,
    /// Places fall.
    FallingPlaces,
    /// The start is left out.
    WithoutStart,
    /// The last place is left out.
    WithoutLast,
    /// The goal is put in.
    WithGoal,
    /// The places that are open when the search ends.
    OpenPlaces,
    /// The places expanded for a guide.
    GuideMarks,
    /// The places expanded for the anchor.
    AnchorMarks,
    /// The places that are not held.
    NotHeld,
    /// The places with a predecessor.
    WithPredecessor,
    /// Barred lanes whose head is in the set and whose tail is not.
    HeadForTail,
    /// Barred lanes that leave the set or lead into it.
    EitherWay,
    /// Barred lanes whose tail is in the set, wherever they lead.
    TailAlone,
    /// Lanes from a place to itself, besides.
    SelfLanes,
    /// All barred lanes.
    AllBarred,
    /// Of the lowest barred class alone.
    OneClass,
    /// Lanes to the goal alone.
    ToTheGoal,
    /// One lane for each tail.
    OneOfTail,
    /// One lane for each head.
    OneOfHead,
    /// The last lane is left out.
    WithoutLastLane,
    /// Lanes fall.
    FallingLanes,
    /// Lane numbers from 1.
    FromOne,
    /// Numbers among permitted lanes.
    AmongPermitted,
    /// Numbers among barred lanes.
    AmongBarred,
    /// Numbers among the lanes of the tail.
    AmongTails,
    /// Heads in place of lane numbers.
    HeadsOfLanes,
    /// Lists where the call is unfinished.
    OnUnfinished,
    /// Lists where there is a route.
    OnRoute,
    /// Lists at a refusal by the anchor table.
    AtRefusal,
    /// Both counts where there is a route.
    CountsOnRoute,
    /// Both counts where the call is unfinished.
    CountsOnUnfinished,
    /// The counts change places.
    SwappedCounts,
    /// The counts are 0.
    NoCounts,
    /// V is the count of places.
    CountOfAll,
    /// Words behind the places up to V are filled.
    PlacesFilled,
    /// Words behind the lanes up to M are filled.
    LanesFilled,
    /// The word behind the last place is cleared.
    PlacesBeyond,
    /// The word behind the last lane is cleared.
    LanesBeyond,
    /// The lists change places.
    SwappedLists,
    /// The list of lanes is not looked at in row 11.
    LanesAny,
    /// The list of places is not looked at in row 11.
    PlacesAny,
    /// A list of places one word short passes.
    PlacesLimit,
    /// A list of lanes one word short passes.
    LanesLimit,
    /// A list of V places is too short.
    PlacesStrict,
    /// A list of M lanes is too short.
    LanesStrict,
    /// V lanes and M places.
    SwappedLimits,
    /// Lists need what is listed alone.
    ByNeed,
    /// The lists are looked at after the anchor table.
    AfterAnchor,
    /// The lists are looked at before the call's rows.
    BeforeCall,
    /// The lists are looked at before the plan's faults, those of places by
    /// the anchor table's length.
    BeforePlan,
    /// What was reached is marked in work memory.
    WorkMarked,
    /// The log is not written.
    NoLog,
    /// Route memory is filled where there is no route.
    RouteFilled,
    /// Wide memory is cleared where there is no route.
    WideCleared,
    /// The lines have turns.
    TextTurns,
    /// The lines have no places.
    TextNoPlaces,
    /// The line of places ends in a space.
    TextSpace,
    /// Places are parted by commas.
    TextCommas,
    /// The lines of lanes have no class.
    TextNoClass,
    /// Tail and head change places.
    TextSwapped,
    /// Lanes count from 1.
    TextFromOne,
    /// Without barred lanes that is said in a line.
    TextNone,
    /// The text has no last line end.
    TextEnd,
    /// Turns are left out at no route.
    TextNoTurns,
    /// The length is that of the bytes written.
    TextLength,
    /// Nothing is written if there is too little room.
    TextAllOrNothing,
    /// The byte after the text is cleared.
    TextBeyond,
}

/// The faults of the call and its lists.
const CALL: [Fault; 61] = [
    Fault::ClassLeftOut,
    Fault::BarredChains,
    Fault::NextClass,
    Fault::Backwards,
    Fault::BothWays,
    Fault::OneStep,
    Fault::NotToTheGoal,
    Fault::AsFound,
    Fault::FallingPlaces,
    Fault::WithoutStart,
    Fault::WithoutLast,
    Fault::WithGoal,
    Fault::OpenPlaces,
    Fault::GuideMarks,
    Fault::AnchorMarks,
    Fault::NotHeld,
    Fault::WithPredecessor,
    Fault::HeadForTail,
    Fault::EitherWay,
    Fault::TailAlone,
    Fault::SelfLanes,
    Fault::AllBarred,
    Fault::OneClass,
    Fault::ToTheGoal,
    Fault::OneOfTail,
    Fault::OneOfHead,
    Fault::WithoutLastLane,
    Fault::FallingLanes,
    Fault::FromOne,
    Fault::AmongPermitted,
    Fault::AmongBarred,
    Fault::AmongTails,
    Fault::HeadsOfLanes,
    Fault::OnUnfinished,
    Fault::OnRoute,
    Fault::AtRefusal,
    Fault::CountsOnRoute,
    Fault::CountsOnUnfinished,
    Fault::SwappedCounts,
    Fault::NoCounts,
    Fault::CountOfAll,
    Fault::PlacesFilled,
    Fault::LanesFilled,
    Fault::PlacesBeyond,
    Fault::LanesBeyond,
    Fault::SwappedLists,
    Fault::LanesAny,
    Fault::PlacesAny,
    Fault::PlacesLimit,
    Fault::LanesLimit,
    Fault::PlacesStrict,
    Fault::LanesStrict,
    Fault::SwappedLimits,
    Fault::ByNeed,
    Fault::AfterAnchor,
    Fault::BeforeCall,
    Fault::BeforePlan,
    Fault::WorkMarked,
    Fault::NoLog,
    Fault::RouteFilled,
    Fault::WideCleared,
];

/// The faults of the lines.
const TEXT: [Fault; 13] = [
    Fault::TextTurns,
    Fault::TextNoPlaces,
    Fault::TextSpace,
    Fault::TextCommas,
    Fault::TextNoClass,
    Fault::TextSwapped,
    Fault::TextFromOne,
    Fault::TextNone,
    Fault::TextEnd,
    Fault::TextNoTurns,
    Fault::TextLength,
    Fault::TextAllOrNothing,
    Fault::TextBeyond,
];

struct Faulty(Fault);

/// The vertices that pairs lead to from one of them, as they are found.
fn found(pairs: &[(u32, u32)], from: u32) -> Vec<u32> {
    let mut list = vec![from];
    let mut at = 0;
    while let Some(&vertex) = list.get(at) {
        let next = pairs.iter().filter(|pair| pair.0 == vertex);
        for &(_, to) in next {
            if !list.contains(&to) {
                list.push(to);
            }
        }
        at += 1;
    }
    list
}

fn rising(mut list: Vec<u32>) -> Vec<u32> {
    list.sort_unstable();
    list
}

/// A plan's edges, and which of them are barred.
struct Floor<'a> {
    request: &'a Request<'a>,
    edges: Vec<Edge>,
    vertices: u32,
}

impl Floor<'_> {
    fn is_barred(&self, edge: &Edge) -> bool {
        !is_permitted(self.request.barred, edge.class)
    }

    /// Tail and head of the edges that are wanted.
    fn pairs(&self, wanted: impl Fn(&Edge) -> bool) -> Vec<(u32, u32)> {
        let edges = self.edges.iter().filter(|edge| wanted(edge));
        edges.map(|edge| (edge.tail, edge.head)).collect()
    }

    /// The vertices whose predecessor and marks in work memory are wanted.
    fn by_work(&self, work: &[u32], wanted: impl Fn(u32, u32) -> bool) -> Vec<u32> {
        let vertices = self.vertices as usize;
        let state = &work[vertices + 1 + 3 * self.edges.len()..];
        let words = |vertex: &u32| &state[2 * *vertex as usize..];
        (0..self.vertices)
            .filter(|vertex| wanted(words(vertex)[0], words(vertex)[1]))
            .collect()
    }

    /// The numbers of the edges that are wanted.
    fn lanes(&self, wanted: impl Fn(&Edge) -> bool) -> Vec<u32> {
        let numbered = (0..).zip(&self.edges);
        let wanted = numbered.filter(|(_, edge)| wanted(edge));
        wanted.map(|(number, _)| number).collect()
    }

    /// How many wanted edges come before each of these.
    fn among(&self, lanes: &[u32], wanted: impl Fn(&Edge, &Edge) -> bool) -> Vec<u32> {
        let number = |&lane: &u32| {
            let (before, rest) = self.edges.split_at(lane as usize);
            before.iter().filter(|edge| wanted(edge, &rest[0])).count() as u32
        };
        lanes.iter().map(number).collect()
    }
}

/// Faults of what is listed.
impl Faulty {
    fn places(&self, floor: &Floor, right: &[u32], work: &[u32]) -> Vec<u32> {
        let request = floor.request;
        let (start, goal) = (request.start, request.goal);
        let permitted = floor.pairs(|edge| !floor.is_barred(edge));
        let back: Vec<(u32, u32)> = permitted.iter().map(|&(tail, head)| (head, tail)).collect();
        match self.0 {
            Fault::ClassLeftOut => rising(found(&floor.pairs(|_| true), start)),
            Fault::BarredChains => rising(found(&floor.pairs(|edge| floor.is_barred(edge)), start)),
            Fault::NextClass => {
                let next = |edge: &Edge| is_permitted(request.barred, edge.class + 1);
                rising(found(&floor.pairs(next), start))
            }
            Fault::Backwards => rising(found(&back, start)),
            Fault::BothWays => rising(found(&[permitted, back].concat(), start)),
            Fault::OneStep => {
                let step = |&vertex: &u32| vertex == start || permitted.contains(&(start, vertex));
                (0..floor.vertices).filter(step).collect()
            }
            Fault::NotToTheGoal => {
                let far = found(&back, goal);
                (0..floor.vertices).filter(|v| !far.contains(v)).collect()
            }
            Fault::AsFound => found(&permitted, start),
            Fault::FallingPlaces => right.iter().rev().copied().collect(),
            Fault::WithoutStart => right.iter().copied().filter(|&v| v != start).collect(),
            Fault::WithoutLast => right[..right.len() - 1].to_vec(),
            Fault::WithGoal => rising([right, &[goal]].concat()),
            Fault::OpenPlaces => floor.by_work(work, |_, marks| marks & 4 > 0),
            Fault::GuideMarks => floor.by_work(work, |_, marks| marks & 1 > 0),
            Fault::AnchorMarks => floor.by_work(work, |_, marks| marks & 2 > 0),
            Fault::NotHeld => {
                let free = floor.by_work(work, |_, marks| marks & 8 == 0);
                right.iter().copied().filter(|v| free.contains(v)).collect()
            }
            Fault::WithPredecessor => floor.by_work(work, |before, _| before != NONE),
            _ => right.to_vec(),
        }
    }

    fn lanes(&self, floor: &Floor, places: &[u32], right: &[u32]) -> Vec<u32> {
        let within = |vertex: u32| places.contains(&vertex);
        let barred = |edge: &Edge| floor.is_barred(edge);
        let leaves = |edge: &Edge| barred(edge) && within(edge.tail) && !within(edge.head);
        let enters = |edge: &Edge| barred(edge) && !within(edge.tail) && within(edge.head);
        let own = |edge: &Edge| edge.tail == edge.head && within(edge.tail);
        let edge = |lane: &u32| floor.edges[*lane as usize];
        let mut lanes = right.to_vec();
        match self.0 {
            Fault::HeadForTail => return floor.lanes(enters),
            Fault::EitherWay => return floor.lanes(|edge| leaves(edge) || enters(edge)),
            Fault::TailAlone => return floor.lanes(|edge| barred(edge) && within(edge.tail)),
            Fault::SelfLanes => return floor.lanes(|edge| leaves(edge) || own(edge)),
            Fault::AllBarred => return floor.lanes(barred),
            Fault::OneClass => {
                let lowest = floor.request.barred.trailing_zeros();
                lanes.retain(|lane| edge(lane).class == lowest);
            }
            Fault::ToTheGoal => lanes.retain(|lane| edge(lane).head == floor.request.goal),
            Fault::OneOfTail => lanes.dedup_by_key(|lane| edge(lane).tail),
            Fault::OneOfHead => {
                let mut heads = Vec::new();
                lanes.retain(|lane| {
                    let head = edge(lane).head;
                    let is_new = !heads.contains(&head);
                    heads.push(head);
                    is_new
                });
            }
            Fault::WithoutLastLane => drop(lanes.pop()),
            Fault::FallingLanes => lanes.reverse(),
            Fault::FromOne => lanes.iter_mut().for_each(|lane| *lane += 1),
            Fault::AmongPermitted => return floor.among(right, |edge, _| !barred(edge)),
            Fault::AmongBarred => return floor.among(right, |edge, _| barred(edge)),
            Fault::AmongTails => return floor.among(right, |edge, own| edge.tail == own.tail),
            Fault::HeadsOfLanes => lanes.iter_mut().for_each(|lane| *lane = edge(lane).head),
            // By the set that is listed, if that is another one.
            _ => return floor.lanes(leaves),
        }
        lanes
    }

    /// What is listed of a call that no row of the plan or of the call before
    /// the anchor table refuses.
    fn reason(&self, request: &Request, work: &[u32]) -> Reason {
        let right = Reason::of(request);
        let (edges, vertices) = edges_of(request.bytes);
        let vertices = vertices as u32;
        let floor = Floor {
            request,
            edges,
            vertices,
        };
        let places = self.places(&floor, &right.places, work);
        let lanes = match self.0 {
            Fault::AsFound | Fault::FallingPlaces => right.lanes,
            _ => self.lanes(&floor, &places, &right.lanes),
        };
        Reason { places, lanes }
    }
}

/// Copies as much of a list as there is room for.
fn lay(list: &[u32], lent: &mut [u32]) {
    let length = list.len().min(lent.len());
    lent[..length].copy_from_slice(&list[..length]);
}

/// V and M of a call's plan, if it is accepted.
fn counts(request: &Request) -> Option<[usize; 2]> {
    let (vertices, edges) = reference::check_plan(request.bytes).ok()?;
    Some([vertices as usize, edges as usize])
}

/// Faults of row 11.
impl Faulty {
    /// The room as row 11 sees it.
    fn room(&self, request: &Request, room: Room) -> Room {
        let [places, lanes] = room.lists.expect("an explanation has lists");
        let any = usize::MAX;
        let lists = match self.0 {
            Fault::LanesAny => [places, any],
            Fault::PlacesAny => [any, lanes],
            Fault::PlacesLimit => [places + 1, lanes],
            Fault::LanesLimit => [places, lanes + 1],
            Fault::PlacesStrict => [places.saturating_sub(1), lanes],
            Fault::LanesStrict => [places, lanes.saturating_sub(1)],
            Fault::SwappedLimits => [lanes, places],
            Fault::ByNeed => match counts(request) {
                Some([vertices, edges]) if places < vertices || lanes < edges => [any, any],
                _ => [places, lanes],
            },
            Fault::AfterAnchor => [any, any],
            _ => [places, lanes],
        };
        Room {
            lists: Some(lists),
            ..room
        }
    }

    /// Whether short lists are refused before or behind the others' row.
    fn refuses(&self, request: &Request, room: Room, answer: &Answer) -> bool {
        let [places, lanes] = room.lists.expect("an explanation has lists");
        let is_refused = matches!(answer, Answer::Refused { .. });
        let is_short = counts(request).is_some_and(|[v, e]| places < v || lanes < e);
        match self.0 {
            Fault::AfterAnchor => is_short && !is_refused,
            Fault::BeforeCall => is_short,
            Fault::BeforePlan => places < request.anchor.len(),
            Fault::ByNeed if is_short && matches!(answer, Answer::NoRoute { .. }) => {
                let reason = Reason::of(request);
                reason.places.len() > places || reason.lanes.len() > lanes
            }
            _ => false,
        }
    }
}

/// Faults of memory, after a call.
impl Faulty {
    /// Whether the lists are written after an answer.
    fn writes(&self, answer: &Answer) -> bool {
        match answer {
            Answer::NoRoute { .. } => true,
            Answer::Unfinished { .. } => self.0 == Fault::OnUnfinished,
            Answer::Route { .. } => self.0 == Fault::OnRoute,
            Answer::Refused { number, .. } => {
                self.0 == Fault::AtRefusal && [12, 13].contains(number)
            }
        }
    }

    fn write(&self, reason: &Reason, lists: &mut Lists, [vertices, edges]: [usize; 2]) {
        let (places, lanes) = (&reason.places, &reason.lanes);
        match self.0 {
            Fault::SwappedLists => {
                lay(lanes, lists.places);
                lay(places, lists.lanes);
                return;
            }
            Fault::PlacesFilled => lists.places[..vertices].fill(NONE),
            Fault::LanesFilled => lists.lanes[..edges].fill(NONE),
            Fault::PlacesBeyond => lists
                .places
                .iter_mut()
                .skip(places.len())
                .take(1)
                .for_each(|word| *word = 0),
            Fault::LanesBeyond => lists
                .lanes
                .iter_mut()
                .skip(lanes.len())
                .take(1)
                .for_each(|word| *word = 0),
            _ => {}
        }
        lay(places, lists.places);
        lay(lanes, lists.lanes);
    }

    fn spoil(&self, reason: &Reason, memory: &mut Memory, before: &Before, counts: [usize; 2]) {
        let [vertices, edges] = counts;
        match self.0 {
            Fault::WorkMarked => {
                let state = &mut memory.work[vertices + 1 + 3 * edges..];
                for &place in &reason.places {
                    state[2 * place as usize + 1] |= 16;
                }
            }
            Fault::NoLog => memory.log.copy_from_slice(&before.log),
            Fault::RouteFilled => memory.route[..vertices].fill(NONE),
            Fault::WideCleared => memory.wide[..2 * vertices].fill(0),
            _ => {}
        }
    }

    /// The counts that are told.
    fn told(&self, answer: &Answer, reason: &Reason, vertices: usize) -> [u64; 2] {
        let [places, lanes] = reason.counts();
        match (self.0, answer) {
            (Fault::SwappedCounts, Answer::NoRoute { .. }) => [lanes, places],
            (Fault::NoCounts, _) => [0, 0],
            (Fault::CountOfAll, Answer::NoRoute { .. }) => [vertices as u64, lanes],
            (Fault::CountsOnRoute, Answer::Route { .. }) => [places, lanes],
            (Fault::CountsOnUnfinished, Answer::Unfinished { .. }) => [places, lanes],
            (_, Answer::NoRoute { .. }) => [places, lanes],
            _ => [0, 0],
        }
    }
}

impl Explainer for Faulty {
    fn explain(&self, request: &Request, mut memory: Memory, mut lists: Lists) -> Figures {
        let (room, before) = (explanation::room_of(&memory, &lists), Before::of(&memory));
        let lent = Memory {
            route: memory.route,
            log: memory.log,
            work: memory.work,
            wide: memory.wide,
        };
        let mut answer = planner::plan_in(request, lent, self.room(request, room));
        if self.refuses(request, room, &answer) {
            before.restore(&mut memory);
            answer = Answer::Refused {
                number: 11,
                position: 0,
            };
        }
        let Some(counts) = counts(request) else {
            return explanation::figures(&answer, [0; 2]);
        };
        if let Answer::Refused { .. } = answer {
            if !self.writes(&answer) {
                return explanation::figures(&answer, [0; 2]);
            }
        }
        let reason = self.reason(request, memory.work);
        if self.writes(&answer) {
            self.write(&reason, &mut lists, counts);
        }
        if let Answer::NoRoute { .. } = answer {
            self.spoil(&reason, &mut memory, &before, counts);
        }
        explanation::figures(&answer, self.told(&answer, &reason, counts[0]))
    }

    fn explain_text(&self, job: &[u8], text: &mut [u8]) -> usize {
        let printed = self.printed(job);
        if self.0 == Fault::TextAllOrNothing && printed.len() > text.len() {
            return printed.len();
        }
        let length = write_text(&printed, text);
        match self.0 {
            Fault::TextLength => length.min(text.len()),
            Fault::TextBeyond => {
                if let Some(byte) = text.get_mut(length) {
                    *byte = 0;
                }
                length
            }
            _ => length,
        }
    }
}

impl Faulty {
    /// The lines, each spoilt by itself.
    fn printed(&self, job: &[u8]) -> String {
        let right = explanation::explain_text(job);
        if self.0 == Fault::TextTurns {
            let turns = bench_text::bench_text(job);
            let turns = turns.lines().filter(|line| line.starts_with("turn "));
            return turns.map(|line| format!("{line}\n")).collect::<String>() + &right;
        }
        let mut text: String = right.lines().map(|line| self.line(line)).collect();
        match self.0 {
            Fault::TextEnd => drop(text.pop()),
            Fault::TextNone if text.contains("reach") && !text.contains("barred") => {
                text += "barred lane none\n";
            }
            _ => {}
        }
        text
    }

    fn line(&self, line: &str) -> String {
        let words: Vec<&str> = line.split(' ').collect();
        match (self.0, &words[..]) {
            (Fault::TextNoPlaces, ["reach", ..]) => return String::new(),
            (Fault::TextSpace, ["reach", ..]) => return format!("{line} \n"),
            (Fault::TextCommas, ["reach", places @ ..]) => {
                return format!("reach {}\n", places.join(", "));
            }
            (Fault::TextNoClass, ["barred", .., _, _]) => {
                return words[..words.len() - 2].join(" ") + "\n";
            }
            (Fault::TextSwapped, ["barred", _, lane, _, tail, _, head, rest @ ..]) => {
                let rest = rest.join(" ");
                return format!("barred lane {lane} tail {head} head {tail} {rest}\n");
            }
            (Fault::TextFromOne, ["barred", _, lane, rest @ ..]) => {
                let lane: u32 = lane.parse().expect("a number");
                return format!("barred lane {} {}\n", lane + 1, rest.join(" "));
            }
            (Fault::TextNoTurns, ["no", "route", ..]) => return "no route\n".into(),
            _ => {}
        }
        format!("{line}\n")
    }
}

/// Differences that are enough: what comes after them is left out.
const ENOUGH: usize = 3;

/// Seeded questions and texts.
struct Seeded {
    questions: Vec<Question>,
    texts: Vec<Vec<u8>>,
}

impl Seeded {
    fn new() -> Seeded {
        let (mut questions, mut texts) = (Vec::new(), Vec::new());
        let mut turn = 0;
        // Lists just long enough, longer, and either one word short.
        let mut question = |job: &jobs::Job| {
            turn += 1;
            let exact = Question::of(job);
            let [places, lanes] = [exact.places_room, exact.lanes_room];
            let [places_room, lanes_room] = match turn % 8 {
                0 => [places - 1, lanes],
                1 => [places, lanes.saturating_sub(1)],
                2 => [places + 2, lanes + 2],
                3 => [places / 2, lanes / 2],
                _ => [places, lanes],
            };
            questions.push(Question {
                places_room,
                lanes_room,
                ..exact
            });
        };
        cut_off_jobs(61, 3_000, &mut |_, job| {
            question(job);
            texts.push(job.bench_bytes());
        });
        jobs::valid_jobs(62, 600, &mut |_, job| question(job));
        jobs::damaged_jobs(63, 4_200, &mut |job, _| question(job));
        Seeded { questions, texts }
    }

    /// How many questions tell an explainer from the second side, up to
    /// enough, and how many were asked.
    fn told(&self, explainer: &dyn Explainer) -> (usize, usize) {
        let mut asked = 0;
        let told = self.questions.iter().filter(|question| {
            asked += 1;
            differ(explainer, &SecondPlanner, question, asked as u64).is_some()
        });
        (told.take(ENOUGH).count(), asked)
    }

    /// The same for texts, in more room than they need and in less.
    fn told_by_texts(&self, explainer: &dyn Explainer) -> (usize, usize) {
        let mut asked = 0;
        let told = self.texts.iter().filter(|bytes| {
            asked += 1;
            let length = SecondPlanner.explain_text(bytes, &mut []);
            let rooms = [length + 1 + asked % 40, length, asked % length];
            let differs =
                |&room: &usize| texts_differ(explainer, &SecondPlanner, bytes, room, 1).is_some();
            rooms.iter().any(differs)
        });
        (told.take(ENOUGH).count(), asked)
    }
}

#[test]
fn each_fault_of_the_lists_is_found() {
    let seeded = Seeded::new();
    for fault in CALL {
        let (told, asked) = seeded.told(&Faulty(fault));
        println!("{fault:?}: {told} in {asked} questions");
        assert_eq!(told, ENOUGH, "{fault:?} in {asked} questions");
    }
}

#[test]
fn each_fault_of_the_lines_is_found() {
    let seeded = Seeded::new();
    for fault in TEXT {
        let (told, asked) = seeded.told_by_texts(&Faulty(fault));
        println!("{fault:?}: {told} in {asked} texts");
        assert_eq!(told, ENOUGH, "{fault:?} in {asked} texts");
    }
}

#[test]
fn nothing_is_found_where_nothing_is_planted() {
    let seeded = Seeded::new();
    let explainers: [&dyn Explainer; 3] = [&Library, &SecondPlanner, &Faulty(Fault::None)];
    for explainer in explainers {
        let (told, asked) = seeded.told(explainer);
        assert_eq!(told, 0);
        assert!(asked > 12_000, "{asked} questions");
        let (told, asked) = seeded.told_by_texts(explainer);
        assert_eq!(told, 0);
        assert!(asked >= 9_000, "{asked} texts");
    }
}
