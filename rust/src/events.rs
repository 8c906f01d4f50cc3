//! Counting the rare events of searches and the shapes of jobs, so that
//! tests can require that they occurred.

use crate::dijkstra;
use crate::generate::Plan;
use crate::jobs::Job;
use crate::planner::{
    is_bad_schedule, Answer, Event, MOST_BARRED, MOST_OPINION, NO_OPINION, STANDARD_SCHEDULE,
};

/// How often each event was met; see [`Events::names`].
#[derive(Clone, Debug, Default, PartialEq, Eq)]
pub struct Events {
    /// Jobs counted.
    pub jobs: u64,
    /// A later round traced a cheaper walk.
    pub cheaper_later: u64,
    /// A later round traced a walk of equal cost.
    pub equal_later: u64,
    /// A later round traced another walk of equal cost.
    pub equal_other_later: u64,
    /// A later round traced a dearer walk.
    pub dearer_later: u64,
    /// A traced walk costs less than g(goal).
    pub trace_below_goal: u64,
    /// No route, with no vertex held.
    pub no_route: u64,
    /// No route, with vertices held.
    pub no_route_held: u64,
    /// The guide with the turn had no vertex to take, and the anchor filled
    /// the turn.
    pub no_line: u64,
    /// The guide with the turn had a vertex, whose key was too great.
    pub line_too_dear: u64,
    /// A vertex was expanded twice in a round.
    pub twice_in_round: u64,
    /// A vertex that the anchor expanded in a round was expanded again in a
    /// later round.
    pub again_later: u64,
    /// A round was cut before its first turn: round one.
    pub cut_at_begin_of_first: u64,
    /// A later round was cut before its first turn.
    pub cut_at_begin_of_later: u64,
    /// A round was cut one turn before it finished: round one.
    pub cut_before_end_of_first: u64,
    /// A later round was cut one turn before it finished.
    pub cut_before_end_of_later: u64,
    /// A round was cut elsewhere.
    pub cut_inside: u64,
    /// A search was cut one turn before it ended with no route.
    pub cut_before_no_route: u64,
    /// A round finished, or a search ended with no route, by its last turn
    /// with the budget spent.
    pub end_with_budget_spent: u64,
    /// A round finished without a turn, the budget being spent.
    pub finish_without_turn: u64,
    /// Every round of the schedule finished.
    pub all_rounds: u64,
    /// Start is the goal.
    pub start_is_goal: u64,
    /// A walk of more than one vertex with the cost 0 was kept.
    pub free_walk: u64,
    /// The log memory was shorter than the turns.
    pub log_full: u64,
    /// The plan has edges, and all cost 0.
    pub zero_costs: u64,
    /// The plan has an edge whose tail is its head.
    pub self_edge: u64,
    /// A guide sheet has one number everywhere, on more than one vertex.
    pub constant_sheet: u64,
    /// A guide sheet has the number 4,294,967,294.
    pub greatest_number: u64,
    /// A guide sheet is not 0 at the goal.
    pub not_0_at_goal: u64,
    /// There are no guides.
    pub no_guides: u64,
    /// There are eight guides.
    pub eight_guides: u64,
    /// The schedule has sixteen rounds.
    pub sixteen_rounds: u64,
    /// The schedule is empty, and the default one, the paper's house schedule,
    /// is in force.
    pub default_schedule: u64,
    /// And it is the standard one.
    pub standard_default: u64,
    /// And it has one round; sixteen.
    pub default_of_one_round: u64,
    pub default_of_sixteen: u64,
    /// And the search would have ended otherwise on the standard one.
    pub default_tells: u64,
    /// And all its rounds finished, six or not.
    pub default_finished: u64,
    /// And one of its rounds was cut.
    pub default_cut: u64,
    /// The default schedule stands beside the job's own, which is another.
    pub default_beside: u64,
    /// And row 10 would refuse it.
    pub bad_default_beside: u64,
    /// The plan has edges of all eight classes.
    pub eight_classes: u64,
    /// The call bars all classes.
    pub all_barred: u64,
    /// An edge is barred that a permitted walk from the start leads to.
    pub barred_at_hand: u64,
    /// A route was kept, and a barred edge would have made it cheaper: the
    /// cheapest walk over all edges costs less than any permitted one.
    pub barred_cheaper: u64,
    /// There is no route, and with barred edges there would be one.
    pub barred_only: u64,
    /// A cost g beyond 32 bits was written: a vertex was expanded at it.
    pub wide_g: u64,
    /// The kept cost is beyond 32 bits.
    pub wide_route: u64,
    /// The guide with the turn had no opinion on a vertex that would have had
    /// the least key.
    pub no_opinion: u64,
    /// And it would have expanded that vertex.
    pub no_opinion_within: u64,
    /// And it would have expanded that vertex, and expanded another one.
    pub no_opinion_other: u64,
    /// The guide with the turn had no vertex to take, and would have had one.
    pub no_opinion_left: u64,
    /// A route was kept in a search in which a guide would have expanded a
    /// vertex that it had no opinion on.
    pub no_opinion_route: u64,
    /// The anchor expanded a vertex at which its table has 4,294,967,295.
    pub greatest_by_anchor: u64,
    /// A guide has no opinion somewhere, and one elsewhere.
    pub some_opinions: u64,
    /// A guide has no opinion on any vertex.
    pub empty_sheet: u64,
    /// There are several guides, and none has an opinion on any vertex.
    pub empty_sheets: u64,
    /// There are several guides, and one has all opinions and another not.
    pub one_full_sheet: u64,
    /// There are several guides; each has no opinion somewhere, and not all
    /// have none at all.
    pub all_sheets: u64,
    /// A guide has no opinion on the start.
    pub no_opinion_on_start: u64,
    /// A guide has no opinion on the goal.
    pub no_opinion_on_goal: u64,
    /// The anchor table has the number 4,294,967,295.
    pub greatest_in_anchor: u64,
}

/// What the events of one search have shown so far.
#[derive(Default)]
struct Seen {
    turns_in_round: u32,
    /// Vertices expanded in the round in hand; those that the anchor
    /// expanded in it, and in rounds before.
    in_round: Vec<u32>,
    by_anchor: Vec<u32>,
    by_anchor_before: Vec<u32>,
    kept_walk: Vec<u32>,
    twice: bool,
    again: bool,
    no_line: bool,
    too_dear: bool,
    wide: bool,
    opinions: SeenOpinions,
}

/// What the events of one search have shown of guides without opinion.
#[derive(Default)]
struct SeenOpinions {
    /// The guide with the turn would have expanded a vertex that it has no
    /// opinion on.
    in_hand: bool,
    least: bool,
    within: bool,
    other: bool,
    none_left: bool,
    by_anchor: bool,
}

impl SeenOpinions {
    fn no_opinion(&mut self, within: bool, left: bool) {
        self.in_hand = within;
        self.least = true;
        self.within |= within;
        self.none_left |= !left;
    }

    fn turn(&mut self, table: u32, anchor_number: u32) {
        self.other |= self.in_hand && table > 0;
        self.in_hand = false;
        self.by_anchor |= table == 0 && anchor_number == u32::MAX;
    }
}

/// Whether a cost takes more than 32 bits.
fn is_wide(cost: u64) -> bool {
    cost > u64::from(u32::MAX)
}

impl Seen {
    fn begin(&mut self) {
        self.turns_in_round = 0;
        self.in_round.clear();
        self.by_anchor_before.append(&mut self.by_anchor);
    }

    fn turn(&mut self, event: &Event, job: &Job) {
        let &Event::Turn {
            table,
            vertex,
            g,
            no_line,
            ..
        } = event
        else {
            return;
        };
        self.turns_in_round += 1;
        self.opinions.turn(table, job.anchor[vertex as usize]);
        self.wide |= is_wide(g);
        self.twice |= self.in_round.contains(&vertex);
        self.again |= self.by_anchor_before.contains(&vertex);
        self.in_round.push(vertex);
        if table == 0 {
            self.by_anchor.push(vertex);
            self.no_line |= no_line;
            self.too_dear |= !no_line && job.guide_count > 0;
        }
    }
}

impl Events {
    /// All counts with their names.
    pub fn names(&self) -> Vec<(&'static str, u64)> {
        let lists = [
            self.of_searches(),
            self.of_jobs(),
            self.of_defaults(),
            self.of_opinions(),
        ];
        lists.concat()
    }

    fn of_searches(&self) -> Vec<(&'static str, u64)> {
        vec![
            ("cheaper later", self.cheaper_later),
            ("equal later", self.equal_later),
            ("another equal later", self.equal_other_later),
            ("dearer later", self.dearer_later),
            ("trace below g(goal)", self.trace_below_goal),
            ("no route", self.no_route),
            ("no route with held", self.no_route_held),
            ("empty guide line", self.no_line),
            ("guide line too dear", self.line_too_dear),
            ("twice in a round", self.twice_in_round),
            ("again in a later round", self.again_later),
            ("cut at first round's begin", self.cut_at_begin_of_first),
            ("cut at later round's begin", self.cut_at_begin_of_later),
            ("cut before first round's end", self.cut_before_end_of_first),
            ("cut before later round's end", self.cut_before_end_of_later),
            ("cut inside a round", self.cut_inside),
            ("cut before no route", self.cut_before_no_route),
            ("end with the budget spent", self.end_with_budget_spent),
            ("finish without a turn", self.finish_without_turn),
            ("all rounds finished", self.all_rounds),
            ("walk of cost 0", self.free_walk),
            ("log full", self.log_full),
            ("barred edge at hand", self.barred_at_hand),
            ("barred edge would be cheaper", self.barred_cheaper),
            ("only barred edges lead on", self.barred_only),
            ("g beyond 32 bits", self.wide_g),
            ("route beyond 32 bits", self.wide_route),
        ]
    }

    fn of_jobs(&self) -> Vec<(&'static str, u64)> {
        vec![
            ("start is goal", self.start_is_goal),
            ("all costs 0", self.zero_costs),
            ("self-edge", self.self_edge),
            ("constant sheet", self.constant_sheet),
            ("4,294,967,294 in a sheet", self.greatest_number),
            ("sheet not 0 at the goal", self.not_0_at_goal),
            ("no guides", self.no_guides),
            ("eight guides", self.eight_guides),
            ("sixteen rounds", self.sixteen_rounds),
            ("edges of eight classes", self.eight_classes),
            ("all classes barred", self.all_barred),
        ]
    }

    fn of_defaults(&self) -> Vec<(&'static str, u64)> {
        vec![
            ("default schedule", self.default_schedule),
            ("and it is the standard one", self.standard_default),
            ("default schedule of one round", self.default_of_one_round),
            ("default schedule of sixteen", self.default_of_sixteen),
            ("default schedule tells", self.default_tells),
            ("default schedule finished", self.default_finished),
            ("default schedule cut", self.default_cut),
            ("default schedule beside another", self.default_beside),
            ("bad default schedule beside", self.bad_default_beside),
        ]
    }

    fn of_opinions(&self) -> Vec<(&'static str, u64)> {
        vec![
            ("no opinion on the least key", self.no_opinion),
            ("and it would be expanded", self.no_opinion_within),
            ("and another is expanded", self.no_opinion_other),
            ("no vertex left to a guide", self.no_opinion_left),
            ("and a route is kept", self.no_opinion_route),
            ("greatest by the anchor", self.greatest_by_anchor),
            ("opinions on some vertices", self.some_opinions),
            ("sheet without opinions", self.empty_sheet),
            ("all sheets without opinions", self.empty_sheets),
            ("one sheet of opinions alone", self.one_full_sheet),
            ("no sheet of opinions alone", self.all_sheets),
            ("no opinion on the start", self.no_opinion_on_start),
            ("no opinion on the goal", self.no_opinion_on_goal),
            ("4,294,967,295 in the anchor", self.greatest_in_anchor),
        ]
    }

    /// Counts the events of one job.
    pub fn count(&mut self, job: &Job) -> Answer {
        let (answer, events) = job.events();
        self.jobs += 1;
        let mut seen = Seen::default();
        for event in &events {
            match *event {
                Event::Begin { .. } => seen.begin(),
                Event::NoOpinion { within, left, .. } => seen.opinions.no_opinion(within, left),
                Event::Turn { .. } => seen.turn(event, job),
                Event::Finish { .. } => self.count_finish(job, event, &mut seen),
                Event::Cut { round, turns } => {
                    self.count_cut(job, round, turns, seen.turns_in_round == 0);
                }
                Event::NoRoute { turns, held, .. } => {
                    self.no_route += u64::from(held == 0);
                    self.no_route_held += u64::from(held > 0);
                    self.end_with_budget_spent += u64::from(turns == job.budget);
                }
            }
        }
        self.twice_in_round += u64::from(seen.twice);
        self.again_later += u64::from(seen.again);
        self.no_line += u64::from(seen.no_line);
        self.line_too_dear += u64::from(seen.too_dear);
        self.wide_g += u64::from(seen.wide);
        self.count_opinions(&seen.opinions, answer);
        self.count_answer(job, answer);
        if !matches!(answer, Answer::Refused { .. }) {
            let plan = Plan::of_bytes(&job.bytes);
            self.count_shape(job, &plan);
            self.count_default(job, answer);
            self.count_sheets(job);
            self.count_barred(job, &plan, answer);
        }
        answer
    }

    /// Counts what a search shows of guides without opinion.
    fn count_opinions(&mut self, seen: &SeenOpinions, answer: Answer) {
        let route = matches!(answer, Answer::Route { .. });
        self.no_opinion += u64::from(seen.least);
        self.no_opinion_within += u64::from(seen.within);
        self.no_opinion_other += u64::from(seen.other);
        self.no_opinion_left += u64::from(seen.none_left);
        self.no_opinion_route += u64::from(seen.within && route);
        self.greatest_by_anchor += u64::from(seen.by_anchor);
    }

    /// Counts which default schedule a job is handed, and what it changes.
    fn count_default(&mut self, job: &Job, answer: Answer) {
        let default = &job.default_schedule[..];
        if !job.schedule.is_empty() {
            self.default_beside += u64::from(job.schedule != default);
            self.bad_default_beside += u64::from(is_bad_schedule(default));
            return;
        }
        let standard = Job {
            default_schedule: STANDARD_SCHEDULE.to_vec(),
            ..job.clone()
        };
        let finished = match answer {
            Answer::Route { rounds, .. } => Some(rounds as usize),
            Answer::Unfinished { .. } => Some(0),
            _ => None,
        };
        let cut = finished.filter(|&finished| finished < default.len() / 2);
        self.default_schedule += 1;
        self.standard_default += u64::from(default == STANDARD_SCHEDULE);
        self.default_of_one_round += u64::from(default.len() == 2);
        self.default_of_sixteen += u64::from(default.len() == 32);
        self.default_tells += u64::from(standard.events().0 != answer);
        self.default_finished += u64::from(finished == Some(default.len() / 2));
        self.default_cut += u64::from(cut.is_some());
    }

    /// Counts where a job's guides have opinions.
    fn count_sheets(&mut self, job: &Job) {
        let sheets: Vec<&[u32]> = job.guides.chunks_exact(job.anchor.len()).collect();
        let lacks = |sheet: &[u32]| sheet.contains(&NO_OPINION);
        let empty = |sheet: &[u32]| sheet.iter().all(|&h| h == NO_OPINION);
        let lacks_on = |vertex: u32| sheets.iter().any(|s| s[vertex as usize] == NO_OPINION);
        let lacking = sheets.iter().filter(|sheet| lacks(sheet)).count();
        let wholly = sheets.iter().filter(|sheet| empty(sheet)).count();
        let (count, several) = (sheets.len(), sheets.len() > 1);
        self.some_opinions += u64::from(lacking > wholly);
        self.empty_sheet += u64::from(wholly > 0);
        self.empty_sheets += u64::from(several && wholly == count);
        self.one_full_sheet += u64::from(lacking > 0 && lacking < count);
        self.all_sheets += u64::from(several && lacking == count && wholly < count);
        self.no_opinion_on_start += u64::from(lacks_on(job.start));
        self.no_opinion_on_goal += u64::from(lacks_on(job.goal));
        self.greatest_in_anchor += u64::from(job.anchor.contains(&u32::MAX));
    }

    /// Counts what a finished round shows.
    fn count_finish(&mut self, job: &Job, event: &Event, seen: &mut Seen) {
        let Event::Finish {
            turns,
            goal_cost,
            traced,
            traced_cost,
            kept,
            ..
        } = event
        else {
            return;
        };
        self.trace_below_goal += u64::from(traced_cost < goal_cost);
        let spent = *turns == job.budget;
        self.end_with_budget_spent += u64::from(spent && seen.turns_in_round > 0);
        self.finish_without_turn += u64::from(spent && seen.turns_in_round == 0);
        match kept {
            Some(kept) if traced_cost == kept => {
                self.equal_later += 1;
                self.equal_other_later += u64::from(*traced != seen.kept_walk);
            }
            Some(kept) if traced_cost > kept => self.dearer_later += 1,
            Some(_) => self.cheaper_later += 1,
            None => {}
        }
        if kept.is_none_or(|kept| *traced_cost < kept) {
            seen.kept_walk = traced.clone();
        }
    }

    /// Counts where a round was cut: what one turn more would have ended.
    fn count_cut(&mut self, job: &Job, round: u32, turns: u32, at_begin: bool) {
        let mut longer = job.clone();
        longer.budget = turns + 1;
        let (_, events) = longer.events();
        let mut next = events.iter().filter_map(|event| match event {
            Event::Finish { round, turns, .. } => Some((*round, *turns, true)),
            Event::NoRoute { round, turns, .. } => Some((*round, *turns, false)),
            _ => None,
        });
        let finish = next.find(|&(other, end, _)| other == round && end == turns + 1);
        let first = round == 1;
        let before_end = finish.is_some_and(|(_, _, route)| route);
        let before_no_route = finish.is_some_and(|(_, _, route)| !route);
        self.cut_at_begin_of_first += u64::from(first && at_begin);
        self.cut_at_begin_of_later += u64::from(!first && at_begin);
        self.cut_before_end_of_first += u64::from(first && before_end);
        self.cut_before_end_of_later += u64::from(!first && before_end);
        self.cut_before_no_route += u64::from(before_no_route);
        self.cut_inside += u64::from(!at_begin && finish.is_none());
    }

    /// Counts what a route shows.
    fn count_answer(&mut self, job: &Job, answer: Answer) {
        if let Answer::Route {
            cost,
            length,
            rounds,
            turns,
            ..
        } = answer
        {
            let asked = job.factors().len() / 2;
            self.all_rounds += u64::from(rounds as usize == asked);
            self.free_walk += u64::from(cost == 0 && length > 1);
            self.wide_route += u64::from(is_wide(cost));
            self.log_full += u64::from(turns as usize > job.log_room);
        }
    }

    /// Counts what the barred classes change.
    fn count_barred(&mut self, job: &Job, plan: &Plan, answer: Answer) {
        if job.barred == 0 {
            return;
        }
        let permitted = dijkstra::distances_from(plan, job.start, job.barred);
        let any = dijkstra::distances_from(plan, job.start, dijkstra::NO_BAR);
        let at_hand = (0..plan.edges()).any(|edge| {
            permitted[plan.tails[edge] as usize].is_some()
                && !dijkstra::is_permitted(job.barred, plan.classes[edge])
        });
        let goal = job.goal as usize;
        let (permitted, any) = (permitted[goal], any[goal]);
        let route = matches!(answer, Answer::Route { .. });
        self.all_barred += u64::from(job.barred == MOST_BARRED);
        self.barred_at_hand += u64::from(at_hand);
        self.barred_cheaper += u64::from(route && any < permitted);
        let no_route = matches!(answer, Answer::NoRoute { .. });
        self.barred_only += u64::from(no_route && any.is_some());
    }

    /// Counts what the job is like.
    fn count_shape(&mut self, job: &Job, plan: &Plan) {
        let zero_costs = plan.edges() > 0 && plan.costs.iter().all(|&cost| cost == 0);
        let mut ends = plan.tails.iter().zip(&plan.heads);
        let self_edge = ends.any(|(tail, head)| tail == head);
        let eight_classes = (0..8).all(|class| plan.classes.contains(&class));
        let sheets = || job.guides.chunks_exact(job.anchor.len());
        let constant = |sheet: &[u32]| sheet.len() > 1 && sheet.iter().all(|&h| h == sheet[0]);
        self.start_is_goal += u64::from(job.start == job.goal);
        self.zero_costs += u64::from(zero_costs);
        self.self_edge += u64::from(self_edge);
        self.constant_sheet += u64::from(sheets().any(constant));
        self.greatest_number += u64::from(job.guides.contains(&MOST_OPINION));
        self.not_0_at_goal += u64::from(sheets().any(|sheet| sheet[job.goal as usize] > 0));
        self.no_guides += u64::from(job.guide_count == 0);
        self.eight_guides += u64::from(job.guide_count == 8);
        self.sixteen_rounds += u64::from(job.schedule.len() == 32);
        self.eight_classes += u64::from(eight_classes);
    }
}
