//! What happens in a random run, beside the outcomes: a run that tests too little is seen.

use crate::calls::{Answer, Query};
use crate::damage::changed_item;
use crate::oracle::explain::{marked_segments, Explained, Reason};
use crate::oracle::model::{Rule, Set};
use crate::oracle::redundancy::Redundancy;
use crate::oracle::search::{meets, plan_among, plan_looked_at, Ran};
use crate::oracle::sequences::{index, sequences};
use crate::oracle::symbolic::Run;
use crate::oracle::table::{marked, KEPT};
use crate::oracle::touched::Touched;
use std::collections::HashSet;

/// What happened in a run, beside the outcomes. Each has to happen.
#[derive(Default, Debug)]
pub struct Seen {
    /// tables with a mark, with a mark by another than the empty sequence, and accepted ones that are not the built one
    pub tables_with_marks: u64,
    pub marks_by_rules: u64,
    pub tables_of_others: u64,
    /// sets in which a sequence is redundant only with a later one, and in which it does the same as an earlier, dearer one
    pub kept_for_later: u64,
    pub kept_for_cost: u64,
    /// tables in which of two rules with the same lines the later one is dearer and marked with the earlier one, or cheaper and both are kept
    pub dearer_marked: u64,
    pub cheaper_kept: u64,
    /// texts by whose damage two rules have the same lines, and which are read
    pub same_lines_read: u64,
    /// queries not refused: in which marks prune sequences, or a cheapest plan; with a plan of two moves or more, or by way of a costless rule
    pub queries_pruned: u64,
    pub plans_pruned: u64,
    pub plans_long: u64,
    pub plans_costless: u64,
    /// with two plans of least cost; with a dearer plan of fewer moves; with a plan that depth-first order meets before the one shown
    pub ties: u64,
    pub dearer_shorter: u64,
    pub met_before: u64,
    /// with a goal that leaves a value open, and goals that are met on the way
    pub open_goals: u64,
    pub beyond_goals: u64,
    /// with more sequences than are listed; sets with more states than are gone through, and with twelve positions or more
    pub deep: u64,
    pub wide: u64,
    pub many_positions: u64,
    /// searches refused with two causes or more
    pub several_causes: u64,
    /// macros run in every state
    pub macros_run: u64,
    /// macros that read a position, and that write one
    pub macros_reading: u64,
    pub macros_writing: u64,
    /// tables built or accepted: whose marked sequences read a position, or write one; read or write more than each of them alone
    pub unions_reading: u64,
    pub unions_writing: u64,
    pub unions_of_several: u64,
    /// whose witnesses touch other positions; with marks, and nothing touched; with marks, and all of them on sequences that no state admits
    pub unions_unlike_witnesses: u64,
    pub unions_empty: u64,
    pub unions_denied: u64,
    /// tables that are not accepted, with a mark on a sequence that reads or writes
    pub unions_withheld: u64,
    /// searches above the step limit: without a plan looked at (16) though there is one, or where there is none; with one (18), and more sequences than are listed
    pub exceeded_before_plan: u64,
    pub exceeded_without_plan: u64,
    pub limited_deep: u64,
    /// with one and no more than are listed: an empty one; a floor below its cost, of 0 below its cost, as high as its cost and not 0
    pub limited_empty: u64,
    pub floors_below: u64,
    pub floors_zero: u64,
    pub floors_equal: u64,
    /// where a wrong planner gives no plan or another: the first met; the first in order whatever it costs; of those that cost as much the first met, or the last
    pub limited_first_met: u64,
    pub limited_shortest: u64,
    pub limited_tie_depth_first: u64,
    pub limited_tie_last: u64,
    /// the cheapest of all, which is cheaper, or which costs as much and is earlier
    pub limited_cheaper: u64,
    pub limited_earlier: u64,
    /// one that looks at one sequence more, or at one fewer; at the first in document 01's order; at pruned ones too; at none beyond a goal
    pub limited_one_more: u64,
    pub limited_one_fewer: u64,
    pub limited_in_order: u64,
    pub limited_unpruned: u64,
    pub limited_no_further: u64,
    /// where a wrong planner gives another floor: of the first one not looked at; of that and its siblings; of what extends the last one looked at; of single rules
    pub floors_of_next: u64,
    pub floors_of_siblings: u64,
    pub floors_of_last: u64,
    pub floors_of_rules: u64,
    /// of looked-at ones too; of pruned ones too; of those with a move too many, or that cannot be run; of what is not looked at, whatever the plan costs
    pub floors_of_looked_at: u64,
    pub floors_of_pruned: u64,
    pub floors_of_longer: u64,
    pub floors_of_denied: u64,
    pub floors_of_others: u64,
    /// sets that are read with a position of size 1: beside others, or without
    pub singles_beside: u64,
    pub singles_alone: u64,
    /// texts refused for one entry at such a position: with 3 for its own variable, in `if` or in `then`, or for that
    /// of another such position
    pub singles_own_if: u64,
    pub singles_own_then: u64,
    pub singles_of_another: u64,
    /// with 2 for the constant 1, or for the variable of a position that is none
    pub singles_constant: u64,
    pub singles_unknown: u64,
    /// with 3 for an entry at another position that names it, where its place in the order of positions is right
    pub singles_named_if: u64,
    pub singles_named_then: u64,
    /// texts with one size changed: to 0, and refused with 2; to 1, and refused for an entry, with 3 or with 2
    pub sizes_of_0: u64,
    pub sizes_of_1_variable: u64,
    pub sizes_of_1_constant: u64,
    /// tables with an idle rule marked with the empty sequence: over such a position beside others, the rule asking for
    /// nothing, or for something; without others
    pub singles_idle: u64,
    pub singles_idle_asking: u64,
    pub singles_idle_alone: u64,
    /// tables over such a position beside others with a mark by another than the empty sequence on one that can be run
    pub singles_marks: u64,
    /// macros over such sets: of no moves; of several moves, that read and write; that no state admits
    pub singles_empty: u64,
    pub singles_composed: u64,
    pub singles_denied: u64,
    /// searches refused with 9, or with 10, for a 1 at such positions and for nothing else
    pub singles_start: u64,
    pub singles_goal: u64,
    /// searches over such sets with a plan of several moves: with a goal of 255 there, or of 0; with 18
    pub singles_open: u64,
    pub singles_held: u64,
    pub singles_limited: u64,
    /// explanations by their reason, beside a plan (0) and beside none (15)
    pub over_bound: u64,
    pub over_bound_15: u64,
    pub cannot_run: u64,
    pub cannot_run_15: u64,
    pub passes_cost: u64,
    pub passes_cost_15: u64,
    pub off_goal: u64,
    pub off_goal_15: u64,
    pub dearer: u64,
    pub later: u64,
    pub is_plan: u64,
    /// of a proposal without moves, and of one that is the plan; of several moves that cost nothing
    pub empty_proposals: u64,
    pub empty_is_plan: u64,
    pub costless_proposals: u64,
    /// where a wrong planner gives another reason or place: reasons tried move by move; the length last, or in eight bits;
    /// the cost bound passed when it is met; the last move that passes it; the goal met on the way
    pub reasons_by_move: u64,
    pub reasons_length_last: u64,
    pub reasons_length_in_8_bits: u64,
    pub reasons_cost_met: u64,
    pub reasons_cost_last: u64,
    pub reasons_goal_met: u64,
    /// the highest wrong position; the first position; the place among those of the goal that are not open
    pub positions_highest: u64,
    pub positions_first: u64,
    pub positions_not_open: u64,
    /// marked segments of one, two and three moves; beside 15, and beside a reason that needs the plan
    pub segments_of_1: u64,
    pub segments_of_2: u64,
    pub segments_of_3: u64,
    pub segments_15: u64,
    pub segments_of_plans: u64,
    /// that end behind the first failing move, behind the move that passes the cost bound, beyond the move bound, beyond
    /// 32 moves, beyond 255
    pub segments_behind_failing: u64,
    pub segments_behind_cost: u64,
    pub segments_beyond_bound: u64,
    pub segments_beyond_32: u64,
    pub segments_beyond_255: u64,
    /// where another one is longer and ends with it; starts sooner and ends later; is shorter and ends later
    pub segments_at_equal_end: u64,
    pub segments_starting_later: u64,
    pub segments_not_shortest: u64,
    /// with a witness that is not the builder's, or that is marked too; that is empty, or has three rules
    pub witnesses_of_others: u64,
    pub witnesses_marked: u64,
    pub witnesses_empty: u64,
    pub witnesses_of_3: u64,
    /// outcomes that stand alone: 18 where the proposal is the plan shown; 16 or 18 with a marked segment, or over the
    /// move bound, or where it cannot be run
    pub alone_plan: u64,
    pub alone_marked: u64,
    pub alone_over_bound: u64,
    pub alone_cannot_run: u64,
    /// 13 where the search gives 16 or 18, or 15; over the move bound; for a number beyond 32 moves alone. 14 with such a
    /// number
    pub unknown_at_limit: u64,
    pub unknown_15: u64,
    pub unknown_over_bound: u64,
    pub unknown_beyond_32: u64,
    pub unknown_withheld: u64,
    /// reasons that a buffer is too short for
    pub short_explanations: u64,
}

/// A proposal with what it is judged by: its query, the table that is brought and the builder's, and what the search
/// answers.
pub struct Proposed<'a> {
    pub set: &'a Set,
    pub query: &'a Query,
    pub reach: usize,
    pub entries: &'a [u16],
    pub built: &'a [u16],
    pub searched: &'a Answer,
    pub moves: &'a [u8],
}

/// The positions of size 1.
fn singles(set: &Set) -> Vec<usize> {
    (0..set.sizes.len()).filter(|&i| set.sizes[i] == 1).collect()
}

/// Whether a set has a position of size 1 beside others.
fn is_mixed(set: &Set) -> bool {
    (1..set.sizes.len()).contains(&singles(set).len())
}

impl Seen {
    /// Panics unless each happened so often at least.
    pub fn require_all(&self, least: u64) {
        // each count by its name, as printed
        for field in format!("{self:?}").trim_start_matches("Seen { ").trim_end_matches(" }").split(", ") {
            let (name, number) = field.split_once(": ").expect("a name and a number");
            assert!(number.parse::<u64>().expect("a number") >= least, "{name} {number} times, fewer than {least}");
        }
    }

    /// Notes a built table; what is kept and why only if it is to be looked at closely, as that takes time.
    pub fn table(&mut self, set: &Set, redundancy: &Redundancy, reach: usize, entries: &[u16], closely: bool) {
        self.tables_with_marks += u64::from(entries.iter().any(|&entry| entry != KEPT));
        self.marks_by_rules += u64::from(entries.iter().any(|&entry| entry != KEPT && entry != 0));
        let entry = |number: u8| entries[number as usize];
        let dearer = |one: u8, other: u8| set.rule(one).cost > set.rule(other).cost;
        let marked = |&(earlier, later): &(u8, u8)| dearer(later, earlier) && entry(later) == u16::from(earlier);
        let both_kept = |&(earlier, later): &(u8, u8)| dearer(earlier, later) && entry(earlier) == KEPT && entry(later) == KEPT;
        self.dearer_marked += u64::from(set.same_lines().iter().any(marked));
        self.cheaper_kept += u64::from(set.same_lines().iter().any(both_kept));
        if !closely {
            return;
        }
        let kept: Vec<usize> = (1..entries.len().min(100)).filter(|&b| entries[b] == KEPT).collect();
        self.kept_for_later += u64::from(kept.iter().any(|&b| (b + 1..entries.len()).any(|a| redundancy.redundant(b, a))));
        let free = Set { rules: set.rules.iter().map(|rule| Rule { cost: 0, ..rule.clone() }).collect(), ..set.clone() };
        let without_costs = Redundancy::new(&free, reach);
        self.kept_for_cost += u64::from(kept.iter().any(|&b| (0..b).any(|a| without_costs.redundant(b, a))));
    }

    /// Notes a set that was read.
    pub fn set(&mut self, set: &Set) {
        self.singles_beside += u64::from(is_mixed(set));
        self.singles_alone += u64::from(singles(set).len() == set.sizes.len());
    }

    /// Notes the outcome of a text, where it is the set's file with one item changed.
    pub fn changed(&mut self, set: &Set, file: &[u8], text: &[u8], outcome: usize) {
        let Some((key, place, item)) = changed_item(file, text) else {
            return;
        };
        if key == "sizes" {
            self.sizes_of_0 += u64::from(item == "0" && outcome == 2);
            self.sizes_of_1_variable += u64::from(item == "1" && outcome == 3);
            self.sizes_of_1_constant += u64::from(item == "1" && outcome == 2);
        }
        if !["if", "then"].contains(&key) {
            return;
        }
        let (single, condition) = (set.sizes[place] == 1, key == "if");
        let named = item.strip_prefix('x').and_then(|number| number.parse::<usize>().ok());
        let own = named == Some(place + 1);
        let names_single = !own && named.is_some_and(|j| j > 0 && set.sizes.get(j - 1) == Some(&1));
        let in_order = !condition || named.is_some_and(|j| j <= place);
        self.singles_own_if += u64::from(single && own && condition && outcome == 3);
        self.singles_own_then += u64::from(single && own && !condition && outcome == 3);
        self.singles_of_another += u64::from(single && names_single && in_order && outcome == 3);
        self.singles_constant += u64::from(single && item == "1" && outcome == 2);
        let unknown = named.is_some_and(|j| j == 0 || j > set.sizes.len());
        self.singles_unknown += u64::from(single && unknown && outcome == 2);
        self.singles_named_if += u64::from(!single && names_single && in_order && condition && outcome == 3);
        self.singles_named_then += u64::from(!single && names_single && !condition && outcome == 3);
    }

    /// Notes a table that was built, with what each sequence touches, by its index.
    pub fn built(&mut self, set: &Set, reach: usize, touched: &[Touched], entries: &[u16]) {
        let changes_nothing = |rule: &Rule| rule.condition == rule.effect;
        let is_idle = |&number: &usize| changes_nothing(&set.rules[number - 1]) && entries[number] == 0;
        let idle: Vec<usize> = (1..=set.rules.len()).filter(is_idle).collect();
        if is_mixed(set) {
            self.singles_idle += u64::from(idle.iter().any(|&number| touched[number].reads == 0));
            self.singles_idle_asking += u64::from(idle.iter().any(|&number| touched[number].reads != 0));
            let sequences = sequences(set.rules.len(), reach);
            let by_rules = |index: usize| entries[index] != 0 && Run::of(set, &sequences[index]).is_some();
            self.singles_marks += u64::from(marked(entries).any(by_rules));
        } else if set.sizes[0] == 1 {
            self.singles_idle_alone += u64::from(!idle.is_empty());
        }
    }

    /// Notes a macro that was given, or that no state admits.
    pub fn composed(&mut self, set: &Set, moves: &[u8], outcome: usize, touched: Touched) {
        if is_mixed(set) {
            self.singles_empty += u64::from(moves.is_empty() && outcome == 0);
            self.singles_composed += u64::from(moves.len() > 1 && touched.reads != 0 && touched.writes != 0);
            self.singles_denied += u64::from(outcome == 17);
        }
    }

    /// Notes a query that was refused, with the set of its file.
    pub fn refused(&mut self, set: &Set, query: &Query, outcome: usize) {
        // each byte fits, but for a 1 where the size is 1
        let fits = |bytes: &[u8], any: bool| {
            let fits = |(&byte, &size): (&u8, &u8)| byte < size || any && byte == 255 || size == 1 && byte == 1;
            bytes.len() == set.sizes.len() && bytes.iter().zip(&set.sizes).all(fits)
        };
        self.singles_start += u64::from(outcome == 9 && fits(&query.start, false));
        self.singles_goal += u64::from(outcome == 10 && fits(&query.goal, true));
    }

    /// Notes a search that gave a plan.
    pub fn planned(&mut self, set: &Set, query: &Query, answer: &Answer) {
        if is_mixed(set) && answer.length() > 1 {
            self.singles_open += u64::from(singles(set).iter().any(|&i| query.goal[i] == 255));
            self.singles_held += u64::from(singles(set).iter().any(|&i| query.goal[i] == 0));
            self.singles_limited += u64::from(answer.outcome() == 18);
        }
    }

    /// Notes the sets of a macro.
    pub fn touched(&mut self, touched: Touched) {
        self.macros_reading += u64::from(touched.reads != 0);
        self.macros_writing += u64::from(touched.writes != 0);
    }

    /// Notes a table that was built or accepted, with what each sequence touches, by its index.
    pub fn unions(&mut self, set: &Set, reach: usize, touched: &[Touched], entries: &[u16], answer: &Answer) {
        let unions = Touched { reads: answer.reads(), writes: answer.writes() };
        let marks: Vec<usize> = marked(entries).collect();
        let of_witnesses = Touched::union(marks.iter().map(|&index| &touched[entries[index] as usize]));
        self.unions_reading += u64::from(unions.reads != 0);
        self.unions_writing += u64::from(unions.writes != 0);
        self.unions_unlike_witnesses += u64::from(of_witnesses != unions);
        if marks.is_empty() {
            return;
        }
        self.unions_of_several += u64::from(marks.iter().all(|&index| touched[index] != unions));
        self.unions_empty += u64::from(unions == Touched::default());
        let sequences = sequences(set.rules.len(), reach);
        self.unions_denied += u64::from(marks.iter().all(|&index| Run::of(set, &sequences[index]).is_none()));
    }

    /// Notes a table that was not accepted.
    pub fn withheld(&mut self, touched: &[Touched], entries: &[u16]) {
        self.unions_withheld += u64::from(marked(entries).any(|index| touched[index] != Touched::default()));
    }

    /// Notes a search that gave a plan or none, with all sequences within its bounds.
    pub fn search(&mut self, set: &Set, query: &Query, all: &[Ran], answer: &Answer, unpruned: impl Fn(&[u8]) -> bool) {
        self.queries_pruned += u64::from((answer.steps() as usize) < all.len());
        if answer.outcome() != 0 {
            return;
        }
        let plans: Vec<&Ran> = all.iter().filter(|ran| meets(&query.goal, &ran.state)).collect();
        let cheapest: Vec<&&Ran> = plans.iter().filter(|ran| u64::from(ran.cost) == answer.cost()).collect();
        let shown = &answer.buffer[..answer.length()];
        self.plans_pruned += u64::from(cheapest.iter().any(|ran| !unpruned(&ran.sequence)));
        self.plans_long += u64::from(shown.len() > 1);
        self.plans_costless += u64::from(shown.iter().any(|&number| set.rule(number).cost == 0));
        self.ties += u64::from(cheapest.len() > 1 && !shown.is_empty());
        self.dearer_shorter += u64::from(plans.iter().any(|ran| ran.sequence.len() < shown.len()));
        self.met_before += u64::from(plans.iter().any(|ran| ran.sequence[..] < *shown && unpruned(&ran.sequence)));
        self.open_goals += u64::from(query.goal.contains(&255) && !shown.is_empty());
        self.beyond_goals += u64::from(plans.len() > 1);
    }

    /// Notes a search above its step limit that looked at no plan, with all sequences within its bounds.
    pub fn exceeded(&mut self, query: &Query, all: &[Ran]) {
        let is_one = plan_among(all, query).is_some();
        self.exceeded_before_plan += u64::from(is_one && query.step_limit > 0);
        self.exceeded_without_plan += u64::from(!is_one && query.step_limit > 0);
    }

    /// Notes a search above its step limit that gave a plan, with all sequences within its bounds and the walk.
    pub fn limited(&mut self, query: &Query, all: &[Ran], visits: &[&Ran], answer: &Answer) {
        let (limit, shown, cost) = (query.step_limit as usize, &answer.buffer[..answer.length()], answer.cost() as u32);
        let another = |plan: Option<&Ran>| u64::from(plan.is_none_or(|plan| plan.sequence != shown));
        let goals: Vec<&Ran> = visits[..limit].iter().copied().filter(|ran| meets(&query.goal, &ran.state)).collect();
        let equal: Vec<&Ran> = goals.iter().copied().filter(|ran| ran.cost == cost).collect();
        self.limited_empty += u64::from(shown.is_empty());
        self.limited_first_met += another(goals.first().copied());
        self.limited_shortest += another(goals.iter().copied().min_by_key(|ran| (ran.sequence.len(), &ran.sequence)));
        self.limited_tie_depth_first += another(equal.first().copied());
        self.limited_tie_last += another(equal.last().copied());
        let best = plan_among(all, query).filter(|best| best.sequence != shown);
        self.limited_cheaper += u64::from(best.is_some_and(|best| best.cost < cost));
        self.limited_earlier += u64::from(best.is_some_and(|best| best.cost == cost));
        let of_front = |visits: &[&Ran], length: usize| another(plan_looked_at(visits.iter().take(length).copied(), query));
        self.limited_one_more += of_front(visits, limit + 1);
        self.limited_one_fewer += of_front(visits, limit - 1);
        let mut in_order = visits.to_vec();
        in_order.sort_by_key(|ran| (ran.sequence.len(), &ran.sequence));
        self.limited_in_order += of_front(&in_order, limit);
        let mut with_pruned: Vec<&Ran> = all.iter().collect();
        with_pruned.sort_by_key(|&ran| &ran.sequence);
        self.limited_unpruned += of_front(&with_pruned, limit);
        let ends: HashSet<&[u8]> = all.iter().filter(|ran| meets(&query.goal, &ran.state)).map(|ran| &ran.sequence[..]).collect();
        let no_further = |ran: &&Ran| (0..ran.sequence.len()).all(|length| !ends.contains(&ran.sequence[..length]));
        let no_further: Vec<&Ran> = visits.iter().copied().filter(no_further).collect();
        self.limited_no_further += of_front(&no_further, limit);
    }

    /// Notes the floor of a search above its step limit that gave a plan of this cost, with the walk.
    pub fn floor(&mut self, set: &Set, query: &Query, visits: &[&Ran], cost: u32, floor: u32, unpruned: impl Fn(&[u8]) -> bool) {
        let (looked_at, left) = visits.split_at(query.step_limit as usize);
        let front = |ran: &Ran| ran.sequence[..ran.sequence.len() - 1].to_vec();
        self.floors_below += u64::from(floor < cost);
        self.floors_zero += u64::from(floor == 0 && cost > 0);
        self.floors_equal += u64::from(floor == cost && cost > 0);
        let of_left = |is_so: &dyn Fn(&Ran) -> bool| u64::from(left.iter().filter(|ran| is_so(ran)).map(|ran| ran.cost).chain([cost]).min() != Some(floor));
        self.floors_of_next += of_left(&|ran| ran.sequence == left[0].sequence);
        self.floors_of_siblings += of_left(&|ran| front(ran) == front(left[0]));
        self.floors_of_last += of_left(&|ran| front(ran) == looked_at[looked_at.len() - 1].sequence);
        self.floors_of_rules += of_left(&|ran| ran.sequence.len() == 1);
        self.floors_of_looked_at += u64::from(looked_at[1..].iter().any(|ran| ran.cost < floor));
        self.floors_of_others += u64::from(left.iter().all(|ran| ran.cost > floor));
        // a rule more for a looked-at sequence, below the floor: whether it runs, whether there is a move for it, and whether no mark prunes it
        let is_one = |runs: bool, fits: bool, kept: bool| {
            let below = |ran: &Ran, number: u8| ran.cost + set.rule(number).cost < floor && set.rule(number).runs(&ran.state) == runs;
            let longer = |ran: &Ran, number: u8| below(ran, number) && unpruned(&[&ran.sequence[..], &[number]].concat()) == kept;
            let some = |ran: &&Ran| (ran.sequence.len() < query.max_moves) == fits && (1..=set.rules.len() as u8).any(|number| longer(ran, number));
            u64::from(looked_at.iter().any(some))
        };
        self.floors_of_pruned += is_one(true, true, false);
        self.floors_of_longer += is_one(true, false, true);
        self.floors_of_denied += is_one(false, true, true);
    }

    /// Notes what was explained of a proposal, in a buffer of so many bytes.
    pub fn explained(&mut self, proposed: &Proposed, explained: &Explained, out_length: usize) {
        match &explained.reason {
            Some(reason) => {
                self.reason(proposed, reason, explained.outcome == 15);
                self.segment(proposed, explained);
                self.short_explanations += u64::from(out_length < 19);
            }
            None => self.alone(proposed, explained.outcome),
        }
    }

    fn reason(&mut self, proposed: &Proposed, reason: &Reason, no_plan: bool) {
        let count = match (reason, no_plan) {
            (Reason::OverMoveBound, false) => &mut self.over_bound,
            (Reason::OverMoveBound, true) => &mut self.over_bound_15,
            (Reason::CannotRun { .. }, false) => &mut self.cannot_run,
            (Reason::CannotRun { .. }, true) => &mut self.cannot_run_15,
            (Reason::PassesCostBound { .. }, false) => &mut self.passes_cost,
            (Reason::PassesCostBound { .. }, true) => &mut self.passes_cost_15,
            (Reason::OffGoal { .. }, false) => &mut self.off_goal,
            (Reason::OffGoal { .. }, true) => &mut self.off_goal_15,
            (Reason::Dearer { .. }, _) => &mut self.dearer,
            (Reason::Later, _) => &mut self.later,
            (Reason::IsPlan, _) => &mut self.is_plan,
        };
        *count += 1;
        let &Proposed { set, query, moves, .. } = proposed;
        let (cost, most) = (set.cost(moves), u32::from(query.max_cost));
        let met = |fronts: usize| (1..=fronts).any(|front| set.cost(&moves[..front]) == most);
        match *reason {
            Reason::OverMoveBound => {
                self.reasons_length_last += u64::from(cost > most || set.run(moves, &query.start).is_none());
                self.reasons_length_in_8_bits += u64::from(moves.len() % 256 <= query.max_moves);
            }
            Reason::CannotRun { first } => self.reasons_by_move += u64::from(set.cost(&moves[..first - 1]) > most),
            Reason::PassesCostBound { first } => {
                self.reasons_cost_met += u64::from(met(first - 1));
                self.reasons_cost_last += u64::from(first < moves.len());
            }
            Reason::OffGoal { lowest } => self.off_goal_at(proposed, lowest),
            Reason::Dearer { .. } | Reason::Later | Reason::IsPlan => {
                self.reasons_cost_met += u64::from(met(moves.len()));
                self.costless_proposals += u64::from(moves.len() > 1 && cost == 0);
                self.empty_is_plan += u64::from(moves.is_empty());
            }
        }
        self.empty_proposals += u64::from(moves.is_empty());
    }

    fn off_goal_at(&mut self, proposed: &Proposed, lowest: usize) {
        let &Proposed { set, query, moves, .. } = proposed;
        let ends_in_goal = |front: usize| set.run(&moves[..front], &query.start).is_some_and(|state| meets(&query.goal, &state));
        self.reasons_goal_met += u64::from((0..moves.len()).any(ends_in_goal));
        let end = set.run(moves, &query.start).expect("a proposal that can be run");
        self.positions_highest += u64::from(!meets(&query.goal[lowest..], &end[lowest..]));
        self.positions_first += u64::from(lowest > 1);
        self.positions_not_open += u64::from(query.goal[..lowest].contains(&255));
    }

    fn segment(&mut self, proposed: &Proposed, explained: &Explained) {
        let &Proposed { set, query, reach, entries, built, moves, .. } = proposed;
        let Some(segment) = &explained.segment else {
            return;
        };
        let (end, length, from) = (segment.end, segment.length, segment.end - segment.length);
        *[&mut self.segments_of_1, &mut self.segments_of_2, &mut self.segments_of_3][length - 1] += 1;
        self.segments_15 += u64::from(explained.outcome == 15);
        match explained.reason {
            Some(Reason::CannotRun { first }) => self.segments_behind_failing += u64::from(end > first),
            Some(Reason::PassesCostBound { first }) => self.segments_behind_cost += u64::from(end > first),
            Some(Reason::Dearer { .. } | Reason::Later) => self.segments_of_plans += 1,
            _ => {}
        }
        self.segments_beyond_bound += u64::from(end > query.max_moves);
        self.segments_beyond_32 += u64::from(end > 32);
        self.segments_beyond_255 += u64::from(end > 255);
        let others = marked_segments(set.rules.len(), reach, entries, moves);
        self.segments_at_equal_end += u64::from(others.iter().any(|&(of, long)| of == end && long > length));
        self.segments_starting_later += u64::from(others.iter().any(|&(of, long)| of > end && of - long < from));
        self.segments_not_shortest += u64::from(others.iter().any(|&(_, long)| long < length));
        let index = index(set.rules.len(), &moves[from..end]);
        self.witnesses_of_others += u64::from(entries[index] != built[index]);
        self.witnesses_marked += u64::from(entries[entries[index] as usize] != KEPT);
        self.witnesses_empty += u64::from(segment.witness.is_empty());
        self.witnesses_of_3 += u64::from(segment.witness.len() == 3);
    }

    fn alone(&mut self, proposed: &Proposed, outcome: u8) {
        let &Proposed { set, query, reach, entries, searched, moves, .. } = proposed;
        let unknown = |moves: &[u8]| moves.iter().any(|&number| number == 0 || number as usize > set.rules.len());
        let over_bound = moves.len() > query.max_moves;
        match outcome {
            16 | 18 => {
                self.alone_plan += u64::from(outcome == 18 && *moves == searched.buffer[..searched.length()]);
                self.alone_marked += u64::from(!marked_segments(set.rules.len(), reach, entries, moves).is_empty());
                self.alone_over_bound += u64::from(over_bound);
                self.alone_cannot_run += u64::from(!over_bound && set.run(moves, &query.start).is_none());
            }
            13 => {
                self.unknown_at_limit += u64::from([16, 18].contains(&searched.outcome()));
                self.unknown_15 += u64::from(searched.outcome() == 15);
                self.unknown_over_bound += u64::from(over_bound);
                self.unknown_beyond_32 += u64::from(moves.len() > 32 && !unknown(&moves[..32]));
            }
            14 => self.unknown_withheld += u64::from(unknown(moves)),
            _ => {}
        }
    }
}
