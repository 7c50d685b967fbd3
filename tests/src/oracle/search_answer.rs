//! What a search answers, and its floor.

use super::model::Set;
use super::search::{all_within, floor, plan_among, plan_by_states, plan_looked_at, steps_up_to, visited_among, visited_up_to, Ran};
use super::table::{accepted, entries};
use super::table_answers::bad_table;
use super::Judged;
use crate::calls::{Answer, Call, Query};

/// The most sequences that are listed one by one; a search with more counts and looks for the plan by other ways.
const LISTED: usize = 5_000;

/// "9 start of wrong length or with a value not below its size"; "10 goal likewise, save 255"; "11 more than 32 moves"; "12 plan buffer shorter than the move bound".
fn bad_query(set: &Set, query: &Query, plan_length: usize) -> Option<u8> {
    let fits = |bytes: &[u8], any: bool| bytes.len() == set.sizes.len() && bytes.iter().zip(&set.sizes).all(|(&byte, &size)| byte < size || any && byte == 255);
    if !fits(&query.start, false) {
        Some(9)
    } else if !fits(&query.goal, true) {
        Some(10)
    } else if query.max_moves > 32 {
        Some(11)
    } else if plan_length < query.max_moves {
        Some(12)
    } else {
        None
    }
}

/// What a search finds. The floor is "zero for other outcomes" than 18.
#[derive(Clone)]
pub struct Found {
    pub outcome: u8,
    plan: Vec<u8>,
    cost: u32,
    steps: u32,
    floor: u32,
    plan_length: usize,
}

impl Found {
    /// "A blank plan, cost 0 and length 0 go with every outcome but 0 and 18"; "its steps are the count for 15, the ceiling for 16, else 0".
    pub fn without_plan(outcome: u8, steps: u32, plan_length: usize) -> Found {
        Found { outcome, plan: vec![], cost: 0, steps, floor: 0, plan_length }
    }

    fn with_plan(outcome: u8, plan: &Ran, steps: u32, floor: u32, plan_length: usize) -> Found {
        Found { outcome, plan: plan.sequence.clone(), cost: plan.cost, steps, floor, plan_length }
    }

    /// "only an outcome 0 claims to be cheapest": that plan, and its cost.
    pub fn cheapest(&self) -> Option<(&[u8], u32)> {
        (self.outcome == 0).then_some((&self.plan, self.cost))
    }

    /// "outcome in the low byte, length in the next, cost in the next 16 bits, steps in the top 32"; "A second C entry, with the same inputs and buffer effects, gives the floor".
    pub fn answer_to(&self, call: &Call) -> Answer {
        let mut buffer = self.plan.clone();
        buffer.resize(self.plan_length, 255);
        let number = match call {
            Call::SearchFloor { .. } => u64::from(self.floor),
            _ => u64::from(self.outcome) | (self.plan.len() as u64) << 8 | u64::from(self.cost) << 16 | u64::from(self.steps) << 32,
        };
        Answer { number, buffer }
    }
}

/// "Search: 7, 5, 6, 9, 10, 11, 12, 14, 16, 15. The C entry puts 1 to 4 before these." "18 comes where 16 came, before 15."
pub fn search(judged: &mut Judged, table: &[u8], reach: usize, query: &Query, plan_length: usize) -> Found {
    let set = match judged.set {
        Err(outcome) => return Found::without_plan(*outcome, 0, plan_length),
        Ok(set) => set,
    };
    let refused = bad_table(set, table.len(), reach)
        .or_else(|| bad_query(set, query, plan_length))
        .or_else(|| (!accepted(judged.redundancy(reach), &entries(table))).then_some(14));
    if let Some(outcome) = refused {
        return Found::without_plan(outcome, 0, plan_length);
    }
    let (entries, limit) = (entries(table), query.step_limit);
    match visited(set, reach, &entries, query) {
        Visited::Whole(steps, Some(plan)) => Found::with_plan(0, &plan, steps, 0, plan_length),
        Visited::Whole(steps, None) => Found::without_plan(15, steps, plan_length),
        Visited::Front(looked_at) => match plan_looked_at(&looked_at, query) {
            // "The steps of 18 are the ceiling"
            Some(plan) => Found::with_plan(18, plan, limit, floor(set, query, reach, &entries, &looked_at, plan), plan_length),
            // "Outcome 16 remains where no looked-at sequence ends in the goal."
            None => Found::without_plan(16, limit, plan_length),
        },
    }
}

/// What the ceiling lets be walked.
enum Visited {
    /// All: the number of steps, and the plan among all sequences, pruned ones included.
    Whole(u32, Option<Ran>),
    /// "Over its ceiling, the search now looks at the walk's first sequences, as many as the ceiling."
    Front(Vec<Ran>),
}

fn visited(set: &Set, reach: usize, entries: &[u16], query: &Query) -> Visited {
    let limit = query.step_limit as usize;
    if let Some(all) = all_within(set, query, LISTED) {
        let visits = visited_among(&all, set.rules.len(), reach, entries);
        if visits.len() > limit {
            return Visited::Front(visits[..limit].iter().map(|&ran| ran.clone()).collect());
        }
        return Visited::Whole(visits.len() as u32, plan_among(&all, query).cloned());
    }
    let steps = steps_up_to(set, query, reach, entries, limit);
    if steps > limit {
        return Visited::Front(visited_up_to(set, query, reach, entries, limit));
    }
    Visited::Whole(steps as u32, plan_by_states(set, query))
}
