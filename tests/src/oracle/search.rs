//! Document 01, "The walk": the steps by count, and the cheapest plan by a search that prunes nothing. Document 02, 2026-03: what is looked at above the ceiling, and
//! the floor.

use super::model::{Set, State};
use super::sequences::index;
use super::table::KEPT;
use crate::calls::Query;
use std::collections::{BTreeMap, HashSet};

/// A sequence that can be run from the start, with the state that it leads to and its cost.
#[derive(Clone)]
pub struct Ran {
    pub sequence: Vec<u8>,
    pub state: State,
    pub cost: u32,
}

/// "holds the goal's byte at every position where that byte is not 255"
pub fn meets(goal: &[u8], state: &[u8]) -> bool {
    goal.iter().zip(state).all(|(&asked, &held)| asked == 255 || asked == held)
}

/// "It is undropped if no stretch of neighbouring rules in it, from one rule to the whole, is marked"; the table has the stretches of at most `reach` rules.
pub fn unpruned(rules: usize, reach: usize, entries: &[u16], sequence: &[u8]) -> bool {
    let marked = |stretch: &[u8]| entries[index(rules, stretch)] != KEPT;
    (1..=reach).all(|length| !sequence.windows(length).any(marked))
}

/// The order of plans: the cheaper one comes first, and of two that cost as much the one that comes first in document 01's order, "fewer rules first; at equal length, the
/// smaller rule number at the first difference".
fn rank(ran: &Ran) -> (u32, usize, &[u8]) {
    (ran.cost, ran.sequence.len(), &ran.sequence)
}

fn begin(query: &Query) -> Ran {
    Ran { sequence: vec![], state: query.start.clone(), cost: 0 }
}

/// The sequence with one rule more, by rule number, where that can be run and stays within the cost bound.
fn extensions<'a>(set: &'a Set, query: &'a Query, ran: &'a Ran) -> impl Iterator<Item = Ran> + 'a {
    (1..=set.rules.len() as u8).filter_map(move |number| {
        let rule = set.rule(number);
        let cost = ran.cost + rule.cost;
        let runs = rule.runs(&ran.state) && cost <= u32::from(query.max_cost);
        runs.then(|| Ran { sequence: [&ran.sequence[..], &[number]].concat(), state: rule.after(&ran.state), cost })
    })
}

/// All sequences that can be run from the start within both bounds, pruned or not, in document 01's order; nothing if they are more than `most`.
pub fn all_within(set: &Set, query: &Query, most: usize) -> Option<Vec<Ran>> {
    let mut all = vec![begin(query)];
    let mut shorter = 0..1;
    for _ in 0..query.max_moves {
        for from in shorter.clone() {
            let longer: Vec<Ran> = extensions(set, query, &all[from]).collect();
            all.extend(longer);
            if all.len() > most {
                return None;
            }
        }
        shorter = shorter.end..all.len();
    }
    Some(all)
}

/// The plan among all those sequences: "every other one of them, dropped ones included, costs more, or costs as much and comes later". They are in order, and of equal ones
/// `min_by_key` takes the first.
pub fn plan_among<'a>(all: &'a [Ran], query: &Query) -> Option<&'a Ran> {
    all.iter().filter(|ran| meets(&query.goal, &ran.state)).min_by_key(|ran| ran.cost)
}

/// "Steps are the number of sequences walked": those of them that are undropped.
pub fn steps_among(all: &[Ran], rules: usize, reach: usize, entries: &[u16]) -> usize {
    all.iter().filter(|ran| unpruned(rules, reach, entries, &ran.sequence)).count()
}

/// The walk: those of them that are undropped, in its order. "In order, the walk goes from a sequence to its extensions by rule number, ..; all that extends one rule's
/// choice comes before the next rule's": sequences compare in just this way as lists of numbers, the front of one before the whole.
pub fn visited_among<'a>(all: &'a [Ran], rules: usize, reach: usize, entries: &[u16]) -> Vec<&'a Ran> {
    let mut visits: Vec<&Ran> = all.iter().filter(|ran| unpruned(rules, reach, entries, &ran.sequence)).collect();
    visits.sort_by_key(|&ran| &ran.sequence);
    visits
}

/// The same number where all sequences are too many to list, up to `most` + 1. The front of an unpruned sequence is unpruned, so each is met by extending unpruned ones.
pub fn steps_up_to(set: &Set, query: &Query, reach: usize, entries: &[u16], most: usize) -> usize {
    let mut steps = 0;
    let mut left = vec![begin(query)];
    while let Some(ran) = left.pop() {
        steps += 1;
        if steps > most {
            break;
        }
        if ran.sequence.len() < query.max_moves {
            let kept = |longer: &Ran| unpruned(set.rules.len(), reach, entries, &longer.sequence[longer.sequence.len().saturating_sub(reach)..]);
            left.extend(extensions(set, query, &ran).filter(kept));
        }
    }
    steps
}

/// The front of the walk, at most so many, where all sequences are too many to list. The front of an unpruned sequence is unpruned, so each is met by extending unpruned ones;
/// of those that are left to go to, the one with the smallest numbers is last.
pub fn visited_up_to(set: &Set, query: &Query, reach: usize, entries: &[u16], most: usize) -> Vec<Ran> {
    let mut visits = vec![];
    let mut left = vec![begin(query)];
    while visits.len() < most {
        let Some(ran) = left.pop() else {
            break;
        };
        if ran.sequence.len() < query.max_moves {
            let kept = |longer: &Ran| unpruned(set.rules.len(), reach, entries, &longer.sequence[longer.sequence.len().saturating_sub(reach)..]);
            let longer: Vec<Ran> = extensions(set, query, &ran).filter(kept).collect();
            left.extend(longer.into_iter().rev());
        }
        visits.push(ran);
    }
    visits
}

/// "If one of them ends in the goal, it gives the cheapest such plan, at equal cost the first in document 01's order of sequences": of those that were looked at.
pub fn plan_looked_at<'a>(looked_at: impl IntoIterator<Item = &'a Ran>, query: &Query) -> Option<&'a Ran> {
    looked_at.into_iter().filter(|ran| meets(&query.goal, &ran.state)).min_by_key(|&ran| rank(ran))
}

/// "The floor is the smaller of that plan's cost and the least cost among the walk's sequences that extend a looked-at one by a single rule and were not looked at." Each
/// extension of each looked-at sequence is asked for itself, whether it is walked and whether it was looked at.
pub fn floor(set: &Set, query: &Query, reach: usize, entries: &[u16], looked_at: &[Ran], plan: &Ran) -> u32 {
    let known: HashSet<&[u8]> = looked_at.iter().map(|ran| &ran.sequence[..]).collect();
    let mut floor = plan.cost;
    for longer in looked_at.iter().flat_map(|ran| extensions(set, query, ran)) {
        let is_visited = longer.sequence.len() <= query.max_moves && unpruned(set.rules.len(), reach, entries, &longer.sequence);
        if is_visited && !known.contains(&longer.sequence[..]) {
            floor = floor.min(longer.cost);
        }
    }
    floor
}

/// The same plan where all sequences are too many to list. For each length and each state it keeps the cheapest sequence of that length that leads there, the first in order of equal
/// ones: whatever is run after it costs and does the same after each of the others.
pub fn plan_by_states(set: &Set, query: &Query) -> Option<Ran> {
    let mut best: Option<Ran> = None;
    let mut ends = BTreeMap::from([(query.start.clone(), begin(query))]);
    for moves in 0..=query.max_moves {
        for ran in ends.values().filter(|ran| meets(&query.goal, &ran.state)) {
            if best.as_ref().is_none_or(|best| rank(ran) < rank(best)) {
                best = Some(ran.clone());
            }
        }
        if moves < query.max_moves {
            let mut longer: BTreeMap<State, Ran> = BTreeMap::new();
            for ran in ends.values().flat_map(|ran| extensions(set, query, ran)) {
                let place = longer.entry(ran.state.clone()).or_insert_with(|| ran.clone());
                if (ran.cost, &ran.sequence) < (place.cost, &place.sequence) {
                    *place = ran;
                }
            }
            ends = longer;
        }
    }
    best
}
