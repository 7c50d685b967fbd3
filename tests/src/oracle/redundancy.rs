//! Document 01, "Macros and needless sequences": "B is redundant with A if B costs no less than A, every yard that admits B admits A, and from each of those yards both lead
//! to the same yard." By running both from every state where there are few, else by `symbolic`.

use super::model::{Rule, Set};
use super::sequences::sequences;
use super::symbolic::Run;

/// The most states that are gone through one by one.
const FEW: usize = 1024;

/// Where a sequence leads from a state that does not admit it.
const NOWHERE: u16 = u16::MAX;

/// What each sequence does, by its index.
enum Ways {
    /// The numbers of the states that admit it; and from each state, by its number, the number of the state that it leads to.
    ByState { admitting: Vec<Vec<usize>>, leads: Vec<Vec<u16>> },
    /// From all states at once; nothing if no state admits it.
    Symbolic(Vec<Option<Run>>),
}

/// Redundancy among the sequences of at most so many rules.
pub struct Redundancy {
    costs: Vec<u32>,
    ways: Ways,
}

impl Redundancy {
    pub fn new(set: &Set, reach: usize) -> Self {
        if set.states_within(FEW).is_some() {
            Self::by_state(set, reach)
        } else {
            Self::symbolic(set, reach)
        }
    }

    pub fn by_state(set: &Set, reach: usize) -> Self {
        let states = set.states();
        let number = |state| states.binary_search(&state).expect("a state of the set") as u16;
        let by_rule = |rule: &Rule| states.iter().map(|state| if rule.runs(state) { number(rule.after(state)) } else { NOWHERE }).collect();
        let rules: Vec<Vec<u16>> = set.rules.iter().map(by_rule).collect();
        let step = |state: u16, rule: &u8| if state == NOWHERE { NOWHERE } else { rules[*rule as usize - 1][state as usize] };
        let sequences = sequences(set.rules.len(), reach);
        let ends = |sequence: &Vec<u8>| (0..states.len() as u16).map(|state| sequence.iter().fold(state, step)).collect();
        let leads: Vec<Vec<u16>> = sequences.iter().map(ends).collect();
        let admitting = leads.iter().map(|ends| (0..ends.len()).filter(|&state| ends[state] != NOWHERE).collect()).collect();
        Redundancy { costs: costs(set, &sequences), ways: Ways::ByState { admitting, leads } }
    }

    pub fn symbolic(set: &Set, reach: usize) -> Self {
        let sequences = sequences(set.rules.len(), reach);
        let runs = sequences.iter().map(|sequence| Run::of(set, sequence)).collect();
        Redundancy { costs: costs(set, &sequences), ways: Ways::Symbolic(runs) }
    }

    /// S, the number of sequences.
    pub fn count(&self) -> usize {
        self.costs.len()
    }

    /// Whether the sequence with index b is redundant with that of index a.
    pub fn redundant(&self, b: usize, a: usize) -> bool {
        self.costs[b] >= self.costs[a]
            && match &self.ways {
                Ways::ByState { admitting, leads } => admitting[b].iter().all(|&state| leads[a][state] == leads[b][state]),
                Ways::Symbolic(runs) => match (&runs[b], &runs[a]) {
                    (None, _) => true,
                    (Some(_), None) => false,
                    (Some(by_b), Some(by_a)) => by_b.is_matched_by(by_a),
                },
            }
    }
}

fn costs(set: &Set, sequences: &[Vec<u8>]) -> Vec<u32> {
    sequences.iter().map(|sequence| set.cost(sequence)).collect()
}
