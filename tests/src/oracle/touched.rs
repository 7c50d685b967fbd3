//! Document 02, 2026-01: "two 16-bit sets, lowest bit for position 1", of the positions that a sequence reads and of those that it writes. From the macro's
//! lines; and where there are few states once more, by running the sequence in every state.

use super::model::{Entry, Rule, Set, State};
use super::sequences::sequences;
use super::symbolic::Run;

/// Both sets, empty by default.
#[derive(Clone, Copy, Debug, Default, PartialEq, Eq)]
pub struct Touched {
    pub reads: u16,
    pub writes: u16,
}

/// The positions that are in it, of so many.
fn set_of(positions: usize, is_in: impl Fn(usize) -> bool) -> u16 {
    (0..positions).filter(|&i| is_in(i)).map(|i| 1 << i).sum()
}

/// 2026-05, of a position of size 1: "such a bay is in neither touched set", though its `if` entry is a constant.
fn can_be_in(sizes: &[u8], i: usize) -> bool {
    sizes[i] > 1
}

/// "positions whose `if` entry is a constant or names another position, or that another position's `if` or `then` entry names"
fn read_at(rule: &Rule, i: usize) -> bool {
    let asks = match rule.condition[i] {
        Entry::Value(_) => true,
        Entry::Place(j) => j != i,
    };
    let names_it = |other: usize| [rule.condition[other], rule.effect[other]].contains(&Entry::Place(i));
    asks || (0..rule.condition.len()).any(|other| other != i && names_it(other))
}

/// "positions whose `then` entry differs from their `if` entry"
fn written_at(rule: &Rule, i: usize) -> bool {
    rule.effect[i] != rule.condition[i]
}

impl Touched {
    /// Those of the sequence's macro; "empty for a sequence that no yard admits".
    pub fn by(set: &Set, sequence: &[u8]) -> Touched {
        Run::of(set, sequence).map_or(Touched::default(), |run| Touched::by_rule(&set.sizes, &run.as_rule(0)))
    }

    /// Those of two lines over these sizes.
    pub fn by_rule(sizes: &[u8], rule: &Rule) -> Touched {
        let reads = set_of(sizes.len(), |i| can_be_in(sizes, i) && read_at(rule, i));
        let writes = set_of(sizes.len(), |i| can_be_in(sizes, i) && written_at(rule, i));
        Touched { reads, writes }
    }

    /// What each sequence of at most `reach` rules touches, by its index.
    pub fn by_index(set: &Set, reach: usize) -> Vec<Touched> {
        sequences(set.rules.len(), reach).iter().map(|sequence| Touched::by(set, sequence)).collect()
    }

    /// Both unions over some of them.
    pub fn union<'a>(some: impl IntoIterator<Item = &'a Touched>) -> Touched {
        some.into_iter().fold(Touched::default(), |all, one| Touched { reads: all.reads | one.reads, writes: all.writes | one.writes })
    }

    /// The same of a sequence, by running it in every state. A position is written exactly if some state that admits the sequence is changed there. It is read
    /// exactly if in some such state another value there, and the same elsewhere, keeps the sequence from running or leads to another value at another position.
    pub fn by_states(set: &Set, sequence: &[u8]) -> Touched {
        let led: Vec<(State, State)> = set.states().into_iter().filter_map(|state| set.run(sequence, &state).map(|end| (state, end))).collect();
        let written = |i: usize| led.iter().any(|(state, end)| state[i] != end[i]);
        let read = |i: usize| led.iter().any(|(state, end)| others_at(set, state, i).any(|other| matters_elsewhere(set, sequence, &other, end, i)));
        Touched { reads: set_of(set.sizes.len(), read), writes: set_of(set.sizes.len(), written) }
    }
}

/// The states that differ from this one at the position alone.
fn others_at<'a>(set: &Set, state: &'a State, i: usize) -> impl Iterator<Item = State> + 'a {
    (0..set.sizes[i]).filter(move |&value| value != state[i]).map(move |value| {
        let mut other = state.clone();
        other[i] = value;
        other
    })
}

/// Whether the sequence cannot be run from the state, or leads to another value than this end's at another position than the one.
fn matters_elsewhere(set: &Set, sequence: &[u8], state: &[u8], end: &[u8], i: usize) -> bool {
    set.run(sequence, state).is_none_or(|other| (0..end.len()).any(|k| k != i && other[k] != end[k]))
}
