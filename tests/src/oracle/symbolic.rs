//! What a sequence does in all states at once, for any number of states: the macro, and redundancy.
//! A run is followed on the unknown values at its start; a position of size 1 holds 0 and has none. Each rule's
//! condition equates some of them with each other, at equal sizes, or with constants, and nothing else is ever learnt of
//! them. So two of them, or one and a constant, that the conditions do not make equal differ in some state that meets
//! the conditions: each is at a position of size 2 or more, and those that are not tied can be chosen each for itself.
//! Hence both tests below are exact.

use super::model::{Entry, Rule, Set};

/// A run from every state that admits it.
#[derive(Clone)]
pub struct Run {
    /// What is known of the value at the start, by position: the constant, or the lowest position that held the same.
    known: Vec<Entry>,
    /// What each position holds now: a constant, or what some position held at the start.
    now: Vec<Entry>,
}

/// What an entry of a rule's line stands for, where the positions hold these.
fn meant(entry: Entry, now: &[Entry]) -> Entry {
    match entry {
        Entry::Value(_) => entry,
        Entry::Place(j) => now[j],
    }
}

impl Run {
    /// "The empty sequence has every `xi` in its own place"; at a position of size 1, says document 02, it "likewise has
    /// 0 there in both vectors".
    fn begin(sizes: &[u8]) -> Run {
        let own = |i: usize| if sizes[i] == 1 { Entry::Value(0) } else { Entry::Place(i) };
        let own: Vec<Entry> = (0..sizes.len()).map(own).collect();
        Run { known: own.clone(), now: own }
    }

    /// Learns that two are equal; false if no state can have it so.
    fn equate(&mut self, one: Entry, other: Entry) -> bool {
        let (old, new) = match (meant(one, &self.known), meant(other, &self.known)) {
            (a, b) if a == b => return true,
            (Entry::Value(_), Entry::Value(_)) => return false,
            (Entry::Place(j), Entry::Place(k)) => (Entry::Place(j.max(k)), Entry::Place(j.min(k))),
            (place @ Entry::Place(_), value) | (value, place) => (place, value),
        };
        for known in self.known.iter_mut().filter(|known| **known == old) {
            *known = new;
        }
        true
    }

    /// Runs one rule more; false if no state admits it.
    fn extend(&mut self, rule: &Rule) -> bool {
        let met = (0..self.now.len()).all(|i| {
            let (held, asked) = (self.now[i], meant(rule.condition[i], &self.now));
            self.equate(held, asked)
        });
        self.now = rule.effect.iter().map(|&entry| meant(entry, &self.now)).collect();
        met
    }

    /// The run of a sequence, or nothing if no state admits it.
    pub fn of(set: &Set, sequence: &[u8]) -> Option<Run> {
        let mut run = Run::begin(&set.sizes);
        sequence.iter().all(|&number| run.extend(set.rule(number))).then_some(run)
    }

    /// Its macro: "condition and effect, in the form of a rule's lines".
    pub fn as_rule(&self, cost: u32) -> Rule {
        Rule { cost, condition: self.known.clone(), effect: self.now.iter().map(|&entry| meant(entry, &self.known)).collect() }
    }

    fn equal(&self, one: Entry, other: Entry) -> bool {
        meant(one, &self.known) == meant(other, &self.known)
    }

    /// Whether every state that admits this run admits the other too, and both lead to the same state from there.
    pub fn is_matched_by(&self, other: &Run) -> bool {
        let positions = 0..self.now.len();
        positions.clone().all(|i| self.equal(Entry::Place(i), other.known[i])) && positions.clone().all(|i| self.equal(self.now[i], other.now[i]))
    }
}
