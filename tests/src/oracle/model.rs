//! Document 01, "Yards, rules, rule files": what a rule set means. A state is document 01's yard, condition and effect are the `if` and `then` lines.

/// What a position holds, by position.
pub type State = Vec<u8>;

/// An entry of a line: the constant, or document 01's `xj`. Positions count from 0 here.
#[derive(Clone, Copy, Debug, PartialEq, Eq)]
pub enum Entry {
    Value(u8),
    Place(usize),
}

#[derive(Clone, Debug, PartialEq)]
pub struct Rule {
    pub cost: u32,
    pub condition: Vec<Entry>,
    pub effect: Vec<Entry>,
}

#[derive(Clone, Debug, PartialEq)]
pub struct Set {
    pub sizes: Vec<u8>,
    pub rules: Vec<Rule>,
}

impl Rule {
    /// "A rule runs in a yard that meets its whole `if` line": a constant c at i means that position i holds c, `xj` that it holds what position j holds.
    pub fn runs(&self, state: &[u8]) -> bool {
        (0..state.len()).all(|i| match self.condition[i] {
            Entry::Value(c) => state[i] == c,
            Entry::Place(j) => state[i] == state[j],
        })
    }

    /// "a constant is the new value and `xj` means what position j held before .. All effects happen together."
    pub fn after(&self, state: &[u8]) -> State {
        let new = |entry: &Entry| match *entry {
            Entry::Value(c) => c,
            Entry::Place(j) => state[j],
        };
        self.effect.iter().map(new).collect()
    }

    /// "if their `if` lines and their `then` lines are equal"
    pub fn has_lines_of(&self, other: &Rule) -> bool {
        self.condition == other.condition && self.effect == other.effect
    }

    /// Document 02: "Rules are twins only if their costs agree too."
    pub fn is_duplicate_of(&self, other: &Rule) -> bool {
        self.has_lines_of(other) && self.cost == other.cost
    }
}

impl Set {
    /// The numbers of each two rules that have the same lines, the earlier one first.
    pub fn same_lines(&self) -> Vec<(u8, u8)> {
        let numbers = 1..=self.rules.len() as u8;
        let pairs = numbers.flat_map(|later| (1..later).map(move |earlier| (earlier, later)));
        pairs.filter(|&(earlier, later)| self.rule(later).has_lines_of(self.rule(earlier))).collect()
    }

    /// "Rule numbers .. start at 1."
    pub fn rule(&self, number: u8) -> &Rule {
        &self.rules[number as usize - 1]
    }

    /// Where a sequence leads from a state, if it can be run from there: "each of its rules runs in the yard that the rules before it leave".
    pub fn run(&self, sequence: &[u8], state: &[u8]) -> Option<State> {
        let mut now = state.to_vec();
        for &number in sequence {
            if !self.rule(number).runs(&now) {
                return None;
            }
            now = self.rule(number).after(&now);
        }
        Some(now)
    }

    /// "its cost, the sum of its rules' costs"
    pub fn cost(&self, sequence: &[u8]) -> u32 {
        sequence.iter().map(|&number| self.rule(number).cost).sum()
    }

    /// How many states there are, if that is at most the bound.
    pub fn states_within(&self, bound: usize) -> Option<usize> {
        self.sizes.iter().try_fold(1, |product: usize, &size| Some(product * size as usize).filter(|&p| p <= bound))
    }

    /// Every state: "Position i has a size .. and holds a value from 0 to its size less 1."
    pub fn states(&self) -> Vec<State> {
        let mut states = vec![vec![]];
        for &size in &self.sizes {
            states = states.iter().flat_map(|state: &State| (0..size).map(move |value| [&state[..], &[value]].concat())).collect();
        }
        states
    }
}
