//! Answers written by hand, from the documents: library and oracle have to give just these, the whole number and the whole buffer.

use crate::calls::{Answer, Call, Query};
use crate::compare::check;
use crate::oracle::expected;
use crate::oracle::table::{bytes, KEPT};

/// Document 01's yards E and H. In the rule files here a stroke stands for a line feed.
pub const E: &str = "positions=2/sizes=2,2/rules=2/cost=1/if=x1,x2/then=0,x2/cost=1/if=x1,x2/then=x1,0/";
pub const H: &str =
    "positions=3/sizes=4,4,4/rules=4/cost=1/if=0,x2,x2/then=1,0,x2/cost=1/if=1,x2,0/then=2,0,0/cost=1/if=1,x2,x3/then=2,x3,x2/cost=1/if=2,0,0/then=3,1,1/";

/// The rule file.
pub fn file(shown: &str) -> Vec<u8> {
    shown.replace('/', "\n").into_bytes()
}

/// Library and oracle both give this.
pub fn gives(call: &Call, number: u64, buffer: Vec<u8>) {
    let answer = Answer { number, buffer };
    assert_eq!(expected(call), answer, "the oracle, of\n{call}");
    check(call, &answer);
}

/// Both entries of a search leave this in the plan buffer, the first gives this number and the second this floor.
pub fn searches(search: &Call, number: u64, floor: u64, buffer: Vec<u8>) {
    gives(search, number, buffer.clone());
    gives(&search.for_floor().expect("a search"), floor, buffer);
}

/// What an explanation says; by default nothing.
#[derive(Clone, Copy, Debug, Default, PartialEq)]
pub struct Why<'a> {
    pub reason: u8,
    pub place: u8,
    pub cost: u16,
    pub plan_cost: u16,
    pub end: u64,
    pub length: u8,
    pub witness: &'a [u8],
}

/// Document 02's seven reasons, with the move, the position or the costs that they are given with.
impl<'a> Why<'a> {
    pub fn over_move_bound() -> Self {
        Why { reason: 1, ..Why::default() }
    }

    pub fn cannot_run(place: u8) -> Self {
        Why { reason: 2, place, ..Why::default() }
    }

    pub fn passes_cost_bound(place: u8) -> Self {
        Why { reason: 3, place, ..Why::default() }
    }

    pub fn off_goal(place: u8) -> Self {
        Why { reason: 4, place, ..Why::default() }
    }

    pub fn dearer(cost: u16, plan_cost: u16) -> Self {
        Why { reason: 5, cost, plan_cost, ..Why::default() }
    }

    pub fn later() -> Self {
        Why { reason: 6, ..Why::default() }
    }

    pub fn is_plan() -> Self {
        Why { reason: 7, ..Why::default() }
    }

    /// The same with a marked segment: the number of its last move, its length and its witness.
    pub fn marked(self, end: u64, length: u8, witness: &'a [u8]) -> Self {
        Why { end, length, witness, ..self }
    }

    /// PLANNER_EXPLANATION_SIZE bytes, each number low byte first.
    pub fn bytes(&self) -> Vec<u8> {
        let costs = [self.cost, self.plan_cost].map(u16::to_le_bytes).concat();
        let mut bytes = [&[self.reason, self.place][..], &costs, &self.end.to_le_bytes(), &[self.length, self.witness.len() as u8], self.witness].concat();
        bytes.resize(19, 0);
        bytes
    }
}

/// What a search is asked, but for its plan buffer.
pub struct Asked<'a> {
    pub rules: &'a str,
    pub reach: usize,
    pub table: &'a [u8],
    pub start: &'a [u8],
    pub goal: &'a [u8],
    pub moves: usize,
    pub cost: u16,
    pub limit: u32,
}

impl Asked<'_> {
    /// The search with a plan buffer of so many bytes.
    pub fn call(&self, plan_length: usize) -> Call {
        let query = Query { start: self.start.to_vec(), goal: self.goal.to_vec(), max_moves: self.moves, max_cost: self.cost, step_limit: self.limit };
        Call::Search { rules: file(self.rules), table: self.table.to_vec(), reach: self.reach, query, plan_length }
    }

    /// This answer, and the floor, in plan buffers of several lengths.
    fn both_give(&self, outcome: u64, plan: &[u8], cost: u64, steps: u64, floor: u64) {
        for more in [0, 1, 3, 31, 300] {
            let mut buffer = plan.to_vec();
            buffer.resize(self.moves + more, 255);
            searches(&self.call(buffer.len()), outcome | (plan.len() as u64) << 8 | cost << 16 | steps << 32, floor, buffer);
        }
    }

    /// An outcome that has no floor.
    pub fn gives(&self, outcome: u64, plan: &[u8], cost: u64, steps: u64) {
        self.both_give(outcome, plan, cost, steps, 0);
    }

    /// The explanation of a proposal, in buffers of several lengths: whole, with zeros after it, or where the buffer is
    /// too short for it zeros alone. The outcome is the same.
    pub fn explains(&self, moves: &[u8], outcome: u64, why: Why) {
        for out_length in [19, 20, 64, 0, 1, 18] {
            let mut buffer = if out_length < 19 { vec![] } else { why.bytes() };
            buffer.resize(out_length, 0);
            gives(&self.call(32).for_proposal(moves, out_length).expect("a search"), outcome, buffer);
        }
    }

    /// Outcome 18 with this plan and this floor. "The steps of 18 are the ceiling".
    pub fn gives_at_limit(&self, plan: &[u8], cost: u64, floor: u64) {
        self.both_give(18, plan, cost, self.limit.into(), floor);
    }
}

/// The reader gives this outcome; an accepted file is written again in full.
pub fn reads(shown: &str, outcome: u64) {
    let text = file(shown);
    gives(&Call::Read { text: text.clone() }, outcome, vec![]);
    if outcome == 0 {
        gives(&Call::Rewrite { text: text.clone(), out_length: text.len() }, (text.len() as u64) << 8, text);
    } else {
        gives(&Call::Rewrite { text: text.clone(), out_length: text.len() }, outcome, vec![0; text.len()]);
    }
}

/// The entries of a line, as a file has them, in sixteen bytes of a macro.
fn line(shown: &str) -> Vec<u8> {
    let number = |text: &str| text.parse::<u8>().expect("a number");
    let mut bytes: Vec<u8> = shown.split(',').map(|entry| entry.strip_prefix('x').map_or_else(|| number(entry), |j| 15 + number(j))).collect();
    bytes.resize(16, 0);
    bytes
}

/// The macro of a sequence, with the positions that it reads and writes, the lowest bit for position 1.
pub fn macro_is(rules: &str, moves: &[u8], condition: &str, effect: &str, cost: u16, reads: u16, writes: u16) {
    let numbers = [cost, reads, writes].map(u16::to_le_bytes).concat();
    let whole = [line(condition), line(effect), numbers].concat();
    for out_length in [38, 39, 50] {
        let mut buffer = whole.clone();
        buffer.resize(out_length, 0);
        gives(&Call::Macro { rules: file(rules), moves: moves.to_vec(), out_length }, 0, buffer);
    }
    for out_length in [0, 1, 16, 34, 37] {
        gives(&Call::Macro { rules: file(rules), moves: moves.to_vec(), out_length }, 8, vec![0; out_length]);
    }
}

/// A refused macro is zeros throughout, both sets included.
pub fn macro_refused(rules: &str, moves: &[u8], outcome: u64) {
    for out_length in [38, 0, 34, 37, 44] {
        gives(&Call::Macro { rules: file(rules), moves: moves.to_vec(), out_length }, outcome, vec![0; out_length]);
    }
}

/// The table with these marks, index and witness, of so many entries.
pub fn table(count: usize, marks: &[(usize, u16)]) -> Vec<u8> {
    let mut entries = vec![KEPT; count];
    for &(index, witness) in marks {
        entries[index] = witness;
    }
    bytes(&entries)
}

/// What a call on a table gives that is not refused: outcome 0, both unions, the lowest bit of each for position 1, and no other bit.
pub fn unions(reads: u16, writes: u16) -> u64 {
    u64::from(reads) << 16 | u64::from(writes) << 32
}

/// The check gives this: an outcome alone, or both unions.
pub fn checks(rules: &str, reach: usize, table: Vec<u8>, number: u64) {
    gives(&Call::CheckTable { rules: file(rules), table, reach }, number, vec![]);
}

/// The builder makes this table and gives these unions, and so does the check of it.
pub fn builds(rules: &str, reach: usize, table: Vec<u8>, unions: u64) {
    let size = table.len();
    gives(&Call::TableSize { rules: file(rules), reach }, (size as u64) << 8, vec![]);
    gives(&Call::BuildTable { rules: file(rules), table_length: size, reach }, unions, table.clone());
    checks(rules, reach, table, unions);
}

/// The built table, by the oracle; the library's is compared in passing, and both unions are these.
pub fn built(rules: &str, reach: usize, unions: u64) -> Vec<u8> {
    let size = expected(&Call::TableSize { rules: file(rules), reach }).size();
    let table = expected(&Call::BuildTable { rules: file(rules), table_length: size, reach }).buffer;
    builds(rules, reach, table.clone(), unions);
    table
}
