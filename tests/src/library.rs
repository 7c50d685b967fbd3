//! The C entries of include/planner.h, called with every buffer between guard bytes. A buffer lent for reading has to be as it was;
//! one lent for writing is filled with a pattern before the call and given back whole. An empty buffer is also lent as NULL.

use crate::calls::{Answer, Call};
use std::ptr;

extern "C" {
    fn planner_search(
        rules: *const u8,
        rules_length: usize,
        table: *const u8,
        table_length: usize,
        start: *const u8,
        start_length: usize,
        goal: *const u8,
        goal_length: usize,
        plan: *mut u8,
        plan_length: usize,
        reach: usize,
        max_moves: usize,
        max_cost: u16,
        step_limit: u32,
    ) -> u64;
    fn planner_search_floor(
        rules: *const u8,
        rules_length: usize,
        table: *const u8,
        table_length: usize,
        start: *const u8,
        start_length: usize,
        goal: *const u8,
        goal_length: usize,
        plan: *mut u8,
        plan_length: usize,
        reach: usize,
        max_moves: usize,
        max_cost: u16,
        step_limit: u32,
    ) -> u16;
    fn planner_read(text: *const u8, text_length: usize) -> u8;
    fn planner_rewrite(text: *const u8, text_length: usize, out: *mut u8, out_length: usize) -> u64;
    fn planner_table_size(rules: *const u8, rules_length: usize, reach: usize) -> u64;
    fn planner_build_table(rules: *const u8, rules_length: usize, table: *mut u8, table_length: usize, reach: usize) -> u64;
    fn planner_check_table(rules: *const u8, rules_length: usize, table: *const u8, table_length: usize, reach: usize) -> u64;
    fn planner_macro(rules: *const u8, rules_length: usize, moves: *const u8, moves_length: usize, out: *mut u8, out_length: usize) -> u8;
    fn planner_explain(
        rules: *const u8,
        rules_length: usize,
        table: *const u8,
        table_length: usize,
        start: *const u8,
        start_length: usize,
        goal: *const u8,
        goal_length: usize,
        moves: *const u8,
        moves_length: usize,
        out: *mut u8,
        out_length: usize,
        reach: usize,
        max_moves: usize,
        max_cost: u16,
        step_limit: u32,
    ) -> u8;
}

/// Guard bytes on either side of a buffer.
const GUARD: usize = 48;

/// The byte at a place of the pattern. It never gives 0 or 255 twice in a row, so that what a call leaves unwritten shows.
fn pattern(place: usize) -> u8 {
    (place * 37 + 170) as u8
}

/// Bytes lent to a call, between guards.
struct Lent {
    all: Vec<u8>,
    length: usize,
}

impl Lent {
    fn reading(bytes: &[u8]) -> Lent {
        let mut lent = Lent::writing(bytes.len());
        lent.all[GUARD..GUARD + bytes.len()].copy_from_slice(bytes);
        lent
    }

    fn writing(length: usize) -> Lent {
        Lent { all: (0..length + 2 * GUARD).map(pattern).collect(), length }
    }

    fn pointer(&mut self, null: bool) -> *mut u8 {
        if null && self.length == 0 {
            ptr::null_mut()
        } else {
            self.all[GUARD..].as_mut_ptr()
        }
    }

    fn now(&self) -> &[u8] {
        &self.all[GUARD..GUARD + self.length]
    }

    /// Panics unless the guards are as they were.
    fn guarded(&self) {
        let kept = |place: usize| self.all[place] == pattern(place);
        let whole = (0..GUARD).chain(GUARD + self.length..self.all.len()).all(kept);
        assert!(whole, "a byte outside a buffer of {} bytes was written", self.length);
    }

    /// Panics unless all is as it was lent.
    fn unchanged(&self, bytes: &[u8]) {
        self.guarded();
        assert!(self.now() == bytes, "a buffer lent for reading was changed: {bytes:?} to {:?}", self.now());
    }

    /// What stands in it now.
    fn written(&self) -> Vec<u8> {
        self.guarded();
        self.now().to_vec()
    }
}

/// Makes the call. With an empty buffer it is made twice, the second time with NULL for it; the answers have to be the same.
pub fn answer(call: &Call) -> Answer {
    let answer = made(call, false);
    if lends_empty(call) {
        let with_null = made(call, true);
        assert!(answer == with_null, "an empty buffer as NULL changes the answer of\n{call}\nfrom {answer}\n  to {with_null}");
    }
    answer
}

fn lends_empty(call: &Call) -> bool {
    let another = match call {
        Call::Search { table, query, plan_length, .. } | Call::SearchFloor { table, query, plan_length, .. } => {
            table.is_empty() || query.start.is_empty() || query.goal.is_empty() || *plan_length == 0
        }
        Call::Read { .. } | Call::TableSize { .. } => false,
        Call::Rewrite { out_length, .. } => *out_length == 0,
        Call::BuildTable { table_length, .. } => *table_length == 0,
        Call::CheckTable { table, .. } => table.is_empty(),
        Call::Macro { moves, out_length, .. } => moves.is_empty() || *out_length == 0,
        Call::Explain { table, query, moves, out_length, .. } => {
            table.is_empty() || query.start.is_empty() || query.goal.is_empty() || moves.is_empty() || *out_length == 0
        }
    };
    another || call.text().is_empty()
}

fn made(call: &Call, null: bool) -> Answer {
    let text = call.text();
    let mut rules = Lent::reading(text);
    let from = rules.pointer(null);
    // SAFETY, of every call here: each pointer is to as many bytes as the length beside it, or NULL with 0; no two buffers overlap, and no other thread has them.
    let answer = match call {
        Call::Search { table, reach, query, plan_length, .. } | Call::SearchFloor { table, reach, query, plan_length, .. } => {
            let (mut marks, mut start, mut goal) = (Lent::reading(table), Lent::reading(&query.start), Lent::reading(&query.goal));
            let mut plan = Lent::writing(*plan_length);
            // the second entry takes what the first takes
            macro_rules! searched {
                ($entry:ident) => {
                    unsafe {
                        $entry(
                            from,
                            text.len(),
                            marks.pointer(null),
                            table.len(),
                            start.pointer(null),
                            query.start.len(),
                            goal.pointer(null),
                            query.goal.len(),
                            plan.pointer(null),
                            *plan_length,
                            *reach,
                            query.max_moves,
                            query.max_cost,
                            query.step_limit,
                        )
                    }
                };
            }
            let number = if matches!(call, Call::Search { .. }) { searched!(planner_search) } else { u64::from(searched!(planner_search_floor)) };
            marks.unchanged(table);
            start.unchanged(&query.start);
            goal.unchanged(&query.goal);
            Answer { number, buffer: plan.written() }
        }
        Call::Read { .. } => Answer { number: unsafe { planner_read(from, text.len()) }.into(), buffer: vec![] },
        Call::Rewrite { out_length, .. } => {
            let mut out = Lent::writing(*out_length);
            let number = unsafe { planner_rewrite(from, text.len(), out.pointer(null), *out_length) };
            Answer { number, buffer: out.written() }
        }
        Call::TableSize { reach, .. } => Answer { number: unsafe { planner_table_size(from, text.len(), *reach) }, buffer: vec![] },
        Call::BuildTable { table_length, reach, .. } => {
            let mut table = Lent::writing(*table_length);
            let number = unsafe { planner_build_table(from, text.len(), table.pointer(null), *table_length, *reach) };
            Answer { number, buffer: table.written() }
        }
        Call::CheckTable { table, reach, .. } => {
            let mut marks = Lent::reading(table);
            let number = unsafe { planner_check_table(from, text.len(), marks.pointer(null), table.len(), *reach) };
            marks.unchanged(table);
            Answer { number, buffer: vec![] }
        }
        Call::Macro { moves, out_length, .. } => {
            let (mut sequence, mut out) = (Lent::reading(moves), Lent::writing(*out_length));
            let number = unsafe { planner_macro(from, text.len(), sequence.pointer(null), moves.len(), out.pointer(null), *out_length) };
            sequence.unchanged(moves);
            Answer { number: number.into(), buffer: out.written() }
        }
        Call::Explain { table, reach, query, moves, out_length, .. } => {
            let (mut marks, mut start, mut goal) = (Lent::reading(table), Lent::reading(&query.start), Lent::reading(&query.goal));
            let (mut proposal, mut out) = (Lent::reading(moves), Lent::writing(*out_length));
            let number = unsafe {
                planner_explain(
                    from,
                    text.len(),
                    marks.pointer(null),
                    table.len(),
                    start.pointer(null),
                    query.start.len(),
                    goal.pointer(null),
                    query.goal.len(),
                    proposal.pointer(null),
                    moves.len(),
                    out.pointer(null),
                    *out_length,
                    *reach,
                    query.max_moves,
                    query.max_cost,
                    query.step_limit,
                )
            };
            marks.unchanged(table);
            start.unchanged(&query.start);
            goal.unchanged(&query.goal);
            proposal.unchanged(moves);
            Answer { number: number.into(), buffer: out.written() }
        }
    };
    rules.unchanged(text);
    answer
}
