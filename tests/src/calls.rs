//! One call of a C entry, with all that it is given, and its answer. A call prints as Rust that can be pasted into a test.

use std::fmt;

/// A search's query but for rules and table. Document 01's ceiling is the step limit.
#[derive(Clone, Debug, PartialEq)]
pub struct Query {
    pub start: Vec<u8>,
    pub goal: Vec<u8>,
    pub max_moves: usize,
    pub max_cost: u16,
    pub step_limit: u32,
}

/// A buffer that is written is given by its length.
#[derive(Clone, Debug, PartialEq)]
pub enum Call {
    Search { rules: Vec<u8>, table: Vec<u8>, reach: usize, query: Query, plan_length: usize },
    Read { text: Vec<u8> },
    Rewrite { text: Vec<u8>, out_length: usize },
    TableSize { rules: Vec<u8>, reach: usize },
    BuildTable { rules: Vec<u8>, table_length: usize, reach: usize },
    CheckTable { rules: Vec<u8>, table: Vec<u8>, reach: usize },
    Macro { rules: Vec<u8>, moves: Vec<u8>, out_length: usize },
    SearchFloor { rules: Vec<u8>, table: Vec<u8>, reach: usize, query: Query, plan_length: usize },
    Explain { rules: Vec<u8>, table: Vec<u8>, reach: usize, query: Query, moves: Vec<u8>, out_length: usize },
}

/// The number that an entry gives, and the whole buffer that it was lent for writing. A floor is a number without parts: it tells no outcome.
#[derive(Clone, Debug, PartialEq)]
pub struct Answer {
    pub number: u64,
    pub buffer: Vec<u8>,
}

impl Answer {
    pub fn outcome(&self) -> usize {
        (self.number & 0xff) as usize
    }

    pub fn length(&self) -> usize {
        (self.number >> 8 & 0xff) as usize
    }

    pub fn cost(&self) -> u64 {
        self.number >> 16 & 0xffff
    }

    pub fn steps(&self) -> u64 {
        self.number >> 32
    }

    /// A table's unions: the positions that its marked sequences read, and those that they write.
    pub fn reads(&self) -> u16 {
        (self.number >> 16 & 0xffff) as u16
    }

    pub fn writes(&self) -> u16 {
        (self.number >> 32 & 0xffff) as u16
    }

    /// The size of a rewritten file or of a table.
    pub fn size(&self) -> usize {
        (self.number >> 8) as usize
    }
}

/// The names of the C entries, in the order of `Call::entry`.
pub const ENTRIES: [&str; 9] = ["search", "read", "rewrite", "table_size", "build_table", "check_table", "macro", "search_floor", "explain"];

impl Call {
    pub fn entry(&self) -> usize {
        match self {
            Call::Search { .. } => 0,
            Call::Read { .. } => 1,
            Call::Rewrite { .. } => 2,
            Call::TableSize { .. } => 3,
            Call::BuildTable { .. } => 4,
            Call::CheckTable { .. } => 5,
            Call::Macro { .. } => 6,
            Call::SearchFloor { .. } => 7,
            Call::Explain { .. } => 8,
        }
    }

    /// The same search asked for its floor; nothing for a call that is no search.
    pub fn for_floor(&self) -> Option<Call> {
        match self {
            Call::Search { rules, table, reach, query, plan_length } => {
                let (rules, table, query) = (rules.clone(), table.clone(), query.clone());
                Some(Call::SearchFloor { rules, table, reach: *reach, query, plan_length: *plan_length })
            }
            _ => None,
        }
    }

    /// The explanation of a proposal for the same query; nothing for a call that is no search.
    pub fn for_proposal(&self, moves: &[u8], out_length: usize) -> Option<Call> {
        match self {
            Call::Search { rules, table, reach, query, .. } => {
                let (rules, table, query) = (rules.clone(), table.clone(), query.clone());
                Some(Call::Explain { rules, table, reach: *reach, query, moves: moves.to_vec(), out_length })
            }
            _ => None,
        }
    }

    /// The rule file that it is given.
    pub fn text(&self) -> &[u8] {
        match self {
            Call::Read { text } | Call::Rewrite { text, .. } => text,
            Call::Search { rules, .. }
            | Call::TableSize { rules, .. }
            | Call::BuildTable { rules, .. }
            | Call::CheckTable { rules, .. }
            | Call::Macro { rules, .. }
            | Call::SearchFloor { rules, .. }
            | Call::Explain { rules, .. } => rules,
        }
    }
}

impl fmt::Display for Query {
    fn fmt(&self, f: &mut fmt::Formatter) -> fmt::Result {
        let Query { start, goal, max_moves, max_cost, step_limit } = self;
        write!(f, "Query {{ start: vec!{start:?}, goal: vec!{goal:?}, max_moves: {max_moves}, max_cost: {max_cost}, step_limit: {step_limit} }}")
    }
}

impl fmt::Display for Call {
    fn fmt(&self, f: &mut fmt::Formatter) -> fmt::Result {
        let text = format!("b\"{}\".to_vec()", self.text().escape_ascii());
        match self {
            Call::Search { table, reach, query, plan_length, .. } | Call::SearchFloor { table, reach, query, plan_length, .. } => {
                let entry = if matches!(self, Call::Search { .. }) { "Search" } else { "SearchFloor" };
                write!(f, "Call::{entry} {{ rules: {text}, table: vec!{table:?}, reach: {reach}, query: {query}, plan_length: {plan_length} }}")
            }
            Call::Read { .. } => write!(f, "Call::Read {{ text: {text} }}"),
            Call::Rewrite { out_length, .. } => write!(f, "Call::Rewrite {{ text: {text}, out_length: {out_length} }}"),
            Call::TableSize { reach, .. } => write!(f, "Call::TableSize {{ rules: {text}, reach: {reach} }}"),
            Call::BuildTable { table_length, reach, .. } => {
                write!(f, "Call::BuildTable {{ rules: {text}, table_length: {table_length}, reach: {reach} }}")
            }
            Call::CheckTable { table, reach, .. } => write!(f, "Call::CheckTable {{ rules: {text}, table: vec!{table:?}, reach: {reach} }}"),
            Call::Macro { moves, out_length, .. } => write!(f, "Call::Macro {{ rules: {text}, moves: vec!{moves:?}, out_length: {out_length} }}"),
            Call::Explain { table, reach, query, moves, out_length, .. } => write!(
                f,
                "Call::Explain {{ rules: {text}, table: vec!{table:?}, reach: {reach}, query: {query}, moves: vec!{moves:?}, out_length: {out_length} }}"
            ),
        }
    }
}

impl fmt::Display for Answer {
    fn fmt(&self, f: &mut fmt::Formatter) -> fmt::Result {
        write!(f, "Answer {{ number: 0x{:016x}, buffer: vec!{:?} }}", self.number, self.buffer)
    }
}
