//! Document 01 once more, in Rust, with the changes of document 02 that are made: what each C entry has to answer. One thought a file; the words in quotation
//! marks are the documents'.

pub mod explain;
pub mod file;
mod macro_answer;
pub mod model;
pub mod redundancy;
pub mod search;
mod search_answer;
pub mod sequences;
pub mod symbolic;
pub mod table;
mod table_answers;
pub mod touched;
pub mod writer;

use crate::calls::{Answer, Call, Query};
use explain::Explained;
use model::Set;
use redundancy::Redundancy;
use search_answer::Found;
use touched::Touched;

/// A rule file as judged, with the redundancies of each reach, and what each sequence touches, once they are asked for; and
/// the last search that proposals were explained beside.
pub struct Judged<'a> {
    set: &'a Result<Set, u8>,
    redundancies: [Option<Redundancy>; 3],
    touched: [Option<Vec<Touched>>; 3],
    last: Option<(Vec<u8>, usize, Query, Found)>,
}

/// What the call has to answer.
pub fn expected(call: &Call) -> Answer {
    let set = file::read(call.text());
    Judged::new(&set).expected(call)
}

/// An answer that is an outcome and a buffer alone.
fn bare(outcome: u8, buffer: Vec<u8>) -> Answer {
    Answer { number: outcome.into(), buffer }
}

impl<'a> Judged<'a> {
    pub fn new(set: &'a Result<Set, u8>) -> Self {
        Judged { set, redundancies: [None, None, None], touched: [None, None, None], last: None }
    }

    pub fn redundancy(&mut self, reach: usize) -> &Redundancy {
        let set = self.set.as_ref().expect("a file without a fault");
        self.redundancies[reach - 1].get_or_insert_with(|| Redundancy::new(set, reach))
    }

    /// What each sequence touches, by its index.
    pub fn touched(&mut self, reach: usize) -> &[Touched] {
        let set = self.set.as_ref().expect("a file without a fault");
        self.touched[reach - 1].get_or_insert_with(|| Touched::by_index(set, reach))
    }

    /// What a search has to find, whichever of its two entries is called; nothing for a call that is no search.
    pub fn found(&mut self, call: &Call) -> Option<Found> {
        match call {
            Call::Search { table, reach, query, plan_length, .. } | Call::SearchFloor { table, reach, query, plan_length, .. } => {
                Some(search_answer::search(self, table, *reach, query, *plan_length))
            }
            _ => None,
        }
    }

    /// What a search with room for 32 moves finds, beside which a proposal is explained.
    fn beside(&mut self, table: &[u8], reach: usize, query: &Query) -> Found {
        match &self.last {
            Some((of_table, of_reach, of_query, found)) if of_table == table && *of_reach == reach && of_query == query => found.clone(),
            _ => {
                let found = search_answer::search(self, table, reach, query, 32);
                self.last = Some((table.to_vec(), reach, query.clone(), found.clone()));
                found
            }
        }
    }

    /// What an explanation has to say; nothing for a call that is none.
    pub fn explained(&mut self, call: &Call) -> Option<Explained> {
        match call {
            Call::Explain { table, reach, query, moves, .. } => Some(explain::explain(self, table, *reach, query, moves)),
            _ => None,
        }
    }

    /// What the call has to answer; its file is the one that was judged. "The C entry puts 1 to 4 before these."
    pub fn expected(&mut self, call: &Call) -> Answer {
        match (call, self.set) {
            (Call::Search { table, reach, query, plan_length, .. } | Call::SearchFloor { table, reach, query, plan_length, .. }, _) => {
                search_answer::search(self, table, *reach, query, *plan_length).answer_to(call)
            }
            (Call::Explain { table, reach, query, moves, out_length, .. }, _) => explain::explain(self, table, *reach, query, moves).answer(*out_length),
            // what the others leave in their buffers when the file is refused
            (Call::Rewrite { out_length, .. } | Call::Macro { out_length, .. }, Err(outcome)) => bare(*outcome, vec![0; *out_length]),
            (Call::BuildTable { table_length, .. }, Err(outcome)) => bare(*outcome, vec![0; *table_length]),
            (Call::Read { .. } | Call::TableSize { .. } | Call::CheckTable { .. }, Err(outcome)) => bare(*outcome, vec![]),
            (Call::Read { .. }, Ok(_)) => bare(0, vec![]),
            (Call::Rewrite { out_length, .. }, Ok(set)) => writer::rewritten(set, *out_length),
            (Call::TableSize { reach, .. }, Ok(set)) => table_answers::table_size(set, *reach),
            (Call::BuildTable { table_length, reach, .. }, Ok(set)) => table_answers::build(self, set, *table_length, *reach),
            (Call::CheckTable { table, reach, .. }, Ok(set)) => table_answers::check(self, set, table, *reach),
            (Call::Macro { moves, out_length, .. }, Ok(set)) => macro_answer::macro_of(set, moves, *out_length),
        }
    }
}
