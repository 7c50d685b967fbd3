//! What the calls on tables answer.

use super::model::Set;
use super::sequences;
use super::table::{accepted, built, bytes, entries, marked};
use super::touched::Touched;
use super::{bare, Judged};
use crate::calls::Answer;

/// "5 reach not 1 to 3"; "6 table length not 2 × S".
pub fn bad_table(set: &Set, length: usize, reach: usize) -> Option<u8> {
    if !(1..=3).contains(&reach) {
        Some(5)
    } else if length != 2 * sequences::count(set.rules.len(), reach) {
        Some(6)
    } else {
        None
    }
}

/// The header: outcomes 1 to 4, 5, 0, and "The table has exactly 2 × S bytes".
pub fn table_size(set: &Set, reach: usize) -> Answer {
    if !(1..=3).contains(&reach) {
        return bare(5, vec![]);
    }
    let bytes = 2 * sequences::count(set.rules.len(), reach) as u64;
    Answer { number: bytes << 8, buffer: vec![] }
}

/// "The builder and the judge also give both unions over the marked sequences": outcome 0 in the low byte, reads from bit 16, writes from bit 32.
fn with_unions(judged: &mut Judged, reach: usize, entries: &[u16], buffer: Vec<u8>) -> Answer {
    let touched = judged.touched(reach);
    let unions = Touched::union(marked(entries).map(|index| &touched[index]));
    Answer { number: u64::from(unions.reads) << 16 | u64::from(unions.writes) << 32, buffer }
}

/// "Builder: 7, 5, 6." "A refused build zeroes the table." Both unions are "empty if refused".
pub fn build(judged: &mut Judged, set: &Set, length: usize, reach: usize) -> Answer {
    if let Some(outcome) = bad_table(set, length, reach) {
        return bare(outcome, vec![0; length]);
    }
    let entries = built(judged.redundancy(reach));
    with_unions(judged, reach, &entries, bytes(&entries))
}

/// "Judge: 7, 5, 6, 14." Both unions are "empty if refused".
pub fn check(judged: &mut Judged, set: &Set, table: &[u8], reach: usize) -> Answer {
    match bad_table(set, table.len(), reach) {
        Some(outcome) => bare(outcome, vec![]),
        None if accepted(judged.redundancy(reach), &entries(table)) => with_unions(judged, reach, &entries(table), vec![]),
        None => bare(14, vec![]),
    }
}
