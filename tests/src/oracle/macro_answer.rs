//! What a call for a macro answers.

use super::bare;
use super::model::{Entry, Set};
use super::symbolic::Run;
use super::touched::Touched;
use crate::calls::Answer;

/// "Macro: 7, 11, 13, 17." The bytes are the header's: condition 16, effect 16, cost 2, reads 2, writes 2, each number low byte first, and zeros after them. A
/// buffer that is shorter gives 8, last of all, and zeros throughout. A refused macro has zeros too: both sets are empty.
pub fn macro_of(set: &Set, moves: &[u8], out_length: usize) -> Answer {
    let zeros = vec![0; out_length];
    if moves.len() > 32 {
        return bare(11, zeros);
    }
    if moves.iter().any(|&number| number == 0 || number as usize > set.rules.len()) {
        return bare(13, zeros);
    }
    let Some(run) = Run::of(set, moves) else {
        return bare(17, zeros);
    };
    if out_length < 16 + 16 + 2 + 2 + 2 {
        return bare(8, zeros);
    }
    let rule = run.as_rule(set.cost(moves));
    let touched = Touched::by_rule(&set.sizes, &rule);
    let numbers = [rule.cost as u16, touched.reads, touched.writes].map(u16::to_le_bytes).concat();
    let mut buffer = [sixteen(&rule.condition), sixteen(&rule.effect), numbers].concat();
    buffer.resize(out_length, 0);
    bare(0, buffer)
}

/// "two vectors of sixteen places each .. with the unused places 0"; the header: "An entry below 16 is that constant; 16 + k is the variable of position k + 1".
fn sixteen(line: &[Entry]) -> Vec<u8> {
    let mut bytes: Vec<u8> = line
        .iter()
        .map(|entry| match *entry {
            Entry::Value(c) => c,
            Entry::Place(j) => 16 + j as u8,
        })
        .collect();
    bytes.resize(16, 0);
    bytes
}
