//! Document 01, "The drop table": the table that the builder makes, and which tables are accepted.

use super::redundancy::Redundancy;

/// "65535 means kept".
pub const KEPT: u16 = 65535;

/// "two for each entry, low byte first"
pub fn bytes(entries: &[u16]) -> Vec<u8> {
    entries.iter().flat_map(|entry| entry.to_le_bytes()).collect()
}

pub fn entries(table: &[u8]) -> Vec<u16> {
    table.chunks_exact(2).map(|pair| u16::from_le_bytes([pair[0], pair[1]])).collect()
}

/// The indices of the marked sequences: "another value marks the sequence".
pub fn marked(entries: &[u16]) -> impl Iterator<Item = usize> + '_ {
    (0..entries.len()).filter(|&index| entries[index] != KEPT)
}

/// "B is needless if it has 1 to L rules and is redundant with some earlier A"; "The builder names the smallest index that will do."
pub fn built(redundancy: &Redundancy) -> Vec<u16> {
    let witness = |b: usize| (0..b).find(|&a| redundancy.redundant(b, a)).map_or(KEPT, |a| a as u16);
    (0..redundancy.count()).map(witness).collect()
}

/// "A table is accepted if entry 0 is 65535, and each mark's witness has a smaller index and its sequence is redundant with that witness."
pub fn accepted(redundancy: &Redundancy, entries: &[u16]) -> bool {
    let justified = |b: usize| entries[b] == KEPT || ((entries[b] as usize) < b && redundancy.redundant(b, entries[b] as usize));
    entries[0] == KEPT && (0..entries.len()).all(justified)
}
