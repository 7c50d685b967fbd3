//! Document 01, "The drop table": sequences, their order and their indices. "Order of sequences: fewer rules first; at equal length, the smaller rule number at the
//! first difference."

/// The sequences of at most `reach` of so many rules, in order, from the empty one. The place of a sequence is its index.
pub fn sequences(rules: usize, reach: usize) -> Vec<Vec<u8>> {
    let mut all = vec![vec![]];
    let mut longest = all.clone();
    for _ in 0..reach {
        longest = longest.iter().flat_map(|sequence: &Vec<u8>| (1..=rules as u8).map(move |number| [&sequence[..], &[number]].concat())).collect();
        all.extend(longest.iter().cloned());
    }
    all
}

/// "S = 1 + M + .. + M^L"
pub fn count(rules: usize, reach: usize) -> usize {
    (0..=reach as u32).map(|length| rules.pow(length)).sum()
}

/// The index of a sequence: how many are shorter, and how many of its length come before it.
pub fn index(rules: usize, sequence: &[u8]) -> usize {
    let shorter: usize = (0..sequence.len() as u32).map(|length| rules.pow(length)).sum();
    shorter + sequence.iter().fold(0, |before, &number| before * rules + number as usize - 1)
}
