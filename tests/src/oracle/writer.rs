//! Document 01, "The file is key=value lines in a fixed order": the writer.

use super::bare;
use super::model::{Entry, Set};
use crate::calls::Answer;

fn comma_list(items: impl Iterator<Item = String>) -> String {
    items.collect::<Vec<_>>().join(",")
}

fn line(entries: &[Entry]) -> String {
    comma_list(entries.iter().map(|entry| match entry {
        Entry::Value(c) => c.to_string(),
        Entry::Place(j) => format!("x{}", j + 1),
    }))
}

/// The file of a set.
pub fn write(set: &Set) -> Vec<u8> {
    let mut text = format!("positions={}\n", set.sizes.len());
    text += &format!("sizes={}\n", comma_list(set.sizes.iter().map(u8::to_string)));
    text += &format!("rules={}\n", set.rules.len());
    for rule in &set.rules {
        text += &format!("cost={}\nif={}\nthen={}\n", rule.cost, line(&rule.condition), line(&rule.effect));
    }
    text.into_bytes()
}

/// "8 text buffer shorter than the file"; "The writer's buffer is zero after the text, and wholly zero when refused."
pub fn rewritten(set: &Set, out_length: usize) -> Answer {
    let mut buffer = write(set);
    let length = buffer.len();
    if length > out_length {
        return bare(8, vec![0; out_length]);
    }
    buffer.resize(out_length, 0);
    Answer { number: (length as u64) << 8, buffer }
}
