//! The cases of crates/cases_*, as calls of the C entries. A case that changes a rule set other than by its file cannot be put to a C entry, and is left out.

use crate::calls::{Call, Query};
use crate::library::answer;
use crate::oracle::file;
use crate::oracle::sequences::{count, index};
use crate::oracle::table::{bytes, KEPT};

/// The numbers of a comma list; those that do not fit become the largest.
fn numbers(list: &str) -> Vec<u64> {
    list.split(',').filter(|item| !item.is_empty() && *item != "-").map(|item| item.parse().unwrap_or(u64::MAX)).collect()
}

fn byte_list(list: &str) -> Vec<u8> {
    numbers(list).iter().map(|&number| u8::try_from(number).unwrap_or(255)).collect()
}

fn number(item: &str) -> u64 {
    item.parse().unwrap_or(u64::MAX)
}

/// `a:b,c:d`
fn pairs(list: &str) -> Vec<(usize, u64)> {
    list.split(',').filter_map(|pair| pair.split_once(':')).map(|(place, value)| (number(place) as usize, number(value))).collect()
}

/// A table of so many bytes 255, with these marks.
fn marked(length: usize, marks: &str) -> Vec<u8> {
    let mut table = vec![255; length];
    for (place, mark) in pairs(marks) {
        for (byte, value) in (mark as u16).to_le_bytes().into_iter().enumerate() {
            if let Some(at) = table.get_mut(2 * place + byte) {
                *at = value;
            }
        }
    }
    table
}

/// The text of a file: a stroke stands for a line feed.
fn text(shown: &str) -> Vec<u8> {
    shown.replace('/', "\n").into_bytes()
}

/// The calls of a script of rule files.
pub fn file_calls(script: &str) -> Vec<Call> {
    let mut calls = vec![];
    for shown in script.lines().filter(|line| !line.starts_with('#')).filter_map(|line| line.get(2..)) {
        let text = text(shown);
        calls.extend([0, text.len().saturating_sub(1), text.len(), text.len() + 9].map(|out_length| Call::Rewrite { text: text.clone(), out_length }));
        calls.extend((0..=text.len().min(200)).map(|cut| Call::Read { text: text[..cut].to_vec() }));
        calls.push(Call::Read { text });
    }
    calls
}

/// The query of a line: start, goal and bounds from its third item on.
fn query<'a>(item: &impl Fn(usize) -> &'a str) -> Query {
    Query {
        start: byte_list(item(2)),
        goal: byte_list(item(3)),
        max_moves: number(item(4)) as usize,
        max_cost: u16::try_from(number(item(5))).unwrap_or(u16::MAX),
        step_limit: u32::try_from(number(item(6))).unwrap_or(u32::MAX),
    }
}

/// The calls of a script of macros, tables or queries. A table that is built there is the library's, and its build is among the calls. The longest plan buffer is 4,096 bytes, as in the scripts.
pub fn calls(script: &str) -> Vec<Call> {
    let mut calls = vec![];
    let mut rules: Option<Vec<u8>> = None;
    let mut table: Vec<u8> = vec![];
    let tables = script.lines().any(|line| line.starts_with("e "));
    for line in script.lines() {
        let items: Vec<&str> = line.split(' ').collect();
        let item = |place: usize| items.get(place).copied().unwrap_or("");
        match (item(0), &rules) {
            ("f", _) => {
                rules = Some(text(&line[2..]));
                table.clear();
            }
            // a set that no file gives, or none
            ("s", _) => rules = None,
            ("m", Some(rules)) => {
                let moves = byte_list(item(1));
                calls.extend([38, 44, 37, 34, 0].map(|out_length| Call::Macro { rules: rules.clone(), moves: moves.clone(), out_length }));
            }
            ("w", Some(rules)) => calls.extend(redundancy(rules, &byte_list(item(1)), &byte_list(item(3)))),
            ("b", Some(rules)) => {
                let (reach, table_length) = (number(item(1)) as usize, number(item(2)) as usize);
                let build = Call::BuildTable { rules: rules.clone(), table_length, reach };
                table = answer(&build).buffer;
                calls.extend([build, Call::TableSize { rules: rules.clone(), reach }]);
            }
            ("t", Some(_)) => table = marked(number(item(1)) as usize, item(2)),
            ("c", Some(rules)) if tables => {
                let (reach, length) = (number(item(1)) as usize, number(item(2)) as usize);
                calls.push(Call::CheckTable { rules: rules.clone(), table: marked(length, item(3)), reach });
            }
            // the table that stands, cut to a length, with some bytes changed
            ("k", Some(rules)) if tables => {
                for (place, byte) in pairs(item(3)) {
                    if let Some(at) = table.get_mut(place) {
                        *at = byte as u8;
                    }
                }
                table.resize(number(item(2)) as usize, 255);
                calls.push(Call::CheckTable { rules: rules.clone(), table: table.clone(), reach: number(item(1)) as usize });
            }
            ("q" | "k", Some(rules)) => {
                let plan_length = number(item(7)).min(4096) as usize;
                let (reach, query) = (number(item(1)) as usize, query(&item));
                calls.push(Call::Search { rules: rules.clone(), table: table.clone(), reach, query, plan_length });
            }
            ("x", Some(rules)) => {
                let (reach, query, moves) = (number(item(1)) as usize, query(&item), byte_list(item(7)));
                let explain =
                    |out_length| Call::Explain { rules: rules.clone(), table: table.clone(), reach, query: query.clone(), moves: moves.clone(), out_length };
                calls.extend([19, 25, 18, 0].map(explain));
            }
            _ => {}
        }
    }
    calls
}

/// Whether one sequence is redundant with another, asked of a table with that one mark, where a table can have it.
fn redundancy(rules: &[u8], sequence: &[u8], witness: &[u8]) -> Option<Call> {
    let number = file::read(rules).ok()?.rules.len();
    let own = |moves: &[u8]| moves.len() <= 3 && moves.iter().all(|&rule| (1..=number).contains(&(rule as usize)));
    if sequence.is_empty() || !own(sequence) || !own(witness) {
        return None;
    }
    let mut entries = vec![KEPT; count(number, sequence.len())];
    entries[index(number, sequence)] = index(number, witness) as u16;
    Some(Call::CheckTable { rules: rules.to_vec(), table: bytes(&entries), reach: sequence.len() })
}
