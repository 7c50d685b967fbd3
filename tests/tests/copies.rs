//! Document 02, 2026-04: "composing one more rule shall copy the macro's effect vector at most once and its condition
//! vector never. A copy is a variable or field set whole from another, parameters and results left aside, counted in
//! the source with all functions called." The source is read line by line, as the formatter lays it out. A line that
//! sets something is listed unless its value is plainly new; a line that is listed in vain has to be made plainer.
//! Types are not known: an element bound by `let` is taken for a number, as all arrays here hold bytes, and a loop that
//! hands each entry through a function or an operation that changes nothing is not seen.

use std::collections::HashMap;

/// The lines of each function's body, without indentation and comments.
fn bodies(source: &str) -> HashMap<&str, Vec<&str>> {
    let mut bodies: HashMap<&str, Vec<&str>> = HashMap::new();
    let (mut name, mut in_body) = ("", false);
    for line in source.lines() {
        let code = line.split("//").next().unwrap_or_default().trim_end();
        let signature = code.strip_prefix("pub ").unwrap_or(code).strip_prefix("fn ");
        name = signature.and_then(|signature| signature.split('(').next()).unwrap_or(name);
        match code {
            "}" => in_body = false,
            _ if in_body => bodies.entry(name).or_default().push(code.trim_start()),
            _ => in_body = code == "{" || code.ends_with('{') && (signature.is_some() || code.starts_with(')')),
        }
    }
    bodies
}

/// The lines that are listed in `extended` and in all functions that it reaches, each with its function.
fn listed(source: &str) -> Vec<(&str, &str)> {
    let bodies = bodies(source);
    let mut lines = Vec::new();
    let mut reached = vec!["extended"];
    let mut i = 0;
    while i < reached.len() {
        let function = reached[i];
        for line in bodies.get(function).unwrap_or_else(|| panic!("`{function}` is not in the source")) {
            lines.extend(is_listed(line).then_some((function, *line)));
            for callee in line.match_indices('(').map(|(end, _)| &line[..end]).filter(|callee| !is_of_numbers(callee)) {
                let called = last_name(callee);
                if !called.is_empty() && !reached.contains(&called) {
                    reached.push(called);
                }
            }
        }
        i += 1;
    }
    lines
}

/// The name that a text ends with; empty where it ends otherwise.
fn last_name(text: &str) -> &str {
    text.rsplit(|c: char| !c.is_alphanumeric() && c != '_').next().unwrap_or_default()
}

/// A method of the library's numbers, which copies nothing.
fn is_of_numbers(callee: &str) -> bool {
    callee.ends_with(".max") || callee.ends_with(".min")
}

fn is_name(text: &str) -> bool {
    !text.is_empty() && last_name(text) == text
}

/// `Vectors` is one, `PLACE_COUNT` is not.
fn is_struct_name(text: &str) -> bool {
    is_name(text) && text.starts_with(char::is_uppercase) && text.contains(char::is_lowercase)
}

fn is_listed(line: &str) -> bool {
    let has_struct_with_fields = line.match_indices(" { ").any(|(end, _)| is_struct_name(last_name(&line[..end])));
    if has_struct_with_fields || line.contains("::") || line.contains(" => ") {
        return true;
    }
    let Some((target, value)) = line.split_once(" = ").or_else(|| line.split_once(": ")) else {
        let is_shorthand = line.strip_suffix(',').is_some_and(is_name);
        let is_base = line.strip_prefix("..").is_some_and(|base| !is_new(base));
        return is_shorthand || is_base || line.ends_with(" =") || line.ends_with(':');
    };
    let Some(value) = value.strip_suffix([';', ',']) else {
        // the fields follow, each on a line of its own
        return !value.strip_suffix(" {").is_some_and(is_struct_name);
    };
    let is_element_read = target.starts_with("let ") && value.ends_with(']') && !value.starts_with('[');
    value.contains(['{', '}']) || !(is_new(value) || is_element_read)
}

/// Whether a value is the result of a call, a literal, or computed.
fn is_new(value: &str) -> bool {
    let is_result = value.ends_with(')') && value.split('(').next().is_some_and(|f| is_name(f) || is_of_numbers(f));
    let is_number = value.trim_start_matches('[').starts_with(char::is_numeric) && !value.contains(',');
    let operators = [" + ", " - ", " * ", " / ", " % ", " < ", " <= ", " > ", " >= ", " == ", " != ", " as "];
    let is_closed = |text: &str| text.matches(['(', '[']).count() == text.matches([')', ']']).count();
    let is_computed = operators.iter().any(|sign| value.match_indices(sign).any(|(at, _)| is_closed(&value[..at])));
    is_result || is_computed || is_number || value == "true" || value == "false"
}

#[test]
fn one_copy_of_the_effect_and_none_of_the_condition() {
    let source = include_str!(concat!(env!("CARGO_MANIFEST_DIR"), "/../crates/composition/src/lib.rt"));
    let of_rule = [("extended", "let asked = rule.condition;"), ("extended", "let last = rule.effect;")];
    let of_macro = ("followed", "let held = sequence.effect;");
    assert_eq!(listed(source), [of_rule[0], of_rule[1], of_macro], "left: what the source sets, right: what it may");
}

/// On the left what is listed, on the right what is not.
const PLANTED: &str = "
    let mut next = sequence;                        | let met = unified(sequence, asked);
    let held: [u8; PLACE_COUNT] = sequence.effect;  | let held: [u8; PLACE_COUNT] = replaced(from, to, held);
    let held = unified(sequence, asked).effect;     | sequence = replaced(from, to, sequence);
    sequence.effect = next;                         | sequence.effect = replaced(from, to, sequence.effect);
    next[i] = held[i];                              | let have = sequence.effect[i];
    let held = sequence.copied(last);               | let from = have.max(want);
    next[i] = held[i + 1];                          | next[i] = held[i + 1] + 1;
    next[i] = entry;                                | sequence.effect[i] = stands_for(entry, held[place]);
    condition: needed,                              | condition: replaced(from, to, needed),
    condition,                                      | condition: [0; PLACE_COUNT],
    ..sequence                                      | ..denied()
    Vectors { admitted, condition, effect }         | Vectors {
    let a = unified(Vectors { ..sequence }, asked); | let next = Vectors {
    let a = if c < 2 { b } else { d };              | if x < FIRST_VARIABLE { y } else { x }
    let a = (b);                                    | let place = (entry % MAX_POSITIONS) as usize;
    let a = [b; 2];                                 | let differ = have != want;
    let a = [0, b[1]];                              | let mut entries = [0u8; PLACE_COUNT];
    let a =                                         | let mut i: usize = 0;
    let a = unified(                                | i += 1;
    condition: match c {                            | return sequence;
    condition:                                      | replaced(from, to, sequence)
    other => followed(other, last),                 | admitted: true,
    states::replaced(from, to, sequence)            | sequence";

#[test]
fn planted_lines() {
    for (left, right) in PLANTED.lines().filter_map(|row| row.split_once('|')) {
        assert!(is_listed(left.trim()), "{left}");
        assert!(!is_listed(right.trim()), "{right}");
    }
}

#[test]
#[should_panic(expected = "`value` is not in the source")]
fn a_function_of_another_source() {
    listed("pub fn extended() -> u8 {\n    value(0)\n}");
}

/// `extended` before the request and all that it called, without contracts; what is listed is marked.
const BEFORE: &str = "\
fn larger(x: u8, y: u8) -> u8 {
    if x < y { y } else { x }
}
fn smaller(x: u8, y: u8) -> u8 {
    if x < y { x } else { y }
}
fn value_in(entries: [u8; PLACE_COUNT], entry: u8) -> u8 {
    if entry < FIRST_VARIABLE {
        return entry;
    }
    let place = (entry % MAX_POSITIONS) as usize;
    entries[place]
}
fn replaced(from: u8, to: u8, entries: [u8; PLACE_COUNT]) -> [u8; PLACE_COUNT] {
    let mut changed = entries; // copy
    let mut i: usize = 0;
    while i < PLACE_COUNT {
        if changed[i] == from {
            changed[i] = to; // in vain: a number, which its name does not tell
        }
        i += 1;
    }
    changed
}
fn denied() -> Vectors {
    Vectors {
        admitted: false,
        condition: [0; PLACE_COUNT],
        effect: [0; PLACE_COUNT],
    }
}
fn unified(
    condition: [u8; PLACE_COUNT],
    effect: [u8; PLACE_COUNT],
    asked: [u8; PLACE_COUNT],
) -> Vectors {
    let mut needed = condition; // copy
    let mut held = effect; // copy
    let mut i: usize = 0;
    while i < PLACE_COUNT {
        let have = held[i];
        let want = value_in(held, asked[i]);
        if have != want {
            let from = larger(have, want);
            let to = smaller(have, want);
            if from < FIRST_VARIABLE {
                return denied();
            }
            let next_needed = replaced(from, to, needed);
            let next_held = replaced(from, to, held);
            needed = next_needed; // copy
            held = next_held; // copy
        }
        i += 1;
    }
    Vectors {
        admitted: true,
        condition: needed, // copy
        effect: held, // copy
    }
}
fn followed(effect: [u8; PLACE_COUNT], entries: [u8; PLACE_COUNT]) -> [u8; PLACE_COUNT] {
    let mut next = effect; // copy
    let mut i: usize = 0;
    while i < PLACE_COUNT {
        next[i] = value_in(entries, effect[i]);
        i += 1;
    }
    next
}
pub fn extended(sequence: Vectors, rule: Rule) -> Vectors {
    if !sequence.admitted {
        return denied();
    }
    let condition = sequence.condition; // copy
    let effect = sequence.effect; // copy
    let asked = rule.condition; // copy
    let last = rule.effect; // copy
    let met = unified(condition, effect, asked);
    if !met.admitted {
        return denied();
    }
    let needed = met.condition; // copy
    let held = met.effect; // copy
    let reached = followed(last, held);
    Vectors {
        admitted: true,
        condition: needed, // copy
        effect: reached, // copy
    }
}
";

#[test]
fn before_the_request() {
    let mut marked: Vec<_> = BEFORE.lines().filter_map(|line| Some(line.split_once(" // ")?.0.trim())).collect();
    let mut found: Vec<_> = listed(BEFORE).iter().map(|(_, line)| *line).collect();
    marked.sort();
    found.sort();
    assert_eq!(found, marked);
    assert_eq!(BEFORE.matches(" // copy\n").count(), 16);
}
