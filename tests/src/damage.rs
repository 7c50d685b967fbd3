//! Rule texts damaged at random, and the one item in which two texts differ.

use crate::oracle::file::read;
use crate::random::Random;

/// A text with a byte changed, put in or taken out, or cut, or with an item changed. One with a fault stays.
pub fn damaged(random: &mut Random, text: &[u8]) -> Vec<u8> {
    if read(text).is_err() {
        return text.to_vec();
    }
    let (front, back) = text.split_at(random.below(text.len()));
    let byte = [random.pick(b"0123456789,x\n= \0\xff")];
    match random.below(15) {
        0 => [front, &back[1..]].concat(),
        1 => [front, &byte, back].concat(),
        2 => front.to_vec(),
        3 => [text, &byte].concat(),
        4 | 5 => with_same_lines(random, text),
        6 | 7 => with_entry(random, text),
        8 => with_number(random, text),
        9..=11 => with_digit(random, text),
        _ => with_single_value(random, text),
    }
}

/// The places of the lines that begin so.
fn lines_of(text: &[u8], keys: &[&[u8]]) -> Vec<usize> {
    let lines = text.split(|&byte| byte == b'\n').enumerate();
    lines.filter(|(_, line)| keys.iter().any(|key| line.starts_with(key))).map(|(place, _)| place).collect()
}

/// The text with another item at a place of a line's list.
fn with_item(text: &[u8], line: usize, place: usize, item: &str) -> Vec<u8> {
    let mut lines: Vec<Vec<u8>> = text.split(|&byte| byte == b'\n').map(<[u8]>::to_vec).collect();
    let mut items: Vec<&[u8]> = lines[line].split(|byte| b"=,".contains(byte)).collect();
    let key = items.remove(0);
    items[place] = item.as_bytes();
    lines[line] = [key, &b"="[..], &items.join(&b',')].concat();
    lines.join(&b'\n')
}

/// A text's lines, each as its key and the items of its list.
fn lists(text: &[u8]) -> Vec<Vec<&[u8]>> {
    text.split(|&byte| byte == b'\n').map(|line| line.split(|byte| b"=,".contains(byte)).collect()).collect()
}

/// The one item in which a text differs from another: the key of its line, its place in the list and the item; nothing
/// if they differ in more or in something else.
pub fn changed_item<'a>(old: &[u8], new: &'a [u8]) -> Option<(&'a str, usize, &'a str)> {
    let (old, new) = (lists(old), lists(new));
    let lengths = |lists: &[Vec<&[u8]>]| lists.iter().map(Vec::len).collect::<Vec<_>>();
    if lengths(&old) != lengths(&new) {
        return None;
    }
    let items = (0..new.len()).flat_map(|line| (0..new[line].len()).map(move |item| (line, item)));
    let changed: Vec<(usize, usize)> = items.filter(|&(line, item)| old[line][item] != new[line][item]).collect();
    let shown = |bytes: &'a [u8]| std::str::from_utf8(bytes).ok();
    match changed[..] {
        [(line, item)] if item > 0 => Some((shown(new[line][0])?, item - 1, shown(new[line][item])?)),
        _ => None,
    }
}

/// One size changed to 0 or 1. Or, where a size is 1, one entry changed: there to a variable, to a constant that is none
/// of its values or to the variable of a position that is none; or elsewhere to the variable of such a position.
fn with_single_value(random: &mut Random, text: &[u8]) -> Vec<u8> {
    let sizes = read(text).expect("a text without a fault").sizes;
    let single: Vec<usize> = (0..sizes.len()).filter(|&i| sizes[i] == 1).collect();
    if single.is_empty() || random.chance(20) {
        let line = lines_of(text, &[b"sizes="])[0];
        return with_item(text, line, random.below(sizes.len()), random.pick(&["0", "1", "1"]));
    }
    let (there, named) = (random.pick(&single), random.pick(&single));
    let several: Vec<usize> = (0..sizes.len()).filter(|&i| sizes[i] > 1).collect();
    let (place, entry) = match random.below(8) {
        0 => (there, format!("x{}", there + 1)),
        1 => (there, format!("x{}", named + 1)),
        2 => (there, format!("x{}", random.from_to(1, sizes.len()))),
        3 => (there, random.pick(&["1", "1", "1", "2", "15", "16"]).to_string()),
        4 => (there, format!("x{}", random.pick(&[0, sizes.len() + 1, 17, 999]))),
        _ => (random.pick(if several.is_empty() { &single } else { &several }), format!("x{}", named + 1)),
    };
    with_item(text, random.pick(&lines_of(text, &[b"if=", b"then="])), place, &entry)
}

/// The file with the `if` and `then` lines of one rule in the place of another's, if it has two; most often with its cost as well.
fn with_same_lines(random: &mut Random, text: &[u8]) -> Vec<u8> {
    let mut lines: Vec<&[u8]> = text.split(|&byte| byte == b'\n').collect();
    let mut costs: Vec<usize> = (0..lines.len()).filter(|&line| lines[line].starts_with(b"cost=")).collect();
    if costs.len() > 1 {
        let one = costs.swap_remove(random.below(costs.len()));
        let other = random.pick(&costs);
        (lines[other + 1], lines[other + 2]) = (lines[one + 1], lines[one + 2]);
        if random.chance(60) {
            lines[other] = lines[one];
        }
    }
    lines.join(&b'\n')
}

/// One entry of a rule's lines changed.
fn with_entry(random: &mut Random, text: &[u8]) -> Vec<u8> {
    let positions = read(text).expect("a text without a fault").sizes.len();
    let line = random.pick(&lines_of(text, &[b"if=", b"then="]));
    let entry = format!("{}{}", random.pick(&["x", "x", ""]), random.from_to(0, positions + 1));
    with_item(text, line, random.below(positions), &entry)
}

/// One number changed to one about a limit, or to none.
fn with_number(random: &mut Random, text: &[u8]) -> Vec<u8> {
    let mut items: Vec<&[u8]> = text.split_inclusive(|byte| b"=,x\n".contains(byte)).collect();
    let numbers: Vec<usize> = (0..items.len()).filter(|&item| items[item][0].is_ascii_digit()).collect();
    let number = random.pick(&["0", "1", "2", "3", "15", "16", "17", "31", "32", "255", "256", "999", "1000", "00", "016"]);
    let item = random.pick(&numbers);
    let changed = [number.as_bytes(), &items[item][items[item].len() - 1..]].concat();
    items[item] = &changed;
    items.concat()
}

/// One digit changed.
fn with_digit(random: &mut Random, text: &[u8]) -> Vec<u8> {
    let mut text = text.to_vec();
    let digits: Vec<usize> = (0..text.len()).filter(|&at| text[at].is_ascii_digit()).collect();
    text[random.pick(&digits)] = random.pick(b"0123456789");
    text
}
