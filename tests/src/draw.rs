//! Rule sets, tables, queries and proposals drawn at random. Rules are drawn so that sequences overlap, commute, undo each other and cost differently: much is prunable, and plans tie.
//! Many sets have positions of size 1, and some have no others.

use crate::calls::Query;
use crate::oracle::file::read;
use crate::oracle::model::{Entry, Rule, Set, State};
use crate::oracle::redundancy::Redundancy;
use crate::oracle::symbolic::Run;
use crate::oracle::table::KEPT;
use crate::oracle::writer::write;
use crate::random::Random;

/// Sizes with at most so many states; often some are equal.
pub fn sizes(random: &mut Random, states: usize) -> Vec<u8> {
    let pool = [random.pick(&[2, 2, 2, 3, 3, 4, 5, 16]), random.pick(&[2, 2, 3, 4, 7, 11])];
    let positions = random.from_to(1, 16);
    let mut sizes = vec![];
    let mut product = 1usize;
    for _ in 0..positions {
        let size = random.pick(&pool);
        product = product.saturating_mul(size as usize);
        if product > states && !sizes.is_empty() {
            break;
        }
        sizes.push(size);
    }
    sizes
}

/// Document 02: "An always blocked bay is now written with size 1." One to nine such positions put in anywhere among
/// the others, or in their place where there are sixteen.
fn with_single_values(random: &mut Random, mut sizes: Vec<u8>) -> Vec<u8> {
    for _ in 0..random.pick(&[1, 1, 1, 2, 2, 3, 9]) {
        if sizes.len() < 16 {
            sizes.insert(random.below(sizes.len() + 1), 1);
        } else {
            sizes[random.below(16)] = 1;
        }
    }
    sizes
}

/// The entries that leave all as it is: "At a position of size 1 both lines must hold 0".
fn idle(sizes: &[u8]) -> Vec<Entry> {
    (0..sizes.len()).map(|i| if sizes[i] == 1 { Entry::Value(0) } else { Entry::Place(i) }).collect()
}

/// A value of a position.
fn value(random: &mut Random, size: u8) -> Entry {
    Entry::Value(random.below(size as usize) as u8)
}

/// Condition and effect entry by entry.
fn loose(random: &mut Random, sizes: &[u8]) -> (Vec<Entry>, Vec<Entry>) {
    let (constants, links) = (random.pick(&[5, 20, 40]), random.pick(&[0, 15, 40]));
    let mut condition = idle(sizes);
    for i in 0..sizes.len() {
        let same: Vec<usize> = (0..i).filter(|&j| sizes[j] == sizes[i] && condition[j] == Entry::Place(j)).collect();
        if random.chance(constants) {
            condition[i] = value(random, sizes[i]);
        } else if !same.is_empty() && random.chance(links) {
            condition[i] = Entry::Place(random.pick(&same));
        }
    }
    let changes = random.pick(&[15, 30, 60]);
    let mut effect = condition.clone();
    for i in 0..sizes.len() {
        let same: Vec<usize> = (0..sizes.len()).filter(|&j| sizes[j] == sizes[i] && condition[j] == Entry::Place(j)).collect();
        if random.chance(changes) {
            effect[i] = if same.is_empty() || random.chance(50) { value(random, sizes[i]) } else { Entry::Place(random.pick(&same)) };
        }
    }
    (condition, effect)
}

/// Two positions, the same size for both if there are such; most often of several values, if there are such.
fn two_alike(random: &mut Random, sizes: &[u8]) -> (usize, usize) {
    let several: Vec<usize> = (0..sizes.len()).filter(|&i| sizes[i] > 1).collect();
    let one = if several.is_empty() || random.chance(10) { random.below(sizes.len()) } else { random.pick(&several) };
    let alike: Vec<usize> = (0..sizes.len()).filter(|&other| other != one && sizes[other] == sizes[one]).collect();
    (one, if alike.is_empty() { one } else { random.pick(&alike) })
}

/// One more rule, some of them made from earlier rules.
fn rule(random: &mut Random, kinds: &[usize], sizes: &[u8], earlier: &[Rule], cost: u32) -> Rule {
    let (mut condition, mut effect) = (idle(sizes), idle(sizes));
    let (one, other) = two_alike(random, sizes);
    let kind = random.pick(kinds);
    match if earlier.is_empty() { kind % 5 } else { kind } {
        // sets a position
        0 => effect[one] = value(random, sizes[one]),
        // turns one value into another
        1 => (condition[one], effect[one]) = (value(random, sizes[one]), value(random, sizes[one])),
        // exchanges two positions
        2 => effect.swap(one, other),
        // copies one position to another
        3 => effect[one] = condition[other],
        4 => (condition, effect) = loose(random, sizes),
        // an earlier rule the other way round
        5 => {
            let rule = random.pick(earlier);
            (condition, effect) = (rule.effect, rule.condition);
        }
        // an earlier rule with another effect at one place, or none there
        6 => {
            let rule = random.pick(earlier);
            (condition, effect) = (rule.condition, rule.effect);
            effect[one] = if random.chance(50) { condition[one] } else { value(random, sizes[one]) };
        }
        // an earlier rule where a position has a certain value
        7 => {
            let rule = random.pick(earlier);
            let known = value(random, sizes[one]);
            let narrowed = |entry: &Entry| if *entry == Entry::Place(one) { known } else { *entry };
            (condition, effect) = (rule.condition.iter().map(narrowed).collect(), rule.effect.iter().map(narrowed).collect());
        }
        // an earlier rule's lines, for as much, for about as much, or for another cost
        8 => {
            let rule = random.pick(earlier);
            let other = random.pick(&[rule.cost, rule.cost + 1, rule.cost.saturating_sub(1), cost, 0, 255]);
            return Rule { cost: other.min(255), ..rule };
        }
        // two or three earlier rules in one, for about as much or for more
        _ => {
            let set = Set { sizes: sizes.to_vec(), rules: earlier.to_vec() };
            let sequence: Vec<u8> = (0..random.from_to(2, 3)).map(|_| random.from_to(1, earlier.len()) as u8).collect();
            if let Some(run) = Run::of(&set, &sequence) {
                let sum = set.cost(&sequence);
                let about = random.pick(&[sum, sum.saturating_sub(1), sum + 1, 2 * sum + 1, 3 * sum + 1, cost]);
                return run.as_rule(about.min(255));
            }
        }
    }
    Rule { cost, condition, effect }
}

/// A cost, by the set's way with costs.
fn cost(random: &mut Random, way: usize, place: usize) -> u32 {
    (match way {
        0 => 1,
        1 => random.below(2),
        2 => random.below(4),
        // cheaper later, dearer later
        3 => 9usize.saturating_sub(place),
        4 => place + 1,
        5 => random.pick(&[0, 0, 0, 0, 1, 255]),
        _ => random.below(256),
    }) as u32
}

/// Sizes, the number of rules and their kinds: ways from value to value; exchanges of positions; values set and copied; all kinds.
fn family(random: &mut Random, states: usize, most_rules: usize) -> (Vec<u8>, usize, &'static [usize]) {
    let number = random.from_to(1, most_rules);
    match random.below(8) {
        0 => (vec![random.from_to(4, 9) as u8], random.from_to(6, 20), &[1, 1, 1, 8, 9, 9]),
        1 => (vec![random.from_to(3, 6) as u8, random.from_to(2, 3) as u8], random.from_to(6, 20), &[1, 1, 1, 0, 8, 9, 9]),
        2 => (vec![random.pick(&[2, 3]); random.from_to(3, 5)], number, &[2, 2, 2, 5, 7, 9]),
        3 => (sizes(random, states), number, &[0, 0, 3, 2, 7, 9]),
        _ => (sizes(random, states), number, &[0, 1, 2, 3, 4, 4, 4, 4, 5, 6, 7, 8, 9]),
    }
}

/// A rule set that a file gives, with at most so many states, or some hundreds, and so many rules, or twenty.
pub fn rule_set(random: &mut Random, states: usize, most_rules: usize) -> Set {
    let (sizes, number, kinds) = family(random, states, most_rules);
    let sizes = match random.below(20) {
        0 => vec![1; random.from_to(1, 16)],
        1..=7 => with_single_values(random, sizes),
        _ => sizes,
    };
    let way = random.below(7);
    let mut set = Set { sizes, rules: vec![] };
    for _ in 0..4 * number {
        let cost = cost(random, way, set.rules.len());
        let rule = rule(random, kinds, &set.sizes, &set.rules, cost);
        // few have the lines of an earlier one: in small sizes most would
        if set.rules.iter().any(|earlier| rule.has_lines_of(earlier)) && random.chance(80) {
            continue;
        }
        set.rules.push(rule);
        if read(&write(&set)).is_err() {
            set.rules.pop();
        }
        if set.rules.len() == number {
            break;
        }
    }
    if set.rules.is_empty() {
        set.rules.push(Rule { cost: 1, condition: idle(&set.sizes), effect: idle(&set.sizes) });
    }
    set
}

pub fn state(random: &mut Random, sizes: &[u8]) -> State {
    sizes.iter().map(|&size| random.below(size as usize) as u8).collect()
}

/// Some of the states that can be reached, in the order in which a search in breadth meets them.
fn reached(set: &Set, start: &[u8]) -> Vec<State> {
    let mut met = vec![start.to_vec()];
    let mut from = 0;
    while from < met.len() && met.len() < 60 {
        for rule in &set.rules {
            if rule.runs(&met[from]) && !met.contains(&rule.after(&met[from])) {
                met.push(rule.after(&met[from]));
            }
        }
        from += 1;
    }
    met
}

/// Leaves some values of a goal open, or none.
pub fn open(random: &mut Random, goal: &mut [u8]) {
    let share = random.pick(&[0, 20, 60]);
    for byte in goal {
        if random.chance(share) {
            *byte = 255;
        }
    }
}

/// A start in which some rule runs, most often; a goal that can be reached, most often, with some values left open. No bounds yet.
pub fn query(random: &mut Random, set: &Set) -> Query {
    let mut start = state(random, &set.sizes);
    for _ in 0..8 {
        if set.rules.iter().any(|rule| rule.runs(&start)) || random.chance(10) {
            break;
        }
        start = state(random, &set.sizes);
    }
    let met = reached(set, &start);
    let far = random.from_to(met.len() / 2, met.len() - 1);
    let any = state(random, &set.sizes);
    let mut goal = random.pick(&[&met[far], &met[far], &met[far], &any, &start]).clone();
    open(random, &mut goal);
    Query { start, goal, max_moves: 0, max_cost: 65535, step_limit: u32::MAX }
}

/// Some of a table's marks.
pub fn some_marks(random: &mut Random, entries: &[u16]) -> Vec<u16> {
    let share = random.pick(&[10, 50, 90]);
    entries.iter().map(|&entry| if random.chance(share) { entry } else { KEPT }).collect()
}

/// The same marks with other witnesses that justify them, where some are hit upon.
pub fn other_witnesses(random: &mut Random, redundancy: &Redundancy, entries: &[u16]) -> Vec<u16> {
    let mut entries = entries.to_vec();
    for b in (0..entries.len()).filter(|&b| entries[b] != KEPT).collect::<Vec<_>>() {
        for _ in 0..8 {
            let a = random.below(b);
            if redundancy.redundant(b, a) {
                entries[b] = a as u16;
            }
        }
    }
    entries
}

/// A table with some entry changed, most often to one that is not justified.
pub fn spoilt(random: &mut Random, entries: &[u16]) -> Vec<u16> {
    let mut entries = entries.to_vec();
    let count = entries.len();
    for _ in 0..random.pick(&[1, 1, 1, 2, 5]) {
        let b = random.below(count);
        let marks: Vec<usize> = (0..count).filter(|&b| entries[b] != KEPT).collect();
        match random.below(9) {
            // any earlier one, itself, any later one
            0 => entries[b] = random.below(b + 1) as u16,
            1 => entries[b] = b as u16,
            2 => entries[b] = random.from_to(b, count - 1) as u16,
            // an index that is none
            3 => entries[b] = random.from_to(count, 65534) as u16,
            4 => entries[b] = random.pick(&[count, 255, 256, 32767, 32768, 65280, 65534]) as u16,
            // entry 0
            5 => entries[0] = random.pick(&[0, 1, 65534, 65280, 255]),
            // a bit of an entry
            6 => entries[b] ^= 1 << random.below(16),
            // another witness, or one mark more with the witness of another
            7 if !marks.is_empty() => {
                let b = random.pick(&marks);
                entries[b] = random.below(b.max(1)) as u16;
            }
            8 if !marks.is_empty() => entries[b] = entries[random.pick(&marks)],
            _ => entries[b] = 0,
        }
    }
    entries
}

/// So many moves, each any rule's number.
fn any_moves(random: &mut Random, rules: usize, length: usize) -> Vec<u8> {
    (0..length).map(|_| random.from_to(1, rules) as u8).collect()
}

/// A proposal: one of some sequences as it is, in another order, cut, longer, with a move exchanged, doubled or put in;
/// or any moves, some of them more than a plan can have.
pub fn proposal(random: &mut Random, rules: usize, known: &[&[u8]]) -> Vec<u8> {
    let mut moves = random.pick(known).to_vec();
    let (at, other) = (random.below(moves.len().max(1)), random.below(moves.len().max(1)));
    match random.below(12) {
        0..=2 => {}
        3 if !moves.is_empty() => moves.swap(at, other),
        4 => moves.reverse(),
        5 => moves.truncate(at),
        6 => moves.extend(any_moves(random, rules, 1)),
        7 => moves.extend(any_moves(random, rules, 3)),
        8 if !moves.is_empty() => moves[at] = random.from_to(1, rules) as u8,
        9 if !moves.is_empty() => moves.insert(at, moves[at]),
        10 => moves.insert(at, random.from_to(1, rules) as u8),
        _ => {
            let length = random.pick(&[0, 1, 2, 2, 3, 3, 4, 5, 8, 32, 33, 40, 256, 258, 300]);
            moves = any_moves(random, rules, length);
        }
    }
    moves
}

/// A long proposal: unpruned moves, as many as are hit upon, most often more than a plan can have; and then any.
pub fn long_proposal(random: &mut Random, rules: usize, unpruned: impl Fn(&[u8]) -> bool) -> Vec<u8> {
    let mut moves = vec![];
    let length = if random.chance(70) { random.from_to(32, 50) } else { random.from_to(254, 300) };
    for _ in 0..8 * length {
        moves.push(random.from_to(1, rules) as u8);
        // no segment has more than three moves
        if moves.len() > length || !unpruned(&moves[moves.len().saturating_sub(3)..]) {
            moves.pop();
        }
    }
    let more = random.from_to(1, 12);
    moves.extend(any_moves(random, rules, more));
    moves
}

/// The proposal with a number that is no rule's, put in anywhere or at the end.
pub fn with_unknown_move(random: &mut Random, rules: usize, mut moves: Vec<u8>) -> Vec<u8> {
    let at = random.below(2 * moves.len() + 1).min(moves.len());
    moves.insert(at, random.pick(&[0, rules as u8 + 1, 32, 255]));
    moves
}
