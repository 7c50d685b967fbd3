// The work of the program `bench_tables` in plain Rust, unproved: the macros of all sequences of at most three rules, each compared with every earlier one in turn until it is redundant
// with one, and the positions that the marked ones read and write. Written from documents 01 and 02 and source document 003; it shares nothing with the library. It reads
// files that have no fault and no position of size 1.
use std::io::Read;

// An entry below 16 is the variable of that place, counted from 0; from 16 on it is the constant `entry - 16`.
type Entries = [u8; 16];

#[derive(Clone, Copy)]
struct Macro {
    cost: u16,
    admitted: bool,
    condition: Entries,
    effect: Entries,
}

const KEPT: usize = 65535;

fn entries(list: &str) -> Entries {
    let mut out = [16; 16];
    for (place, item) in list.split(',').enumerate() {
        out[place] = match item.strip_prefix('x') {
            Some(position) => position.parse::<u8>().unwrap() - 1,
            None => item.parse::<u8>().unwrap() + 16,
        };
    }
    out
}

fn is_variable(entry: u8) -> bool {
    entry < 16
}

fn value(entry: u8, state: &Entries) -> u8 {
    if is_variable(entry) { state[entry as usize] } else { entry }
}

// A sequence with one more rule, by the cases of source document 003, each read in the effect as it now stands.
fn extended(sequence: &Macro, rule: &Macro) -> Macro {
    let mut longer = *sequence;
    longer.cost += rule.cost;
    for place in 0..16 {
        let have = longer.effect[place];
        let want = value(rule.condition[place], &longer.effect);
        let (old, new) = match (is_variable(have), is_variable(want)) {
            (true, true) => (have.max(want), have.min(want)),
            (true, false) => (have, want),
            (false, true) => (want, have),
            (false, false) => {
                longer.admitted &= have == want;
                continue;
            }
        };
        for entry in longer.condition.iter_mut().chain(longer.effect.iter_mut()) {
            if *entry == old {
                *entry = new;
            }
        }
    }
    longer.effect = rule.effect.map(|entry| value(entry, &longer.effect));
    longer
}

// Whether each entry of a line, read in b's condition, is what is asked at its place.
fn gives(line: &Entries, b: &Macro, asked: &Entries) -> bool {
    (0..16).all(|place| value(line[place], &b.condition) == asked[place])
}

// Whether b is redundant with a: a costs no more, and from each state that admits b it leads to where b does. Effects are compared first: they differ soonest.
fn redundant(b: &Macro, a: &Macro) -> bool {
    a.cost <= b.cost && (!b.admitted || a.admitted && gives(&a.effect, b, &b.effect) && gives(&a.condition, b, &b.condition))
}

// The sequences of at most three rules in their order: each is followed, level by level, by those with one more rule.
fn sequences(own: Entries, rules: &[Macro]) -> Vec<Macro> {
    let count: usize = (0..=3).map(|length| rules.len().pow(length)).sum();
    let mut all = vec![Macro { cost: 0, admitted: true, condition: own, effect: own }];
    let mut shorter = 0;
    while all.len() < count {
        for rule in rules {
            all.push(extended(&all[shorter], rule));
        }
        shorter += 1;
    }
    all
}

// The table: for each sequence the first earlier one with which it is redundant.
fn built(all: &[Macro]) -> Vec<usize> {
    let witness = |b: usize| (0..b).find(|&a| redundant(&all[b], &all[a]));
    (0..all.len()).map(|b| witness(b).unwrap_or(KEPT)).collect()
}

// The positions that a macro reads and those that it writes, the lowest bit for position 1: document 02.
fn touched(m: &Macro, positions: u8) -> (u16, u16) {
    let (mut reads, mut writes) = (0, 0);
    for place in 0..positions {
        let at = place as usize;
        let named = |k: u8| k != place && (m.condition[k as usize] == place || m.effect[k as usize] == place);
        reads |= ((m.condition[at] != place || (0..positions).any(named)) as u16) << place;
        writes |= ((m.condition[at] != m.effect[at]) as u16) << place;
    }
    if m.admitted { (reads, writes) } else { (0, 0) }
}

// What the marked sequences of a table read and write.
fn unions(all: &[Macro], table: &[usize], positions: u8) -> (u16, u16) {
    let marked = (0..all.len()).filter(|&b| table[b] != KEPT).map(|b| touched(&all[b], positions));
    marked.fold((0, 0), |(reads, writes), (more, changed)| (reads | more, writes | changed))
}

// Whether the first entry is kept, and each mark names an earlier sequence with which its own is redundant.
fn accepted(all: &[Macro], table: &[usize]) -> bool {
    table[0] == KEPT && (0..all.len()).all(|b| table[b] == KEPT || table[b] < b && redundant(&all[b], &all[table[b]]))
}

// What stands after the sign on a line of the file.
fn given(line: &str) -> &str {
    line.split_once('=').unwrap().1
}

fn main() {
    let mut text = String::new();
    std::io::stdin().read_to_string(&mut text).unwrap();
    let lines: Vec<&str> = text.lines().collect();
    let (builds, checks) = lines[0].split_once(' ').unwrap();
    let (builds, checks): (usize, usize) = (builds.parse().unwrap(), checks.parse().unwrap());
    let positions: u8 = given(lines[1]).parse().unwrap();
    let rules: Vec<Macro> = lines[4..]
        .chunks(3)
        .map(|rule| Macro {
            cost: given(rule[0]).parse().unwrap(),
            admitted: true,
            condition: entries(given(rule[1])),
            effect: entries(given(rule[2])),
        })
        .collect();
    let own = std::array::from_fn(|place| if (place as u8) < positions { place as u8 } else { 16 });
    // as in the library, each build and each check composes the macros anew
    let (mut table, mut passed) = (Vec::new(), 0);
    let (mut of_build, mut of_check) = ((0, 0), (0, 0));
    for _ in 0..builds {
        let all = sequences(own, &rules);
        table = built(&all);
        of_build = unions(&all, &table, positions);
    }
    for _ in 0..checks {
        let all = sequences(own, &rules);
        let good = accepted(&all, &table);
        of_check = if good { unions(&all, &table, positions) } else { (0, 0) };
        passed += good as usize;
    }
    let (mut marks, mut sum, mut sums) = (0, 0, 0);
    for entry in &table {
        marks += (*entry != KEPT) as usize;
        sum += entry;
        sums += sum;
    }
    println!("outcome=0\nentries={}\nmarks={marks}\nsum={sum}\nsums={sums}\nbuilt={builds}", table.len());
    println!("reads={}\nwrites={}\naccepted={passed}\nreads={}\nwrites={}", of_build.0, of_build.1, of_check.0, of_check.1);
}
