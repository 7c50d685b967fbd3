// The work of the program `bench_macros` on a list of rules in plain Rust, unproved: the macros of the sequence that
// the first line of standard input names, and of its rotations, 250,000 in all, by the rules of the file behind it. It
// reads files that have no fault.
use std::io::Read;

type Entries = [u8; 16];

struct Rule {
    condition: Entries,
    effect: Entries,
}

fn entries(list: &str) -> Entries {
    let mut out = [0; 16];
    for (place, item) in list.split(',').enumerate() {
        out[place] = match item.strip_prefix('x') {
            Some(position) => position.parse::<u8>().unwrap() + 15,
            None => item.parse().unwrap(),
        };
    }
    out
}

fn value(entry: u8, vector: &Entries) -> u8 {
    if entry < 16 { entry } else { vector[(entry - 16) as usize] }
}

// The rule after the macro, in place; false where no state is left.
fn extend(condition: &mut Entries, effect: &mut Entries, rule: &Rule) -> bool {
    for place in 0..16 {
        let have = effect[place];
        let want = value(rule.condition[place], effect);
        if have == want {
            continue;
        }
        let (low, high) = (have.min(want), have.max(want));
        if high < 16 {
            return false;
        }
        for entry in condition.iter_mut().chain(effect.iter_mut()) {
            if *entry == high {
                *entry = low;
            }
        }
    }
    let before = *effect;
    for place in 0..16 {
        effect[place] = value(rule.effect[place], &before);
    }
    true
}

fn main() {
    let mut text = String::new();
    std::io::stdin().read_to_string(&mut text).unwrap();
    let list = |line: &str| entries(line.split_once('=').unwrap().1);
    let lines: Vec<&str> = text.lines().collect();
    let sequence: Vec<usize> = lines[0].split(',').map(|number| number.parse().unwrap()).collect();
    let positions: usize = lines[1].split_once('=').unwrap().1.parse().unwrap();
    let rules: Vec<Rule> = lines[4..]
        .chunks(3)
        .map(|rule| Rule { condition: list(rule[1]), effect: list(rule[2]) })
        .collect();
    let mut own = [0; 16];
    for place in 0..positions {
        own[place] = 16 + place as u8;
    }
    let (mut admitted, mut sum, mut sums) = (0u64, 0u64, 0u64);
    for turn in 0..250_000 {
        let first = turn % sequence.len();
        let (mut condition, mut effect) = (own, own);
        let mut runs = true;
        let mut place = first;
        for _ in 0..sequence.len() {
            if !extend(&mut condition, &mut effect, &rules[sequence[place] - 1]) {
                runs = false;
                break;
            }
            place = if place + 1 == sequence.len() { 0 } else { place + 1 };
        }
        if runs {
            admitted += 1;
            for entry in condition.iter().chain(effect.iter()) {
                sum = sum.wrapping_add(*entry as u64);
                sums = sums.wrapping_add(sum);
            }
        }
    }
    println!("outcome=0\nadmitted={admitted}\nsum={sum}\nsums={sums}");
}
