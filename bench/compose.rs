// The work of the program `bench_macros` in plain Rust, unproved: a million two-rule macros of the rule file on standard input. It reads files that have no fault.
use std::io::Read;

type Entries = [u8; 16];

struct Rule {
    condition: Entries,
    effect: Entries,
}

fn entries(list: &str) -> Entries {
    let mut out = [0; 16];
    for (place, item) in list.split(',').enumerate() {
        out[place] = match item.strip_prefix('x') {
            Some(position) => position.parse::<u8>().unwrap() + 15,
            None => item.parse().unwrap(),
        };
    }
    out
}

fn value(entry: u8, vector: &Entries) -> u8 {
    if entry < 16 { entry } else { vector[(entry - 16) as usize] }
}

// The rule after the macro, in place; false where no state is left.
fn extend(condition: &mut Entries, effect: &mut Entries, rule: &Rule) -> bool {
    for place in 0..16 {
        let have = effect[place];
        let want = value(rule.condition[place], effect);
        if have == want {
            continue;
        }
        let (low, high) = (have.min(want), have.max(want));
        if high < 16 {
            return false;
        }
        for entry in condition.iter_mut().chain(effect.iter_mut()) {
            if *entry == high {
                *entry = low;
            }
        }
    }
    let before = *effect;
    for place in 0..16 {
        effect[place] = value(rule.effect[place], &before);
    }
    true
}

fn main() {
    let mut text = String::new();
    std::io::stdin().read_to_string(&mut text).unwrap();
    let list = |line: &str| entries(line.split_once('=').unwrap().1);
    let lines: Vec<&str> = text.lines().collect();
    let positions: usize = lines[0].split_once('=').unwrap().1.parse().unwrap();
    let rules: Vec<Rule> = lines[3..]
        .chunks(3)
        .map(|rule| Rule { condition: list(rule[1]), effect: list(rule[2]) })
        .collect();
    let mut own = [0; 16];
    for place in 0..positions {
        own[place] = 16 + place as u8;
    }
    let (mut admitted, mut sum, mut sums) = (0u64, 0u64, 0u64);
    let (mut first, mut second) = (0, 0);
    for _ in 0..1_000_000 {
        let (mut condition, mut effect) = (own, own);
        if extend(&mut condition, &mut effect, &rules[first]) && extend(&mut condition, &mut effect, &rules[second]) {
            admitted += 1;
            for entry in condition.iter().chain(effect.iter()) {
                sum = sum.wrapping_add(*entry as u64);
                sums = sums.wrapping_add(sum);
            }
        }
        second = (second + 1) % rules.len();
        if second == 0 {
            first = (first + 1) % rules.len();
        }
    }
    println!("outcome=0\nadmitted={admitted}\nsum={sum}\nsums={sums}");
}
