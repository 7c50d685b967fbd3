//! Rule texts damaged at every byte: a byte taken out, put in or replaced, and the text cut there. Every outcome against the oracle's reader.

use planner_tests::calls::{Call, Query};
use planner_tests::compare::{compare, Tally};
use planner_tests::stack::{within, TEST_STACK};
use std::io::Write;

/// The bytes that are put in.
const BYTES: &[u8] = b"0123456789,x=\n /:X-\r\0\x7f\xff";

/// Files without a fault, of several forms.
const TEXTS: [&str; 9] = [
    "positions=1/sizes=2/rules=1/cost=0/if=x1/then=1/",
    "positions=1/sizes=16/rules=2/cost=255/if=15/then=9/cost=10/if=1/then=10/",
    "positions=2/sizes=2,2/rules=2/cost=1/if=x1,x2/then=0,x2/cost=1/if=x1,x2/then=x1,0/",
    "positions=2/sizes=3,12/rules=1/cost=100/if=x1,11/then=2,10/",
    "positions=3/sizes=4,4,4/rules=4/cost=1/if=0,x2,x2/then=1,0,x2/cost=1/if=1,x2,0/then=2,0,0/cost=1/if=1,x2,x3/then=2,x3,x2/cost=1/if=2,0,0/then=3,1,1/",
    "positions=4/sizes=3,2,3,2/rules=2/cost=0/if=x1,x2,x1,x2/then=0,1,x1,x2/cost=7/if=x1,1,x1,x4/then=x1,x4,x1,0/",
    // a byte makes two rules equal: in `then`, in `cost`, in `if`, an `x` put in
    "positions=1/sizes=4/rules=5/cost=2/if=0/then=2/cost=2/if=0/then=3/cost=3/if=0/then=3/cost=2/if=1/then=2/cost=2/if=x1/then=2/",
    "positions=12/sizes=2,2,2,2,2,2,2,2,2,2,2,2/rules=1/cost=20/if=x1,x1,x3,x3,0,1,x7,x8,x9,x10,x10,x12/then=x10,x1,x12,x3,0,1,x7,x8,x10,0,x12,x1/",
    "positions=16/sizes=16,16,16,16,16,16,16,16,16,16,16,16,16,16,16,2/rules=1/cost=9/if=x1,x2,x3,x4,x5,x6,x7,x8,x9,x10,x11,x12,x13,x14,x15,1/then=x15,x14,x13,x12,x11,x10,x9,x8,x7,x6,x5,x4,x3,x2,15,0/",
];

/// Files with positions of size 1, without a fault.
const SINGLES: [&str; 4] = [
    "positions=1/sizes=1/rules=2/cost=0/if=0/then=0/cost=9/if=0/then=0/",
    "positions=3/sizes=2,2,1/rules=2/cost=1/if=x1,x2,0/then=0,x2,0/cost=1/if=x1,x2,0/then=x1,0,0/",
    "positions=4/sizes=1,12,1,12/rules=1/cost=100/if=0,x2,0,x2/then=0,11,0,x2/",
    // a byte makes two rules equal: in `then`, in `cost`, in `if`
    "positions=2/sizes=1,4/rules=4/cost=2/if=0,0/then=0,2/cost=2/if=0,0/then=0,3/cost=3/if=0,0/then=0,3/cost=2/if=0,1/then=0,2/",
];

fn damaged(text: &[u8], at: usize) -> Vec<Vec<u8>> {
    let (front, back) = text.split_at(at);
    let mut all = vec![front.to_vec(), [front, front, back].concat()];
    all.extend(BYTES.iter().map(|&byte| [front, &[byte], back].concat()));
    if let Some((first, rest)) = back.split_first() {
        all.push([front, rest].concat());
        all.extend(BYTES.iter().map(|&byte| [front, &[byte], rest].concat()));
        all.push([front, &[*first, *first], rest].concat());
        all.extend((0..8).map(|bit| [front, &[first ^ 1 << bit], rest].concat()));
    }
    all
}

/// One of the calls on a rule file, by turns; what it leaves in its buffer is compared too.
fn call(text: Vec<u8>, turn: usize) -> Call {
    match turn % 7 {
        0 => Call::Rewrite { out_length: text.len(), text },
        1 => Call::TableSize { rules: text, reach: 1 },
        2 => Call::BuildTable { rules: text, table_length: turn % 11, reach: 1 },
        3 => Call::CheckTable { rules: text, table: vec![255; turn % 11], reach: 1 },
        4 => Call::Macro { rules: text, moves: vec![1], out_length: 38 },
        kind => {
            let query = Query { start: vec![0; turn % 4], goal: vec![255; turn % 4], max_moves: 2, max_cost: 9, step_limit: 99 };
            let table = vec![255; 4];
            if kind == 5 {
                Call::Search { rules: text, table, reach: 1, query, plan_length: turn % 9 }
            } else {
                Call::Explain { rules: text, table, reach: 1, query, moves: vec![1], out_length: 15 + turn % 9 }
            }
        }
    }
}

#[test]
fn texts_damaged_at_every_byte() {
    within(TEST_STACK, || run_all("damage", &TEXTS, 50_000));
}

#[test]
fn texts_with_single_values_damaged_at_every_byte() {
    within(TEST_STACK, || run_all("damage, single values", &SINGLES, 20_000));
}

fn run_all(test: &str, texts: &[&str], least: u64) {
    let mut tally = Tally::default();
    let mut turn = 0;
    for text in texts {
        let text = text.replace('/', "\n").into_bytes();
        assert_eq!(compare(&Call::Read { text: text.clone() }, &mut tally).outcome(), 0);
        for at in 0..=text.len() {
            for text in damaged(&text, at) {
                compare(&Call::Read { text: text.clone() }, &mut tally);
                turn += 1;
                if turn % 3 == 0 {
                    compare(&call(text, turn / 3), &mut tally);
                }
            }
        }
    }
    writeln!(std::io::stdout(), "{test}: cases={} outcomes={}", tally.cases(), tally.outcomes()).expect("standard output");
    assert!(tally.cases() > least, "only {} cases", tally.cases());
    tally.require_files(10);
}
