//! The largest inputs, and numbers and lengths that are absurd: each combination against the oracle.

use planner_tests::by_hand::{builds, macro_is, searches, table, unions, Asked, Why};
use planner_tests::calls::{Answer, Call, Query};
use planner_tests::compare::{check, compare, compare_in, Tally};
use planner_tests::oracle::{expected, file, Judged};
use planner_tests::stack::{planner_stack, within, TEST_STACK};
use std::collections::HashSet;

const E: &str = "positions=2\nsizes=2,2\nrules=2\ncost=1\nif=x1,x2\nthen=0,x2\ncost=1\nif=x1,x2\nthen=x1,0\n";

/// Some of them would do in fewer bits.
const NUMBERS: [usize; 22] = [
    0,
    1,
    2,
    3,
    4,
    31,
    32,
    33,
    64,
    255,
    256,
    257,
    258,
    65535,
    65538,
    (1 << 32) - 1,
    (1 << 32) + 1,
    (1 << 32) + 2,
    (1 << 63) + 1,
    (1 << 63) + 2,
    usize::MAX - 1,
    usize::MAX,
];

/// 31 rules that set five positions to each number from 1 to 31, at costs that vary.
fn numbered() -> String {
    let bits = |number: u32| (0..5).rev().map(|bit| (number >> bit & 1).to_string()).collect::<Vec<_>>().join(",");
    let rules: String = (1..=31).map(|number| format!("cost={}\nif=x1,x2,x3,x4,x5\nthen={}\n", number * 37 % 256, bits(number))).collect();
    format!("positions=5\nsizes=2,2,2,2,2\nrules=31\n{rules}")
}

/// The longest file that is read: 4,292 bytes.
fn longest() -> String {
    let idle: Vec<String> = (1..=16).map(|j| format!("x{j}")).collect();
    let effect = |number: usize| {
        let far = |bit: usize| if number >> bit & 1 == 1 { "x10" } else { "x16" };
        (0..16).map(far).collect::<Vec<_>>().join(",")
    };
    let rules: String = (0..31).map(|number| format!("cost=255\nif={}\nthen={}\n", idle.join(","), effect(number))).collect();
    format!("positions=16\nsizes={}\nrules=31\n{rules}", ["16"; 16].join(","))
}

#[test]
fn absurd_numbers() {
    within(TEST_STACK, absurd_numbers_compared);
}

fn absurd_numbers_compared() {
    let mut tally = Tally::default();
    let set = file::read(E.as_bytes());
    let mut judged = Judged::new(&set);
    let rules = E.as_bytes().to_vec();
    for reach in NUMBERS {
        compare_in(&Call::TableSize { rules: rules.clone(), reach }, &mut judged, &mut tally);
        for table_length in [0, 1, 2, 6, 13, 14, 15, 16, 30, 62, 65536] {
            compare_in(&Call::BuildTable { rules: rules.clone(), table_length, reach }, &mut judged, &mut tally);
            compare_in(&Call::CheckTable { rules: rules.clone(), table: vec![255; table_length], reach }, &mut judged, &mut tally);
        }
        for max_moves in NUMBERS {
            for (max_cost, step_limit) in [(0, 0), (9, 4), (65535, u32::MAX), (1, 1)] {
                let query = Query { start: vec![1, 1], goal: vec![0, 0], max_moves, max_cost, step_limit };
                let table = vec![255, 255, 255, 255, 255, 255, 1, 0, 255, 255, 4, 0, 2, 0];
                for plan_length in [0, 2, 32, 33, 5000] {
                    let (rules, table, query) = (rules.clone(), table.clone(), query.clone());
                    compare_in(&Call::Search { rules, table, reach, query, plan_length }, &mut judged, &mut tally);
                }
                for moves in [&[2, 1][..], &[1, 2], &[1; 33], &[3], &[]] {
                    let (rules, table, query) = (rules.clone(), table.clone(), query.clone());
                    compare_in(&Call::Explain { rules, table, reach, query, moves: moves.to_vec(), out_length: 19 }, &mut judged, &mut tally);
                }
            }
        }
    }
    for length in 0..40 {
        for fill in [0, 1, 16, 254, 255] {
            let query = Query { start: vec![fill; length], goal: vec![fill; length], max_moves: 2, max_cost: 9, step_limit: 99 };
            let with_goal = Query { start: vec![1, 0], ..query.clone() };
            for query in [query.clone(), with_goal] {
                let search = Call::Search { rules: rules.clone(), table: vec![255; 14], reach: 2, query, plan_length: 2 };
                compare_in(&search, &mut judged, &mut tally);
                compare_in(&search.for_proposal(&[2, 2], length).expect("a search"), &mut judged, &mut tally);
            }
            let (start, goal) = (vec![1, 1], vec![0, 0]);
            let search = Call::Search { rules: rules.clone(), table: vec![255; 14], reach: 2, query: Query { start, goal, ..query }, plan_length: 2 };
            compare_in(&search.for_proposal(&vec![fill; length], length).expect("a search"), &mut judged, &mut tally);
            compare_in(&Call::Macro { rules: rules.clone(), moves: vec![fill; length], out_length: length }, &mut judged, &mut tally);
        }
    }
    for out_length in 0..80 {
        let answer = compare_in(&Call::Macro { rules: rules.clone(), moves: vec![2, 1], out_length }, &mut judged, &mut tally);
        assert_eq!(answer.outcome(), if out_length < 38 { 8 } else { 0 });
        let query = Query { start: vec![1, 1], goal: vec![0, 0], max_moves: 2, max_cost: 9, step_limit: 99 };
        let call = Call::Explain { rules: rules.clone(), table: vec![255; 14], reach: 2, query, moves: vec![2, 1], out_length };
        let answer = compare_in(&call, &mut judged, &mut tally);
        assert_eq!((answer.outcome(), answer.buffer.iter().any(|&byte| byte != 0)), (0, out_length >= 19));
    }
    assert!(tally.cases() > 15_000, "only {} cases", tally.cases());
}

#[test]
fn long_buffers() {
    within(TEST_STACK, long_buffers_compared);
}

fn long_buffers_compared() {
    let mut tally = Tally::default();
    let text = |bytes: &[u8], more: usize, byte: u8| [bytes, &vec![byte; more]].concat();
    for byte in [0, b'0', b'9', b'\n', b'x', 255] {
        for front in ["", "positions=", "positions=1", E] {
            compare(&Call::Read { text: text(front.as_bytes(), 100_000, byte) }, &mut tally);
        }
    }
    let rules = E.as_bytes().to_vec();
    compare(&Call::Rewrite { text: rules.clone(), out_length: 200_000 }, &mut tally);
    compare(&Call::BuildTable { rules: rules.clone(), table_length: 200_000, reach: 2 }, &mut tally);
    compare(&Call::CheckTable { rules: rules.clone(), table: vec![255; 200_000], reach: 2 }, &mut tally);
    compare(&Call::Macro { rules: rules.clone(), moves: vec![1; 200_000], out_length: 200_000 }, &mut tally);
    let query = Query { start: vec![1, 1], goal: vec![0, 0], max_moves: 2, max_cost: 9, step_limit: 99 };
    let search = Call::Search { rules: rules.clone(), table: vec![255; 14], reach: 2, query: query.clone(), plan_length: 200_000 };
    compare(&search, &mut tally);
    for moves in [&[2, 1][..], &vec![1; 100_000], &vec![0; 100_000], &[&vec![2; 99_999][..], &[3]].concat()] {
        compare(&search.for_proposal(moves, 200_000).expect("a search"), &mut tally);
    }
    let wide = Query { start: vec![1; 100_000], goal: vec![1; 100_000], ..query.clone() };
    let wide_goal = Query { start: vec![1; 2], ..wide.clone() };
    for query in [wide, wide_goal] {
        let search = Call::Search { rules: rules.clone(), table: vec![255; 14], reach: 2, query, plan_length: 2 };
        compare(&search, &mut tally);
        compare(&search.for_proposal(&vec![1; 100_000], 19).expect("a search"), &mut tally);
    }
    let long_table = Call::Explain { rules, table: vec![255; 200_000], reach: 2, query, moves: vec![1; 100_000], out_length: 19 };
    compare(&long_table, &mut tally);
}

#[test]
fn proposals_of_many_moves() {
    // 22 alone is marked, with 2, and stands at the end. So many moves are over every move bound; at 255 each they cost
    // more than 16 bits hold
    let (dear, marks) = (E.replace("cost=1", "cost=255"), table(7, &[(6, 2)]));
    for moves in [65_535, 65_536, 65_537, 65_568, 99_998, 100_000] {
        let proposal = [&vec![1; moves - 2][..], &[2, 2]].concat();
        for rules in [E, &dear] {
            let asked = Asked { rules, reach: 2, table: &marks, start: &[1, 1], goal: &[0, 0], moves: 2, cost: 65535, limit: 7 };
            asked.explains(&proposal, 0, Why::over_move_bound().marked(moves as u64, 2, &[2]));
            Asked { moves: 0, ..asked }.explains(&proposal, 15, Why::over_move_bound().marked(moves as u64, 2, &[2]));
            Asked { limit: 0, ..asked }.explains(&proposal, 16, Why::default());
            asked.explains(&[&proposal[..], &[3]].concat(), 13, Why::default());
        }
    }
}

#[test]
fn the_longest_file() {
    within(TEST_STACK, the_longest_file_compared);
}

fn the_longest_file_compared() {
    let mut tally = Tally::default();
    let text = longest().into_bytes();
    assert_eq!(text.len(), 4292);
    for out_length in [4291, 4292, 4293] {
        compare(&Call::Rewrite { text: text.clone(), out_length }, &mut tally);
    }
    for reach in 0..5 {
        assert_eq!(compare(&Call::TableSize { rules: text.clone(), reach }, &mut tally).size(), [0, 64, 1986, 61_568, 0][reach]);
    }
    for moves in [vec![1; 32], (1..=31).collect(), vec![31, 1, 30, 2]] {
        compare(&Call::Macro { rules: text.clone(), moves, out_length: 38 }, &mut tally);
    }
    compare(&Call::BuildTable { rules: text.clone(), table_length: 1986, reach: 2 }, &mut tally);
    let query = Query { start: (0..16).collect(), goal: vec![15; 16], max_moves: 2, max_cost: 65535, step_limit: 2000 };
    compare(&Call::Search { rules: text, table: vec![255; 64], reach: 1, query, plan_length: 32 }, &mut tally);
}

#[test]
fn the_largest_table() {
    within(TEST_STACK, the_largest_table_compared);
}

fn the_largest_table_compared() {
    let mut tally = Tally::default();
    let rules = numbered().into_bytes();
    let set = file::read(&rules);
    let mut judged = Judged::new(&set);
    let answer = compare_in(&Call::BuildTable { rules: rules.clone(), table_length: 61_568, reach: 3 }, &mut judged, &mut tally);
    // every sequence of two or three rules is marked for its last rule, and has a constant at each of the five positions in place of its variable
    assert_eq!(answer.number, unions(0, 0b11111));
    // the last entry marked alone: 31,31,31 with 30,30,31, which sets the same and costs 86 + 86 + 123. The index of three
    // rules is 31 * (31 * the first + the second) + the third
    let last_marked = table(30_784, &[(30_783, 29_791)]);
    let table = answer.buffer;
    for length in [61_566, 61_567, 61_568, 61_569] {
        let mut table = table.clone();
        table.resize(length, 255);
        compare_in(&Call::CheckTable { rules: rules.clone(), table, reach: 3 }, &mut judged, &mut tally);
    }
    for (start, goal) in [(0, 31), (5, 5), (31, 0)] {
        let state = |number: u8| (0..5).rev().map(|bit| number >> bit & 1).collect::<Vec<_>>();
        for table in [table.clone(), vec![255; 61_568]] {
            let query = Query { start: state(start), goal: state(goal), max_moves: 3, max_cost: 65535, step_limit: 40_000 };
            let search = Call::Search { rules: rules.clone(), table, reach: 3, query, plan_length: 3 };
            compare_in(&search, &mut judged, &mut tally);
            for moves in [&[31][..], &[30, 31], &[1, 2, 31], &[5, 31, 31], &[], &[31; 40], &[32]] {
                compare_in(&search.for_proposal(moves, 19).expect("a search"), &mut judged, &mut tally);
            }
        }
    }
    // 31 is the plan for 123, and 31,31,31 costs three times that
    let query = Query { start: vec![0; 5], goal: vec![1; 5], max_moves: 3, max_cost: 65535, step_limit: 40_000 };
    let call = Call::Explain { rules, table: last_marked, reach: 3, query, moves: vec![31; 3], out_length: 19 };
    let buffer = Why::dearer(369, 123).marked(3, 3, &[30, 30, 31]).bytes();
    assert_eq!(compare_in(&call, &mut judged, &mut tally), Answer { number: 0, buffer });
}

#[test]
fn all_sixteen_positions() {
    let own: Vec<String> = (1..=16).map(|j| format!("x{j}")).collect();
    let rule = |condition: &str, effect: &str| format!("positions=16/sizes={}/rules=1/cost=1/if={condition}/then={effect}/", ["2"; 16].join(","));
    let with = |place: usize, entry: &str| {
        let mut line = own.clone();
        line[place] = entry.to_string();
        line.join(",")
    };
    let own = own.join(",");
    let one = |condition: &str, effect: &str, reads: u16, writes: u16| macro_is(&rule(condition, effect), &[1], condition, effect, 1, reads, writes);
    one(&own, &own, 0, 0);
    one(&with(15, "0"), &with(15, "1"), 0x8000, 0x8000);
    one(&with(0, "0"), &with(0, "1"), 0x0001, 0x0001);
    one(&own, &with(15, "x1"), 0x0001, 0x8000);
    one(&own, &with(0, "x16"), 0x8000, 0x0001);
    one(&with(15, "x1"), &with(15, "x1"), 0x8001, 0);
    one(&["0"; 16].join(","), &["1"; 16].join(","), 0xffff, 0xffff);
    one(&own, &["1"; 16].join(","), 0, 0xffff);
    one(&["x1"; 16].join(","), &["x1"; 16].join(","), 0xffff, 0);
    // neighbours exchanged: twice is idle, three times is once again
    let exchanged: Vec<String> = (1..=16).map(|j| format!("x{}", if j % 2 == 1 { j + 1 } else { j - 1 })).collect();
    let exchange = rule(&own, &exchanged.join(","));
    builds(&exchange, 2, table(3, &[(2, 0)]), unions(0, 0));
    builds(&exchange, 3, table(4, &[(2, 0), (3, 1)]), unions(0xffff, 0xffff));
}

#[test]
fn steps_beyond_16_bits() {
    // both rules of E run in every state: with nothing marked, 2^17 - 1 sequences of at most 16 rules are visited. The first 65,536 of them are the empty one and those that begin
    // with rule 1: rule 2 is left, for 1. Of all but the last, 1,2 and 2,1 are the cheapest plans, and the last costs 16
    let asked = |limit: u32| Asked { rules: E, reach: 2, table: &[255; 14], start: &[1, 1], goal: &[0, 0], moves: 16, cost: 65535, limit };
    let plan = [&[1, 2][..], &[255; 14]].concat();
    for (limit, outcome, steps, floor) in
        [(65_535, 18, 65_535, 1), (65_536, 18, 65_536, 1), (131_070, 18, 131_070, 2), (131_071, 0, 131_071, 0), (u32::MAX, 0, 131_071, 0)]
    {
        searches(&asked(limit).call(16), outcome | 2 << 8 | 2 << 16 | steps << 32, floor, plan.clone());
    }
    // no rule puts a 1
    let none = Asked { start: &[0, 1], goal: &[1, 1], ..asked(131_070) };
    searches(&none.call(16), 16 | 131_070 << 32, 0, vec![255; 16]);
}

#[test]
fn each_call_within_its_stack() {
    let (rules, longest) = (numbered().into_bytes(), longest().into_bytes());
    let all_kept = vec![255; 61_568];
    let all_marked = expected(&Call::BuildTable { rules: rules.clone(), table_length: 61_568, reach: 3 }).buffer;
    let deep = Query { start: vec![0; 5], goal: vec![255, 255, 255, 255, 0], max_moves: 32, max_cost: 65535, step_limit: 5_000 };
    let far = Query { start: (0..16).collect(), goal: vec![15; 16], max_moves: 32, max_cost: 65535, step_limit: 5_000 };
    // one rule, 32 times: with a plan, and without
    let one_rule = b"positions=1\nsizes=2\nrules=1\ncost=255\nif=x1\nthen=0\n".to_vec();
    let to_0 = Query { start: vec![1], goal: vec![0], max_moves: 32, max_cost: 65535, step_limit: 33 };
    let to_1 = Query { start: vec![0], goal: vec![1], ..to_0.clone() };
    let calls = [
        Call::Read { text: longest.clone() },
        Call::Rewrite { text: longest.clone(), out_length: 5_000 },
        Call::TableSize { rules: longest.clone(), reach: 3 },
        Call::BuildTable { rules: rules.clone(), table_length: 61_568, reach: 3 },
        Call::CheckTable { rules: rules.clone(), table: all_kept.clone(), reach: 3 },
        Call::CheckTable { rules: rules.clone(), table: all_marked.clone(), reach: 3 },
        Call::Macro { rules: longest.clone(), moves: vec![31; 32], out_length: 38 },
        Call::Search { rules: rules.clone(), table: all_kept.clone(), reach: 3, query: deep.clone(), plan_length: 32 },
        Call::Search { rules, table: all_marked, reach: 3, query: deep, plan_length: 32 },
        Call::Search { rules: longest, table: all_kept, reach: 3, query: far, plan_length: 32 },
        Call::Search { rules: one_rule.clone(), table: vec![255; 4], reach: 1, query: to_0, plan_length: 32 },
        Call::Search { rules: one_rule, table: vec![255; 4], reach: 1, query: to_1, plan_length: 32 },
    ];
    let floors = calls.iter().filter_map(Call::for_floor);
    let proposals = [vec![1; 100_000], vec![1; 32], vec![31; 100_000], vec![]];
    let explanations = calls.iter().flat_map(|call| proposals.iter().filter_map(|moves| call.for_proposal(moves, 19)));
    let mut explained = HashSet::new();
    for call in calls.iter().chain(&floors.chain(explanations).collect::<Vec<_>>()) {
        let answer = expected(call);
        within(planner_stack(), || check(call, &answer));
        if let Call::Explain { .. } = call {
            explained.insert((answer.outcome(), answer.buffer[0]));
        }
    }
    // with and without a plan, above the step limit, and an unknown move: too many moves, off the goal, dearer, the plan
    for outcome_and_reason in [(0, 1), (0, 5), (0, 7), (15, 1), (15, 4), (18, 0), (13, 0)] {
        assert!(explained.contains(&outcome_and_reason), "no {outcome_and_reason:?} in {explained:?}");
    }
}
