//! Document 01's worked cases, P2 as document 02 has it since 2026-03, its Edges, and examples of the source documents, with their answers as the documents give them. Library
//! and oracle have to give just these.

use planner_tests::by_hand::{builds, built, checks, file, macro_is, macro_refused, reads, searches, table, unions, Asked, E, H};
use planner_tests::calls::{Call, Query};
use planner_tests::oracle::table::{entries, KEPT};

const P11: &str = "positions=3/sizes=3,3,3/rules=2/cost=1/if=x1,x2,x3/then=x1,x1,x3/cost=1/if=x1,x2,x2/then=0,x2,x2/";

#[test]
fn p1_to_p5_and_the_listing_of_e() {
    // drop=1,1 for=1; drop=2,1 for=1,2; drop=2,2 for=2
    let table = table(7, &[(3, 1), (5, 4), (6, 2)]);
    // reads= moves=1; reads= moves=1,2; reads= moves=2
    builds(E, 2, table.clone(), unions(0, 0b11));
    let p1 = Asked { rules: E, reach: 2, table: &table, start: &[1, 1], goal: &[0, 0], moves: 2, cost: 9, limit: 4 };
    p1.gives(0, &[1, 2], 2, 4);
    // "P2 is now 18: plan 1,2, cost 2, floor 1, steps 3."
    Asked { limit: 3, ..p1 }.gives_at_limit(&[1, 2], 2, 1);
    Asked { limit: 2, ..p1 }.gives(16, &[], 0, 2);
    Asked { moves: 1, ..p1 }.gives(15, &[], 0, 3);
    Asked { cost: 1, ..p1 }.gives(15, &[], 0, 3);
    Asked { goal: &[1, 1], moves: 0, limit: 1, ..p1 }.gives(0, &[], 0, 1);
    Asked { goal: &[1, 1], moves: 0, limit: 0, ..p1 }.gives(16, &[], 0, 0);
}

#[test]
fn p6_p7_and_p11() {
    macro_is(H, &[1, 2], "0,0,0", "2,0,0", 2, 0b111, 0b001);
    macro_is(H, &[1, 3], "0,x2,x2", "2,x2,0", 2, 0b111, 0b101);
    macro_is(P11, &[1, 2], "x1,x2,x1", "0,x1,x1", 2, 0b101, 0b011);
    macro_is(H, &[], "x1,x2,x3", "x1,x2,x3", 0, 0, 0);
}

#[test]
fn p8_p9_and_p10() {
    // (3,4) is `1,0,0` to `3,1,1`, and every other mark is on a sequence that no state admits
    let table_of_h = built(H, 2, unions(0b111, 0b111));
    assert_eq!((entries(&table_of_h)[6], entries(&table_of_h)[16]), (KEPT, 12));
    let p9 = Asked { rules: H, reach: 2, table: &table_of_h, start: &[0, 0, 0], goal: &[3, 1, 1], moves: 3, cost: 9, limit: 5 };
    p9.gives(0, &[1, 2, 4], 3, 5);
    // the last of the five is 1,3
    Asked { limit: 4, ..p9 }.gives_at_limit(&[1, 2, 4], 3, 2);
    let p10 = table(21, &[(6, 7)]);
    checks(H, 2, p10.clone(), 14);
    Asked { table: &p10, ..p9 }.gives(14, &[], 0, 0);
    // source 000: ab pruned for ac, and cd for bd, lose both cheapest orders; the second alone loses none
    let both = table(21, &[(6, 7), (16, 12)]);
    checks(H, 2, both.clone(), 14);
    Asked { table: &both, ..p9 }.gives(14, &[], 0, 0);
    Asked { table: &table(21, &[(16, 12)]), limit: 99, ..p9 }.gives(0, &[1, 2, 4], 3, 5);
    Asked { table: &table(21, &[]), limit: 99, ..p9 }.gives(0, &[1, 2, 4], 3, 6);
}

#[test]
fn edges() {
    reads("positions=1/sizes=16/rules=1/cost=255/if=x1/then=15/", 0);
    reads("positions=1/sizes=17/rules=1/cost=1/if=x1/then=15/", 2);
    reads("positions=1/sizes=2/rules=1/cost=256/if=x1/then=1/", 2);
    reads("positions=2/sizes=3,3/rules=1/cost=1/if=x2,x2/then=0,0/", 3);
    reads("positions=2/sizes=3,3/rules=1/cost=1/if=x3,x2/then=0,0/", 2);
    reads("positions=2/sizes=3,3/rules=1/cost=1/if=00,x2/then=0,0/", 1);
    let rules = |number: usize| (0..number).map(|i| format!("cost=0/if={},{}/then=0,0/", i / 16, i % 16)).collect::<String>();
    reads(&format!("positions=2/sizes=16,16/rules=31/{}", rules(31)), 0);
    reads(&format!("positions=2/sizes=16,16/rules=32/{}", rules(32)), 2);
    reads(&format!("positions=2/sizes=16,16/rules=30/{}", rules(31)), 1);
    reads(&format!("positions=2/sizes=16,16/rules=31/{}", rules(30)), 1);
}

#[test]
fn faults_of_a_file_in_text_order() {
    // the first fault in the text counts; of one item its form and the byte that ends it, then its limit, then its variable
    reads("positions=3/sizes=0,2/", 2);
    reads("positions=3/sizes=2,0/", 1);
    reads("positions=17/", 2);
    reads("positions=17,", 1);
    reads("positions=17", 1);
    reads("positions=0/", 2);
    reads("positions=00/", 1);
    reads("positions=1000/", 1);
    reads("", 1);
    reads("/", 1);
    let two = |lines: &str| format!("positions=2/sizes=3,3/rules=1/cost=1/{lines}");
    reads(&two("if=x2,?"), 3);
    reads(&two("if=9;x2"), 1);
    reads(&two("if=x0,x2/"), 2);
    reads(&two("if=x01,x2/"), 1);
    reads(&two("if=x1,x2/then=x2,x1/"), 0);
    reads(&two("if=0,x2/then=x1,x2/"), 3);
    reads(&two("if=x1,x1/then=x2,0/"), 3);
    reads("positions=2/sizes=3,4/rules=1/cost=1/if=x1,x1/then=0,0/", 3);
    reads("positions=2/sizes=3,4/rules=1/cost=1/if=x1,x2/then=x2,0/", 3);
    // duplicates come last, after bytes that are left over
    let duplicates = "positions=1/sizes=2/rules=2/cost=1/if=0/then=1/cost=1/if=0/then=1/";
    reads(duplicates, 4);
    reads(&format!("{duplicates}/"), 1);
}

#[test]
fn composition() {
    // source 003's case 2(b) as printed would lose the condition
    let swap = "positions=2/sizes=3,3/rules=2/cost=1/if=x1,x2/then=x2,x1/cost=2/if=x1,x1/then=0,x1/";
    macro_is(swap, &[1, 2], "x1,x1", "0,x1", 3, 0b11, 0b01);
    macro_is(swap, &[2, 1], "x1,x1", "x1,0", 3, 0b11, 0b10);
    macro_is(swap, &[2, 2], "0,0", "0,0", 4, 0b11, 0);
    macro_is(swap, &[1, 1], "x1,x2", "x1,x2", 2, 0, 0);
    // the effects as they stood before a variable was replaced would miss that 0 and 1 are asked of one value
    macro_refused("positions=3/sizes=4,4,4/rules=1/cost=1/if=0,1,x3/then=x3,x3,3/", &[1, 1], 17);
    macro_refused(H, &[1, 1], 17);
    // Macro: 7, 11, 13, 17, before a buffer that is too short
    macro_refused(H, &[1, 1, 5], 13);
    macro_refused(H, &[0], 13);
    macro_refused(H, &[255; 33], 11);
    macro_refused(H, &[1; 32], 17);
    macro_is("positions=1/sizes=2/rules=1/cost=255/if=x1/then=0/", &[1; 32], "x1", "0", 8160, 0, 1);
    macro_refused("positions=1/sizes=2/rules=1/cost=255/if=x1/then=0/", &[1; 33], 11);
}

#[test]
fn source_003_arrows() {
    // its Table 2, and the example of Table 3: R1-00 followed by R2-11
    let flip = |at: usize, one: u8, two: u8| {
        let entries = |a: u8, b: u8| {
            (0..4)
                .map(|i| {
                    if i == at {
                        a.to_string()
                    } else if i == at + 1 {
                        b.to_string()
                    } else {
                        format!("x{}", i + 1)
                    }
                })
                .collect::<Vec<_>>()
                .join(",")
        };
        format!("cost=1/if={}/then={}/", entries(one, two), entries(1 - one, 1 - two))
    };
    let rules: String = (0..12u8).map(|k| flip(k as usize / 4, k / 2 % 2, k % 2)).collect();
    let arrows = format!("positions=4/sizes=2,2,2,2/rules=12/{rules}");
    macro_is(&arrows, &[1, 8], "0,0,1,x4", "1,0,0,x4", 2, 0b0111, 0b0101);
    macro_is(&arrows, &[2], "0,1,x3,x4", "1,0,x3,x4", 1, 0b0011, 0b0011);
    macro_is(&arrows, &[3], "1,0,x3,x4", "0,1,x3,x4", 1, 0b0011, 0b0011);
    // source 002's example: R1-00, R2-10 and R2-00, R1-01 do the same
    macro_is(&arrows, &[1, 7], "0,0,0,x4", "1,0,1,x4", 2, 0b0111, 0b0101);
    macro_is(&arrows, &[5, 2], "0,0,0,x4", "1,0,1,x4", 2, 0b0111, 0b0101);
    // each set of the three flips is visited once, whatever the moves
    // R3-00, R1-00 is marked for R1-00, R3-00: `0,0,0,0` to `1,1,1,1`
    let table = built(&arrows, 2, unions(0b1111, 0b1111));
    let asked = Asked { rules: &arrows, reach: 2, table: &table, start: &[0, 0, 0, 0], goal: &[1, 0, 0, 1], moves: 20, cost: 99, limit: 8 };
    asked.gives(0, &[1, 7, 11], 3, 8);
    // the last of them is R3-00, and all but that is looked at
    Asked { limit: 7, ..asked }.gives_at_limit(&[1, 7, 11], 3, 1);
    Asked { limit: 3, ..asked }.gives(16, &[], 0, 3);
    Asked { goal: &[1, 0, 0, 0], ..asked }.gives(15, &[], 0, 8);
}

#[test]
fn source_003_figure_1() {
    // as numbered R3(R1) is redundant with the later R3(R2), and kept; with R1 and R2 exchanged it is marked, `0,0,0,0` to `1,1,0,1`. The other marks no state admits
    let rules = |one: &str, two: &str| {
        format!("positions=4/sizes=2,2,2,2/rules=3/cost=1/if=x1,x2,0,0/then={one}/cost=1/if=x1,x2,0,0/then={two}/cost=1/if=0,0,1,0/then=1,1,0,1/")
    };
    let numbered = rules("x2,x1,1,0", "x1,x1,1,0");
    assert_eq!(entries(&built(&numbered, 2, unions(0, 0)))[6..10], [KEPT, 0, 0, KEPT]);
    checks(&numbered, 2, table(13, &[(6, 9)]), 14);
    let exchanged = rules("x1,x1,1,0", "x2,x1,1,0");
    assert_eq!(entries(&built(&exchanged, 2, unions(0b1111, 0b1011)))[6..10], [KEPT, 0, 0, 6]);
}

#[test]
fn marks() {
    // a mark on a sequence that no state admits needs a witness that costs no more; such a sequence is a witness of its like only
    let steps = "positions=1/sizes=3/rules=2/cost=5/if=0/then=1/cost=1/if=0/then=2/";
    builds(steps, 2, table(7, &[(3, 0), (4, 0), (5, 0), (6, 0)]), unions(0, 0));
    checks(steps, 2, table(7, &[(6, 1)]), 14);
    checks(steps, 2, table(7, &[(6, 2)]), unions(0, 0));
    checks(steps, 2, table(7, &[(4, 3)]), 14);
    checks(steps, 2, table(7, &[(5, 4)]), unions(0, 0));
    checks(steps, 2, table(7, &[(5, 1), (4, 2)]), unions(0, 0));
    // a dearer earlier rule is no witness, a cheaper later one neither
    let dear = "positions=1/sizes=2/rules=2/cost=2/if=1/then=0/cost=1/if=x1/then=0/";
    builds(dear, 1, table(3, &[]), unions(0, 0));
    checks(dear, 1, table(3, &[(1, 2)]), 14);
    // a swap is not idle, though some states hold equal values; twice it is, whatever it costs
    let swap = "positions=2/sizes=2,2/rules=1/cost=9/if=x1,x2/then=x2,x1/";
    builds(swap, 3, table(4, &[(2, 0), (3, 1)]), unions(0b11, 0b11));
    checks(swap, 1, table(2, &[(1, 0)]), 14);
    // entry 0, itself, later ones, indices that are none
    for (index, witness) in [(0, 0), (0, 65534), (3, 3), (4, 5), (5, 7), (5, 260), (5, 65534)] {
        checks(E, 2, table(7, &[(index, witness)]), 14);
    }
    checks(E, 2, table(7, &[(4, 5), (5, 4)]), 14);
    checks(E, 2, table(7, &[]), unions(0, 0));
    checks(E, 2, vec![0; 14], 14);
}

#[test]
fn order_of_refusals() {
    // Search: 7, 5, 6, 9, 10, 11, 12, 14, 16, 15; each with all the later ones. Where a plan was looked at 18 comes in the place of 16: tests/limit.rs
    let (good, bad, short) = (table(7, &[(3, 1)]), table(7, &[(1, 0)]), vec![255; 13]);
    let search = |rules: &str, table: &[u8], reach, start: &[u8], goal: &[u8], max_moves, step_limit, plan_length, outcome| {
        let query = Query { start: start.to_vec(), goal: goal.to_vec(), max_moves, max_cost: 9, step_limit };
        let call = Call::Search { rules: file(rules), table: table.to_vec(), reach, query, plan_length };
        searches(&call, outcome, 0, vec![255; plan_length]);
    };
    search("positions=?", &short, 0, &[], &[], 33, 0, 0, 1);
    search(E, &short, 0, &[], &[], 33, 0, 0, 5);
    search(E, &short, 2, &[], &[], 33, 0, 0, 6);
    search(E, &bad, 2, &[2, 1], &[], 33, 0, 0, 9);
    search(E, &bad, 2, &[1, 1], &[0, 254], 33, 0, 0, 10);
    search(E, &bad, 2, &[0, 1], &[1, 1], 33, 0, 0, 11);
    search(E, &bad, 2, &[0, 1], &[1, 1], 2, 0, 1, 12);
    search(E, &bad, 2, &[0, 1], &[1, 1], 2, 0, 2, 14);
    search(E, &good, 2, &[0, 1], &[1, 1], 2, 0, 2, 16);
    search(E, &good, 2, &[0, 1], &[1, 1], 0, 1, 0, 15 | 1 << 32);
}

#[test]
fn cheapest_and_first() {
    // a dearer plan with fewer moves is met first; of equal costs the shorter, of these the smaller number at the first difference
    let ways = |costs: [u32; 7]| {
        let arcs = [(0, 1), (1, 3), (0, 3), (0, 2), (2, 3), (1, 2), (2, 1)];
        let rules: String = arcs.iter().zip(costs).map(|((from, to), cost)| format!("cost={cost}/if={from}/then={to}/")).collect();
        format!("positions=1/sizes=4/rules=7/{rules}")
    };
    let plan = |costs, plan: &[u8], cost: u64| {
        let rules = ways(costs);
        let table = table(57, &[]);
        // 0; 0-1, 0-3, 0-2; 0-1-3, 0-1-2, 0-2-3, 0-2-1; 0-1-2-3, 0-1-2-1, 0-2-1-3, 0-2-1-2
        Asked { rules: &rules, reach: 2, table: &table, start: &[0], goal: &[3], moves: 3, cost: 99, limit: 12 }.gives(0, plan, cost, 12);
    };
    plan([1, 1, 9, 1, 1, 1, 1], &[1, 2], 2);
    plan([1, 1, 2, 1, 1, 1, 1], &[3], 2);
    plan([1, 9, 9, 1, 1, 1, 1], &[4, 5], 2);
    plan([0, 9, 9, 5, 1, 1, 0], &[1, 6, 5], 2);
    plan([0, 0, 0, 0, 0, 0, 0], &[3], 0);
    plan([0, 0, 1, 0, 0, 0, 0], &[1, 2], 0);
}
