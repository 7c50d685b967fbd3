//! Document 02, 2026-03: "Over its ceiling, the search now looks at the walk's first sequences, as many as the ceiling. If one of them ends in the goal, it gives the cheapest
//! such plan, at equal cost the first in document 01's order of sequences, with outcome 18 and a floor. The floor is the smaller of that plan's cost and the least cost among
//! the walk's sequences that extend a looked-at one by a single rule and were not looked at." Each case names the wrong planners that it refuses. The answers are worked out by
//! hand: a walk is written in its order, as 12 for 1,2, with its costs where they matter. Library and oracle have to give just these, by both entries of a search.

use planner_tests::by_hand::{builds, searches, table, unions, Asked, E, H};

/// Any value, in a goal.
const ANY: u8 = 255;

/// Three positions of two values; rule i sets position i to 0, at these costs.
fn setting(costs: [u32; 3]) -> String {
    let rules: String = costs.iter().zip(["0,x2,x3", "x1,0,x3", "x1,x2,0"]).map(|(cost, effect)| format!("cost={cost}/if=x1,x2,x3/then={effect}/")).collect();
    format!("positions=3/sizes=2,2,2/rules=3/{rules}")
}

/// With nothing marked, from 1,1,1 to a 0 at position 1: the walk is (), 1, 11, 12, 13, 2, 21, 22, 23, 3, 31, 32, 33.
fn setting_first<'a>(rules: &'a str, kept: &'a [u8], limit: u32) -> Asked<'a> {
    Asked { rules, reach: 1, table: kept, start: &[1, 1, 1], goal: &[0, ANY, ANY], moves: 2, cost: 9, limit }
}

/// Ways from 0 to 3, at these costs: 0-1, 1-3, 0-3, 0-2, 2-3, 1-2, 2-1.
fn ways(costs: [u32; 7]) -> String {
    let arcs = [(0, 1), (1, 3), (0, 3), (0, 2), (2, 3), (1, 2), (2, 1)];
    let rules: String = arcs.iter().zip(costs).map(|((from, to), cost)| format!("cost={cost}/if={from}/then={to}/")).collect();
    format!("positions=1/sizes=4/rules=7/{rules}")
}

/// With nothing marked, of at most three moves: the walk is (), 1, 12, 16, 165, 167, 3, 4, 45, 47, 472, 476, and 12, 165, 3, 45 and 472 end in the goal.
fn going<'a>(rules: &'a str, kept: &'a [u8], limit: u32) -> Asked<'a> {
    Asked { rules, reach: 1, table: kept, start: &[0], goal: &[3], moves: 3, cost: 99, limit }
}

#[test]
fn p2() {
    // the walk: (), 1, 12, 2; 11, 21 and 22 are pruned. "P2 is now 18: plan 1,2, cost 2, floor 1, steps 3."
    let marks = table(7, &[(3, 1), (5, 4), (6, 2)]);
    builds(E, 2, marks.clone(), unions(0, 0b11));
    let p2 = Asked { rules: E, reach: 2, table: &marks, start: &[1, 1], goal: &[0, 0], moves: 2, cost: 9, limit: 3 };
    // refused: above the limit there is never a plan (16); pruned sequences count among those looked at, so that 12 is not (16); the last of them is not looked at (16); the
    // plan is packed and not written, or written and not packed; bytes after it stay as they were; the steps are the number walked
    searches(&p2.call(2), 18 | 2 << 8 | 2 << 16 | 3 << 32, 1, vec![1, 2]);
    searches(&p2.call(5), 18 | 2 << 8 | 2 << 16 | 3 << 32, 1, vec![1, 2, 255, 255, 255]);
    p2.gives_at_limit(&[1, 2], 2, 1);
    // refused: one more is looked at than the limit says
    Asked { limit: 2, ..p2 }.gives(16, &[], 0, 2);
    // refused: a plan that was not looked at is shown, or that there is one is told by 18
    Asked { limit: 1, ..p2 }.gives(16, &[], 0, 1);
    Asked { limit: 4, ..p2 }.gives(0, &[1, 2], 2, 4);
    // P9, its last visited sequence not looked at: (), 1, 12, 124 and then 13
    let of_h = table(21, &[(16, 12)]);
    let p9 = Asked { rules: H, reach: 2, table: &of_h, start: &[0, 0, 0], goal: &[3, 1, 1], moves: 3, cost: 9, limit: 4 };
    p9.gives_at_limit(&[1, 2, 4], 3, 2);
    Asked { limit: 3, ..p9 }.gives(16, &[], 0, 3);
}

#[test]
fn every_limit() {
    // (), 1 (3), 11 (6), 12 (5), 13 (4), 2 (2), 21 (5), 22 (4), 23 (3), 3 (1), 31 (4), 32 (3), 33 (2)
    let (rules, kept) = (setting([3, 2, 1]), table(4, &[]));
    let asked = |limit| setting_first(&rules, &kept, limit);
    // looked at are () and 1; left are 11, 12, 13, 2 and 3. Refused: the floor is the cost (3) or is 0; it is of the first one left (11, so 3), of what extends the last one
    // looked at (11, 12 and 13, so 3), of the next rule at each length (11 and 2, so 2)
    asked(2).gives_at_limit(&[1], 3, 1);
    for limit in 3..=9 {
        asked(limit).gives_at_limit(&[1], 3, 1);
    }
    // left are 31, 32 and 33, then the last two, then the last. Refused: the floor is also of looked-at ones (3, so 1), or of single rules alone (3)
    for limit in 10..=12 {
        asked(limit).gives_at_limit(&[1], 3, 2);
    }
    // refused: 18 where the walk is as long as the limit, or for every plan
    asked(13).gives(0, &[1], 3, 13);
    asked(14).gives(0, &[1], 3, 13);
    asked(u32::MAX).gives(0, &[1], 3, 13);
    // refused: the empty sequence is looked at whatever the limit, or one more than the limit
    asked(0).gives(16, &[], 0, 0);
    asked(1).gives(16, &[], 0, 1);
    Asked { goal: &[ANY, ANY, ANY], ..asked(0) }.gives(16, &[], 0, 0);
    // refused: 18 without a plan; a plan that was not looked at
    Asked { goal: &[ANY, 0, ANY], ..asked(2) }.gives(16, &[], 0, 2);
    // 12 (5) is the first, 2 (2) the next
    Asked { goal: &[ANY, 0, ANY], ..asked(4) }.gives_at_limit(&[1, 2], 5, 1);
    Asked { goal: &[ANY, 0, ANY], ..asked(6) }.gives_at_limit(&[2], 2, 1);
    // refused: the empty plan is none (16), or has the floor of what extends it (1)
    for limit in [1, 2, 12] {
        Asked { goal: &[ANY, ANY, ANY], ..asked(limit) }.gives_at_limit(&[], 0, 0);
    }
}

#[test]
fn the_floor_is_the_smaller() {
    // 1 (1), and left are 11 (2), 12 (3), 13 (4), 2 (2) and 3 (3). Refused: the floor is the least of those (2); outcome 0, as none is cheaper
    let kept = table(4, &[]);
    setting_first(&setting([1, 2, 3]), &kept, 2).gives_at_limit(&[1], 1, 1);
    // refused: a plan that costs 0, or a floor of 0, is none
    setting_first(&setting([0, 2, 3]), &kept, 2).gives_at_limit(&[1], 0, 0);
    setting_first(&setting([3, 0, 1]), &kept, 2).gives_at_limit(&[1], 3, 0);
    // refused: what ends in the goal is not extended. Looked at are (), 1 (3) and 11 (6), not 2 (2)
    setting_first(&setting([3, 2, 9]), &kept, 3).gives_at_limit(&[1], 3, 2);
}

#[test]
fn the_floor_is_of_visited_sequences() {
    // rule 3 is idle and pruned: (), 1 (3), 11, 12 (5), 2 (2), 21, 22 (4). Refused: what is pruned lowers the floor (3, so 1)
    let idle = setting([3, 2, 1]).replace("then=x1,x2,0/", "then=x1,x2,x3/");
    let marked = table(4, &[(3, 0)]);
    builds(&idle, 1, marked.clone(), unions(0, 0));
    setting_first(&idle, &marked, 2).gives_at_limit(&[1], 3, 2);
    // refused: a mark of the built table counts that the given one has not
    let kept = table(4, &[]);
    setting_first(&idle, &kept, 2).gives_at_limit(&[1], 3, 1);
    // rule 3 runs where position 2 is 0: (), 1 (3), 11, 12 (5), 2 (2), 21, 22, 23 (3). Refused: what cannot be run lowers the floor (3, so 1)
    let later = setting([3, 2, 1]).replace("if=x1,x2,x3/then=x1,x2,0/", "if=x1,0,x3/then=x1,0,0/");
    setting_first(&later, &kept, 2).gives_at_limit(&[1], 3, 2);
    // one move: (), 1 (0), 2 (2), 3 (2). Refused: what has too many moves lowers the floor (11, so 0)
    let free = setting([0, 2, 2]);
    let one_move = Asked { goal: &[ANY, 0, ANY], moves: 1, ..setting_first(&free, &kept, 3) };
    one_move.gives_at_limit(&[2], 2, 2);
    // cost bound 3: (), 1 (3), 2 (2), 23 (3), 3 (1), 32 (3), 33 (2). What passes the bound costs more than any plan within it, and cannot lower a floor; refused: it counts
    // among those looked at, so that 3 is not (1)
    let rules = setting([3, 2, 1]);
    let bounded = |limit| Asked { cost: 3, ..setting_first(&rules, &kept, limit) };
    bounded(2).gives_at_limit(&[1], 3, 1);
    bounded(4).gives_at_limit(&[1], 3, 1);
    bounded(5).gives_at_limit(&[1], 3, 2);
    bounded(6).gives_at_limit(&[1], 3, 2);
    bounded(7).gives(0, &[1], 3, 7);
    // refused: what passes a bound is enough for 18. Walked are () and 1 alone, or by one move (), 1, 2 and 3
    Asked { cost: 5, ..setting_first(&setting([3, 9, 9]), &kept, 2) }.gives(0, &[1], 3, 2);
    Asked { moves: 1, ..setting_first(&rules, &kept, 4) }.gives(0, &[1], 3, 4);
}

#[test]
fn the_cheapest_of_those_looked_at() {
    let kept = table(8, &[]);
    // (), 1 (1), 12 (10), 16 (2), 165 (3), 167 (3), 3 (9), 4 (1), 45 (2), 47 (2), 472 (11), 476 (3)
    let rules = ways([1, 9, 9, 1, 1, 1, 1]);
    let asked = |limit| going(&rules, &kept, limit);
    asked(2).gives(16, &[], 0, 2);
    // refused: the cheapest plan of all (45)
    asked(3).gives_at_limit(&[1, 2], 10, 1);
    asked(4).gives_at_limit(&[1, 2], 10, 1);
    // refused: the first that ends in the goal (12); the search ends there
    asked(5).gives_at_limit(&[1, 6, 5], 3, 1);
    // refused: the one of fewest rules, or the last that ends in the goal (3)
    asked(7).gives_at_limit(&[1, 6, 5], 3, 1);
    asked(8).gives_at_limit(&[1, 6, 5], 3, 2);
    asked(9).gives_at_limit(&[4, 5], 2, 2);
    // left are 472 and 476, then 476; refused: the floor is the least of those
    asked(10).gives_at_limit(&[4, 5], 2, 2);
    asked(11).gives_at_limit(&[4, 5], 2, 2);
    asked(12).gives(0, &[4, 5], 2, 12);
    // 12 (6), and left are 16 (2), 3 (9) and 4 (9). Refused: the floor is of single rules alone (6), or of what extends the last one looked at (none, so 6)
    going(&ways([1, 5, 9, 9, 1, 1, 1]), &kept, 3).gives_at_limit(&[1, 2], 6, 2);
    // 12 (2), 165 (3) and 3 (9); left is 4 (1). Refused: the one of fewest rules, or the last that ends in the goal
    going(&ways([1, 1, 9, 1, 1, 1, 1]), &kept, 7).gives_at_limit(&[1, 2], 2, 1);
}

#[test]
fn at_equal_cost_the_first_in_order() {
    // rule 1 costs 0, rule 2 costs 2: (), 1 (0), 11 (0), 12 (2), 2 (2), 21 (2), 22 (4)
    let rules = E.replacen("cost=1", "cost=0", 1).replace("cost=1", "cost=2");
    let kept = table(3, &[]);
    let ties = |limit| Asked { rules: &rules, reach: 1, table: &kept, start: &[1, 1], goal: &[ANY, 0], moves: 2, cost: 9, limit };
    // 12 and 2; left are 21 and 22. Refused: at equal cost the first of the walk (12); the floor counts what was looked at (1, so 0)
    ties(5).gives_at_limit(&[2], 2, 2);
    // left is 2. Refused: the first in document 01's order are looked at, (), 1, 2 and 11, so that 2 is the plan; the plan of all (2), as it costs no less
    ties(4).gives_at_limit(&[1, 2], 2, 2);
    ties(3).gives(16, &[], 0, 3);
    ties(6).gives_at_limit(&[2], 2, 2);
    ties(7).gives(0, &[2], 2, 7);
    // nothing marked: (), 1, 11, 12, 2, 21, 22, each rule 1. 12 and 21; left is 22 (2). Refused: of equal ones the last
    let kept = table(7, &[]);
    let e = |limit| Asked { rules: E, reach: 2, table: &kept, start: &[1, 1], goal: &[0, 0], moves: 2, cost: 9, limit };
    e(6).gives_at_limit(&[1, 2], 2, 2);
    e(5).gives_at_limit(&[1, 2], 2, 2);
    e(4).gives_at_limit(&[1, 2], 2, 1);
    // all free: 12 and 165, then 3 too. Refused: of equal ones the first of the walk, the last, or the longest
    let (rules, kept) = (ways([0; 7]), table(8, &[]));
    going(&rules, &kept, 5).gives_at_limit(&[1, 2], 0, 0);
    going(&rules, &kept, 7).gives_at_limit(&[3], 0, 0);
}

#[test]
fn wide_floors() {
    // 0-1, 1-2, 2-3, and 2-3 for less: (), 1 (255), 12 (510), 123 (765), 124 (610). Refused: a floor in eight bits
    let rules = "positions=1/sizes=4/rules=4/cost=255/if=0/then=1/cost=255/if=1/then=2/cost=255/if=2/then=3/cost=100/if=2/then=3/";
    let kept = table(5, &[]);
    Asked { rules, reach: 1, table: &kept, start: &[0], goal: &[3], moves: 3, cost: 65535, limit: 4 }.gives_at_limit(&[1, 2, 3], 765, 610);
    // rules 1 to 15 count position 1 up to 15, rule 16 starts it again, and rules 17 and 18 end: 32 moves for 8,160, the most that a plan costs; left is the other end
    let largest = |cost: u64| {
        let count: String = (1..16).map(|k| format!("cost=255/if={},x2/then={k},x2/", k - 1)).collect();
        let ends = format!("cost=255/if=15,0/then=0,1/cost=255/if=15,1/then=15,2/cost={cost}/if=15,1/then=0,2/");
        let rules = format!("positions=2/sizes=16,3/rules=18/{count}{ends}");
        let plan: Vec<u8> = (1..=16).chain(1..=15).chain([17]).collect();
        let kept = table(19, &[]);
        let asked = Asked { rules: &rules, reach: 1, table: &kept, start: &[0, 0], goal: &[ANY, 2], moves: 32, cost: 8160, limit: 33 };
        asked.gives_at_limit(&plan, 8160, 7905 + cost);
        Asked { limit: 32, ..asked }.gives(16, &[], 0, 32);
    };
    largest(255);
    largest(254);
    largest(0);
}

#[test]
fn no_floor_beside_other_outcomes() {
    // a search that gives 18 and floor 1, each time with one thing else: "zero for other outcomes", and a blank plan but for 0. Refused: a floor or a plan beside them, or 18
    // before them; the floor's entry gives the outcome
    let (rules, kept) = (setting([3, 2, 1]), table(4, &[]));
    let asked = setting_first(&rules, &kept, 2);
    asked.gives_at_limit(&[1], 3, 1);
    asked_of("positions=?", &asked, 1);
    asked_of(&rules.replace("cost=3", "cost=256"), &asked, 2);
    asked_of(&format!("{rules}/"), &asked, 1);
    asked_of(&rules.replacen("if=x1,x2,x3", "if=x2,x2,x3", 1), &asked, 3);
    asked_of(&rules.replace("cost=1/if=x1,x2,x3/then=x1,x2,0/", "cost=3/if=x1,x2,x3/then=0,x2,x3/"), &asked, 4);
    Asked { reach: 0, ..asked }.gives(5, &[], 0, 0);
    Asked { reach: 4, ..asked }.gives(5, &[], 0, 0);
    Asked { reach: 2, ..asked }.gives(6, &[], 0, 0);
    Asked { table: &kept[1..], ..asked }.gives(6, &[], 0, 0);
    Asked { start: &[1, 1], ..asked }.gives(9, &[], 0, 0);
    Asked { start: &[1, 1, 2], ..asked }.gives(9, &[], 0, 0);
    Asked { goal: &[0, ANY, 2], ..asked }.gives(10, &[], 0, 0);
    Asked { moves: 33, ..asked }.gives(11, &[], 0, 0);
    // refused: a buffer is enough that holds the plan looked at
    for plan_length in [0, 1] {
        searches(&asked.call(plan_length), 12, 0, vec![255; plan_length]);
    }
    Asked { table: &table(4, &[(1, 0)]), ..asked }.gives(14, &[], 0, 0);
    // refused: the floor of a plan found is its cost
    Asked { limit: 13, ..asked }.gives(0, &[1], 3, 13);
    // from 0,1,1 no rule puts a 1. Refused: above the limit 15 comes before 16. Before 18 it cannot come: where a plan was looked at there is one
    let none = Asked { start: &[0, 1, 1], goal: &[1, ANY, ANY], ..asked };
    Asked { limit: 13, ..none }.gives(15, &[], 0, 13);
    Asked { limit: 12, ..none }.gives(16, &[], 0, 12);
    none.gives(16, &[], 0, 2);
}

/// The same asked of another file, which is refused.
fn asked_of(rules: &str, asked: &Asked, outcome: u64) {
    Asked { rules, ..*asked }.gives(outcome, &[], 0, 0);
}
