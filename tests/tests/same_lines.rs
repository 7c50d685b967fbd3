//! Document 02, 2026-02: "Rules are twins only if their costs agree too. The dearer one, if it stands later in the file, is then needless as a sequence of one
//! rule." Beside the cases, the wrong planners that they refuse.

use planner_tests::by_hand::{builds, checks, macro_is, reads, table, unions, E};

/// A file of rules `0` to `1` at these costs.
fn at(costs: &[u16]) -> String {
    let rules: String = costs.iter().map(|cost| format!("cost={cost}/if=0/then=1/")).collect();
    format!("positions=1/sizes=2/rules={}/{rules}", costs.len())
}

/// E with its first rule at one cost, and a third rule like the first at another.
fn e_at(first: u16, third: u16) -> String {
    let e = E.replace("rules=2", "rules=3").replacen("cost=1", &format!("cost={first}"), 1);
    format!("{e}cost={third}/if=x1,x2/then=0,x2/")
}

#[test]
fn read_where_costs_differ() {
    // refused: costs are not compared; only a dearer one may follow; only a cheaper one may
    reads(&e_at(1, 2), 0);
    reads(&e_at(2, 1), 0);
    reads(&at(&[1, 2]), 0);
    reads(&at(&[2, 1]), 0);
    // refused: nothing is a duplicate; cost 0 is no cost, or equals every cost
    reads(&e_at(1, 1), 4);
    reads(&at(&[0, 0]), 4);
    reads(&at(&[255, 255]), 4);
    reads(&at(&[0, 255]), 0);
    reads(&at(&[255, 0]), 0);
    // refused: of the costs only a digit is compared, the first or the last, of ten or of two
    reads(&at(&[1, 11]), 0);
    reads(&at(&[10, 11]), 0);
    for digit in 0..8 {
        reads(&at(&[255, 255 - (1 << digit)]), 0);
    }
    // refused: costs alone are compared, or one line with them
    reads("positions=1/sizes=2/rules=3/cost=1/if=0/then=1/cost=1/if=1/then=1/cost=1/if=0/then=0/", 0);
    // refused: only neighbours are compared; only the first rule is; it is enough that one pair differs; costs have to rise, or to fall
    reads(&at(&[1, 2, 1]), 4);
    reads(&at(&[2, 1, 1]), 4);
    reads(&at(&[1, 1, 2]), 4);
    reads(&at(&[3, 1, 2]), 0);
    // refused: duplicates are judged before bytes left over, or before a later cost above its limit
    reads(&format!("{}/", at(&[1, 1])), 1);
    reads(&format!("{}/", at(&[1, 2])), 1);
    reads(&at(&[1, 1, 256]), 2);
    reads(&at(&[1, 256]), 2);
}

#[test]
fn the_later_one_is_marked_if_it_costs_no_less() {
    // refused: the reader leaves the dearer one out, or takes the cost of the first for both
    macro_is(&e_at(1, 2), &[3], "x1,x2", "0,x2", 2, 0, 0b01);
    macro_is(&e_at(1, 2), &[1, 3], "x1,x2", "0,x2", 3, 0, 0b01);
    // refused: the dearer one is kept, as the office wants both; it is kept at a longer reach
    builds(&e_at(1, 2), 1, table(4, &[(3, 1)]), unions(0, 0b01));
    let two = [(3, 1), (4, 1), (6, 1), (7, 5), (8, 2), (9, 5), (10, 1), (11, 5), (12, 1)];
    builds(&e_at(1, 2), 2, table(13, &two), unions(0, 0b11));
    // refused: a cost of 0 serves none
    builds(&at(&[0, 255]), 1, table(3, &[(2, 1)]), unions(1, 1));
    // refused: the witness is the nearest rule with the same lines, or the first, or the cheapest
    builds(&at(&[1, 2, 3]), 1, table(4, &[(2, 1), (3, 1)]), unions(1, 1));
    builds(&at(&[3, 1, 2]), 1, table(4, &[(3, 2)]), unions(1, 1));
    builds(&at(&[2, 1, 3]), 1, table(4, &[(3, 1)]), unions(1, 1));
    // refused: the check takes no other witness than the builder's
    checks(&at(&[2, 1, 3]), 1, table(4, &[(3, 2)]), unions(1, 1));
    checks(&at(&[1, 2, 3]), 1, table(4, &[(3, 2)]), unions(1, 1));
    // refused: the check takes the other rule, or the empty sequence, or the later one
    for (index, witness) in [(3, 2), (3, 0), (1, 3)] {
        checks(&e_at(1, 2), 1, table(4, &[(index, witness)]), 14);
    }
    // refused: the later one is always marked with the one whose lines it has; these are idle, and the empty sequence is their witness
    let idle = "positions=1/sizes=2/rules=2/cost=1/if=0/then=0/cost=2/if=0/then=0/";
    builds(idle, 1, table(3, &[(1, 0), (2, 0)]), unions(1, 0));
    checks(idle, 1, table(3, &[(2, 1)]), unions(1, 0));
}

#[test]
fn neither_is_marked_if_the_later_one_is_cheaper() {
    // refused: the dearer one is marked wherever it stands; the later one is marked whatever it costs
    builds(&e_at(2, 1), 1, table(4, &[]), unions(0, 0));
    builds(&at(&[255, 0]), 1, table(3, &[]), unions(0, 0));
    for (index, witness) in [(3, 1), (1, 3)] {
        checks(&e_at(2, 1), 1, table(4, &[(index, witness)]), 14);
    }
    // refused: at a longer reach costs are forgotten. (2,3) costs 2 and (1,2) and (2,1) cost 3: it is kept, and (3,2) is marked with it
    let two = [(4, 1), (6, 1), (7, 5), (8, 2), (10, 1), (11, 9), (12, 1)];
    builds(&e_at(2, 1), 2, table(13, &two), unions(0, 0b11));
    // refused: where the later one is cheaper neither is ever marked. These are idle, and the empty sequence is their witness
    let idle = "positions=1/sizes=2/rules=2/cost=2/if=0/then=0/cost=1/if=0/then=0/";
    builds(idle, 1, table(3, &[(1, 0), (2, 0)]), unions(1, 0));
    checks(idle, 1, table(3, &[(2, 1)]), 14);
}
