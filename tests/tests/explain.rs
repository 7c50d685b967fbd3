//! Document 02, 2026-06: "A shunter types a sequence with a query and wants to know why the planner did not show it. The
//! answer is the first that holds: it is over the move bound; it cannot be run, with the first move that fails; it
//! passes the cost bound, with the first move that does; it ends off the goal, with the lowest wrong position; it is
//! dearer than the plan, with both costs; it is equally cheap but later in the order; it is the plan. Where a stretch of
//! it is marked, the answer also carries the marked stretch that ends soonest, the shorter at equal end, and its
//! witness." The answers are worked out by hand, from these words and document 01's; library and oracle have to give
//! just these. Beside them stand the answers of wrong planners, each by its name. A sequence is written as 12 for 1,2.

use planner_tests::by_hand::{builds, checks, file, gives, reads, table, unions, Asked, Why, E, H};
use planner_tests::calls::{Call, Query};

/// Any value, in a goal.
const ANY: u8 = 255;

/// E's built table for reach 2: 11 is marked with 1, 21 with 12 and 22 with 2. The indices are 1: 1, 2: 2, 11: 3, 12: 4,
/// 21: 5, 22: 6.
const E_MARKS: [(usize, u16); 3] = [(3, 1), (5, 4), (6, 2)];

/// H's built table for reach 2: 34 is marked with 24, and what no state admits with the empty sequence: all pairs but 12,
/// 13 and 24. The index of a pair is four times its first rule and its second.
const H_MARKS: [(usize, u16); 13] = [(5, 0), (8, 0), (9, 0), (10, 0), (11, 0), (13, 0), (14, 0), (15, 0), (16, 12), (17, 0), (18, 0), (19, 0), (20, 0)];

/// E with a third rule that does what the first does, at cost 2. The indices of two rules are three times the first and
/// the second, those of three rules three times that and the third.
const RELIEF: &str = "positions=2/sizes=2,2/rules=3/cost=1/if=x1,x2/then=0,x2/cost=1/if=x1,x2/then=x1,0/cost=2/if=x1,x2/then=0,x2/";

/// One rule, which can always be run, at the highest cost.
const DEAR: &str = "positions=1/sizes=2/rules=1/cost=255/if=x1/then=0/";

/// P1: the walk is (), 1, 12, 2, and the plan 12 for 2.
fn p1(marks: &[u8]) -> Asked<'_> {
    Asked { rules: E, reach: 2, table: marks, start: &[1, 1], goal: &[0, 0], moves: 2, cost: 9, limit: 4 }
}

/// P9: the walk is (), 1, 12, 124, 13, and the plan 124 for 3. The states are 0,0,0, 1,0,0, 2,0,0, 3,1,1 and 2,0,0.
fn p9(marks: &[u8]) -> Asked<'_> {
    Asked { rules: H, reach: 2, table: marks, start: &[0, 0, 0], goal: &[3, 1, 1], moves: 3, cost: 9, limit: 5 }
}

/// Of `RELIEF`, from 1,1 to 0,0 by at most three moves: the plan is 12 for 2, whatever is marked.
fn relief(reach: usize, marks: &[u8]) -> Asked<'_> {
    Asked { rules: RELIEF, reach, table: marks, start: &[1, 1], goal: &[0, 0], moves: 3, cost: 9, limit: 40 }
}

/// The explanation of a proposal, which is none of these wrong planners'.
fn explains(asked: &Asked, moves: &[u8], outcome: u64, why: Why, wrong: &[(&str, Why)]) {
    asked.explains(moves, outcome, why);
    for (planner, answer) in wrong {
        assert_ne!(why.bytes(), answer.bytes(), "{planner}: {moves:?}");
    }
}

/// An outcome that stands alone, which is none of these wrong planners'.
fn stands_alone(asked: &Asked, moves: &[u8], outcome: u64, wrong: &[(&str, u64, Why)]) {
    asked.explains(moves, outcome, Why::default());
    for (planner, other, answer) in wrong {
        assert_ne!((outcome, Why::default().bytes()), (*other, answer.bytes()), "{planner}: {moves:?}");
    }
}

#[test]
fn the_bytes() {
    // reason, place, the cost low byte first, the plan's, the segment's end in eight bytes, its length, the witness's
    // length, the witness in three bytes
    let (marks, kept, dear) = (table(7, &E_MARKS), table(7, &[(6, 2)]), table(3, &[(2, 1)]));
    let explained = |asked: &Asked, moves: &[u8], bytes: [u8; 19]| {
        let call = |out_length| asked.call(32).for_proposal(moves, out_length).expect("a search");
        gives(&call(19), 0, bytes.to_vec());
        gives(&call(21), 0, [&bytes[..], &[0, 0]].concat());
        gives(&call(18), 0, vec![0; 18]);
        gives(&call(0), 0, vec![]);
    };
    // 21 costs what 12 costs, and is marked with it
    explained(&p1(&marks), &[2, 1], [6, 0, 0, 0, 0, 0, 2, 0, 0, 0, 0, 0, 0, 0, 2, 2, 1, 2, 0]);
    explained(&p1(&marks), &[1, 2], [7, 0, 0, 0, 0, 0, 0, 0, 0, 0, 0, 0, 0, 0, 0, 0, 0, 0, 0]);
    // 1 leaves position 2 at 1
    explained(&p1(&marks), &[1], [4, 2, 0, 0, 0, 0, 0, 0, 0, 0, 0, 0, 0, 0, 0, 0, 0, 0, 0]);
    // 32 * 255 is 8,160, 31 * 256 + 224; the plan costs 255; 11 is marked with 1
    let asked = Asked { rules: DEAR, reach: 2, table: &dear, start: &[1], goal: &[0], moves: 32, cost: 65535, limit: 2 };
    explained(&asked, &[1; 32], [5, 0, 224, 31, 255, 0, 2, 0, 0, 0, 0, 0, 0, 0, 2, 1, 1, 0, 0]);
    // with 22 alone marked, with 2: 300 is 256 + 44
    let long = [&[1; 298][..], &[2, 2]].concat();
    explained(&Asked { limit: 7, ..p1(&kept) }, &long, [1, 0, 0, 0, 0, 0, 44, 1, 0, 0, 0, 0, 0, 0, 2, 1, 2, 0, 0]);
}

#[test]
fn the_reasons_of_e() {
    let marks = table(7, &E_MARKS);
    builds(E, 2, marks.clone(), unions(0, 0b11));
    let p1 = p1(&marks);
    p1.gives(0, &[1, 2], 2, 4);
    let exact = Why { cost: 2, plan_cost: 2, ..Why::is_plan() };
    explains(&p1, &[1, 2], 0, Why::is_plan(), &[("costs beside the plan", exact), ("a place beside the plan", Why { place: 2, ..Why::is_plan() })]);
    // it costs 2 as well
    let later = Why::later().marked(2, 2, &[1, 2]);
    let wrong = [
        ("what costs no more is the plan", Why { reason: 7, ..later }),
        ("what costs no less is dearer", Why { reason: 5, cost: 2, plan_cost: 2, ..later }),
        ("costs beside later", Why { cost: 2, plan_cost: 2, ..later }),
        ("no segment beside a reason", Why::later()),
        ("the witness's index", Why::later().marked(2, 2, &[4])),
        ("the number of the first move for that of the last", Why::later().marked(1, 2, &[1, 2])),
    ];
    explains(&p1, &[2, 1], 0, later, &wrong);
    // they end in 0,1, in 1,0 and in 1,1
    explains(&p1, &[1], 0, Why::off_goal(2), &[("positions from 0", Why::off_goal(1)), ("the first position", Why::off_goal(1))]);
    explains(&p1, &[2], 0, Why::off_goal(1), &[("positions from 0", Why::off_goal(0)), ("the last position", Why::off_goal(2))]);
    let wrong =
        [("the highest wrong position", Why::off_goal(2)), ("no moves are no proposal", Why::default()), ("no moves, so no position", Why::off_goal(0))];
    explains(&p1, &[], 0, Why::off_goal(1), &wrong);
    explains(&p1, &[1, 1], 0, Why::off_goal(2).marked(2, 2, &[1]), &[("segments of plans alone", Why::off_goal(2))]);
    // three moves where two are allowed. 12 is not marked, 21 is
    let over = Why::over_move_bound();
    let wrong = [
        ("the first move over the bound", Why { place: 3, ..over.marked(3, 2, &[1, 2]) }),
        ("the bound", Why { place: 2, ..over.marked(3, 2, &[1, 2]) }),
        ("the segment within the move bound", over),
        ("it is dearer", Why::dearer(3, 2).marked(3, 2, &[1, 2])),
    ];
    explains(&p1, &[1, 2, 1], 0, over.marked(3, 2, &[1, 2]), &wrong);
    explains(&p1, &[1, 1, 2], 0, over.marked(2, 2, &[1]), &[]);
    // with three moves allowed nothing more is walked: 121 and 122 are pruned
    let three = Asked { moves: 3, ..p1 };
    three.gives(0, &[1, 2], 2, 4);
    let dearer = Why::dearer(3, 2).marked(3, 2, &[1, 2]);
    let wrong = [
        ("costs exchanged", Why::dearer(2, 3).marked(3, 2, &[1, 2])),
        ("the difference of the costs", Why::dearer(1, 2).marked(3, 2, &[1, 2])),
        ("the proposal's cost alone", Why::dearer(3, 0).marked(3, 2, &[1, 2])),
        ("over the bound when it is met", over.marked(3, 2, &[1, 2])),
    ];
    explains(&three, &[1, 2, 1], 0, dearer, &wrong);
    explains(&three, &[2, 1, 2], 0, Why::dearer(3, 2).marked(2, 2, &[1, 2]), &[]);
    explains(&three, &[1, 1, 2], 0, Why::dearer(3, 2).marked(2, 2, &[1]), &[]);
    explains(&three, &[1, 2], 0, Why::is_plan(), &[]);
    // with a cost bound of 2 the third move passes it
    let bounded = Asked { cost: 2, ..three };
    bounded.gives(0, &[1, 2], 2, 4);
    let passes = |place| Why::passes_cost_bound(place).marked(2, 2, &[1]);
    let wrong = [("passed when met", passes(2)), ("moves from 0", passes(2)), ("dearer first", Why::dearer(3, 2).marked(2, 2, &[1]))];
    explains(&bounded, &[1, 1, 2], 0, passes(3), &wrong);
    explains(&bounded, &[1, 2], 0, Why::is_plan(), &[("passed when met", Why::passes_cost_bound(2))]);
    explains(&bounded, &[2, 1], 0, later, &[("passed when met", Why::passes_cost_bound(2).marked(2, 2, &[1, 2]))]);
    // P3 and P4: no plan
    let p3 = Asked { moves: 1, ..p1 };
    p3.gives(15, &[], 0, 3);
    explains(&p3, &[1, 2], 15, over, &[("the plan of two moves", Why::is_plan()), ("15 stands alone", Why::default())]);
    explains(&p3, &[2, 1], 15, over.marked(2, 2, &[1, 2]), &[("no segment without a plan", over)]);
    explains(&p3, &[1], 15, Why::off_goal(2), &[]);
    explains(&p3, &[], 15, Why::off_goal(1), &[]);
    let p4 = Asked { cost: 1, ..p1 };
    p4.gives(15, &[], 0, 3);
    explains(&p4, &[1, 2], 15, Why::passes_cost_bound(2), &[("15 stands alone", Why::default()), ("passed when met", Why::passes_cost_bound(1))]);
    explains(&p4, &[1], 15, Why::off_goal(2), &[("passed when met", Why::passes_cost_bound(1))]);
    explains(&p4, &[2, 1], 15, Why::passes_cost_bound(2).marked(2, 2, &[1, 2]), &[]);
    explains(&Asked { cost: 0, ..p1 }, &[1, 2], 15, Why::passes_cost_bound(1), &[("the last move that does", Why::passes_cost_bound(2))]);
}

#[test]
fn the_reasons_of_h() {
    let marks = table(21, &H_MARKS);
    builds(H, 2, marks.clone(), unions(0b111, 0b111));
    let p9 = p9(&marks);
    p9.gives(0, &[1, 2, 4], 3, 5);
    explains(&p9, &[1, 2, 4], 0, Why::is_plan(), &[]);
    explains(&p9, &[1, 3, 4], 0, Why::later().marked(3, 2, &[2, 4]), &[("what does the same is the plan", Why::is_plan().marked(3, 2, &[2, 4]))]);
    // they end in 1,0,0, in 2,0,0 and in 2,0,0
    for moves in [&[1][..], &[1, 2], &[1, 3]] {
        explains(&p9, moves, 0, Why::off_goal(1), &[("the highest wrong position", Why::off_goal(3))]);
    }
    // 2 asks for 1 at position 1; so does 3 after 12. What no state admits is marked with the empty sequence
    explains(&p9, &[2], 0, Why::cannot_run(1), &[("moves from 0", Why::cannot_run(0)), ("the state where it fails", Why::off_goal(1))]);
    let wrong = [
        ("moves from 0", Why::cannot_run(1).marked(2, 2, &[])),
        ("an empty witness is none", Why::cannot_run(2)),
        ("a segment of no length", Why::cannot_run(2).marked(2, 0, &[])),
        ("the last move that runs", Why::cannot_run(1).marked(2, 2, &[])),
    ];
    explains(&p9, &[1, 1], 0, Why::cannot_run(2).marked(2, 2, &[]), &wrong);
    explains(&p9, &[1, 4], 0, Why::cannot_run(2).marked(2, 2, &[]), &[]);
    explains(&p9, &[1, 2, 3], 0, Why::cannot_run(3).marked(3, 2, &[]), &[]);
    // the plan and a move more: with three moves allowed, and with four
    let plan = [("its front is the plan", Why::is_plan()), ("its front is the plan, and the segment of all", Why::is_plan().marked(4, 2, &[]))];
    explains(&p9, &[1, 2, 4, 1], 0, Why::over_move_bound().marked(4, 2, &[]), &plan);
    let four = Asked { moves: 4, ..p9 };
    four.gives(0, &[1, 2, 4], 3, 5);
    explains(&four, &[1, 2, 4, 1], 0, Why::cannot_run(4).marked(4, 2, &[]), &plan);
    // any state is a goal: the plan is empty
    let open = Asked { goal: &[ANY; 3], ..p9 };
    open.gives(0, &[], 0, 5);
    explains(&open, &[], 0, Why::is_plan(), &[("no moves are no plan", Why::off_goal(1)), ("no moves are no proposal", Why::default())]);
    explains(&open, &[1], 0, Why::dearer(1, 0), &[("255 is a value", Why::off_goal(1)), ("without a plan's cost", Why::dearer(1, 1))]);
    explains(&open, &[1, 2, 4], 0, Why::dearer(3, 0), &[]);
    explains(&open, &[1, 3, 4], 0, Why::dearer(3, 0).marked(3, 2, &[2, 4]), &[]);
    explains(&open, &[2], 0, Why::cannot_run(1), &[]);
    // 2,0,0 is wrong where the goal has a value: at position 2, and in a goal without a plan at position 3
    let wrong = [("255 is a value", Why::off_goal(1)), ("the place among the goal's values", Why::off_goal(1))];
    explains(&Asked { goal: &[ANY, 1, ANY], ..p9 }, &[1, 2], 0, Why::off_goal(2), &wrong);
    explains(&Asked { goal: &[2, 0, 1], ..p9 }, &[1, 2], 15, Why::off_goal(3), &[("the number of wrong positions", Why::off_goal(1))]);
    // a cost bound of 2, or two moves: no plan
    let bounded = Asked { cost: 2, ..p9 };
    bounded.gives(15, &[], 0, 4);
    explains(&bounded, &[1, 2, 4], 15, Why::passes_cost_bound(3), &[]);
    explains(&bounded, &[1, 3, 4], 15, Why::passes_cost_bound(3).marked(3, 2, &[2, 4]), &[]);
    explains(&bounded, &[2], 15, Why::cannot_run(1), &[]);
    explains(&bounded, &[1, 2], 15, Why::off_goal(1), &[]);
    explains(&bounded, &[1, 2, 4, 1], 15, Why::over_move_bound().marked(4, 2, &[]), &[]);
    let short = Asked { moves: 2, ..p9 };
    short.gives(15, &[], 0, 4);
    explains(&short, &[1, 2, 4], 15, Why::over_move_bound(), &[]);
    explains(&short, &[1, 1], 15, Why::cannot_run(2).marked(2, 2, &[]), &[]);
}

#[test]
fn the_first_reason_of_the_whole_proposal() {
    let (marks, kept) = (table(21, &H_MARKS), table(21, &[]));
    // nothing is paid: 1 passes the cost bound, and 22 cannot be run, so that the third move fails. With the goal of P9
    // there is no plan, with an open goal there is the empty one
    for (goal, outcome) in [([3, 1, 1], 15), ([ANY; 3], 0)] {
        let asked = Asked { goal: &goal, cost: 0, ..p9(&marks) };
        asked.gives(outcome, &[], 0, 1);
        let why = Why::cannot_run(3).marked(3, 2, &[]);
        let wrong = [("move by move", Why::passes_cost_bound(1).marked(3, 2, &[])), ("move by move, segments too", Why::passes_cost_bound(1))];
        explains(&asked, &[1, 2, 2], outcome, why, &wrong);
        explains(&asked, &[1, 2], outcome, Why::passes_cost_bound(1), &[("the last move that does", Why::passes_cost_bound(2))]);
    }
    // 2 fails at once, 1 passes the cost bound, and there are too many moves
    let asked = Asked { moves: 2, cost: 0, ..p9(&kept) };
    explains(&asked, &[2, 1, 1], 15, Why::over_move_bound(), &[("move by move, or the length last", Why::cannot_run(1))]);
    explains(&asked, &[1, 2, 4], 15, Why::over_move_bound(), &[("move by move, or the length last", Why::passes_cost_bound(1))]);
    // no moves are allowed
    explains(&Asked { moves: 0, ..p9(&kept) }, &[1], 15, Why::over_move_bound(), &[("a move bound of 0 is none", Why::off_goal(1))]);
    explains(&Asked { moves: 0, ..p9(&kept) }, &[], 15, Why::off_goal(1), &[("over the bound when it is met", Why::over_move_bound())]);
    // 11 of E ends in 0,1, and its second move passes a cost bound of 1
    let marks = table(7, &E_MARKS);
    let why = Why::passes_cost_bound(2).marked(2, 2, &[1]);
    explains(&Asked { cost: 1, ..p1(&marks) }, &[1, 1], 15, why, &[("the goal before the cost", Why::off_goal(2).marked(2, 2, &[1]))]);
    // rules 1 and 2 cost 1, rule 3 costs nothing, and the bound is 1: at most one of 1 and 2 is paid, which is
    // 1 + 3 + 5 + 7 sequences. The plan is 23
    let free = RELIEF.replace("cost=2", "cost=0");
    let kept = table(4, &[]);
    let asked = Asked { rules: &free, reach: 1, table: &kept, start: &[1, 1], goal: &[0, 0], moves: 3, cost: 1, limit: 40 };
    asked.gives(0, &[2, 3], 1, 16);
    explains(&asked, &[3, 1, 2], 0, Why::passes_cost_bound(3), &[("moves that cost something", Why::passes_cost_bound(2))]);
    explains(&asked, &[1, 2, 3], 0, Why::passes_cost_bound(2), &[("the last move", Why::passes_cost_bound(3))]);
}

#[test]
fn through_the_goal() {
    // from 1,1 to 0,1: the plan is 1
    let marks = table(7, &E_MARKS);
    let asked = Asked { goal: &[0, 1], ..p1(&marks) };
    asked.gives(0, &[1], 1, 4);
    explains(&asked, &[1, 2], 0, Why::off_goal(2), &[("the goal when met", Why::dearer(2, 1)), ("the front that meets the goal", Why::is_plan())]);
    explains(&asked, &[1, 1], 0, Why::dearer(2, 1).marked(2, 2, &[1]), &[("the front that meets the goal", Why::is_plan())]);
    explains(&asked, &[1], 0, Why::is_plan(), &[]);
    explains(&asked, &[2], 0, Why::off_goal(1), &[]);
    // from the goal away, and from the goal to the goal
    let asked = Asked { goal: &[1, 1], ..p1(&marks) };
    asked.gives(0, &[], 0, 4);
    explains(&asked, &[1], 0, Why::off_goal(1), &[("the start meets the goal", Why::dearer(1, 0))]);
    explains(&asked, &[], 0, Why::is_plan(), &[]);
    let asked = Asked { start: &[0, 0], ..p1(&marks) };
    asked.gives(0, &[], 0, 4);
    explains(&asked, &[1, 2], 0, Why::dearer(2, 0), &[]);
    // of H: 1,0,0 is the goal, and after it 1 cannot be run
    let marks = table(21, &H_MARKS);
    let asked = Asked { goal: &[1, ANY, ANY], ..p9(&marks) };
    asked.gives(0, &[1], 1, 5);
    explains(&asked, &[1, 1], 0, Why::cannot_run(2).marked(2, 2, &[]), &[("the goal when met", Why::is_plan())]);
}

#[test]
fn costs() {
    // one rule: (), 1, 11, .. and the plan is 1 for 255
    let kept = table(2, &[]);
    let dear = |cost| Asked { rules: DEAR, reach: 1, table: &kept, start: &[1], goal: &[0], moves: 32, cost, limit: 33 };
    dear(65535).gives(0, &[1], 255, 33);
    for cost in [8160, 8161, 32767, 32768, 65534, 65535] {
        let wrong = [("eight bits", Why::dearer(8160 % 256, 255)), ("costs exchanged", Why::dearer(255, 8160))];
        explains(&dear(cost), &[1; 32], 0, Why::dearer(8160, 255), &wrong);
        if cost > 32767 {
            explains(&dear(cost), &[1; 32], 0, Why::dearer(8160, 255), &[("a bound with a sign", Why::passes_cost_bound(1))]);
        }
        explains(&dear(cost), &[1; 33], 0, Why::over_move_bound(), &[("32 moves at most", Why::dearer(8160, 255))]);
        explains(&dear(cost), &[1; 2], 0, Why::dearer(510, 255), &[]);
        explains(&dear(cost), &[1], 0, Why::is_plan(), &[]);
    }
    // one less than what 32 moves cost, than what two cost, than what one costs
    explains(&dear(8159), &[1; 32], 0, Why::passes_cost_bound(32), &[("moves from 0", Why::passes_cost_bound(31))]);
    explains(&dear(8159), &[1; 31], 0, Why::dearer(7905, 255), &[]);
    explains(&dear(509), &[1; 32], 0, Why::passes_cost_bound(2), &[("the last move", Why::passes_cost_bound(32))]);
    explains(&dear(510), &[1; 32], 0, Why::passes_cost_bound(3), &[("passed when met", Why::passes_cost_bound(2))]);
    explains(&dear(510), &[1; 2], 0, Why::dearer(510, 255), &[("passed when met", Why::passes_cost_bound(2))]);
    explains(&dear(255), &[1], 0, Why::is_plan(), &[("passed when met", Why::passes_cost_bound(1))]);
    dear(254).gives(15, &[], 0, 1);
    explains(&dear(254), &[1], 15, Why::passes_cost_bound(1), &[]);
    explains(&dear(0), &[1; 32], 15, Why::passes_cost_bound(1), &[]);
    // 0-1, 1-2, 2-3, and 2-3 for less: 124 is the plan for 610, and 123 costs 765
    let ways = "positions=1/sizes=4/rules=4/cost=255/if=0/then=1/cost=255/if=1/then=2/cost=255/if=2/then=3/cost=100/if=2/then=3/";
    let kept = table(5, &[]);
    let asked = Asked { rules: ways, reach: 1, table: &kept, start: &[0], goal: &[3], moves: 3, cost: 65535, limit: 5 };
    asked.gives(0, &[1, 2, 4], 610, 5);
    explains(
        &asked,
        &[1, 2, 3],
        0,
        Why::dearer(765, 610),
        &[("the plan's cost in eight bits", Why::dearer(765, 98)), ("the last move's cost", Why::dearer(255, 100))],
    );
    // E for nothing: 12 is the plan, and 21 and what is longer comes later. Cost bounds of 0 are met and not passed
    let free = E.replace("cost=1", "cost=0");
    let marks = table(7, &E_MARKS);
    for cost in [0, 1, 65535] {
        let asked = Asked { rules: &free, moves: 3, cost, ..p1(&marks) };
        asked.gives(0, &[1, 2], 0, 4);
        explains(&asked, &[1, 2], 0, Why::is_plan(), &[("passed when met", Why::passes_cost_bound(1))]);
        explains(&asked, &[2, 1], 0, Why::later().marked(2, 2, &[1, 2]), &[("a cost of 0 is none", Why::dearer(0, 0).marked(2, 2, &[1, 2]))]);
        explains(&asked, &[1, 2, 1], 0, Why::later().marked(3, 2, &[1, 2]), &[("longer is dearer", Why::dearer(0, 0).marked(3, 2, &[1, 2]))]);
        explains(&asked, &[1], 0, Why::off_goal(2), &[]);
    }
    // rule 1 costs 0 and rule 2 costs 2: of 2 and 12, which cost as much, 2 has fewer rules
    let rules = E.replacen("cost=1", "cost=0", 1).replace("cost=1", "cost=2");
    let kept = table(7, &[]);
    let asked = Asked { rules: &rules, goal: &[ANY, 0], limit: 7, ..p1(&kept) };
    asked.gives(0, &[2], 2, 7);
    explains(&asked, &[1, 2], 0, Why::later(), &[("the smaller rule number first", Why::is_plan())]);
    explains(&asked, &[2, 1], 0, Why::later(), &[]);
    explains(&asked, &[2, 2], 0, Why::dearer(4, 2), &[]);
    // the same shunt for less, later in the file
    let same = "positions=1/sizes=2/rules=2/cost=2/if=0/then=1/cost=1/if=0/then=1/";
    let kept = table(3, &[]);
    builds(same, 1, kept.clone(), unions(0, 0));
    let asked = Asked { rules: same, reach: 1, table: &kept, start: &[0], goal: &[1], moves: 1, cost: 9, limit: 3 };
    explains(&asked, &[1], 0, Why::dearer(2, 1), &[("what does the same is the plan", Why::is_plan())]);
    explains(&asked, &[2], 0, Why::is_plan(), &[]);
}

#[test]
fn positions() {
    // each of sixteen is the only wrong one, and then all from it on are. One rule sets all to 0
    let list = |item: &str| vec![item; 16].join(",");
    let own: Vec<String> = (1..=16).map(|j| format!("x{j}")).collect();
    let rules = format!("positions=16/sizes={}/rules=1/cost=1/if={}/then={}/", list("2"), own.join(","), list("0"));
    let kept = table(2, &[]);
    for place in 1..=16 {
        let one: Vec<u8> = (1..=16).map(|i| if i == place { 1 } else { 0 }).collect();
        let others_open: Vec<u8> = (1..=16).map(|i| if i == place { 1 } else { ANY }).collect();
        let from: Vec<u8> = (1..=16).map(|i| u8::from(i >= place)).collect();
        for goal in [&one, &others_open, &from] {
            let asked = Asked { rules: &rules, reach: 1, table: &kept, start: &[0; 16], goal, moves: 1, cost: 9, limit: 9 };
            asked.gives(15, &[], 0, 2);
            let wrong = [("positions from 0", Why::off_goal(place - 1)), ("positions from the last", Why::off_goal(17 - place))];
            explains(&asked, &[1], 15, Why::off_goal(place), &wrong);
            explains(&asked, &[], 15, Why::off_goal(place), &wrong);
        }
    }
    // a position of size 1 is never wrong: before and between the others
    let single = "positions=4/sizes=1,2,1,2/rules=1/cost=1/if=0,x2,0,x4/then=0,0,0,x4/";
    for there in [0, ANY] {
        let goal = [there, 0, there, 0];
        let asked = Asked { rules: single, reach: 1, table: &kept, start: &[0, 1, 0, 1], goal: &goal, moves: 1, cost: 9, limit: 9 };
        explains(&asked, &[], 15, Why::off_goal(2), &[("positions of several values", Why::off_goal(1))]);
        explains(&asked, &[1], 15, Why::off_goal(4), &[("positions of several values", Why::off_goal(2)), ("a value of 0 is none", Why::off_goal(3))]);
    }
}

#[test]
fn segments_by_reach_and_length() {
    // reach 1: 3 is marked with 1
    let marks = table(4, &[(3, 1)]);
    builds(RELIEF, 1, marks.clone(), unions(0, 0b01));
    explains(&relief(1, &marks), &[3], 0, Why::off_goal(2).marked(1, 1, &[1]), &[("segments of two moves on", Why::off_goal(2))]);
    explains(&relief(1, &marks), &[3, 2], 0, Why::dearer(3, 2).marked(1, 1, &[1]), &[("the end from 0", Why::dearer(3, 2).marked(0, 1, &[1]))]);
    explains(&relief(1, &marks), &[2, 3], 0, Why::dearer(3, 2).marked(2, 1, &[1]), &[("the place from the last", Why::dearer(3, 2).marked(1, 1, &[1]))]);
    explains(&relief(1, &marks), &[1, 2, 3], 0, Why::dearer(4, 2).marked(3, 1, &[1]), &[]);
    explains(&relief(1, &marks), &[1, 2], 0, Why::is_plan(), &[]);
    // at reach 1 longer segments have no entry, though the builder for a longer reach marks them
    explains(&relief(1, &marks), &[2, 1], 0, Why::later(), &[("the marks of reach 2", Why::later().marked(2, 2, &[1, 2]))]);
    // reach 2: 23 is marked with 12
    let marks = table(13, &[(9, 5)]);
    checks(RELIEF, 2, marks.clone(), unions(0, 0b11));
    explains(&relief(2, &marks), &[2, 3], 0, Why::dearer(3, 2).marked(2, 2, &[1, 2]), &[("single rules alone", Why::dearer(3, 2))]);
    explains(&relief(2, &marks), &[1, 2, 3], 0, Why::dearer(4, 2).marked(3, 2, &[1, 2]), &[("the first pair alone", Why::dearer(4, 2))]);
    explains(&relief(2, &marks), &[2, 1, 3], 0, Why::dearer(4, 2), &[("moves that are no neighbours", Why::dearer(4, 2).marked(3, 2, &[1, 2]))]);
    // reach 3: 123 is marked with 12
    let marks = table(40, &[(18, 5)]);
    checks(RELIEF, 3, marks.clone(), unions(0, 0b11));
    explains(&relief(3, &marks), &[1, 2, 3], 0, Why::dearer(4, 2).marked(3, 3, &[1, 2]), &[("at most two rules", Why::dearer(4, 2))]);
    explains(&relief(3, &marks), &[2, 3], 0, Why::dearer(3, 2), &[("the end of a marked one", Why::dearer(3, 2).marked(2, 2, &[1, 2]))]);
    explains(&relief(3, &marks), &[1, 2], 0, Why::is_plan(), &[("the front of a marked one", Why::is_plan().marked(2, 2, &[1, 2]))]);
    // 1123 and 2123 have it at their end
    let four = Asked { moves: 4, limit: 121, ..relief(3, &marks) };
    explains(&four, &[1, 1, 2, 3], 0, Why::dearer(5, 2).marked(4, 3, &[1, 2]), &[("the first three moves alone", Why::dearer(5, 2))]);
    explains(&four, &[2, 1, 2, 3], 0, Why::dearer(5, 2).marked(4, 3, &[1, 2]), &[("the whole proposal alone", Why::dearer(5, 2))]);
    // nothing marked
    for (reach, count) in [(1, 4), (2, 13), (3, 40)] {
        let none = table(count, &[]);
        explains(&relief(reach, &none), &[2, 1], 0, Why::later(), &[("the builder's marks", Why::later().marked(2, 2, &[1, 2]))]);
        explains(&relief(reach, &none), &[3, 2], 0, Why::dearer(3, 2), &[("the builder's marks", Why::dearer(3, 2).marked(1, 1, &[1]))]);
    }
}

#[test]
fn the_segment_that_ends_soonest() {
    // 11 ends sooner, 3 is shorter; and of two like ones the first
    let marks = table(13, &[(3, 1), (4, 1)]);
    let soonest = Why::off_goal(2).marked(2, 2, &[1]);
    let wrong = [("the shortest", Why::off_goal(2).marked(3, 1, &[1])), ("the last", Why::off_goal(2).marked(3, 1, &[1]))];
    explains(&relief(2, &marks), &[1, 1, 3], 0, soonest, &wrong);
    explains(&relief(2, &marks), &[1, 1, 1], 0, soonest, &[("the last", Why::off_goal(2).marked(3, 2, &[1]))]);
    explains(&relief(2, &marks), &[2, 3, 3], 0, Why::dearer(5, 2).marked(2, 1, &[1]), &[("the last", Why::dearer(5, 2).marked(3, 1, &[1]))]);
    // 132 starts sooner, 3 ends sooner
    let marks = table(40, &[(3, 1), (20, 5)]);
    checks(RELIEF, 3, marks.clone(), unions(0, 0b11));
    let why = Why::dearer(4, 2);
    let wrong = [("the one that starts first", why.marked(3, 3, &[1, 2])), ("the longest", why.marked(3, 3, &[1, 2])), ("the last", why.marked(3, 3, &[1, 2]))];
    explains(&relief(3, &marks), &[1, 3, 2], 0, why.marked(2, 1, &[1]), &wrong);
    // 23 and 3, 123 and 23, all three: the shorter at equal end. 23 is marked with 21 here, which does the same
    let marks = table(13, &[(3, 1), (9, 7)]);
    checks(RELIEF, 2, marks.clone(), unions(0, 0b11));
    let why = Why::dearer(3, 2);
    explains(&relief(2, &marks), &[2, 3], 0, why.marked(2, 1, &[1]), &[("the longer at equal end", why.marked(2, 2, &[2, 1]))]);
    let marks = table(40, &[(9, 7), (18, 5)]);
    let why = Why::dearer(4, 2);
    explains(&relief(3, &marks), &[1, 2, 3], 0, why.marked(3, 2, &[2, 1]), &[("the longer at equal end", why.marked(3, 3, &[1, 2]))]);
    let marks = table(40, &[(3, 1), (18, 5)]);
    explains(&relief(3, &marks), &[1, 2, 3], 0, why.marked(3, 1, &[1]), &[("the longer at equal end", why.marked(3, 3, &[1, 2]))]);
    let marks = table(40, &[(3, 1), (9, 7), (18, 5)]);
    checks(RELIEF, 3, marks.clone(), unions(0, 0b11));
    let wrong = [
        ("the longer at equal end", why.marked(3, 3, &[1, 2])),
        ("the one that starts first", why.marked(3, 3, &[1, 2])),
        ("pairs first", why.marked(3, 2, &[2, 1])),
    ];
    explains(&relief(3, &marks), &[1, 2, 3], 0, why.marked(3, 1, &[1]), &wrong);
    let wrong = [
        ("the shorter's length with the longer's witness", why.marked(3, 1, &[1, 2])),
        ("the longer's length with the shorter's witness", why.marked(3, 3, &[1])),
    ];
    explains(&relief(3, &marks), &[1, 2, 3], 0, why.marked(3, 1, &[1]), &wrong);
    // of E, with 21 and 121 marked
    let marks = table(15, &[(5, 4), (9, 5)]);
    let asked = Asked { reach: 3, moves: 3, limit: 15, ..p1(&marks) };
    let why = Why::dearer(3, 2);
    explains(&asked, &[1, 2, 1], 0, why.marked(3, 2, &[1, 2]), &[("the longer at equal end", why.marked(3, 3, &[2, 1]))]);
}

#[test]
fn the_tables_own_witness() {
    // of E for reach 3: the builder marks 121, 122 and 212 with 12. 121 is marked with 21 here, 122 with 121
    let built = [(3, 1), (5, 4), (6, 2), (7, 1), (8, 4), (9, 4), (10, 4), (11, 4), (12, 4), (13, 4), (14, 2)];
    builds(E, 3, table(15, &built), unions(0, 0b11));
    let why = Why::dearer(3, 2);
    let one = |index: usize, witness: u16| table(15, &[(index, witness)]);
    let marks = one(9, 5);
    let asked = |marks| Asked { reach: 3, moves: 3, limit: 15, ..p1(marks) };
    explains(
        &asked(&marks),
        &[1, 2, 1],
        0,
        why.marked(3, 3, &[2, 1]),
        &[("the builder's witness", why.marked(3, 3, &[1, 2])), ("no witness", why.marked(3, 3, &[]))],
    );
    let marks = one(10, 9);
    let wrong = [
        ("the builder's witness", why.marked(3, 3, &[1, 2])),
        ("a witness of at most two rules", why.marked(3, 3, &[1, 2])),
        ("the witness backwards", why.marked(3, 3, &[2, 2, 1])),
        ("the segment for its witness", why.marked(3, 3, &[1, 2, 2])),
        ("the witness's index", why.marked(3, 3, &[9])),
    ];
    explains(&asked(&marks), &[1, 2, 2], 0, why.marked(3, 3, &[1, 2, 1]), &wrong);
    // 212 with 122, which is marked with 121, which is marked with 12
    let marks = table(15, &[(9, 4), (10, 9), (12, 10)]);
    checks(E, 3, marks.clone(), unions(0, 0b11));
    explains(&asked(&marks), &[2, 1, 2], 0, why.marked(3, 3, &[1, 2, 2]), &[("the witness's witness", why.marked(3, 3, &[1, 2]))]);
    // of H: 44 and 11 can be run from no state, and the builder marks them with the empty sequence. 34 is not marked
    // here, so that 134 is walked too
    let marks = table(21, &[(5, 1), (20, 19)]);
    checks(H, 2, marks.clone(), unions(0, 0));
    let p9 = Asked { limit: 6, ..p9(&marks) };
    explains(&p9, &[4, 4], 0, Why::cannot_run(1).marked(2, 2, &[4, 3]), &[("the builder's witness", Why::cannot_run(1).marked(2, 2, &[]))]);
    explains(&p9, &[1, 1], 0, Why::cannot_run(2).marked(2, 2, &[1]), &[("the builder's witness", Why::cannot_run(2).marked(2, 2, &[]))]);
    // an idle rule, marked with the empty sequence
    let idle = "positions=1/sizes=2/rules=1/cost=1/if=x1/then=x1/";
    let marks = table(2, &[(1, 0)]);
    builds(idle, 1, marks.clone(), unions(0, 0));
    let asked = Asked { rules: idle, reach: 1, table: &marks, start: &[0], goal: &[0], moves: 2, cost: 9, limit: 1 };
    let wrong = [("an empty witness is none", Why::dearer(1, 0)), ("a witness of one rule 0", Why::dearer(1, 0).marked(1, 1, &[0]))];
    explains(&asked, &[1], 0, Why::dearer(1, 0).marked(1, 1, &[]), &wrong);
    explains(&Asked { goal: &[1], ..asked }, &[1], 15, Why::off_goal(1).marked(1, 1, &[]), &[("an empty witness is none", Why::off_goal(1))]);
}

#[test]
fn segments_wherever_they_stand() {
    // of H, with 34 alone marked, with 24
    let marks = table(21, &[(16, 12)]);
    checks(H, 2, marks.clone(), unions(0b111, 0b111));
    let p9 = p9(&marks);
    p9.gives(0, &[1, 2, 4], 3, 5);
    let behind = ("up to the failing move", Why::cannot_run(1));
    explains(&p9, &[3, 4], 0, Why::cannot_run(1).marked(2, 2, &[2, 4]), &[behind]);
    explains(&p9, &[4, 3, 4], 0, Why::cannot_run(1).marked(3, 2, &[2, 4]), &[behind]);
    explains(&p9, &[1, 3, 4], 0, Why::later().marked(3, 2, &[2, 4]), &[("as no state on the way", Why::later())]);
    let four = Asked { moves: 4, ..p9 };
    explains(&four, &[1, 1, 3, 4], 0, Why::cannot_run(2).marked(4, 2, &[2, 4]), &[("up to the failing move", Why::cannot_run(2))]);
    explains(&four, &[1, 2, 3, 4], 0, Why::cannot_run(3).marked(4, 2, &[2, 4]), &[("up to the failing move", Why::cannot_run(3))]);
    // beyond the move bound, and across it
    let over = Why::over_move_bound();
    let within_bound = ("within the move bound", over);
    explains(&p9, &[1, 1, 1, 3, 4], 0, over.marked(5, 2, &[2, 4]), &[within_bound]);
    explains(&p9, &[1, 1, 3, 4], 0, over.marked(4, 2, &[2, 4]), &[within_bound]);
    explains(&p9, &[1, 3, 4, 1], 0, over.marked(3, 2, &[2, 4]), &[("none over the move bound", over)]);
    explains(&Asked { moves: 0, ..p9 }, &[3, 4], 15, over.marked(2, 2, &[2, 4]), &[within_bound]);
    // of E, with 22 alone marked, with 2: behind the move that passes the cost bound
    let marks = table(7, &[(6, 2)]);
    let asked = Asked { moves: 3, cost: 0, limit: 1, ..p1(&marks) };
    explains(&asked, &[1, 2, 2], 15, Why::passes_cost_bound(1).marked(3, 2, &[2]), &[("up to that move", Why::passes_cost_bound(1))]);
}

#[test]
fn proposals_of_any_length() {
    // of H, with 34 alone marked, so many moves with 34 at the end. Up to 32 moves are allowed; the walk is that of P9
    let marks = table(21, &[(16, 12)]);
    let long = |moves: usize| [&vec![1; moves - 2][..], &[3, 4]].concat();
    for bound in [3, 31, 32] {
        let asked = Asked { moves: bound, ..p9(&marks) };
        asked.gives(0, &[1, 2, 4], 3, 5);
        for moves in [30, 31, 32, 33, 34, 63, 64, 65, 127, 128, 129, 254, 255, 256, 257, 258, 300, 512, 1000] {
            let right = if moves > bound { Why::over_move_bound() } else { Why::cannot_run(2) };
            let end = moves as u64;
            let wrong = [("the segment's end from 0", right.marked(end - 1, 2, &[2, 4])), ("the place of its first move", right.marked(end - 1, 2, &[2, 4]))];
            explains(&asked, &long(moves), 0, right.marked(end, 2, &[2, 4]), &wrong);
            if moves > 32 {
                let wrong = [("the first 32 moves", right), ("within the move bound", right), ("11, and nothing said", Why::default())];
                explains(&asked, &long(moves), 0, right.marked(end, 2, &[2, 4]), &wrong);
            }
            if moves > 255 {
                let wrong = [("the end in eight bits", right.marked(end % 256, 2, &[2, 4])), ("the end at most 255", right.marked(255, 2, &[2, 4]))];
                explains(&asked, &long(moves), 0, right.marked(end, 2, &[2, 4]), &wrong);
            }
        }
    }
    // nothing marked; the second move fails, or the fourth after the plan
    let kept = table(21, &[]);
    let asked = Asked { moves: 32, limit: 6, ..p9(&kept) };
    asked.gives(0, &[1, 2, 4], 3, 6);
    for moves in [33, 64, 255, 300] {
        let front = [&[1, 2, 4][..], &vec![1; moves - 3]].concat();
        explains(&asked, &vec![1; moves], 0, Why::over_move_bound(), &[("the first 32 moves", Why::cannot_run(2))]);
        explains(&asked, &front, 0, Why::over_move_bound(), &[("the first 32 moves", Why::cannot_run(4)), ("the front that is the plan", Why::is_plan())]);
    }
    // in eight bits, or in sixteen, so many are within the bound
    for moves in [256, 257, 259, 288, 512, 65536, 65539, 65568] {
        let front = [&[1, 2, 4][..], &vec![1; moves - 3]].concat();
        explains(&asked, &vec![1; moves], 0, Why::over_move_bound(), &[("the length in fewer bits", Why::cannot_run(2))]);
        explains(&asked, &front, 0, Why::over_move_bound(), &[("the length in fewer bits", Why::cannot_run(4))]);
    }
    // no moves: reason 4, or the plan
    explains(&asked, &[], 0, Why::off_goal(1), &[]);
    explains(&Asked { goal: &[0, 0, 0], ..asked }, &[], 0, Why::is_plan(), &[]);
}

#[test]
fn above_the_step_limit() {
    // "If the search gives 18 or 16, that outcome stands alone, with no reason and no stretch"
    let marks = table(7, &E_MARKS);
    for (limit, outcome) in [(3, 18), (2, 16), (1, 16), (0, 16)] {
        let asked = Asked { limit, ..p1(&marks) };
        let alone = [("0 without a reason", 0, Why::default()), ("no plan is claimed", 15, Why::default())];
        // 12 is in truth the plan, and 18 shows it
        let planners = [("the plan is told, whatever the limit", outcome, Why::is_plan()), ("the limit is forgotten", 0, Why::is_plan())];
        stands_alone(&asked, &[1, 2], outcome, &[&alone[..], &planners].concat());
        let planners =
            [("a segment is left", outcome, Why::default().marked(2, 2, &[1, 2])), ("later than the plan shown", outcome, Why::later().marked(2, 2, &[1, 2]))];
        stands_alone(&asked, &[2, 1], outcome, &[&alone[..], &planners].concat());
        // true whatever the search finds: too many moves, and the goal missed
        let planners = [
            ("what needs no plan is told", outcome, Why::over_move_bound().marked(2, 2, &[1])),
            ("without a search", 0, Why::over_move_bound().marked(2, 2, &[1])),
        ];
        stands_alone(&asked, &[1, 1, 1], outcome, &[&alone[..], &planners].concat());
        let planners = [("a place is left", outcome, Why { place: 2, ..Why::default() }), ("what needs no plan is told", outcome, Why::off_goal(2))];
        stands_alone(&asked, &[1], outcome, &[&alone[..], &planners].concat());
        stands_alone(&asked, &[], outcome, &[("no moves are explained", outcome, Why::off_goal(1))]);
        stands_alone(&Asked { moves: 3, ..asked }, &[1, 2, 1], outcome, &[("costs are left", outcome, Why { cost: 3, plan_cost: 2, ..Why::default() })]);
        stands_alone(&asked, &[2; 300], outcome, &[("a segment is left", outcome, Why::default().marked(2, 2, &[2]))]);
    }
    // at the limit the same are explained
    explains(&p1(&marks), &[1, 2], 0, Why::is_plan(), &[]);
    // the empty plan at the limit
    let asked = Asked { goal: &[1, 1], limit: 1, ..p1(&marks) };
    asked.gives_at_limit(&[], 0, 0);
    stands_alone(&asked, &[], 18, &[("the plan is told, whatever the limit", 18, Why::is_plan()), ("the limit is forgotten", 0, Why::is_plan())]);
    // of H: 18 shows 124, which is in truth the plan
    let marks = table(21, &H_MARKS);
    for (limit, outcome) in [(4, 18), (3, 16), (0, 16)] {
        let asked = Asked { limit, ..p9(&marks) };
        stands_alone(&asked, &[1, 2, 4], outcome, &[("the plan is told, whatever the limit", outcome, Why::is_plan())]);
        stands_alone(&asked, &[1, 3, 4], outcome, &[("a segment is left", outcome, Why::default().marked(3, 2, &[2, 4]))]);
        stands_alone(&asked, &[2], outcome, &[("what needs no plan is told", outcome, Why::cannot_run(1))]);
    }
}

#[test]
fn unknown_moves() {
    // "13 goes after 14": and before 18, 16, 15 and 0, for a move of the proposal wherever it stands
    let (marks, bad) = (table(7, &E_MARKS), table(7, &[(1, 0)]));
    checks(E, 2, bad.clone(), 14);
    let beyond_32 = [&[1; 32][..], &[3]].concat();
    let far_beyond = [&[2; 299][..], &[0], &[1; 10]].concat();
    let proposals =
        [&[3][..], &[0], &[255], &[32], &[4], &[254], &[1, 3], &[3, 1], &[1, 2, 0], &[0, 1, 2], &[2, 2, 2, 2, 3], &[1, 2, 255], &beyond_32, &far_beyond];
    for moves in proposals {
        for (bound, cost, limit, searched) in
            [(2, 9, 4, 0), (2, 9, 3, 18), (2, 9, 2, 16), (2, 9, 0, 16), (1, 9, 4, 15), (0, 9, 1, 15), (32, 9, 4, 0), (2, 0, 1, 15)]
        {
            let asked = Asked { moves: bound, cost, limit, ..p1(&marks) };
            let place = 1 + moves.iter().position(|number| ![1, 2].contains(number)).expect("an unknown move") as u8;
            let left = [
                ("the unknown move's place is left", 13, Why { place, ..Why::default() }),
                ("a reason is left", 13, Why::over_move_bound()),
                ("a segment is left", 13, Why::default().marked(2, 2, &[2])),
            ];
            stands_alone(&asked, moves, 13, &left);
            if [16, 18].contains(&searched) {
                stands_alone(&asked, moves, 13, &[("13 after 16 and 18", searched, Why::default())]);
            } else if moves.len() > bound {
                stands_alone(&asked, moves, 13, &[("the length before 13", searched, Why::over_move_bound()), ("11 for many moves", 11, Why::default())]);
            } else {
                stands_alone(&asked, moves, 13, &[("an unknown move cannot be run", searched, Why::cannot_run(place))]);
            }
            let asked = Asked { table: &bad, ..asked };
            stands_alone(&asked, moves, 14, &[("13 before 14", 13, Why::default())]);
        }
    }
    // of H, which has four rules: behind a move that fails, behind the plan
    let marks = table(21, &H_MARKS);
    stands_alone(&p9(&marks), &[2, 5], 13, &[("up to the failing move", 0, Why::cannot_run(1))]);
    stands_alone(&p9(&marks), &[1, 2, 4, 5], 13, &[("the front that is the plan", 0, Why::is_plan()), ("the length before 13", 0, Why::over_move_bound())]);
    for moves in [&[5][..], &[1, 0], &[4, 4, 31]] {
        stands_alone(&p9(&marks), moves, 13, &[("13 is never given", 0, Why::default())]);
    }
    // rule 4 is one, though E has none
    explains(&p9(&marks), &[4], 0, Why::cannot_run(1), &[]);
}

#[test]
fn order_of_refusals() {
    // 1 to 4, 5, 6, 9, 10, 11, 14, 13, 18, 16, 15; each with all the later ones
    let (good, bad, short) = (table(7, &E_MARKS), table(7, &[(1, 0)]), vec![255; 13]);
    let explain = |rules: &str, table: &[u8], reach, start: &[u8], goal: &[u8], max_moves, step_limit, moves: &[u8], outcome| {
        for out_length in [19, 0, 18, 20] {
            let query = Query { start: start.to_vec(), goal: goal.to_vec(), max_moves, max_cost: 9, step_limit };
            let call = Call::Explain { rules: file(rules), table: table.to_vec(), reach, query, moves: moves.to_vec(), out_length };
            gives(&call, outcome, vec![0; out_length]);
        }
    };
    let faults =
        [("positions=?", 1), (&E.replace("sizes=2,2", "sizes=2,17"), 2), (&E.replacen("if=x1", "if=x2", 1), 3), (&E.replace("then=x1,0", "then=0,x2"), 4)];
    for (rules, outcome) in faults {
        reads(rules, outcome);
        explain(rules, &short, 0, &[], &[], 33, 0, &[0], outcome);
        explain(rules, &good, 2, &[1, 1], &[0, 0], 2, 4, &[1, 2], outcome);
        explain(rules, &good, 2, &[1, 1], &[0, 0], 2, 4, &[2, 1], outcome);
    }
    // each fault first with all that comes later, then alone, also with a proposal that has a reason and a segment. All
    // bytes are 0: refused is a reason, a move, a position, a cost or a segment beside them
    for moves in [&[0][..], &[2, 1], &[1, 1, 3], &[]] {
        explain(E, &short, 0, &[], &[], 33, 0, moves, 5);
        explain(E, &short, 4, &[], &[], 33, 0, moves, 5);
        explain(E, &short, 2, &[], &[], 33, 0, moves, 6);
        explain(E, &bad, 2, &[2, 1], &[], 33, 0, moves, 9);
        explain(E, &bad, 2, &[1], &[], 33, 0, moves, 9);
        explain(E, &bad, 2, &[1, 1], &[0, 254], 33, 0, moves, 10);
        explain(E, &bad, 2, &[1, 1], &[0], 33, 0, moves, 10);
        explain(E, &bad, 2, &[1, 1], &[0, 0], 33, 0, moves, 11);
        explain(E, &bad, 2, &[1, 1], &[0, 0], usize::MAX, 0, moves, 11);
        explain(E, &bad, 2, &[1, 1], &[0, 0], 2, 0, moves, 14);
        explain(E, &good, 0, &[1, 1], &[0, 0], 2, 4, moves, 5);
        explain(E, &good, 1, &[1, 1], &[0, 0], 2, 4, moves, 6);
        explain(E, &good, 2, &[1, 255], &[0, 0], 2, 4, moves, 9);
        explain(E, &good, 2, &[1, 1], &[0, 2], 2, 4, moves, 10);
        explain(E, &good, 2, &[1, 1], &[0, 0], 33, 4, moves, 11);
        explain(E, &bad, 2, &[1, 1], &[0, 0], 2, 4, moves, 14);
    }
    for limit in [0, 2, 3, 4] {
        explain(E, &good, 2, &[1, 1], &[0, 0], 2, limit, &[1, 2, 3], 13);
    }
    explain(E, &good, 2, &[1, 1], &[0, 0], 2, 3, &[2, 1], 18);
    explain(E, &good, 2, &[1, 1], &[0, 0], 2, 2, &[2, 1], 16);
    // no 1 is put: above the limit 16 comes before 15
    explain(E, &good, 2, &[0, 1], &[1, 1], 2, 3, &[2, 1], 16);
    p1(&good).explains(&[2, 1], 0, Why::later().marked(2, 2, &[1, 2]));
    Asked { start: &[0, 1], goal: &[1, 1], ..p1(&good) }.explains(&[2, 1], 15, Why::off_goal(1).marked(2, 2, &[1, 2]));
}

#[test]
fn no_plan_buffer_is_lent() {
    // "so 12 is never given", nor 8: with each move bound, whatever the length of the buffer for the explanation
    let marks = table(7, &E_MARKS);
    for moves in 0..=32 {
        let (outcome, limit) = if moves < 2 { (15, 3) } else { (0, 4) };
        let asked = Asked { moves, limit, ..p1(&marks) };
        for out_length in [0, 1, 2, 18, 19, 31, 32, 33] {
            let why = if moves == 0 { Why::over_move_bound() } else { Why::off_goal(2) };
            let mut buffer = if out_length < 19 { vec![] } else { why.bytes() };
            buffer.resize(out_length, 0);
            gives(&asked.call(0).for_proposal(&[1], out_length).expect("a search"), outcome, buffer);
        }
    }
}
