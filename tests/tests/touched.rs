//! Document 02, 2026-01: the positions that a sequence reads and those that it writes, and both unions of a table. Each case names the wrong planner that it
//! refuses. The answers are worked out from the document's words: read is a position "whose `if` entry is a constant or names another position, or that another
//! position's `if` or `then` entry names", written one "whose `then` entry differs" from its `if` entry.

use planner_tests::by_hand::{builds, checks, file, gives, macro_is, macro_refused, table, unions, E, H};
use planner_tests::calls::Call;

/// A rule of its own over two positions with three values, as a macro of one move.
fn rule(condition: &str, effect: &str, reads: u16, writes: u16) {
    let rules = format!("positions=2/sizes=3,3/rules=1/cost=7/if={condition}/then={effect}/");
    macro_is(&rules, &[1], condition, effect, 7, reads, writes);
}

#[test]
fn one_rule() {
    // refused: every position's own variable counts as read
    rule("x1,x2", "x1,x2", 0, 0);
    // refused: a position's own `then` entry counts as read where it is its variable (2), or where it is a constant (1)
    rule("x1,x2", "0,x2", 0, 0b01);
    rule("x1,x2", "x1,0", 0, 0b10);
    // refused: it counts where it names another position (1); what another's `then` names does not count (2)
    rule("x1,x2", "x2,x2", 0b10, 0b01);
    rule("x1,x2", "x1,x1", 0b01, 0b10);
    // refused: a swap is idle, as some states hold equal values
    rule("x1,x2", "x2,x1", 0b11, 0b11);
    // refused: constants alone count as read; what another's `if` names does not count (1); what differs from its own variable counts as written (2)
    rule("x1,x1", "x1,x1", 0b11, 0);
    rule("x1,x1", "x1,0", 0b11, 0b10);
    rule("x1,x1", "0,0", 0b11, 0b11);
    // refused: a constant that stays counts as written; the first position has the highest bit; both sets exchanged
    rule("0,x2", "0,x2", 0b01, 0);
    rule("0,x2", "1,x2", 0b01, 0b01);
    rule("0,x2", "0,2", 0b01, 0b10);
    rule("x1,2", "x1,x1", 0b11, 0b10);
}

#[test]
fn sequences() {
    // refused: the rules' own sets united; there and back reads, and writes nothing
    let back = "positions=1/sizes=3/rules=2/cost=1/if=0/then=1/cost=1/if=1/then=0/";
    macro_is(back, &[1, 2], "0", "0", 2, 1, 0);
    macro_is(back, &[1, 2, 1], "0", "1", 3, 1, 1);
    let swap = "positions=2/sizes=3,3/rules=1/cost=1/if=x1,x2/then=x2,x1/";
    macro_is(swap, &[1, 1], "x1,x2", "x1,x2", 2, 0, 0);
    macro_is(swap, &[1, 1, 1], "x1,x2", "x2,x1", 3, 0b11, 0b11);
    // refused: the last rule's sets
    macro_is(E, &[1, 1], "x1,x2", "0,x2", 2, 0, 0b01);
    macro_is(E, &[2, 1], "x1,x2", "0,0", 2, 0, 0b11);
    macro_is(E, &[2, 2], "x1,x2", "x1,0", 2, 0, 0b10);
    // refused: the constants 0 of a macro that no state admits, or of another refusal, count as read
    macro_refused(back, &[1, 1], 17);
    macro_refused(back, &[3], 13);
    macro_refused(back, &[1; 33], 11);
}

#[test]
fn unions_of_the_given_marks() {
    // refused: the last mark's sets, or the first's; the builder's marks in place of the given ones
    let unions_are = |marks: &[(usize, u16)], writes: u16| checks(E, 2, table(7, marks), unions(0, writes));
    builds(E, 2, table(7, &[(3, 1), (5, 4), (6, 2)]), unions(0, 0b11));
    unions_are(&[(3, 1), (6, 2)], 0b11);
    unions_are(&[(3, 1)], 0b01);
    unions_are(&[(6, 2)], 0b10);
    unions_are(&[(5, 4)], 0b11);
    // refused: the union over what is kept
    unions_are(&[], 0);
    // one mark reads 1 and writes 2, the other reads 2 and writes 3: position 1 copied to 2 twice, and 2 to 3 twice
    let copies = "positions=3/sizes=2,2,2/rules=2/cost=1/if=x1,x2,x3/then=x1,x1,x3/cost=1/if=x1,x2,x3/then=x1,x2,x2/";
    builds(copies, 2, table(7, &[(3, 1), (6, 2)]), unions(0b011, 0b110));
    checks(copies, 2, table(7, &[(3, 1)]), unions(0b001, 0b010));
    checks(copies, 2, table(7, &[(6, 2)]), unions(0b010, 0b100));
    // refused: the sets of a marked sequence's rules; a swap twice touches nothing
    builds("positions=2/sizes=2,2/rules=1/cost=1/if=x1,x2/then=x2,x1/", 2, table(3, &[(2, 0)]), unions(0, 0));
}

#[test]
fn unions_of_the_marked_not_of_the_witness() {
    // rule 2 is rule 1 where position 1 holds 0: it reads that position and leaves it; rule 1 reads none and writes both
    let narrower = "positions=2/sizes=2,2/rules=2/cost=1/if=x1,x2/then=0,0/cost=1/if=0,x2/then=0,0/";
    builds(narrower, 1, table(3, &[(2, 1)]), unions(0b01, 0b10));
    // (3,4) of H is `1,0,0` to `3,1,1`; (2,4), `1,x2,0` to `3,1,1`, reads 1 and 3 alone
    checks(H, 2, table(21, &[(16, 12)]), unions(0b111, 0b111));
    // the empty sequence touches nothing
    builds("positions=2/sizes=2,2/rules=1/cost=1/if=x1,x1/then=x1,x1/", 1, table(2, &[(1, 0)]), unions(0b11, 0));
    builds("positions=2/sizes=2,2/rules=1/cost=1/if=x1,1/then=x1,1/", 1, table(2, &[(1, 0)]), unions(0b10, 0));
    builds("positions=2/sizes=2,2/rules=1/cost=1/if=x1,x2/then=x1,x2/", 1, table(2, &[(1, 0)]), unions(0, 0));
}

#[test]
fn marks_that_no_state_admits() {
    // refused: the constants of the zero macro count; what is kept counts
    // both rules need 0 at position 1 and leave 1 there: every pair and every triple is marked, and none can be run
    let never_twice = "positions=2/sizes=2,2/rules=2/cost=1/if=0,x2/then=1,x2/cost=1/if=0,x2/then=1,0/";
    let denied = |indices: std::ops::Range<usize>| indices.map(|index| (index, 0)).collect::<Vec<_>>();
    builds(never_twice, 2, table(7, &denied(3..7)), unions(0, 0));
    builds(never_twice, 3, table(15, &denied(3..15)), unions(0, 0));
    // refused: the witness's sets; rule 2 reads 1 and writes both
    checks(never_twice, 2, table(7, &[(6, 2)]), unions(0, 0));
    // beside others, refused: the same; position 2 would be read. (1,1) cannot be run; (2,1) is `0,x2` to `1,0`, as is (1,2); (2,2) is rule 2
    let beside = "positions=2/sizes=3,2/rules=2/cost=1/if=0,x2/then=1,x2/cost=1/if=x1,x2/then=x1,0/";
    builds(beside, 2, table(7, &[(3, 0), (5, 4), (6, 2)]), unions(0b01, 0b11));
}

#[test]
fn refused_tables() {
    // refused: unions beside an outcome that is not 0, of the marks before the bad one or of all
    for bad in [(0, 0), (1, 0), (4, 0), (6, 6), (6, 7), (6, 1)] {
        checks(E, 2, table(7, &[(3, 1), (5, 4), (6, 2), bad]), 14);
    }
    let marks = [255, 255, 255, 255, 255, 255, 1, 0, 255, 255, 4, 0, 2, 0];
    for (length, reach, outcome) in [(14, 0, 5), (14, 4, 5), (13, 2, 6), (14, 1, 6), (14, 3, 6), (0, 2, 6)] {
        checks(E, reach, marks[..length].to_vec(), outcome);
        gives(&Call::BuildTable { rules: file(E), table_length: length, reach }, outcome, vec![0; length]);
    }
    for (rules, outcome) in [("", 1), ("positions=17/", 2)] {
        checks(rules, 2, marks.to_vec(), outcome);
        gives(&Call::BuildTable { rules: file(rules), table_length: 14, reach: 2 }, outcome, vec![0; 14]);
    }
}
