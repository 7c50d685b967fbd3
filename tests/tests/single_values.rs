//! Document 02, 2026-05: "An always blocked bay is now written with size 1. At a position of size 1 both lines must
//! hold 0, and a variable there is out of place, number 3. The empty sequence's macro likewise has 0 there in both
//! vectors, and such a bay is in neither touched set. Marks are exact for these yards too." Most cases name the wrong
//! planner that they refuse. The answers are worked out by hand, from these words and document 01's. Library and oracle
//! have to give just these.

use planner_tests::by_hand::{builds, checks, file, macro_is, macro_refused, reads, searches, table, unions, Asked};
use planner_tests::calls::Call;
use planner_tests::compare::{compare, Tally};

/// Any value, in a goal.
const ANY: u8 = 255;

/// E with a position of size 1 more: after the others, before them, between them; and with four more.
const LAST: &str = "positions=3/sizes=2,2,1/rules=2/cost=1/if=x1,x2,0/then=0,x2,0/cost=1/if=x1,x2,0/then=x1,0,0/";
const FIRST: &str = "positions=3/sizes=1,2,2/rules=2/cost=1/if=0,x2,x3/then=0,0,x3/cost=1/if=0,x2,x3/then=0,x2,0/";
const BETWEEN: &str = "positions=3/sizes=2,1,2/rules=2/cost=1/if=x1,0,x3/then=0,0,x3/cost=1/if=x1,0,x3/then=x1,0,0/";
const FOUR: &str = "positions=6/sizes=1,2,1,1,2,1/rules=2/cost=1/if=0,x2,0,0,x5,0/then=0,0,0,0,x5,0/\
                    cost=1/if=0,x2,0,0,x5,0/then=0,x2,0,0,0,0/";

/// A file of one rule over these sizes.
fn rule(sizes: &str, condition: &str, effect: &str) -> String {
    format!("positions={}/sizes={sizes}/rules=1/cost=1/if={condition}/then={effect}/", sizes.split(',').count())
}

/// A list of sixteen items, all alike but for one; with place 0 all alike.
fn sixteen(item: &str, place: usize, other: &str) -> String {
    (1..=16).map(|i| if i == place { other } else { item }).collect::<Vec<_>>().join(",")
}

/// The marks of a table of so many entries in which every sequence but the empty one is marked with the empty one.
fn all_but_empty(count: usize) -> Vec<(usize, u16)> {
    (1..count).map(|index| (index, 0)).collect()
}

#[test]
fn sizes_from_1_to_16() {
    // refused: sizes from 2 on; to 15 or to 17
    for size in 1..=16 {
        reads(&rule(&size.to_string(), "0", "0"), 0);
    }
    for size in [0, 17, 18, 32, 99, 100, 255, 256, 257, 258, 512, 513, 999] {
        reads(&rule(&size.to_string(), "0", "0"), 2);
    }
    // refused: sizes from 0 on, where something else is found later: the end (1), another byte (1), a variable (3)
    reads("positions=1/sizes=0/", 2);
    reads("positions=1/sizes=0/?", 2);
    reads("positions=2/sizes=0,?", 2);
    reads("positions=2/sizes=1,0/?", 2);
    reads(&rule("0,2", "0,x2", "0,0"), 2);
    reads(&rule("0,2", "x1,x2", "x1,0"), 2);
    reads(&rule("2,0", "x1,x2", "0,x2"), 2);
    reads(&rule("0", "x1", "x1"), 2);
    // refused: a size of 1 is a fault (2), before what is found later
    reads("positions=1/sizes=1/", 1);
    reads("positions=1/sizes=1/?", 1);
    reads("positions=2/sizes=1,?", 1);
    reads("positions=1/sizes=1/rules=1/cost=1/if=0/then=0", 1);
    // an item's form and the byte that ends it come first: two or three sizes are due, or one
    reads("positions=2/sizes=1/", 1);
    reads("positions=2/sizes=0/", 1);
    reads("positions=3/sizes=1,2/", 1);
    reads("positions=1/sizes=1,1/", 1);
    reads("positions=1/sizes=0,1/", 1);
    for size in ["", "00", "01", "001", "1000", "x1", "-1", " 1"] {
        reads(&rule(size, "0", "0"), 1);
    }
}

#[test]
fn entries_at_size_1() {
    // each at position 1 of sizes 1,2 and at position 2 of sizes 2,1, in `if` and in `then`
    let at_each_place = |entry: &str, outcome: u64| {
        reads(&rule("1,2", &format!("{entry},x2"), "0,0"), outcome);
        reads(&rule("1,2", "0,x2", &format!("{entry},0")), outcome);
        reads(&rule("2,1", &format!("x1,{entry}"), "0,0"), outcome);
        reads(&rule("2,1", "x1,0", &format!("0,{entry}")), outcome);
    };
    // refused: sizes from 2 on (2)
    at_each_place("0", 0);
    // its own variable, and that of the other position. Refused: it is read, and kept or made 0 (0); it is no 0 (2)
    at_each_place("x1", 3);
    at_each_place("x2", 3);
    // refused: another constant is out of place as a variable is (3), or is read
    for constant in ["1", "2", "9", "15", "16", "17", "255", "256", "999"] {
        at_each_place(constant, 2);
    }
    // refused: every variable there is 3
    for variable in ["x0", "x3", "x16", "x17", "x255", "x256", "x257", "x258", "x999"] {
        at_each_place(variable, 2);
    }
    // refused: what is not 0 is 2 or 3, whatever its form
    for entry in ["", "00", "01", "1000", "x", "x01", "x00", "x1000", "X1", "xx1", "-1", " 0", "0 "] {
        at_each_place(entry, 1);
    }
}

#[test]
fn variables_of_positions_of_size_1() {
    // refused: a variable that names such a position stands for 0; unequal sizes do not count; in `then` it is read
    reads(&rule("1,2", "0,x1", "0,0"), 3);
    reads(&rule("1,2", "0,x2", "0,x1"), 3);
    reads(&rule("1,2", "0,0", "0,x1"), 3);
    reads(&rule("2,1", "x2,0", "0,0"), 3);
    reads(&rule("2,1", "x1,0", "x2,0"), 3);
    reads(&rule("2,1", "0,0", "x2,0"), 3);
    // two positions of size 1. Refused: the variable of one at the other is read, as the sizes are equal
    reads(&rule("1,1", "0,0", "0,0"), 0);
    for condition in ["0,x1", "x1,0", "x2,0", "0,x2", "x1,x1", "x1,x2", "x2,x2"] {
        reads(&rule("1,1", condition, "0,0"), 3);
    }
    for effect in ["0,x1", "x1,0", "x2,0", "0,x2", "x1,x1", "x1,x2", "x2,x1"] {
        reads(&rule("1,1", "0,0", effect), 3);
    }
    // refused: in `then` it is read where `if` would have it
    reads(&rule("1,1", "x1,x1", "x1,x1"), 3);
    reads(&rule("1", "x1", "x1"), 3);
    // one between two others. Refused: nothing may reach across it; it takes part in what stands beside it
    let across = [("x1,0,x1", "x1,0,2"), ("x1,0,x3", "x3,0,x1"), ("2,0,x3", "x3,0,0"), ("x1,0,0", "0,0,x1")];
    for (condition, effect) in across {
        reads(&rule("3,1,3", condition, effect), 0);
    }
    for condition in ["x1,x2,x3", "x1,x1,x1", "x1,x3,x3", "x1,0,x2", "x2,0,x3"] {
        reads(&rule("3,1,3", condition, "0,0,0"), 3);
    }
    for effect in ["x1,x2,x3", "x1,x1,x3", "x1,x3,x3", "x1,0,x2", "x2,0,x3"] {
        reads(&rule("3,1,3", "x1,0,x3", effect), 3);
    }
    // refused: a constant is held against another position's size
    reads(&rule("3,1,3", "x1,1,x3", "0,0,0"), 2);
    reads(&rule("3,1,3", "x1,2,x3", "0,0,0"), 2);
    reads(&rule("3,1,3", "x1,0,x3", "0,1,0"), 2);
    reads(&rule("3,1,3", "2,0,2", "1,0,1"), 0);
    // the last of sixteen, the tenth and the first
    for place in [1, 10, 16] {
        let sizes = sixteen("2", place, "1");
        let with = |entry: &str| rule(&sizes, &sixteen("0", place, entry), &sixteen("1", place, "0"));
        let then = |entry: &str| rule(&sizes, &sixteen("0", place, "0"), &sixteen("1", place, entry));
        for (entry, outcome) in [("0", 0), ("1", 2), ("x1", 3), ("x10", 3), ("x16", 3), ("x17", 2), ("x0", 2)] {
            reads(&with(entry), outcome);
            reads(&then(entry), outcome);
        }
    }
}

#[test]
fn faults_in_text_order() {
    // refused: a line is judged as a whole; an entry is judged for 3 before its end is for 1, or for 3 before 2
    let lines = |sizes: &str, lines: &str| format!("positions=2/sizes={sizes}/rules=1/cost=1/{lines}");
    let fronts = [("x1,?", 3), ("1,?", 2), ("x3,?", 2), ("0,?", 1), ("x1;", 1), ("1;", 1), ("x1/", 1), ("x1", 1)];
    for (front, outcome) in fronts {
        reads(&lines("1,2", &format!("if={front}")), outcome);
        reads(&lines("1,2", &format!("if=0,x2/then={front}")), outcome);
    }
    let backs = [("x2/?", 3), ("x1/?", 3), ("1/?", 2), ("x3/?", 2), ("0/?", 1), ("x2,", 1), ("1,", 1), ("x2", 1)];
    for (back, outcome) in backs {
        reads(&lines("2,1", &format!("if=x1,{back}")), outcome);
        reads(&lines("2,1", &format!("if=x1,0/then=0,{back}")), outcome);
    }
    // the first fault counts
    reads(&rule("1,2", "x1,x3", "1,0"), 3);
    reads(&rule("1,2", "1,x1", "x1,0"), 2);
    reads(&rule("1,2", "0,x1", "1,0"), 3);
    reads(&rule("1,2", "0,2", "x1,0"), 2);
    // duplicates come last. Refused: a variable is made 0, and the rules are duplicates (4), or it is another form (0)
    let one = rule("1,2", "0,x2", "0,0").replace("rules=1", "rules=2");
    let two = |condition: &str, cost: u8| format!("{one}cost={cost}/if={condition}/then=0,0/");
    reads(&two("0,x2", 1), 4);
    reads(&two("0,x2", 2), 0);
    reads(&two("x1,x2", 1), 3);
    reads(&two("x1,x2", 2), 3);
    reads(&format!("{}/", two("0,x2", 1)), 1);
}

#[test]
fn every_rule_over_two_positions() {
    // each of the four entries is one of these, so that there are 6 * 6 * 6 * 6 = 1296 rules; the first fault counts
    let entries = ["0", "1", "x0", "x1", "x2", "x3"];
    let outcomes = |sizes: &str| {
        let (mut tally, mut met) = (Tally::default(), [0; 5]);
        let line = |number: usize| format!("{},{}", entries[number / 6], entries[number % 6]);
        for number in 0..1296 {
            let text = file(&rule(sizes, &line(number / 36), &line(number % 36)));
            met[compare(&Call::Read { text }, &mut tally).outcome()] += 1;
        }
        met
    };
    // at size 1 one entry is right, three are 2 (1, x0, x3) and two are 3 (x1, x2)
    // four such places: 2 is given 3 * (216 + 36 + 6 + 1) times, 3 is given 2 * (216 + 36 + 6 + 1) times
    assert_eq!(outcomes("1,1"), [1, 0, 777, 518, 0]);
    // in `if` place 1 as above; place 2 takes 0, 1 and x2, 2 is for x0 and x3, 3 for x1: left are 3 * 36 rules, and
    // 2: 3 * 216 + 2 * 36, 3: 2 * 216 + 36. In `then` place 1 as above, and 3 * 6 are left, 2: 3 * 3 * 6, 3: 3 * 2 * 6.
    // Place 2 takes 0 and 1, and x2 where `if` has it: 2 + 2 + 3 are read, 2: 3 * 2, 3: 2 + 2 + 1
    assert_eq!(outcomes("1,2"), [7, 0, 648 + 72 + 54 + 6, 432 + 36 + 36 + 5, 0]);
    // in `if` place 1 takes 0, 1 and x1, 2 is for x0 and x3, 3 for x2; place 2 has size 1: left are 3 * 36 rules, and
    // 2: 2 * 216 + 3 * 3 * 36, 3: 216 + 3 * 2 * 36. In `then` place 1 takes 0 and 1, and x1 where `if` has it: left are
    // 7 * 6, 2: 3 * 2 * 6, 3: (2 + 2 + 1) * 6. Place 2 has size 1: 7 are read, 2: 7 * 3, 3: 7 * 2
    assert_eq!(outcomes("2,1"), [7, 0, 432 + 324 + 36 + 21, 216 + 216 + 30 + 14, 0]);
}

#[test]
fn the_macro_of_no_moves() {
    // refused: a position of size 1 keeps its variable, or is read; the others lose theirs where one has size 1
    let empty = |sizes: &str, line: &str| {
        let zeros = vec!["0"; sizes.split(',').count()].join(",");
        macro_is(&rule(sizes, &zeros, &zeros), &[], line, line, 0, 0, 0);
    };
    empty("1,2", "0,x2");
    empty("2,1", "x1,0");
    empty("1", "0");
    empty("1,1", "0,0");
    empty("2,2", "x1,x2");
    empty("3,1,3", "x1,0,x3");
    empty("1,2,1,16,1", "0,x2,0,x4,0");
    empty(&sixteen("1", 0, ""), "0,0,0,0,0,0,0,0,0,0,0,0,0,0,0,0");
    empty(&sixteen("1", 16, "2"), "0,0,0,0,0,0,0,0,0,0,0,0,0,0,0,x16");
    empty(&sixteen("16", 1, "1"), "0,x2,x3,x4,x5,x6,x7,x8,x9,x10,x11,x12,x13,x14,x15,x16");
    empty(&sixteen("2", 16, "1"), "x1,x2,x3,x4,x5,x6,x7,x8,x9,x10,x11,x12,x13,x14,x15,0");
}

#[test]
fn neither_read_nor_written() {
    // refused: the constant at position 2 is read, or named by the others, or written as the others are
    let one = |condition: &str, effect: &str, reads: u16, writes: u16| {
        macro_is(&rule("3,1,3", condition, effect), &[1], condition, effect, 1, reads, writes);
    };
    one("x1,0,x3", "x1,0,x3", 0, 0);
    one("x1,0,x3", "0,0,0", 0, 0b101);
    one("x1,0,x3", "x3,0,x3", 0b100, 0b001);
    one("x1,0,x3", "x3,0,x1", 0b101, 0b101);
    one("x1,0,x1", "x1,0,x1", 0b101, 0);
    one("0,0,x3", "0,0,x3", 0b001, 0);
    one("0,0,x3", "1,0,x3", 0b001, 0b001);
    one("0,0,0", "0,0,0", 0b101, 0);
    one("0,0,0", "1,0,2", 0b101, 0b101);
    // refused: with every line 0 all positions are read, or none is
    let zeros = sixteen("0", 0, "");
    macro_is(&rule(&sixteen("1", 0, ""), &zeros, &zeros), &[1], &zeros, &zeros, 1, 0, 0);
    macro_is(&rule(&sixteen("1", 16, "2"), &zeros, &zeros), &[1], &zeros, &zeros, 1, 0x8000, 0);
    let ones = sixteen("1", 1, "0");
    macro_is(&rule(&sixteen("2", 1, "1"), &zeros, &ones), &[1], &zeros, &ones, 1, 0xfffe, 0xfffe);
}

#[test]
fn macros_of_e() {
    // refused: the position of size 1 is read; it keeps its variable after a first rule
    macro_is(LAST, &[], "x1,x2,0", "x1,x2,0", 0, 0, 0);
    macro_is(LAST, &[1], "x1,x2,0", "0,x2,0", 1, 0, 0b001);
    macro_is(LAST, &[2], "x1,x2,0", "x1,0,0", 1, 0, 0b010);
    macro_is(LAST, &[1, 2], "x1,x2,0", "0,0,0", 2, 0, 0b011);
    macro_is(LAST, &[2, 1], "x1,x2,0", "0,0,0", 2, 0, 0b011);
    macro_is(LAST, &[1, 1], "x1,x2,0", "0,x2,0", 2, 0, 0b001);
    macro_is(LAST, &[2, 2], "x1,x2,0", "x1,0,0", 2, 0, 0b010);
    macro_is(LAST, &[1; 32], "x1,x2,0", "0,x2,0", 32, 0, 0b001);
    macro_is(FIRST, &[], "0,x2,x3", "0,x2,x3", 0, 0, 0);
    macro_is(FIRST, &[1], "0,x2,x3", "0,0,x3", 1, 0, 0b010);
    macro_is(FIRST, &[1, 2], "0,x2,x3", "0,0,0", 2, 0, 0b110);
    macro_is(FIRST, &[2, 2], "0,x2,x3", "0,x2,0", 2, 0, 0b100);
    macro_is(BETWEEN, &[], "x1,0,x3", "x1,0,x3", 0, 0, 0);
    macro_is(BETWEEN, &[1], "x1,0,x3", "0,0,x3", 1, 0, 0b001);
    macro_is(BETWEEN, &[2, 1], "x1,0,x3", "0,0,0", 2, 0, 0b101);
    macro_is(FOUR, &[], "0,x2,0,0,x5,0", "0,x2,0,0,x5,0", 0, 0, 0);
    macro_is(FOUR, &[2], "0,x2,0,0,x5,0", "0,x2,0,0,0,0", 1, 0, 0b010000);
    macro_is(FOUR, &[2, 1], "0,x2,0,0,x5,0", "0,0,0,0,0,0", 2, 0, 0b010010);
    macro_refused(LAST, &[3], 13);
    macro_refused(LAST, &[1; 33], 11);
}

#[test]
fn tables_of_e() {
    // 1,1 for 1; 2,1 for 1,2; 2,2 for 2. Refused: the position of size 1 in a union
    let two = [(3, 1), (5, 4), (6, 2)];
    // each sequence of three rules does what 1, 2 or 1,2 does
    let three = [(3, 1), (5, 4), (6, 2), (7, 1), (8, 4), (9, 4), (10, 4), (11, 4), (12, 4), (13, 4), (14, 2)];
    let sets = [(LAST, 0b001, 0b010), (FIRST, 0b010, 0b100), (BETWEEN, 0b001, 0b100), (FOUR, 0b000010, 0b010000)];
    for (rules, one, other) in sets {
        builds(rules, 1, table(3, &[]), unions(0, 0));
        builds(rules, 2, table(7, &two), unions(0, one | other));
        builds(rules, 3, table(15, &three), unions(0, one | other));
        checks(rules, 2, table(7, &[(3, 1)]), unions(0, one));
        checks(rules, 2, table(7, &[(6, 2)]), unions(0, other));
        checks(rules, 2, table(7, &[(5, 4)]), unions(0, one | other));
        checks(rules, 2, table(7, &[]), unions(0, 0));
        // refused: the empty sequence, with 0 in a vector, is a witness of all; a rule that sets a 0 is idle
        for (index, witness) in [(1, 0), (2, 0), (2, 1), (3, 0), (4, 0), (4, 1), (5, 0), (6, 1), (6, 6), (0, 0)] {
            checks(rules, 2, table(7, &[(index, witness)]), 14);
        }
    }
}

/// P1 to P5 of document 01, P2 as document 02 has it, of E with further positions of size 1: the state has these two
/// values at E's positions, and the third at the others.
fn answers_of_e(rules: &str, state: impl Fn(u8, u8, u8) -> Vec<u8>) {
    let (marks, kept) = (table(7, &[(3, 1), (5, 4), (6, 2)]), table(7, &[]));
    let start = state(1, 1, 0);
    // refused: 255 there is no goal; 0 there is not met
    for there in [0, ANY] {
        let (goal, own) = (state(0, 0, there), state(1, 1, there));
        let p1 = Asked { rules, reach: 2, table: &marks, start: &start, goal: &goal, moves: 2, cost: 9, limit: 4 };
        p1.gives(0, &[1, 2], 2, 4);
        Asked { limit: 3, ..p1 }.gives_at_limit(&[1, 2], 2, 1);
        Asked { limit: 2, ..p1 }.gives(16, &[], 0, 2);
        Asked { moves: 1, ..p1 }.gives(15, &[], 0, 3);
        Asked { cost: 1, ..p1 }.gives(15, &[], 0, 3);
        Asked { goal: &own, moves: 0, limit: 1, ..p1 }.gives(0, &[], 0, 1);
        Asked { goal: &own, moves: 0, limit: 0, ..p1 }.gives(16, &[], 0, 0);
        // nothing marked: (), 1, 11, 12, 2, 21, 22
        Asked { table: &kept, limit: 7, ..p1 }.gives(0, &[1, 2], 2, 7);
        Asked { start: &state(0, 1, 0), goal: &state(1, ANY, there), ..p1 }.gives(15, &[], 0, 4);
        // refused: such a position holds every value, or both values of its neighbour
        for byte in [1, 2, 16, 254, 255] {
            Asked { start: &state(1, 1, byte), ..p1 }.gives(9, &[], 0, 0);
        }
    }
    let bad = table(7, &[(1, 0)]);
    for byte in [1, 2, 16, 254] {
        let goal = state(0, 0, byte);
        let asked = Asked { rules, reach: 2, table: &bad, start: &start, goal: &goal, moves: 33, cost: 9, limit: 0 };
        // refused: 11, 12, 14 or 16 comes before 10, and 10 before 9, 6 or 5
        asked.gives(10, &[], 0, 0);
        Asked { table: &marks, moves: 2, limit: 4, ..asked }.gives(10, &[], 0, 0);
        searches(&Asked { moves: 2, ..asked }.call(1), 10, 0, vec![255]);
        Asked { start: &state(1, 1, 1), ..asked }.gives(9, &[], 0, 0);
        Asked { start: &start[1..], ..asked }.gives(9, &[], 0, 0);
        Asked { start: &state(1, 1, 1), table: &bad[1..], ..asked }.gives(6, &[], 0, 0);
        Asked { start: &state(1, 1, 1), reach: 0, ..asked }.gives(5, &[], 0, 0);
    }
    // refused: positions of size 1 need no byte
    let goal = state(0, 0, 0);
    let asked = Asked { rules, reach: 2, table: &marks, start: &[1, 1], goal: &goal, moves: 2, cost: 9, limit: 4 };
    asked.gives(9, &[], 0, 0);
    Asked { start: &start, goal: &[0, 0], ..asked }.gives(10, &[], 0, 0);
}

#[test]
fn p1_to_p5_of_e() {
    answers_of_e(LAST, |one, two, there| vec![one, two, there]);
    answers_of_e(FIRST, |one, two, there| vec![there, one, two]);
    answers_of_e(BETWEEN, |one, two, there| vec![one, there, two]);
    answers_of_e(FOUR, |one, two, there| vec![there, one, there, there, two, there]);
    // refused: of several such positions only the first is looked at, or the last
    let (marks, start, goal) = (table(7, &[]), [0, 1, 0, 0, 1, 0], [0, 0, 0, 0, 0, 0]);
    let asked = Asked { rules: FOUR, reach: 2, table: &marks, start: &start, goal: &goal, moves: 2, cost: 9, limit: 7 };
    asked.gives(0, &[1, 2], 2, 7);
    for place in [0, 2, 3, 5] {
        let with_1 = |bytes: [u8; 6]| (0..6).map(|i| if i == place { 1 } else { bytes[i] }).collect::<Vec<u8>>();
        Asked { start: &with_1(start), ..asked }.gives(9, &[], 0, 0);
        Asked { goal: &with_1(goal), ..asked }.gives(10, &[], 0, 0);
    }
}

#[test]
fn p6_to_p11_with_a_position_more() {
    // H with position 2 of size 1
    let h = "positions=4/sizes=4,1,4,4/rules=4/cost=1/if=0,0,x3,x3/then=1,0,0,x3/cost=1/if=1,0,x3,0/then=2,0,0,0/\
             cost=1/if=1,0,x3,x4/then=2,0,x4,x3/cost=1/if=2,0,0,0/then=3,0,1,1/";
    // refused: position 2 is read
    macro_is(h, &[1, 2], "0,0,0,0", "2,0,0,0", 2, 0b1101, 0b0001);
    macro_is(h, &[1, 3], "0,0,x3,x3", "2,0,x3,0", 2, 0b1101, 0b1001);
    macro_refused(h, &[1, 1], 17);
    // (3,4) is `1,0,0,0` to `3,0,1,1`, and every other mark is on a sequence that no state admits
    let denied = [5, 8, 9, 10, 11, 13, 14, 15, 17, 18, 19, 20].map(|index| (index, 0));
    let marks = table(21, &[&denied[..], &[(16, 12)]].concat());
    builds(h, 2, marks.clone(), unions(0b1101, 0b1101));
    for there in [0, ANY] {
        let goal = [3, there, 1, 1];
        let p9 = Asked { rules: h, reach: 2, table: &marks, start: &[0; 4], goal: &goal, moves: 3, cost: 9, limit: 5 };
        p9.gives(0, &[1, 2, 4], 3, 5);
        Asked { limit: 4, ..p9 }.gives_at_limit(&[1, 2, 4], 3, 2);
        Asked { table: &table(21, &[(6, 7)]), ..p9 }.gives(14, &[], 0, 0);
    }
    checks(h, 2, table(21, &[(6, 7)]), 14);
    // P11 with position 1 of size 1
    let p11 = "positions=4/sizes=1,3,3,3/rules=2/cost=1/if=0,x2,x3,x4/then=0,x2,x2,x4/\
               cost=1/if=0,x2,x3,x3/then=0,0,x3,x3/";
    macro_is(p11, &[1, 2], "0,x2,x3,x2", "0,0,x2,x2", 2, 0b1010, 0b0110);
}

#[test]
fn idle_rules() {
    // refused: `xi` kept in the macro of no moves, where macros are compared by their entries: the rule's 0 is another;
    // the position of size 1 in a union
    let idle = |sizes: &str, line: &str, reads: u16| {
        builds(&rule(sizes, line, line), 1, table(2, &[(1, 0)]), unions(reads, 0));
        builds(&rule(sizes, line, line), 2, table(3, &[(1, 0), (2, 0)]), unions(reads, 0));
        checks(&rule(sizes, line, line), 2, table(3, &[(2, 1)]), unions(reads, 0));
    };
    idle("1", "0", 0);
    idle("1,1", "0,0", 0);
    idle("1,2", "0,x2", 0);
    idle("2,1", "x1,0", 0);
    idle("1,2,1", "0,x2,0", 0);
    idle("3,1,3", "x1,0,x3", 0);
    // one that asks for something
    idle("1,2", "0,0", 0b10);
    idle("1,2", "0,1", 0b10);
    idle("3,1,3", "x1,0,x1", 0b101);
    idle("3,1,3", "2,0,x3", 0b001);
    // refused: a rule over such a position is always idle; 0 there makes the same of all
    let sets_0 = rule("1,2", "0,x2", "0,0");
    builds(&sets_0, 1, table(2, &[]), unions(0, 0));
    builds(&sets_0, 2, table(3, &[(2, 1)]), unions(0, 0b10));
    checks(&sets_0, 1, table(2, &[(1, 0)]), 14);
    // a swap across it, which is not idle and is undone by itself
    let swap = rule("2,1,2", "x1,0,x3", "x3,0,x1");
    macro_is(&swap, &[1], "x1,0,x3", "x3,0,x1", 1, 0b101, 0b101);
    macro_is(&swap, &[1, 1], "x1,0,x3", "x1,0,x3", 2, 0, 0);
    macro_is(&swap, &[1, 1, 1], "x1,0,x3", "x3,0,x1", 3, 0b101, 0b101);
    builds(&swap, 1, table(2, &[]), unions(0, 0));
    builds(&swap, 2, table(3, &[(2, 0)]), unions(0, 0));
    builds(&swap, 3, table(4, &[(2, 0), (3, 1)]), unions(0b101, 0b101));
    checks(&swap, 1, table(2, &[(1, 0)]), 14);
    let kept = table(2, &[]);
    let (start, goal) = ([0, 0, 1], [1, 0, ANY]);
    let asked = Asked { rules: &swap, reach: 1, table: &kept, start: &start, goal: &goal, moves: 3, cost: 9, limit: 4 };
    asked.gives(0, &[1], 1, 4);
    Asked { goal: &[1, ANY, 1], ..asked }.gives(15, &[], 0, 4);
}

#[test]
fn marks_by_rules() {
    // rule 2 is rule 1 where position 1 holds 1. Refused: the 0 at position 2 keeps the one from standing for the other
    let narrower = "positions=2/sizes=2,1/rules=2/cost=1/if=x1,0/then=0,0/cost=1/if=1,0/then=0,0/";
    builds(narrower, 1, table(3, &[(2, 1)]), unions(0b01, 0b01));
    let wider = "positions=2/sizes=2,1/rules=2/cost=1/if=1,0/then=0,0/cost=1/if=x1,0/then=0,0/";
    builds(wider, 1, table(3, &[]), unions(0, 0));
    checks(wider, 1, table(3, &[(2, 1)]), 14);
    // positions 1 and 3 exchanged, positions 3 and 4 exchanged, of 4,096 states: 11 and 22 change nothing, 111, 122 and
    // 221 are 1, 112, 211 and 222 are 2, and 212 is 121
    let swaps = "positions=4/sizes=16,1,16,16/rules=2/cost=1/if=x1,0,x3,x4/then=x3,0,x1,x4/\
                 cost=1/if=x1,0,x3,x4/then=x1,0,x4,x3/";
    builds(swaps, 2, table(7, &[(3, 0), (6, 0)]), unions(0, 0));
    let three = [(3, 0), (6, 0), (7, 1), (8, 2), (10, 1), (11, 2), (12, 9), (13, 1), (14, 2)];
    builds(swaps, 3, table(15, &three), unions(0b1101, 0b1101));
    checks(swaps, 3, table(15, &[(9, 12)]), 14);
    checks(swaps, 3, table(15, &[(12, 9)]), unions(0b1001, 0b1001));
}

#[test]
fn sequences_that_no_state_admits() {
    // refused: a rule over a position of size 1 can be run again; the zeros of a macro that is refused are read
    let once = rule("1,2", "0,0", "0,1");
    macro_is(&once, &[1], "0,0", "0,1", 1, 0b10, 0b10);
    macro_refused(&once, &[1, 1], 17);
    builds(&once, 1, table(2, &[]), unions(0, 0));
    builds(&once, 2, table(3, &[(2, 0)]), unions(0, 0));
    builds(&once, 3, table(4, &[(2, 0), (3, 0)]), unions(0, 0));
    // there and back: 12 and 21 change nothing, 11 and 22 cannot be run
    let back = "positions=2/sizes=1,2/rules=2/cost=1/if=0,0/then=0,1/cost=1/if=0,1/then=0,0/";
    macro_is(back, &[1, 2], "0,0", "0,0", 2, 0b10, 0);
    macro_is(back, &[2, 1], "0,1", "0,1", 2, 0b10, 0);
    macro_is(back, &[1, 2, 1], "0,0", "0,1", 3, 0b10, 0b10);
    macro_refused(back, &[2, 2], 17);
    macro_refused(back, &[1, 2, 2], 17);
    let marks = table(7, &[(3, 0), (4, 0), (5, 0), (6, 0)]);
    builds(back, 2, marks.clone(), unions(0b10, 0));
    checks(back, 2, table(7, &[(3, 0), (6, 0)]), unions(0, 0));
    for there in [0, ANY] {
        let goal = [there, 1];
        let asked = Asked { rules: back, reach: 2, table: &marks, start: &[0, 0], goal: &goal, moves: 4, cost: 9, limit: 2 };
        asked.gives(0, &[1], 1, 2);
        Asked { start: &[0, 1], ..asked }.gives(0, &[], 0, 2);
        Asked { limit: 1, ..asked }.gives(16, &[], 0, 1);
    }
}

#[test]
fn no_position_of_several_values() {
    // one state, in which every rule runs and changes nothing. Refused: 1 is kept, and 11 marked with it, as the macro
    // of no moves has another entry; a set without a choice is refused
    let one = rule("1", "0", "0");
    macro_is(&one, &[1], "0", "0", 1, 0, 0);
    macro_is(&one, &[1, 1, 1], "0", "0", 3, 0, 0);
    macro_is(&one, &[1; 32], "0", "0", 32, 0, 0);
    macro_refused(&one, &[2], 13);
    macro_refused(&one, &[1; 33], 11);
    let (marked, kept) = (table(2, &[(1, 0)]), table(2, &[]));
    builds(&one, 1, marked.clone(), unions(0, 0));
    builds(&one, 3, table(4, &[(1, 0), (2, 0), (3, 0)]), unions(0, 0));
    checks(&one, 1, kept.clone(), unions(0, 0));
    checks(&one, 1, table(2, &[(1, 1)]), 14);
    checks(&one, 1, table(2, &[(0, 0)]), 14);
    // marked: (). Nothing marked: (), 1, 11
    for goal in [[0], [ANY]] {
        let asked = Asked { rules: &one, reach: 1, table: &marked, start: &[0], goal: &goal, moves: 2, cost: 9, limit: 1 };
        asked.gives(0, &[], 0, 1);
        Asked { table: &kept, limit: 3, ..asked }.gives(0, &[], 0, 3);
        Asked { table: &kept, limit: 2, ..asked }.gives_at_limit(&[], 0, 0);
        Asked { table: &kept, moves: 0, ..asked }.gives(0, &[], 0, 1);
        Asked { limit: 0, ..asked }.gives(16, &[], 0, 0);
        Asked { start: &[1], ..asked }.gives(9, &[], 0, 0);
        Asked { start: &[ANY], ..asked }.gives(9, &[], 0, 0);
        Asked { start: &[], ..asked }.gives(9, &[], 0, 0);
        Asked { start: &[0, 0], ..asked }.gives(9, &[], 0, 0);
        Asked { goal: &[1], ..asked }.gives(10, &[], 0, 0);
        Asked { goal: &[], ..asked }.gives(10, &[], 0, 0);
    }
    // costs: refused: a rule is marked with the first that has its lines, or only where it costs something
    let at = |costs: &[u16]| {
        let rules: String = costs.iter().map(|cost| format!("cost={cost}/if=0,0/then=0,0/")).collect();
        format!("positions=2/sizes=1,1/rules={}/{rules}", costs.len())
    };
    reads(&at(&[5, 5]), 4);
    builds(&at(&[5, 0, 255]), 1, table(4, &[(1, 0), (2, 0), (3, 0)]), unions(0, 0));
    builds(&at(&[5, 0, 255]), 2, table(13, &all_but_empty(13)), unions(0, 0));
    checks(&at(&[5, 0, 255]), 1, table(4, &[(3, 1)]), unions(0, 0));
    checks(&at(&[5, 0, 255]), 1, table(4, &[(2, 1)]), 14);
}

#[test]
fn sixteen_positions_of_size_1() {
    // 31 rules, which differ in their costs alone: 0 to 30
    let zeros = sixteen("0", 0, "");
    let rules = |number: usize| {
        let rules: String = (0..number).map(|cost| format!("cost={cost}/if={zeros}/then={zeros}/")).collect();
        format!("positions=16/sizes={}/rules={number}/{rules}", sixteen("1", 0, ""))
    };
    reads(&rules(31), 0);
    reads(&rules(32), 2);
    for place in 1..=16 {
        // refused: only the first positions are looked at, or all but the last
        let (own, next) = (format!("x{place}"), format!("x{}", place % 16 + 1));
        for (entry, outcome) in [("1", 2), (&own, 3), (&next, 3), ("x17", 2)] {
            reads(&rule(&sixteen("1", 0, ""), &sixteen("0", place, entry), &zeros), outcome);
            reads(&rule(&sixteen("1", 0, ""), &zeros, &sixteen("0", place, entry)), outcome);
        }
        reads(&rule(&sixteen("1", place, "0"), &zeros, &zeros), 2);
        reads(&rule(&sixteen("1", place, "17"), &zeros, &zeros), 2);
    }
    // 0 + 1 + .. + 30
    let all: Vec<u8> = (1..=31).collect();
    macro_is(&rules(31), &all, &zeros, &zeros, 465, 0, 0);
    let marks = table(32, &all_but_empty(32));
    builds(&rules(31), 1, marks.clone(), unions(0, 0));
    builds(&rules(31), 2, table(993, &all_but_empty(993)), unions(0, 0));
    let (rules, start, goal) = (rules(31), [0; 16], [0; 16]);
    let asked = Asked { rules: &rules, reach: 1, table: &marks, start: &start, goal: &goal, moves: 32, cost: 9, limit: 1 };
    asked.gives(0, &[], 0, 1);
    Asked { goal: &[ANY; 16], ..asked }.gives(0, &[], 0, 1);
    for place in 0..16 {
        let mut with_1 = [0; 16];
        with_1[place] = 1;
        Asked { start: &with_1, ..asked }.gives(9, &[], 0, 0);
        Asked { goal: &with_1, ..asked }.gives(10, &[], 0, 0);
    }
}
