//! The cases of crates/cases_*, document 01's and the source documents' examples among them, put to the C entries.

use planner_tests::by_hand::{gives, Why};
use planner_tests::calls::Call;
use planner_tests::compare::{compare, compare_in, Tally};
use planner_tests::oracle::{file, Judged};
use planner_tests::script;
use planner_tests::stack::{within, TEST_STACK};

/// Compares them all; calls on one rule file share what was found of it.
fn all(script: &str) -> u64 {
    within(TEST_STACK, || compared(&script::calls(script)))
}

fn compared(calls: &[Call]) -> u64 {
    let mut tally = Tally::default();
    for same in calls.chunk_by(|one, next| one.text() == next.text()) {
        let set = file::read(same[0].text());
        let mut judged = Judged::new(&set);
        for call in same {
            compare_in(call, &mut judged, &mut tally);
        }
    }
    tally.cases()
}

#[test]
fn rule_files() {
    let mut tally = Tally::default();
    for call in script::file_calls(include_str!("../../crates/cases_files/stdin")) {
        compare(&call, &mut tally);
    }
    assert!(tally.cases() > 10_000, "only {} calls", tally.cases());
}

#[test]
fn macros() {
    let compared = all(include_str!("../../crates/cases_macros/stdin"));
    assert!(compared > 600, "only {compared} calls");
}

#[test]
fn tables() {
    let compared = all(include_str!("../../crates/cases_tables/stdin"));
    assert!(compared > 600, "only {compared} calls");
}

#[test]
fn queries() {
    let compared = all(include_str!("../../crates/cases_search/stdin"));
    assert!(compared > 2_000, "only {compared} calls");
}

#[test]
fn lines_of_explanations() {
    // document 01's P1 with proposals 21 and none: each is asked with four lengths of the buffer, the third and fourth too short
    let script = "f positions=2/sizes=2,2/rules=2/cost=1/if=x1,x2/then=0,x2/cost=1/if=x1,x2/then=x1,0/\n\
                  t 14 3:1,5:4,6:2\nx 2 1,1 0,0 2 9 4 2,1\nx 2 1,1 0,0 2 9 4 -\n";
    let calls = script::calls(script);
    assert_eq!(calls.len(), 8);
    let expected = [Why::later().marked(2, 2, &[1, 2]), Why::off_goal(1)];
    for (calls, why) in calls.chunks(4).zip(expected) {
        gives(&calls[0], 0, why.bytes());
        gives(&calls[1], 0, [&why.bytes()[..], &[0; 6]].concat());
        gives(&calls[2], 0, vec![0; 18]);
        gives(&calls[3], 0, vec![]);
    }
}
