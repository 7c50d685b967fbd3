//! The library's answer beside the oracle's, and the count of what was compared.

use crate::calls::{Answer, Call, ENTRIES};
use crate::library;
use crate::oracle::{self, Judged};
use std::env;
use std::io::{self, Write};
use std::sync::OnceLock;
use std::thread;

/// The outcomes that a search can give.
const OF_SEARCHES: &[usize] = &[0, 1, 2, 3, 4, 5, 6, 9, 10, 11, 12, 14, 15, 16, 18];

/// The outcomes that each entry can give, in the order of `ENTRIES`. No entry gives 7.
const OUTCOMES: [&[usize]; ENTRIES.len()] = [
    OF_SEARCHES,
    &[0, 1, 2, 3, 4],
    &[0, 1, 2, 3, 4, 8],
    &[0, 1, 2, 3, 4, 5],
    &[0, 1, 2, 3, 4, 5, 6],
    &[0, 1, 2, 3, 4, 5, 6, 14],
    &[0, 1, 2, 3, 4, 8, 11, 13, 17],
    OF_SEARCHES,
    &[0, 1, 2, 3, 4, 5, 6, 9, 10, 11, 13, 14, 15, 16, 18],
];

/// The outcomes, from 0.
const ALL: usize = 19;

/// How often each entry gave each outcome; a floor counts with the outcome of its search.
#[derive(Default)]
pub struct Tally([[u64; ALL]; ENTRIES.len()]);

/// Prints the call whole if what follows panics.
struct Shown<'a>(&'a Call);

impl Drop for Shown<'_> {
    fn drop(&mut self) {
        if thread::panicking() {
            eprintln!("in the call\n{}", self.0);
        }
    }
}

/// Whether each call is printed before it is made, so that one that ends the program is seen: PLANNER_TEST_TRACE.
fn traced() -> bool {
    static TRACED: OnceLock<bool> = OnceLock::new();
    *TRACED.get_or_init(|| env::var_os("PLANNER_TEST_TRACE").is_some())
}

/// Makes the call and panics unless the answer is this one.
pub fn check(call: &Call, expected: &Answer) {
    if traced() {
        writeln!(io::stdout(), "{call}").expect("standard output");
    }
    let _shown = Shown(call);
    let got = library::answer(call);
    assert!(got == *expected, "\nexpected {expected}\n     got {got}");
}

/// Makes the call and panics unless the answer is the oracle's.
pub fn compare(call: &Call, tally: &mut Tally) -> Answer {
    let set = oracle::file::read(call.text());
    compare_in(call, &mut Judged::new(&set), tally)
}

/// The same, where the file has been judged before. Every search is also asked for its floor.
pub fn compare_in(call: &Call, judged: &mut Judged, tally: &mut Tally) -> Answer {
    let Some(found) = judged.found(call) else {
        let expected = judged.expected(call);
        check(call, &expected);
        tally.0[call.entry()][expected.outcome()] += 1;
        return expected;
    };
    for asked in [call].into_iter().chain(&call.for_floor()) {
        check(asked, &found.answer_to(asked));
        tally.0[asked.entry()][found.outcome as usize] += 1;
    }
    found.answer_to(call)
}

impl Tally {
    pub fn cases(&self) -> u64 {
        self.0.iter().flatten().sum()
    }

    /// How often there was this outcome, by any entry.
    fn outcome(&self, outcome: usize) -> u64 {
        self.0.iter().map(|counts| counts[outcome]).sum()
    }

    /// Outcome and number of each that occurred.
    pub fn outcomes(&self) -> String {
        let shown = (0..ALL).filter(|&outcome| self.outcome(outcome) > 0).map(|outcome| format!("{outcome}:{}", self.outcome(outcome)));
        shown.collect::<Vec<_>>().join(",")
    }

    /// Panics unless each outcome of a rule file was read, 0 to 4, and so often at least.
    pub fn require_files(&self, least: u64) {
        for (outcome, count) in self.0[1][..5].iter().enumerate() {
            assert!(*count >= least, "planner_read gave outcome {outcome} {count} times, fewer than {least}");
        }
    }

    /// Panics unless each entry gave each of its outcomes, each so often at least.
    pub fn require_all(&self, least: u64) {
        for (entry, outcomes) in OUTCOMES.iter().enumerate() {
            for &outcome in *outcomes {
                let count = self.0[entry][outcome];
                assert!(count >= least, "planner_{} gave outcome {outcome} {count} times, fewer than {least}", ENTRIES[entry]);
            }
        }
    }
}
