//! Rule sets, tables, queries, proposals, sequences and damaged texts drawn at random: every answer, buffer and refusal against the oracle.
//! The seed is PLANNER_TEST_SEED, else the clock's, and is printed. A run in which too little happened fails. There are two runs, side by side.

use planner_tests::calls::{Answer, Call, Query};
use planner_tests::compare::{compare, compare_in, Tally};
use planner_tests::damage;
use planner_tests::draw;
use planner_tests::library;
use planner_tests::oracle::explain::marked_segments;
use planner_tests::oracle::model::{Entry, Rule, Set};
use planner_tests::oracle::search::{all_within, meets, plan_among, plan_by_states, steps_up_to, unpruned, visited_among};
use planner_tests::oracle::sequences::{count, sequences};
use planner_tests::oracle::table::{built, bytes, entries as entries_of, marked};
use planner_tests::oracle::touched::Touched;
use planner_tests::oracle::{file, writer, Judged};
use planner_tests::random::{seed, Random};
use planner_tests::seen::{Proposed, Seen};
use planner_tests::stack::{within, TEST_STACK};
use std::io::Write;

/// The rule sets of one run.
const SETS: usize = 1000;

/// The queries of one rule set for which proposals are explained, and the proposals for each.
const QUERIES: usize = 3;
const PROPOSALS: usize = 5;

/// The most sequences that a query may have to list, by the oracle or by the library.
const LISTED: usize = 2_500;

/// Numbers for a reach or a move bound that are too large, some of them not in fewer bits.
const ABSURD: [usize; 8] = [33, 34, 255, 257, 65538, (1 << 32) + 2, (1 << 63) + 1, usize::MAX];

struct Run {
    random: Random,
    tally: Tally,
    seen: Seen,
}

/// One rule set with its file.
struct Drawn<'a> {
    set: &'a Set,
    text: &'a [u8],
    few_states: bool,
}

#[test]
fn random_cases() {
    within(TEST_STACK, || run_all(seed()));
}

/// The same with the next seed: a run that fails here is repeated by `random_cases` with the seed that is printed.
#[test]
fn more_random_cases() {
    within(TEST_STACK, || run_all(seed().wrapping_add(1)));
}

fn run_all(seed: u64) {
    writeln!(std::io::stdout(), "random: seed={seed}").expect("standard output");
    let mut run = Run { random: Random::new(seed), tally: Tally::default(), seen: Seen::default() };
    for _ in 0..SETS {
        run.one_set();
    }
    writeln!(std::io::stdout(), "random: seed={seed} cases={} outcomes={}\nrandom: {:?}", run.tally.cases(), run.tally.outcomes(), run.seen)
        .expect("standard output");
    assert!(run.tally.cases() >= 10_000, "only {} cases", run.tally.cases());
    run.tally.require_all(10);
    run.seen.require_all(10);
}

impl Run {
    fn one_set(&mut self) {
        let (states, rules) = self.random.pick(&[(200, 4), (200, 4), (200, 7), (60, 14), (30, 31), (usize::MAX, 6), (usize::MAX, 8), (usize::MAX, 31)]);
        let set = draw::rule_set(&mut self.random, states, rules);
        let text = writer::write(&set);
        let read = file::read(&text);
        assert_eq!(read.as_ref(), Ok(&set));
        let mut judged = Judged::new(&read);
        let drawn = Drawn { set: &set, text: &text, few_states: set.states_within(300).is_some() };
        self.seen.set(&set);
        self.seen.wide += u64::from(!drawn.few_states);
        self.seen.many_positions += u64::from(set.sizes.len() >= 12);
        self.files(&drawn, &mut judged);
        self.macros(&drawn, &mut judged);
        let reaches: Vec<usize> = (1..=3).filter(|&reach| count(set.rules.len(), reach) <= 1000).collect();
        for &reach in &reaches {
            self.build(&drawn, &mut judged, reach);
        }
        let reach = self.random.pick(&reaches);
        let entries = built(judged.redundancy(reach));
        let closely = self.random.chance(30);
        self.seen.table(&set, judged.redundancy(reach), reach, &entries, closely);
        for _ in 0..10 {
            let table = self.table(&mut judged, reach, &entries);
            self.check_table(&drawn, &mut judged, reach, table);
        }
        for _ in 0..20 {
            let entries = self.table(&mut judged, reach, &entries);
            self.search(&drawn, &mut judged, reach, &entries);
        }
        for _ in 0..5 {
            let entries = self.table(&mut judged, reach, &entries);
            self.search_above_limit(&drawn, &mut judged, reach, &entries);
        }
        for _ in 0..QUERIES {
            let brought = self.table(&mut judged, reach, &entries);
            self.explain(&drawn, &mut judged, reach, &brought, &entries);
        }
    }

    fn reach(&mut self) -> usize {
        let absurd = self.random.pick(&ABSURD);
        self.random.pick(&[0, 1, 2, 3, 4, absurd])
    }

    fn files(&mut self, drawn: &Drawn, judged: &mut Judged) {
        let text = drawn.text.to_vec();
        compare_in(&Call::Read { text: text.clone() }, judged, &mut self.tally);
        let longer = text.len() + self.random.below(100);
        for out_length in [text.len(), longer, text.len() - 1, self.random.below(text.len()), 0] {
            compare_in(&Call::Rewrite { text: text.clone(), out_length }, judged, &mut self.tally);
        }
        for reach in [1, 2, 3, self.reach()] {
            compare_in(&Call::TableSize { rules: text.clone(), reach }, judged, &mut self.tally);
        }
        for _ in 0..6 {
            let text = damage::damaged(&mut self.random, drawn.text);
            let answer = compare(&Call::Read { text: text.clone() }, &mut self.tally);
            self.seen.changed(drawn.set, drawn.text, &text, answer.outcome());
            let brought = drawn.set.same_lines().is_empty() && file::read(&text).is_ok_and(|set| !set.same_lines().is_empty());
            self.seen.same_lines_read += u64::from(brought);
            let length = self.random.pick(&[0, 1, 38, 400, text.len()]);
            let (rules, reach) = (text.clone(), self.random.from_to(0, 2));
            let call = match self.random.below(7) {
                0 => Call::Rewrite { text, out_length: length },
                1 => Call::TableSize { rules, reach },
                2 => Call::BuildTable { rules, table_length: length, reach },
                3 => Call::CheckTable { rules, table: vec![255; length], reach },
                4 => Call::Macro { rules, moves: vec![1; length % 5], out_length: length },
                kind => {
                    let query = Query { step_limit: 1000, max_moves: self.random.below(40), ..draw::query(&mut self.random, drawn.set) };
                    let table = vec![255; length];
                    if kind == 5 {
                        Call::Search { rules, table, reach, query, plan_length: length }
                    } else {
                        Call::Explain { rules, table, reach, query, moves: vec![1; length % 5], out_length: length }
                    }
                }
            };
            compare(&call, &mut self.tally);
        }
    }

    /// Macros, and what they do in every state where these are few.
    fn macros(&mut self, drawn: &Drawn, judged: &mut Judged) {
        for _ in 0..8 {
            let length = self.random.pick(&[0, 1, 2, 2, 3, 3, 4, 5, 8, 31, 32, 33, 40]);
            let mut moves: Vec<u8> = (0..length).map(|_| self.random.from_to(1, drawn.set.rules.len()) as u8).collect();
            if length > 0 && self.random.chance(12) {
                let at = self.random.below(length);
                moves[at] = self.random.pick(&[0, drawn.set.rules.len() as u8 + 1, 32, 255]);
            }
            let out_length = self.random.pick(&[38, 38, 38, 37, 34, 16, 1, 0, 39, 60]);
            let call = Call::Macro { rules: drawn.text.to_vec(), moves: moves.clone(), out_length };
            let answer = compare_in(&call, judged, &mut self.tally);
            if answer.outcome() == 0 {
                self.seen.touched(touched_at(&answer.buffer));
                self.seen.composed(drawn.set, &moves, 0, touched_at(&answer.buffer));
            }
            if answer.outcome() == 17 {
                self.seen.composed(drawn.set, &moves, 17, Touched::default());
            }
            if drawn.few_states && out_length >= 38 && [0, 17].contains(&answer.outcome()) {
                self.seen.macros_run += 1;
                runs_as_its_rules(drawn.set, &call, &moves);
            }
        }
    }

    fn build(&mut self, drawn: &Drawn, judged: &mut Judged, reach: usize) {
        let (rules, table_length) = (drawn.text.to_vec(), 2 * count(drawn.set.rules.len(), reach));
        let answer = compare_in(&Call::BuildTable { rules: rules.clone(), table_length, reach }, judged, &mut self.tally);
        self.seen.unions(drawn.set, reach, judged.touched(reach), &entries_of(&answer.buffer), &answer);
        self.seen.built(drawn.set, reach, judged.touched(reach), &entries_of(&answer.buffer));
        let wrong = self.random.pick(&[0, 1, table_length - 1, table_length + 1, table_length + 2, 2 * table_length]);
        compare_in(&Call::BuildTable { rules: rules.clone(), table_length: wrong, reach }, judged, &mut self.tally);
        let reach = self.random.pick(&ABSURD);
        compare_in(&Call::BuildTable { rules, table_length, reach }, judged, &mut self.tally);
    }

    /// The built table; some of its marks, other witnesses, none, both; or one that is most often not accepted.
    fn table(&mut self, judged: &mut Judged, reach: usize, entries: &[u16]) -> Vec<u16> {
        let redundancy = judged.redundancy(reach);
        let accepted = match self.random.below(10) {
            0..=4 => return entries.to_vec(),
            5 | 6 => draw::some_marks(&mut self.random, entries),
            7 => draw::other_witnesses(&mut self.random, redundancy, entries),
            8 => {
                let some = draw::some_marks(&mut self.random, entries);
                draw::other_witnesses(&mut self.random, redundancy, &some)
            }
            _ => return draw::spoilt(&mut self.random, entries),
        };
        self.seen.tables_of_others += u64::from(accepted != entries);
        accepted
    }

    fn check_table(&mut self, drawn: &Drawn, judged: &mut Judged, reach: usize, entries: Vec<u16>) {
        let entries = if self.random.chance(40) { draw::spoilt(&mut self.random, &entries) } else { entries };
        let mut table = bytes(&entries);
        let mut reach = reach;
        match self.random.below(20) {
            0 => reach = self.reach(),
            1 => table.truncate(self.random.below(table.len())),
            2 => table.push(255),
            3 => {
                let at = self.random.below(table.len());
                table[at] = self.random.pick(&[0, 1, 254, 255]);
            }
            4 => table = table.iter().map(|_| self.random.below(256) as u8).collect(),
            _ => {}
        }
        let answer = compare_in(&Call::CheckTable { rules: drawn.text.to_vec(), table: table.clone(), reach }, judged, &mut self.tally);
        match answer.outcome() {
            0 => self.seen.unions(drawn.set, reach, judged.touched(reach), &entries_of(&table), &answer),
            14 => self.seen.withheld(judged.touched(reach), &entries_of(&table)),
            _ => {}
        }
    }

    fn search(&mut self, drawn: &Drawn, judged: &mut Judged, reach: usize, entries: &[u16]) {
        let query = self.query(drawn, reach, entries);
        let plan_length = query.max_moves + self.random.pick(&[0, 0, 1, 7, 32, 100]);
        let sound = Call::Search { rules: drawn.text.to_vec(), table: bytes(entries), reach, query, plan_length };
        if !self.random.chance(25) {
            let answer = compare_in(&sound, judged, &mut self.tally);
            self.note(drawn, judged, reach, entries, &sound, &answer);
            return;
        }
        let causes = self.random.pick(&[1, 1, 2, 3, 6]);
        let mut call = sound;
        for _ in 0..causes {
            call = self.faulty(drawn, call);
        }
        self.seen.several_causes += u64::from(causes > 1);
        let answer = compare(&call, &mut self.tally);
        if let (Call::Search { query, .. }, Ok(set)) = (&call, file::read(call.text())) {
            self.seen.refused(&set, query, answer.outcome());
        }
        let (moves, out_length) = (self.proposal(drawn, reach, entries, &[&[1, 1]]), self.out_length());
        compare(&call.for_proposal(&moves, out_length).expect("a search"), &mut self.tally);
    }

    /// Proposals for one query: about its plan, others that end in the goal, any that can be run, and marked sequences.
    fn explain(&mut self, drawn: &Drawn, judged: &mut Judged, reach: usize, entries: &[u16], built: &[u16]) {
        let mut query = self.query(drawn, reach, entries);
        let all = all_within(drawn.set, &query, LISTED).unwrap_or_default();
        // most often to where one of them leads, and all of them to be visited
        if all.len() > 1 && self.random.chance(70) {
            query.goal = self.random.pick(&all[1..]).state.clone();
            draw::open(&mut self.random, &mut query.goal);
            query.step_limit = if self.random.chance(80) { u32::MAX } else { self.random.below(all.len()) as u32 };
        }
        let search = Call::Search { rules: drawn.text.to_vec(), table: bytes(entries), reach, query: query.clone(), plan_length: 32 };
        let searched = judged.expected(&search);
        let cheapest = plan_among(&all, &query).map_or(0, |plan| plan.cost);
        let ending = |is_so: &dyn Fn(u32) -> bool| -> Vec<&[u8]> {
            all.iter().filter(|ran| meets(&query.goal, &ran.state) && is_so(ran.cost)).map(|ran| &ran.sequence[..]).collect()
        };
        let rules = drawn.set.rules.len();
        let (sequences, marks) = (sequences(rules, reach), marked(entries).collect::<Vec<_>>());
        // witnesses of three rules are rare where no shorter mark ends sooner
        let by_three = |&&mark: &&usize| entries[mark] as usize >= count(rules, 2) && marked_segments(rules, reach, entries, &sequences[mark]).len() == 1;
        let groups = [
            vec![&searched.buffer[..searched.length()]],
            ending(&|cost| cost == cheapest),
            ending(&|cost| cost > cheapest),
            all.iter().map(|ran| &ran.sequence[..]).collect(),
            marks.iter().map(|&mark| &sequences[mark][..]).collect(),
            marks.iter().filter(by_three).map(|&mark| &sequences[mark][..]).collect(),
        ];
        for _ in 0..PROPOSALS {
            let known: Vec<&[u8]> = groups.iter().filter(|group| !group.is_empty()).map(|group| self.random.pick(group)).collect();
            let (moves, out_length) = (self.proposal(drawn, reach, entries, &known), self.out_length());
            let call = search.for_proposal(&moves, out_length).expect("a search");
            compare_in(&call, judged, &mut self.tally);
            let explained = judged.explained(&call).expect("an explanation");
            let proposed = Proposed { set: drawn.set, query: &query, reach, entries, built, searched: &searched, moves: &moves };
            self.seen.explained(&proposed, &explained, out_length);
        }
    }

    /// A proposal about these sequences; now and then a long one, or one with an unknown move.
    fn proposal(&mut self, drawn: &Drawn, reach: usize, entries: &[u16], known: &[&[u8]]) -> Vec<u8> {
        let rules = drawn.set.rules.len();
        let moves = if self.random.chance(8) {
            draw::long_proposal(&mut self.random, rules, |moves| unpruned(rules, reach, entries, moves))
        } else {
            draw::proposal(&mut self.random, rules, known)
        };
        if self.random.chance(8) {
            draw::with_unknown_move(&mut self.random, rules, moves)
        } else {
            moves
        }
    }

    fn out_length(&mut self) -> usize {
        self.random.pick(&[19, 19, 19, 19, 19, 20, 60, 18, 6, 1, 0])
    }

    /// A search that ends above its step limit with a plan of some moves, where one is hit upon.
    fn search_above_limit(&mut self, drawn: &Drawn, judged: &mut Judged, reach: usize, entries: &[u16]) {
        let mut query = self.query(drawn, reach, entries);
        let all = all_within(drawn.set, &query, LISTED).unwrap_or_default();
        let visits = visited_among(&all, drawn.set.rules.len(), reach, entries);
        if visits.len() < 3 {
            return;
        }
        query.goal = self.random.pick(&visits).state.clone();
        draw::open(&mut self.random, &mut query.goal);
        let first = visits.iter().position(|ran| meets(&query.goal, &ran.state)).unwrap_or(0);
        if first > 0 && first + 1 < visits.len() {
            query.step_limit = self.random.from_to(first + 1, visits.len() - 1) as u32;
            let plan_length = query.max_moves;
            let call = Call::Search { rules: drawn.text.to_vec(), table: bytes(entries), reach, query, plan_length };
            let answer = compare_in(&call, judged, &mut self.tally);
            self.note(drawn, judged, reach, entries, &call, &answer);
        }
    }

    fn note(&mut self, drawn: &Drawn, judged: &mut Judged, reach: usize, entries: &[u16], call: &Call, answer: &Answer) {
        let (Call::Search { query, .. }, outcome @ (0 | 15 | 16 | 18)) = (call, answer.outcome()) else {
            return;
        };
        self.seen.planned(drawn.set, query, answer);
        let Some(all) = all_within(drawn.set, query, LISTED) else {
            self.seen.deep += u64::from(outcome < 16);
            self.seen.limited_deep += u64::from(outcome == 18);
            return;
        };
        let unpruned = |sequence: &[u8]| unpruned(drawn.set.rules.len(), reach, entries, sequence);
        match (outcome, call.for_floor()) {
            (18, Some(asked)) => {
                let (visits, floor) = (visited_among(&all, drawn.set.rules.len(), reach, entries), judged.expected(&asked).number as u32);
                self.seen.limited(query, &all, &visits, answer);
                self.seen.floor(drawn.set, query, &visits, answer.cost() as u32, floor, unpruned);
            }
            (16, _) => self.seen.exceeded(query, &all),
            _ => self.seen.search(drawn.set, query, &all, answer, unpruned),
        }
    }

    /// A query with bounds about what matters: the plan's cost, and the number of steps.
    fn query(&mut self, drawn: &Drawn, reach: usize, entries: &[u16]) -> Query {
        let mut query = draw::query(&mut self.random, drawn.set);
        query.max_moves = self.random.pick(&[0, 1, 2, 3, 4, 5, 6, 7, 8, 12, 32]);
        if !drawn.few_states || self.random.chance(60) {
            let listed = |&moves: &usize| all_within(drawn.set, &Query { max_moves: moves, ..query.clone() }, LISTED).is_some();
            query.max_moves = (0..=query.max_moves).take_while(listed).last().unwrap_or(0);
        }
        let cheapest = plan_by_states(drawn.set, &query).map_or(9, |plan| plan.cost as u16);
        let cost = self.random.below(20) as u16;
        query.max_cost =
            self.random.pick(&[65535, 65535, 65535, 65535, 65535, cheapest, cheapest, cheapest.saturating_sub(1), cheapest + 1, 2 * cheapest, 0, cost]);
        let steps = steps_up_to(drawn.set, &query, reach, entries, LISTED) as u32;
        let below = self.random.below(steps as usize) as u32;
        query.step_limit = if steps as usize > LISTED {
            self.random.pick(&[0, 1, below, steps - 1])
        } else {
            self.random.pick(&[steps, steps, steps, steps, u32::MAX, u32::MAX, steps + 1, steps - 1, below, 0])
        };
        query
    }

    /// The call with one thing wrong, or one more.
    fn faulty(&mut self, drawn: &Drawn, call: Call) -> Call {
        let Call::Search { mut rules, mut table, mut reach, mut query, mut plan_length } = call else {
            return call;
        };
        let sizes = &drawn.set.sizes;
        // often one of size 1, if there is one
        let single: Vec<usize> = (0..sizes.len()).filter(|&i| sizes[i] == 1).collect();
        let at = if single.is_empty() || self.random.chance(50) { self.random.below(sizes.len()) } else { self.random.pick(&single) };
        let wrong = [sizes[at], sizes[at], 16, 17, 254, 255];
        match self.random.below(16) {
            0 => reach = self.reach(),
            1 => table.push(0),
            2 => table.truncate(self.random.below(table.len().max(1))),
            3 => query.start.push(0),
            4 => drop(query.start.pop()),
            5 | 6 if at < query.start.len() => query.start[at] = self.random.pick(&wrong),
            7 => query.goal.push(255),
            8 => drop(query.goal.pop()),
            9 | 10 if at < query.goal.len() => query.goal[at] = self.random.pick(&wrong[..5]),
            11 => query.max_moves = self.random.pick(&ABSURD),
            12 => plan_length = query.max_moves.saturating_sub(1).min(40),
            13 => table = vec![0; table.len()],
            14 => query.step_limit = 0,
            _ => {
                if self.random.chance(40) {
                    rules = damage::damaged(&mut self.random, &rules);
                } else if table.len() > 2 {
                    table[2] ^= 1;
                }
            }
        }
        // what is still to be searched must not be too much
        query.step_limit = query.step_limit.min(LISTED as u32);
        Call::Search { rules, table, reach, query, plan_length }
    }
}

/// The sets of a macro, as its buffer has them.
fn touched_at(buffer: &[u8]) -> Touched {
    Touched { reads: u16::from_le_bytes([buffer[34], buffer[35]]), writes: u16::from_le_bytes([buffer[36], buffer[37]]) }
}

/// The library's macro, run in every state, against the rules in turn; and its sets against what the rules do in every state.
fn runs_as_its_rules(set: &Set, call: &Call, moves: &[u8]) {
    let answer = library::answer(call);
    let positions = set.sizes.len();
    let line = |from: usize| {
        answer.buffer[from..from + positions].iter().map(|&byte| if byte < 16 { Entry::Value(byte) } else { Entry::Place(byte as usize - 16) }).collect()
    };
    let rule = Rule { cost: u16::from_le_bytes([answer.buffer[32], answer.buffer[33]]).into(), condition: line(0), effect: line(16) };
    for state in set.states() {
        let whole = (answer.outcome() == 0 && rule.runs(&state)).then(|| rule.after(&state));
        assert!(whole == set.run(moves, &state), "the macro differs from its rules in {state:?}:\n{call}\n{answer}");
    }
    assert!(answer.outcome() == 17 || rule.cost == set.cost(moves), "the macro's cost differs from its rules':\n{call}\n{answer}");
    let touched = touched_at(&answer.buffer);
    assert!(touched == Touched::by_states(set, moves), "the macro's sets differ from what its rules do, {touched:?}:\n{call}\n{answer}");
}
