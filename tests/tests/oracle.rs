//! The oracle against itself: its two ways to redundancy, to the positions that a sequence reads and writes, to the plan, to the steps and to the walk agree, a macro does what
//! its rules do in every state, of two rules with the same lines the later one may be marked with the earlier exactly if it is dearer, no plan is below a floor, and each
//! explanation is true and the first that is. Lines have one form only. Of the sets that are drawn some have positions of size 1.

use planner_tests::calls::{Call, Query};
use planner_tests::draw;
use planner_tests::oracle::explain::{Reason, Segment};
use planner_tests::oracle::model::{Entry, Rule, Set, State};
use planner_tests::oracle::redundancy::Redundancy;
use planner_tests::oracle::search::{
    all_within, floor, meets, plan_among, plan_by_states, plan_looked_at, steps_among, steps_up_to, unpruned, visited_among, visited_up_to, Ran,
};
use planner_tests::oracle::sequences::{count, index, sequences};
use planner_tests::oracle::symbolic::Run;
use planner_tests::oracle::table::{accepted, built, bytes, KEPT};
use planner_tests::oracle::touched::Touched;
use planner_tests::oracle::{file, writer, Judged};
use planner_tests::random::{seed, Random};
use std::io::Write;

fn drawn(test: &str, sets: usize, states: usize, rules: usize, mut check: impl FnMut(&mut Random, &Set)) {
    let seed = seed();
    writeln!(std::io::stdout(), "oracle, {test}: seed={seed} sets={sets}").expect("standard output");
    let mut random = Random::new(seed);
    // sets with a position of size 1 beside others, and without others
    let mut met = [0; 2];
    for _ in 0..sets {
        let set = draw::rule_set(&mut random, states, rules);
        let singles = set.sizes.iter().filter(|&&size| size == 1).count();
        met[0] += usize::from((1..set.sizes.len()).contains(&singles));
        met[1] += usize::from(singles == set.sizes.len());
        check(&mut random, &set);
    }
    assert!(met[0] >= sets / 5 && met[1] >= sets / 100, "too few of {sets}: {met:?}");
}

#[test]
fn indices_follow_the_order() {
    for rules in 1..=31 {
        for reach in 1..=if rules < 12 { 3 } else { 2 } {
            let all = sequences(rules, reach);
            assert_eq!(all.len(), count(rules, reach));
            assert!(all.windows(2).all(|two| (two[0].len(), &two[0]) < (two[1].len(), &two[1])));
            assert!(all.iter().enumerate().all(|(place, sequence)| index(rules, sequence) == place));
        }
    }
    assert_eq!(count(31, 3), 30_784);
}

#[test]
fn a_written_set_is_read_again() {
    drawn("texts", 2000, usize::MAX, 31, |_, set| assert_eq!(file::read(&writer::write(set)).as_ref(), Ok(set)));
}

#[test]
fn a_macro_does_what_its_rules_do() {
    drawn("macros", 1500, 300, 8, |random, set| {
        for _ in 0..6 {
            let sequence: Vec<u8> = (0..random.from_to(0, 5)).map(|_| random.from_to(1, set.rules.len()) as u8).collect();
            let whole = Run::of(set, &sequence).map(|run| run.as_rule(0));
            for state in set.states() {
                let by_macro = whole.as_ref().filter(|rule| rule.runs(&state)).map(|rule| rule.after(&state));
                assert_eq!(by_macro, set.run(&sequence, &state), "{set:?} {sequence:?} {state:?}");
            }
            assert_eq!(whole.is_none(), set.states().iter().all(|state| set.run(&sequence, state).is_none()), "{set:?} {sequence:?}");
        }
    });
}

/// Where a sequence leads from each state.
fn ends(set: &Set, sequence: &[u8]) -> Vec<Option<State>> {
    set.states().iter().map(|state| set.run(sequence, state)).collect()
}

#[test]
fn what_does_the_same_in_every_state_has_the_same_lines() {
    // pairs of sequences that can be run, over sets with a position of size 1: that do the same, and that do not
    let mut met = [0; 2];
    drawn("lines", 600, 100, 5, |random, set| {
        let mut all = sequences(set.rules.len(), 2);
        all.extend((0..6).map(|_| (0..random.from_to(3, 6)).map(|_| random.from_to(1, set.rules.len()) as u8).collect()));
        let ends: Vec<Vec<Option<State>>> = all.iter().map(|sequence| ends(set, sequence)).collect();
        let line = |sequence: &Vec<u8>| Run::of(set, sequence).map(|run| run.as_rule(0));
        let lines: Vec<Option<Rule>> = all.iter().map(line).collect();
        for b in 0..all.len() {
            // "At a position of size 1 both lines must hold 0", and "such a bay is in neither touched set"
            for i in (0..set.sizes.len()).filter(|&i| set.sizes[i] == 1) {
                let holds_0 = |rule: &Rule| rule.condition[i] == Entry::Value(0) && rule.effect[i] == Entry::Value(0);
                assert!(lines[b].as_ref().is_none_or(holds_0), "{set:?} {:?}", all[b]);
                let touched = Touched::by(set, &all[b]);
                assert_eq!((touched.reads | touched.writes) >> i & 1, 0, "{set:?} {:?}", all[b]);
            }
            for a in 0..b {
                assert_eq!(lines[a] == lines[b], ends[a] == ends[b], "{set:?} {:?} {:?}", all[a], all[b]);
                if set.sizes.contains(&1) && lines[a].is_some() && lines[b].is_some() {
                    met[usize::from(ends[a] != ends[b])] += 1;
                }
            }
        }
    });
    assert!(met.iter().all(|&count| count >= 1000), "too few: {met:?}");
}

#[test]
fn a_rule_is_read_in_one_form_only() {
    // every rule over two positions of these sizes: so many are read, and no two of them do the same in every state
    let entries = ["0", "1", "x1", "x2"];
    let line = |number: usize| format!("{},{}", entries[number / 4], entries[number % 4]);
    for (sizes, read) in [("1,1", 1), ("1,2", 7), ("2,1", 7), ("2,2", 77)] {
        let front = format!("positions=2\nsizes={sizes}\nrules=1\ncost=1\n");
        let text = |number: usize| format!("{front}if={}\nthen={}\n", line(number / 16), line(number % 16));
        let sets = (0..256).filter_map(|number| file::read(text(number).as_bytes()).ok());
        let ends: Vec<Vec<Option<State>>> = sets.map(|set| ends(&set, &[1])).collect();
        assert_eq!(ends.len(), read, "{sizes}");
        assert!((0..read).all(|later| !ends[..later].contains(&ends[later])), "{sizes}");
    }
}

#[test]
fn both_ways_to_redundancy_agree() {
    drawn("redundancy", 400, 200, 6, |random, set| {
        let reach = random.from_to(1, if set.rules.len() < 5 { 3 } else { 2 });
        let (by_state, symbolic) = (Redundancy::by_state(set, reach), Redundancy::symbolic(set, reach));
        for b in 0..by_state.count() {
            for a in 0..by_state.count() {
                assert_eq!(by_state.redundant(b, a), symbolic.redundant(b, a), "{set:?} {b} {a}");
            }
        }
        assert!(accepted(&symbolic, &built(&by_state)));
    });
}

#[test]
fn of_two_rules_with_the_same_lines_the_later_one_is_marked_if_it_is_dearer() {
    // pairs of rules with the same lines: the later one dearer, the later one cheaper
    let mut met = [0; 2];
    drawn("same lines", 1500, 200, 8, |random, set| {
        let reach = random.from_to(1, 2);
        let redundancy = Redundancy::by_state(set, reach);
        let table = built(&redundancy);
        for (earlier, later) in set.same_lines() {
            let dearer_later = set.rule(earlier).cost < set.rule(later).cost;
            met[usize::from(!dearer_later)] += 1;
            let (earlier, later) = (earlier as usize, later as usize);
            let marked = |index: usize, witness: usize| (0..table.len()).map(|at| if at == index { witness as u16 } else { KEPT }).collect::<Vec<_>>();
            assert_eq!(accepted(&redundancy, &marked(later, earlier)), dearer_later, "{set:?} {earlier} {later}");
            assert!(!accepted(&redundancy, &marked(earlier, later)), "{set:?} {earlier} {later}");
            assert!(!dearer_later || table[later] as usize <= earlier, "{set:?} {earlier} {later}");
        }
    });
    assert!(met.iter().all(|&count| count >= 100), "too few: {met:?}");
}

#[test]
fn both_ways_to_touched_positions_agree() {
    // sequences compared; those that read a position, that write one, that do one of both alone, and that no state admits
    let mut met = [0; 5];
    drawn("touched", 1000, 100, 6, |random, set| {
        let mut all = sequences(set.rules.len(), 2);
        all.extend((0..4).map(|_| (0..random.from_to(3, 6)).map(|_| random.from_to(1, set.rules.len()) as u8).collect()));
        for sequence in &all {
            let by_macro = Touched::by(set, sequence);
            assert_eq!(by_macro, Touched::by_states(set, sequence), "{set:?} {sequence:?}");
            let denied = Run::of(set, sequence).is_none();
            let (reads, writes) = (by_macro.reads != 0, by_macro.writes != 0);
            for (count, is_so) in met.iter_mut().zip([true, reads, writes, reads != writes, denied]) {
                *count += usize::from(is_so);
            }
        }
    });
    assert!(met.iter().all(|&count| count >= 1000), "too few: {met:?}");
}

#[test]
fn both_ways_to_plan_and_steps_agree() {
    drawn("queries", 1500, 200, 5, |random, set| {
        let max_cost = random.pick(&[0, 2, 5, 9, 300, u16::MAX]);
        let query = Query { max_moves: random.from_to(0, 6), max_cost, ..draw::query(random, set) };
        let reach = random.from_to(1, 2);
        let table = built(&Redundancy::new(set, reach));
        if let Some(all) = all_within(set, &query, 20_000) {
            let (listed, by_states) = (plan_among(&all, &query), plan_by_states(set, &query));
            assert_eq!(listed.map(|ran| (&ran.sequence, ran.cost)), by_states.as_ref().map(|ran| (&ran.sequence, ran.cost)), "{set:?} {query:?}");
            let steps = steps_among(&all, set.rules.len(), reach, &table);
            for most in [0, steps - 1, steps, steps + 1, 30_000] {
                assert_eq!(steps_up_to(set, &query, reach, &table, most), steps.min(most + 1), "{set:?} {query:?}");
            }
        }
    });
}

#[test]
fn both_ways_to_the_visits_agree_and_no_plan_is_below_the_floor() {
    // floors of plans that cost something; those below the plan's cost; those where a cheaper plan was not looked at
    let mut met = [0; 3];
    drawn("walks", 3000, 200, 5, |random, set| {
        let max_cost = random.pick(&[2, 5, 9, 300, u16::MAX]);
        let mut query = Query { max_moves: random.from_to(1, 6), max_cost, ..draw::query(random, set) };
        let reach = random.from_to(1, 2);
        let table = built(&Redundancy::new(set, reach));
        let Some(all) = all_within(set, &query, 5_000) else {
            return;
        };
        let visits = visited_among(&all, set.rules.len(), reach, &table);
        assert_eq!(visits.len(), steps_among(&all, set.rules.len(), reach, &table), "{set:?} {query:?}");
        for _ in 0..8 {
            // the end of some sequence, in part, is the goal
            query.goal = random.pick(&visits).state.clone();
            draw::open(random, &mut query.goal);
            let limit = random.from_to(0, visits.len());
            let (looked_at, left) = (visited_up_to(set, &query, reach, &table, limit), &visits[limit..]);
            let listed = |looked_at: &[&Ran]| looked_at.iter().map(|ran| (ran.sequence.clone(), ran.cost)).collect::<Vec<_>>();
            assert_eq!(listed(&looked_at.iter().collect::<Vec<_>>()), listed(&visits[..limit]), "{set:?} {query:?} {limit}");
            if let Some(plan) = plan_looked_at(&looked_at, &query) {
                // "No plan within the bounds costs less than the floor."
                let floor = floor(set, &query, reach, &table, &looked_at, plan);
                let cheapest = plan_among(&all, &query).expect("a plan").cost;
                assert!(floor <= cheapest, "{set:?} {query:?} {limit}");
                // whatever is left is one of those sequences or extends one, and costs no less: the least of all that is left is the same
                assert_eq!(floor, left.iter().map(|ran| ran.cost).fold(plan.cost, u32::min), "{set:?} {query:?} {limit}");
                for (count, is_so) in met.iter_mut().zip([plan.cost > 0, floor < plan.cost, cheapest < plan.cost]) {
                    *count += usize::from(is_so);
                }
            }
        }
    });
    assert!(met.iter().all(|&count| count >= 100), "too few: {met:?}");
}

/// The reason by another way: move by move, and then by its place among all sequences within the bounds. They are in
/// document 01's order, so that the plan is the first of the cheapest that end in the goal.
fn reason_by_list(set: &Set, query: &Query, all: &[Ran], moves: &[u8]) -> Reason {
    if moves.len() > query.max_moves {
        return Reason::OverMoveBound;
    }
    let (mut state, mut cost, mut passes) = (query.start.clone(), 0, None);
    for (place, &number) in moves.iter().enumerate() {
        if !set.rule(number).runs(&state) {
            return Reason::CannotRun { first: place + 1 };
        }
        state = set.rule(number).after(&state);
        cost += set.rule(number).cost;
        passes = passes.or((cost > u32::from(query.max_cost)).then_some(place + 1));
    }
    if let Some(first) = passes {
        return Reason::PassesCostBound { first };
    }
    // "can be run from the start within both bounds" exactly if it is listed
    let own = all.iter().position(|ran| ran.sequence == moves).expect("a sequence within the bounds");
    if let Some(wrong) = (0..state.len()).find(|&i| query.goal[i] != 255 && query.goal[i] != state[i]) {
        return Reason::OffGoal { lowest: wrong + 1 };
    }
    let mut plans: Vec<usize> = (0..all.len()).filter(|&place| meets(&query.goal, &all[place].state)).collect();
    plans.sort_by_key(|&place| (all[place].cost, place));
    match (own, plans[0]) {
        (own, first) if own == first => Reason::IsPlan,
        (own, first) if all[own].cost == all[first].cost => Reason::Later,
        (own, first) => Reason::Dearer { cost: all[own].cost, plan: all[first].cost },
    }
}

/// Whether a proposal has just this segment, or none: of all ways to split it in three, with what is marked in the
/// middle, none ends sooner, and none that ends there is shorter.
fn has_segment(rules: usize, reach: usize, table: &[u16], moves: &[u8], segment: Option<&Segment>) {
    let all = sequences(rules, reach);
    let entry = |middle: &[u8]| all.iter().position(|sequence| sequence == middle).map_or(KEPT, |index| table[index]);
    let splits = (0..moves.len()).flat_map(|from| (from + 1..=moves.len()).map(move |to| (from, to)));
    let marked: Vec<(usize, usize)> = splits.filter(|&(from, to)| entry(&moves[from..to]) != KEPT).collect();
    assert_eq!(segment.is_none(), marked.is_empty(), "{moves:?}");
    assert_eq!(segment.is_none(), unpruned(rules, reach, table, moves), "{moves:?}");
    let Some(Segment { end, length, witness }) = segment else {
        return;
    };
    assert!(marked.contains(&(end - length, *end)), "{moves:?}");
    assert!(marked.iter().all(|&(from, to)| to > *end || to == *end && to - from >= *length), "{moves:?}");
    assert_eq!(all[entry(&moves[end - length..*end]) as usize], *witness, "{moves:?}");
}

/// Whether a sequence may be marked with another: "B costs no less than A, every yard that admits B admits A, and from
/// each of those yards both lead to the same yard", and A is earlier.
fn may_be_marked_with(set: &Set, b: &[u8], a: &[u8]) -> bool {
    let same = |state: &State| set.run(b, state).is_none_or(|end| set.run(a, state) == Some(end));
    set.cost(b) >= set.cost(a) && set.states().iter().all(same) && (a.len(), a) < (b.len(), b)
}

#[test]
fn each_explanation_is_true_and_the_first() {
    // by reason, from 1; with a segment, with one of an accepted table that is not the builder's; 16 or 18; 13
    let mut met = [0; 11];
    drawn("explanations", 2500, 100, 5, |random, set| {
        let read = Ok(set.clone());
        let (mut judged, rules) = (Judged::new(&read), set.rules.len());
        let reach = random.from_to(1, if rules < 4 { 3 } else { 2 });
        let redundancy = Redundancy::new(set, reach);
        let some = draw::some_marks(random, &built(&redundancy));
        let others = draw::other_witnesses(random, &redundancy, &some);
        let table = random.pick(&[built(&redundancy), some, others]);
        let max_cost = random.pick(&[0, 2, 5, 9, 300, u16::MAX]);
        let mut query = Query { max_moves: random.from_to(0, 5), max_cost, ..draw::query(random, set) };
        let Some(all) = all_within(set, &query, 2_000) else {
            return;
        };
        if random.chance(60) {
            query.goal = random.pick(&all).state.clone();
            draw::open(random, &mut query.goal);
        }
        query.step_limit = if random.chance(80) { u32::MAX } else { random.below(all.len()) as u32 };
        let search = Call::Search { rules: writer::write(set), table: bytes(&table), reach, query: query.clone(), plan_length: 32 };
        let searched = judged.expected(&search);
        let plan = &searched.buffer[..searched.length()];
        for _ in 0..8 {
            let any = random.pick(&all).sequence;
            let moves = draw::proposal(random, rules, &[plan, &any]);
            let explained = judged.explained(&search.for_proposal(&moves, 19).expect("a search")).expect("an explanation");
            assert_eq!(explained.outcome as usize, searched.outcome(), "{search} {moves:?}");
            // "a sequence gets "it is the plan" exactly if the search gives it with outcome 0"
            assert_eq!(explained.reason == Some(Reason::IsPlan), searched.outcome() == 0 && moves == plan, "{search} {moves:?}");
            if [16, 18].contains(&searched.outcome()) {
                assert_eq!((explained.reason, explained.segment), (None, None), "{search} {moves:?}");
                met[9] += 1;
            } else {
                let reason = explained.reason.expect("a reason");
                assert_eq!(reason, reason_by_list(set, &query, &all, &moves), "{search} {moves:?}");
                let needs_plan = matches!(reason, Reason::Dearer { .. } | Reason::Later | Reason::IsPlan);
                assert!(searched.outcome() == 0 || !needs_plan, "{search} {moves:?}");
                has_segment(rules, reach, &table, &moves, explained.segment.as_ref());
                // the plan is undropped
                assert!(reason != Reason::IsPlan || explained.segment.is_none(), "{search} {moves:?}");
                if let Some(Segment { end, length, witness }) = &explained.segment {
                    assert!(may_be_marked_with(set, &moves[end - length..*end], witness), "{search} {moves:?}");
                }
                met[number(&reason) - 1] += 1;
                met[7] += usize::from(explained.segment.is_some());
                met[8] += usize::from(explained.segment.is_some() && table != built(&redundancy));
            }
            let unknown = draw::with_unknown_move(random, rules, moves);
            let explained = judged.explained(&search.for_proposal(&unknown, 19).expect("a search")).expect("an explanation");
            assert_eq!((explained.outcome, explained.reason, explained.segment), (13, None, None), "{search} {unknown:?}");
            met[10] += 1;
        }
    });
    assert!(met.iter().all(|&count| count >= 100), "too few: {met:?}");
}

/// The reason's number, in document 02's order from 1.
fn number(reason: &Reason) -> usize {
    match reason {
        Reason::OverMoveBound => 1,
        Reason::CannotRun { .. } => 2,
        Reason::PassesCostBound { .. } => 3,
        Reason::OffGoal { .. } => 4,
        Reason::Dearer { .. } => 5,
        Reason::Later => 6,
        Reason::IsPlan => 7,
    }
}
