// The work of the program `bench_search` in plain Rust, unproved: the table of a rule file, and a depth-first search with it. Written from document 01 and source documents 000 and 003; it
// shares nothing with the library. It reads queries and files that have no fault, and no position of size 1.
// It knows nothing of a puzzle: a rule runs as its lines stand, entry by entry over the positions in use. Rules are lent, the plan, the best plan and the step count are changed in place, one
// look-up serves all segments that end in the newest rule, and the search ends at the step limit.
use std::io::Read;

// An entry below 16 is that constant; 16 + k is the variable of place k, counted from 0.
type Entries = [u8; 16];

// The constants 0 to 15, and then what each place holds: what an entry stands for is at that index.
type State = [u8; 32];

#[derive(Clone, Copy)]
struct Macro {
    cost: u32,
    admitted: bool,
    condition: Entries,
    effect: Entries,
}

fn entries(list: &str) -> Entries {
    let mut out = [0; 16];
    for (place, item) in list.split(',').enumerate() {
        out[place] = match item.strip_prefix('x') {
            Some(position) => position.parse::<u8>().unwrap() + 15,
            None => item.parse().unwrap(),
        };
    }
    out
}

fn read_in(entry: u8, vector: &Entries) -> u8 {
    if entry < 16 { entry } else { vector[(entry % 16) as usize] }
}

// A sequence with one more rule, by the cases of source document 003, each read in the effect as it now stands.
fn extended(sequence: &Macro, rule: &Macro) -> Macro {
    let mut longer = *sequence;
    longer.cost += rule.cost;
    for place in 0..16 {
        let have = longer.effect[place];
        let want = read_in(rule.condition[place], &longer.effect);
        let (new, old) = (have.min(want), have.max(want));
        if old < 16 {
            longer.admitted &= old == new;
            continue;
        }
        for entry in longer.condition.iter_mut().chain(longer.effect.iter_mut()) {
            if *entry == old {
                *entry = new;
            }
        }
    }
    longer.effect = rule.effect.map(|entry| read_in(entry, &longer.effect));
    longer
}

// Whether each entry of a line, read in b's condition, is what is asked at its place.
fn gives(line: &Entries, b: &Macro, asked: &Entries) -> bool {
    (0..16).all(|place| read_in(line[place], &b.condition) == asked[place])
}

// Whether b is redundant with a: a costs no more, and from each state that admits b it leads to where b does.
fn redundant(b: &Macro, a: &Macro) -> bool {
    a.cost <= b.cost && (!b.admitted || a.admitted && gives(&a.effect, b, &b.effect) && gives(&a.condition, b, &b.condition))
}

// For each sequence of at most `reach` rules, by its index, whether a suffix of it is redundant with an earlier sequence. Of the earlier ones those that are not redundant themselves will do.
fn look_up(own: Entries, rules: &[Macro], reach: usize) -> Vec<bool> {
    let count = rules.len();
    let total: usize = (0..=reach as u32).map(|length| count.pow(length)).sum();
    let mut all = vec![Macro { cost: 0, admitted: true, condition: own, effect: own }];
    let mut kept = all.clone();
    let mut blocked = vec![false];
    let mut without_first = vec![0];
    for index in 1..total {
        let (shorter, newest) = ((index - 1) / count, (index - 1) % count);
        let sequence = extended(&all[shorter], &rules[newest]);
        let suffix = if shorter == 0 { 0 } else { without_first[shorter] * count + newest + 1 };
        let marked = kept.iter().any(|earlier| redundant(&sequence, earlier));
        if !marked {
            kept.push(sequence);
        }
        all.push(sequence);
        without_first.push(suffix);
        blocked.push(marked || blocked[suffix]);
    }
    blocked
}

struct Query<'a> {
    rules: &'a [Macro],
    blocked: &'a [bool],
    goal: &'a [u8],
    positions: usize,
    reach: usize,
    max_cost: u32,
    step_limit: u32,
}

struct Best {
    cost: u32,
    length: usize,
    plan: [u8; 32],
}

struct Progress {
    steps: u32,
    plan: [u8; 32],
    best: Option<Best>,
}

impl Query<'_> {
    fn runs(&self, condition: &Entries, state: &State) -> bool {
        condition[..self.positions].iter().zip(&state[16..]).all(|(entry, held)| state[(entry % 32) as usize] == *held)
    }

    fn after(&self, effect: &Entries, state: &State) -> State {
        let mut next = *state;
        for place in 0..self.positions {
            next[16 + place] = state[(effect[place] % 32) as usize];
        }
        next
    }

    fn meets_goal(&self, state: &State) -> bool {
        self.goal.iter().zip(&state[16..]).all(|(asked, held)| *asked == 255 || asked == held)
    }

    // The place in the look-up of the newest `reach` rules, if rule 1 comes next; the other rules follow.
    fn first_place(&self, plan: &[u8; 32], depth: usize) -> usize {
        let newest = |back: usize| if back <= depth { plan[depth - back] as usize } else { 0 };
        let count = self.rules.len();
        match self.reach {
            1 => 1,
            2 => newest(1) * count + 1,
            _ => (newest(2) * count + newest(1)) * count + 1,
        }
    }

    // Visits the sequence of the first `depth` moves of the plan, which led to the state at that cost, and all that extends it by at most `left` moves; false once the limit is exceeded.
    fn visit(&self, progress: &mut Progress, state: &State, depth: usize, cost: u32, left: usize) -> bool {
        if progress.steps == self.step_limit {
            return false;
        }
        progress.steps += 1;
        if self.meets_goal(state) && progress.best.as_ref().is_none_or(|best| (cost, depth) < (best.cost, best.length)) {
            progress.best = Some(Best { cost, length: depth, plan: progress.plan });
        }
        if left == 0 {
            return true;
        }
        let first = self.first_place(&progress.plan, depth);
        let blocked = &self.blocked[first..first + self.rules.len()];
        for k in 0..blocked.len() {
            if blocked[k] {
                continue;
            }
            let rule = &self.rules[k];
            if self.max_cost < cost + rule.cost || !self.runs(&rule.condition, state) {
                continue;
            }
            progress.plan[depth] = k as u8 + 1;
            let next = self.after(&rule.effect, state);
            if !self.visit(progress, &next, depth + 1, cost + rule.cost, left - 1) {
                return false;
            }
        }
        true
    }
}

// What stands after the sign on a line of the file.
fn given(line: &str) -> &str {
    line.split_once('=').unwrap().1
}

fn main() {
    let mut text = String::new();
    std::io::stdin().read_to_string(&mut text).unwrap();
    let lines: Vec<&str> = text.lines().collect();
    let bounds: Vec<u32> = lines[0].split(' ').map(|number| number.parse().unwrap()).collect();
    let numbers = |line: &str| -> Vec<u8> { line.split(',').map(|number| number.parse().unwrap()).collect() };
    let (start, goal) = (numbers(lines[1]), numbers(lines[2]));
    let positions: usize = given(lines[3]).parse().unwrap();
    let rules: Vec<Macro> = lines[6..]
        .chunks(3)
        .map(|rule| Macro {
            cost: given(rule[0]).parse().unwrap(),
            admitted: true,
            condition: entries(given(rule[1])),
            effect: entries(given(rule[2])),
        })
        .collect();
    let reach = bounds[0] as usize;
    let own = std::array::from_fn(|place| if place < positions { 16 + place as u8 } else { 0 });
    let blocked = look_up(own, &rules, reach);
    let mut state: State = std::array::from_fn(|place| place as u8 % 16);
    state[16..].fill(0);
    state[16..16 + positions].copy_from_slice(&start);
    let query = Query { rules: &rules, blocked: &blocked, goal: &goal, positions, reach, max_cost: bounds[2], step_limit: bounds[3] };
    let mut progress = Progress { steps: 0, plan: [0; 32], best: None };
    let whole = query.visit(&mut progress, &state, 0, 0, bounds[1] as usize);
    let (outcome, cost, plan) = match &progress.best {
        _ if !whole => (16, 0, &[][..]),
        None => (15, 0, &[][..]),
        Some(best) => (0, best.cost, &best.plan[..best.length]),
    };
    println!("read=0\nbuilt=0\noutcome={outcome}\ncost={cost}\nlength={}\nsteps={}", plan.len(), progress.steps);
    for number in plan {
        println!("move={number}");
    }
}
