//! Document 02, 2026-06: "A shunter types a sequence with a query and wants to know why the planner did not show it."
//! That sequence is the proposal here. Each reason is asked of the whole proposal, and of the marked segments, which are
//! document 02's stretches, all are listed.

use super::model::Set;
use super::search::meets;
use super::sequences::{index, sequences};
use super::table::{entries, KEPT};
use super::{bare, Judged};
use crate::calls::{Answer, Query};

/// "The answer is the first that holds", in this order. "Moves count from 1", and so do positions.
#[derive(Clone, Debug, PartialEq)]
pub enum Reason {
    /// "it is over the move bound"
    OverMoveBound,
    /// "it cannot be run, with the first move that fails"
    CannotRun { first: usize },
    /// "it passes the cost bound, with the first move that does"
    PassesCostBound { first: usize },
    /// "it ends off the goal, with the lowest wrong position"
    OffGoal { lowest: usize },
    /// "it is dearer than the plan, with both costs"
    Dearer { cost: u32, plan: u32 },
    /// "it is equally cheap but later in the order"
    Later,
    /// "it is the plan"
    IsPlan,
}

/// A marked segment of the proposal: the number of its last move, its length, and "its witness" as rule numbers.
#[derive(Clone, Debug, PartialEq)]
pub struct Segment {
    pub end: usize,
    pub length: usize,
    pub witness: Vec<u8>,
}

/// "0 or 15 stands beside the reason": every other outcome has none, and no segment.
#[derive(Clone, Debug, PartialEq)]
pub struct Explained {
    pub outcome: u8,
    pub reason: Option<Reason>,
    pub segment: Option<Segment>,
}

/// A proposal beside its query, and the plan with its cost, if there is one.
struct Proposal<'a> {
    set: &'a Set,
    query: &'a Query,
    plan: Option<(&'a [u8], u32)>,
    moves: &'a [u8],
}

impl Proposal<'_> {
    /// The first of the seven that holds.
    fn reason(&self) -> Reason {
        let in_order: [fn(&Self) -> Option<Reason>; 7] =
            [Self::over_move_bound, Self::cannot_run, Self::passes_cost_bound, Self::off_goal, Self::dearer, Self::later, Self::is_plan];
        in_order.iter().find_map(|holds| holds(self)).expect("one of them holds")
    }

    /// The number of the first move with which this holds of the moves up to it, if it holds of them all.
    fn first_move(&self, holds: impl Fn(&[u8]) -> bool) -> Option<usize> {
        holds(self.moves).then(|| (1..=self.moves.len()).find(|&front| holds(&self.moves[..front])).expect("the last, if no other"))
    }

    fn over_move_bound(&self) -> Option<Reason> {
        (self.moves.len() > self.query.max_moves).then_some(Reason::OverMoveBound)
    }

    fn cannot_run(&self) -> Option<Reason> {
        let fails = |front: &[u8]| self.set.run(front, &self.query.start).is_none();
        self.first_move(fails).map(|first| Reason::CannotRun { first })
    }

    fn passes_cost_bound(&self) -> Option<Reason> {
        let passes = |front: &[u8]| self.set.cost(front) > u32::from(self.query.max_cost);
        self.first_move(passes).map(|first| Reason::PassesCostBound { first })
    }

    fn off_goal(&self) -> Option<Reason> {
        let (end, goal) = (self.set.run(self.moves, &self.query.start)?, &self.query.goal);
        (1..=goal.len()).find(|&front| !meets(&goal[..front], &end[..front])).map(|lowest| Reason::OffGoal { lowest })
    }

    fn dearer(&self) -> Option<Reason> {
        let (cost, (_, plan)) = (self.set.cost(self.moves), self.plan?);
        (cost > plan).then_some(Reason::Dearer { cost, plan })
    }

    /// Document 01: "fewer rules first; at equal length, the smaller rule number at the first difference".
    fn later(&self) -> Option<Reason> {
        let (plan, cost) = self.plan?;
        let is_later = (self.moves.len(), self.moves) > (plan.len(), plan);
        (self.set.cost(self.moves) == cost && is_later).then_some(Reason::Later)
    }

    fn is_plan(&self) -> Option<Reason> {
        let (plan, _) = self.plan?;
        (self.moves == plan).then_some(Reason::IsPlan)
    }
}

/// The marked segments of some moves, each with its end and its length; by the table that is brought, wherever they
/// stand.
pub fn marked_segments(rules: usize, reach: usize, entries: &[u16], moves: &[u8]) -> Vec<(usize, usize)> {
    let of_length = |length: usize| (length..=moves.len()).map(move |end| (end, length));
    let marked = |&(end, length): &(usize, usize)| entries[index(rules, &moves[end - length..end])] != KEPT;
    (1..=reach).flat_map(of_length).filter(marked).collect()
}

/// "Where a stretch of it is marked, the answer also carries the marked stretch that ends soonest, the shorter at equal
/// end, and its witness."
fn segment(rules: usize, reach: usize, entries: &[u16], moves: &[u8]) -> Option<Segment> {
    let (end, length) = marked_segments(rules, reach, entries, moves).into_iter().min()?;
    let witness = entries[index(rules, &moves[end - length..end])];
    Some(Segment { end, length, witness: sequences(rules, reach)[witness as usize].clone() })
}

/// "Checks: no plan buffer is lent, so 12 is never given; 13 goes after 14": the search is asked with room for 32 moves,
/// and 13 comes before its 18, 16, 15 and 0. "If the search gives 18 or 16, that outcome stands alone".
pub fn explain(judged: &mut Judged, table: &[u8], reach: usize, query: &Query, moves: &[u8]) -> Explained {
    let found = judged.beside(table, reach, query);
    let alone = |outcome: u8| Explained { outcome, reason: None, segment: None };
    let (Ok(set), 0 | 15 | 16 | 18) = (judged.set, found.outcome) else {
        return alone(found.outcome);
    };
    if moves.iter().any(|&number| number == 0 || number as usize > set.rules.len()) {
        return alone(13);
    }
    if let 16 | 18 = found.outcome {
        return alone(found.outcome);
    }
    let proposal = Proposal { set, query, plan: found.cheapest(), moves };
    let segment = segment(set.rules.len(), reach, &entries(table), moves);
    Explained { outcome: found.outcome, reason: Some(proposal.reason()), segment }
}

impl Explained {
    /// The outcome, and the header's 19 bytes: reason, place, cost 2, the plan's cost 2, the segment's end 8, its
    /// length, the witness's length, the witness 3, each number low byte first; zeros after them. "A refused
    /// explanation names no move, no stretch and no cost": zeros throughout. A shorter buffer has zeros too.
    pub fn answer(&self, out_length: usize) -> Answer {
        let (reason, place, cost, plan) = match self.reason {
            None => (0, 0, 0, 0),
            Some(Reason::OverMoveBound) => (1, 0, 0, 0),
            Some(Reason::CannotRun { first }) => (2, first, 0, 0),
            Some(Reason::PassesCostBound { first }) => (3, first, 0, 0),
            Some(Reason::OffGoal { lowest }) => (4, lowest, 0, 0),
            Some(Reason::Dearer { cost, plan }) => (5, 0, cost, plan),
            Some(Reason::Later) => (6, 0, 0, 0),
            Some(Reason::IsPlan) => (7, 0, 0, 0),
        };
        let mut buffer = vec![reason, place as u8];
        buffer.extend([cost as u16, plan as u16].map(u16::to_le_bytes).concat());
        if let Some(segment) = &self.segment {
            buffer.extend((segment.end as u64).to_le_bytes());
            buffer.extend([segment.length as u8, segment.witness.len() as u8]);
            buffer.extend(&segment.witness);
        }
        if out_length < 19 {
            buffer.clear();
        }
        buffer.resize(out_length, 0);
        bare(self.outcome, buffer)
    }
}
