//! Complete runs of plans by the definition, and such as only one of two plans has.
use crate::first_run::first_run;
use crate::logs::Log;
use crate::shapes::Made;
use crate::table::Plan;
use std::collections::{BTreeMap, BTreeSet, HashSet, VecDeque};

/// The complete runs of a plan with at most so many moves. None: more than the most plans are reached by runs of one length.
pub fn complete_runs(made: &Made, plan: &[u8], moves: u64, most: usize) -> Option<BTreeSet<Log>> {
    let mut found = BTreeSet::new();
    let mut reached = BTreeSet::from([(Log::new(), plan.to_vec())]);
    for left in (0..=moves).rev() {
        let mut next = BTreeSet::new();
        for (log, plan) in reached {
            for (action, rest) in made.table.moves(&plan) {
                if made.norm(&rest) < left {
                    next.insert(([&log[..], &[action]].concat(), rest));
                }
            }
            if plan.is_empty() {
                found.insert(log);
            }
        }
        if next.len() > most {
            return None;
        }
        reached = next;
    }
    Some(found)
}

/// What comes of walking two plans along equal moves.
pub enum Walk {
    /// A complete run that only one of them has, and whether it is the left one.
    Differ { run: Log, on_left: bool },
    /// All pairs of plans that are reached have one norm each and can make the same moves.
    Alike,
    /// More pairs are reached than the most.
    TooFar,
}

/// For a table without a choice of outcome, where a run leads to one plan. Once one plan of a pair can be ended by fewer moves than
/// the other, or can make a move that the other cannot, the moves so far, and these that end it, are a complete run of one alone.
pub fn walked(made: &Made, left: &[u8], right: &[u8], most: usize) -> Walk {
    let mut open = VecDeque::from([(Log::new(), left.to_vec(), right.to_vec())]);
    let mut seen = HashSet::new();
    while let Some((log, p, q)) = open.pop_front() {
        let ended = |plan: &[u8]| first_run(&made.table, &made.norms, plan);
        if made.norm(&p) != made.norm(&q) {
            let on_left = made.norm(&p) < made.norm(&q);
            return Walk::Differ { run: [log, ended(if on_left { &p } else { &q })].concat(), on_left };
        }
        let [of_p, of_q] = [&p, &q].map(|plan| made.table.moves(plan).into_iter().collect::<BTreeMap<u16, Plan>>());
        for (on_left, mine, other) in [(true, &of_p, &of_q), (false, &of_q, &of_p)] {
            if let Some((action, rest)) = mine.iter().find(|(action, _)| !other.contains_key(action)) {
                return Walk::Differ { run: [log, vec![*action], ended(rest)].concat(), on_left };
            }
        }
        for (action, rest) in of_p {
            let other = of_q[&action].clone();
            if seen.insert((rest.clone(), other.clone())) {
                open.push_back(([&log[..], &[action]].concat(), rest, other));
            }
        }
        if seen.len() > most {
            return Walk::TooFar;
        }
    }
    Walk::Alike
}
