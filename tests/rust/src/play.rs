//! The game that tells two plans apart. The opener makes a move of either plan, the other side answers with an equal move
//! of the other plan, and the opener has won once there is no answer.
//!
//! The second comparer's history gives the opener's choice and a measure; `told_apart` replays the choice by the moves of
//! the definition against every answer and checks that the measure falls, so that each play ends.
use crate::rng::Rng;
use crate::second::{flat, Rows, Second};
use crate::table::Plan;
use std::collections::HashSet;

/// How far the answers were replayed.
#[derive(Debug, PartialEq, Eq)]
pub enum Replay {
    Every,
    Some,
}

struct Choice {
    on_left: bool,
    action: u16,
    rest: Plan,
}

type Position = (Plan, Plan);
type Measure = (usize, u64);

impl Second<'_> {
    /// The first equivalence of the history that holds two plans apart, then a norm. None: the plans are the same.
    fn measure(&self, p: &[u8], q: &[u8]) -> Option<Measure> {
        let (m, n) = (self.norm(p), self.norm(q));
        let rank = self.history.iter().position(|rows| flat(rows, p) != flat(rows, q))?;
        Some((rank, m.min(n)))
    }

    fn choose(&self, p: &[u8], q: &[u8]) -> Option<Choice> {
        let (rank, _) = self.measure(p, q)?;
        if rank == 0 {
            return self.lower_the_lesser(p, q);
        }
        let sides = [(true, p, q), (false, q, p)];
        sides
            .iter()
            .find_map(|&(on_left, mine, other)| self.unanswered(on_left, mine, other, &self.history[rank - 1], false))
            .or_else(|| {
                sides.iter().find_map(|&(on_left, mine, other)| self.unanswered(on_left, mine, other, &self.history[rank], true))
            })
    }

    /// Norms differ: the plan of lesser norm goes to its end, and then the other still has a move.
    fn lower_the_lesser(&self, p: &[u8], q: &[u8]) -> Option<Choice> {
        let on_left = q.is_empty() || !p.is_empty() && self.norm(p) < self.norm(q);
        let (mine, other) = if on_left { (p, q) } else { (q, p) };
        let moves = self.table.moves(mine).into_iter();
        let lowering = |rest: &Plan| other.is_empty() || self.norm(rest) + 1 == self.norm(mine);
        moves.map(|(action, rest)| Choice { on_left, action, rest }).find(|c| lowering(&c.rest))
    }

    /// A move of `mine` to which every equal move of `other` leaves unequal rows; only norm-lowering moves, if asked so.
    fn unanswered(&self, on_left: bool, mine: &[u8], other: &[u8], rows: &Rows, lowering_only: bool) -> Option<Choice> {
        let lowers = |rest: &Plan, plan: &[u8]| !lowering_only || self.norm(rest) + 1 == self.norm(plan);
        let answers: Vec<(u16, Plan)> =
            self.table.moves(other).into_iter().filter(|(_, q)| lowers(q, other)).map(|(a, q)| (a, flat(rows, &q))).collect();
        let moves = self.table.moves(mine).into_iter().filter(|(_, p)| lowers(p, mine));
        let mut free = moves.filter(|(a, p)| {
            let row = flat(rows, p);
            !answers.iter().any(|(b, q)| a == b && *q == row)
        });
        free.next().map(|(action, rest)| Choice { on_left, action, rest })
    }

    /// The positions that the other side can answer the opener's move with; an error if the opener has no good move.
    fn answers(&self, p: &[u8], q: &[u8]) -> Result<Vec<Position>, String> {
        let measure = self.measure(p, q).ok_or(format!("{p:?} and {q:?} are reached and the same"))?;
        let choice = self.choose(p, q).ok_or(format!("no move tells {p:?} and {q:?} apart"))?;
        let (mine, other) = if choice.on_left { (p, q) } else { (q, p) };
        if !self.table.moves(mine).contains(&(choice.action, choice.rest.clone())) {
            return Err(format!("the opener makes no move of {mine:?}"));
        }
        let mut positions = Vec::new();
        for (_, answer) in self.table.moves(other).into_iter().filter(|m| m.0 == choice.action) {
            let next = if choice.on_left { (choice.rest.clone(), answer) } else { (answer, choice.rest.clone()) };
            match self.measure(&next.0, &next.1) {
                Some(m) if m < measure => positions.push(next),
                _ => return Err(format!("from {p:?} and {q:?} to {:?} and {:?} the measure does not fall", next.0, next.1)),
            }
        }
        Ok(positions)
    }

    /// Replays the opener's choices against every answer, or, where the positions are more than the budget, against random ones.
    pub fn told_apart(&self, p: &[u8], q: &[u8], budget: usize, rng: &mut Rng) -> Result<Replay, String> {
        let mut seen: HashSet<Position> = HashSet::new();
        let mut open = vec![(p.to_vec(), q.to_vec())];
        while let Some((p, q)) = open.pop() {
            if seen.len() == budget {
                return self.plays(&p, &q, rng);
            }
            open.extend(self.answers(&p, &q)?.into_iter().filter(|n| !seen.contains(n)));
            seen.insert((p, q));
        }
        Ok(Replay::Every)
    }

    fn plays(&self, p: &[u8], q: &[u8], rng: &mut Rng) -> Result<Replay, String> {
        for _ in 0..3 {
            let (mut p, mut q) = (p.to_vec(), q.to_vec());
            loop {
                let mut next = self.answers(&p, &q)?;
                if next.is_empty() {
                    break;
                }
                (p, q) = next.swap_remove(rng.below(next.len()));
            }
        }
        Ok(Replay::Some)
    }
}
