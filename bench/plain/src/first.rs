//! The base of pairs as document 01 has it, at first: every pair in the first base, a round that looks at each pair anew and
//! judges by the base as it was when the round began, nothing kept but the base.
use crate::held_pairs::Base;
use crate::index::Index;
use crate::judge::Judge;
use crate::norms::plan_norms;
use crate::region::{split, Rows, ROW};
use crate::table::{Table, JOBS, RULES};

pub fn compare(image: &[u8], left: &[u8], right: &[u8], space: &mut [u8]) -> i32 {
    crate::in_workspace(space, |space| {
        let (table, norms) = crate::checked(image)?;
        plan_norms(&norms, table.jobs, [left, right])?;
        let mut engine = Engine::new(&table, &norms, space);
        engine.settle();
        Ok(i32::from(engine.same(left, right)))
    })
}

pub fn prime_form(image: &[u8], plan: &[u8], out: &mut [u8], space: &mut [u8]) -> i32 {
    crate::prime_form(image, plan, out, space, |table, norms, space| {
        let (rows, space) = split(space);
        let mut rows = Rows::new(rows);
        let mut engine = Engine::new(table, norms, space);
        engine.settle();
        engine.base.prime_rows(&engine.index, &mut rows);
        (rows, engine.remainder)
    })
}

struct Engine<'t, 'a> {
    index: Index<'t>,
    judge: Judge<'a>,
    // a candidate at the end, with room before it for the jobs after a rule
    remainder: &'a mut [u8],
    base: Base,
}

impl<'t, 'a> Engine<'t, 'a> {
    fn new(table: &'t Table, norms: &'t [u16; JOBS], space: &'a mut [u8]) -> Engine<'t, 'a> {
        let (judge, space) = space.split_at_mut(Judge::BYTES);
        let index = Index::new(table, norms, &[true; RULES]);
        let base = Base::new(&index, |_, _| true);
        Engine { index, judge: Judge::new(judge), remainder: &mut space[..4 + ROW], base }
    }

    /// Rounds until one drops nothing.
    fn settle(&mut self) {
        loop {
            let next = self.round();
            if next == self.base {
                return;
            }
            self.base = next;
        }
    }

    /// The pairs that fit.
    fn round(&mut self) -> Base {
        let mut next = self.base;
        for i in 1..self.index.table.jobs {
            let y = self.index.order[i];
            for k in 0..i {
                let held = self.base.ranks(y) >> k & 1 == 1;
                if held && !self.fits(y, self.index.order[k]) {
                    next.drop(y, k as u32);
                }
            }
        }
        next
    }

    /// Whether the moves of y and of x followed by the candidate match both ways.
    fn fits(&mut self, y: u8, x: u8) -> bool {
        let Engine { index, judge, remainder, base } = self;
        let start = 4 + index.candidate(y, x, &mut remainder[4..]);
        let gap = index.norms[y as usize] - index.norms[x as usize];
        let mut matches = |r: u8, s: u8| {
            let (r, s) = (r as usize, s as usize);
            if index.table.action(r) != index.table.action(s) || index.row_norms[r] != index.row_norms[s] + gap {
                return false;
            }
            let row = index.table.after(s);
            let from = start - row.len();
            remainder[from..start].copy_from_slice(row);
            judge.judge(index.table.after(r), &remainder[from..], |u, v, area| base.pair(index, u, v, area))
        };
        let (mine, other) = (index.rules_of(y), index.rules_of(x));
        mine.iter().all(|&r| other.iter().any(|&s| matches(r, s))) && other.iter().all(|&s| mine.iter().any(|&r| matches(r, s)))
    }

    /// Whether two plans are the same, judged by the base.
    fn same(&mut self, left: &[u8], right: &[u8]) -> bool {
        let Engine { index, judge, base, .. } = self;
        judge.judge(left, right, |u, v, area| base.pair(index, u, v, area))
    }
}
