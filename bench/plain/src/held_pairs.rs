//! A base of pairs of jobs: a job, and a lesser one with the candidate behind it.
use crate::index::Index;
use crate::region::{Rows, ROW};
use crate::table::JOBS;

impl Index<'_> {
    /// Writes the candidate of a pair at the end of an area: the plan that y reaches by norm-of-x steps, each lowering
    /// the norm by one. Its start.
    pub fn candidate(&self, y: u8, x: u8, area: &mut [u8]) -> usize {
        let mut start = area.len() - 1;
        area[start] = y;
        let mut left = self.norms[x as usize];
        while left > 0 {
            let head = area[start] as usize;
            start += 1;
            if self.norms[head] <= left {
                left -= self.norms[head];
            } else {
                let row = self.table.after(self.lowering[head] as usize);
                start -= row.len();
                for (to, &j) in area[start..].iter_mut().zip(row) {
                    *to = j;
                }
                left -= 1;
            }
        }
        start
    }
}

/// For each job a bit for the rank of each job that it is paired with.
#[derive(Clone, Copy, PartialEq, Eq)]
pub struct Base([u32; JOBS]);

impl Base {
    /// Each job with each job that precedes it and that the test lets pass.
    pub fn new(index: &Index, test: impl Fn(u8, u8) -> bool) -> Base {
        let mut base = Base([0; JOBS]);
        for i in 1..index.table.jobs {
            let y = index.order[i];
            for k in (0..i).filter(|&k| test(y, index.order[k])) {
                base.0[y as usize] |= 1 << k;
            }
        }
        base
    }

    /// The ranks of the jobs that a job is paired with, as bits.
    pub fn ranks(&self, y: u8) -> u32 {
        self.0[y as usize]
    }

    pub fn drop(&mut self, y: u8, rank: u32) {
        self.0[y as usize] &= !(1 << rank);
    }

    /// If the pair of two jobs is held: whether the left is the greater, and where the candidate starts that is written to
    /// the end of an area.
    pub fn pair(&self, index: &Index, u: u8, v: u8, area: &mut [u8]) -> Option<(bool, usize)> {
        let left_greater = index.rank[u as usize] > index.rank[v as usize];
        let (y, x) = if left_greater { (u, v) } else { (v, u) };
        let is_held = self.ranks(y) >> index.rank[x as usize] & 1 == 1;
        is_held.then(|| (left_greater, index.candidate(y, x, area)))
    }

    /// Each job as a row of primes: itself, or the first job that it is paired with and the candidate's rows.
    pub fn prime_rows(&self, index: &Index, rows: &mut Rows) {
        for &y in &index.order[..index.table.jobs] {
            if self.ranks(y) == 0 {
                continue;
            }
            let x = index.order[self.ranks(y).trailing_zeros() as usize];
            let mut area = [0; ROW];
            let start = index.candidate(y, x, &mut area);
            let mut row = [0; ROW];
            row[0] = x;
            let len = 1 + rows.expand(&area[start..], &mut row[1..]);
            rows.set(y, &row[..len]);
        }
    }
}
