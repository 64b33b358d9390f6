//! The judge of two plans by a base: expansions, the leftmost difference, one replacement a turn.
use crate::region::{split, Rows, ROW};
use crate::table::JOBS;

enum Difference {
    Equal,
    Ends,
    At(u8, u8),
}

fn first_difference(rows: &Rows, p: &[u8], q: &[u8]) -> Difference {
    let mut right: &[u8] = &[];
    let mut at = 0;
    let mut next = 0;
    for &j in p {
        for &x in rows.of(j) {
            if at == right.len() {
                if next == q.len() {
                    return Difference::Ends;
                }
                right = rows.of(q[next]);
                next += 1;
                at = 0;
            }
            if x != right[at] {
                return Difference::At(x, right[at]);
            }
            at += 1;
        }
    }
    if at == right.len() && next == q.len() {
        Difference::Equal
    } else {
        Difference::Ends
    }
}

pub struct Judge<'a> {
    rows: Rows<'a>,
    replaced: [u8; JOBS],
    count: usize,
    candidate: &'a mut [u8],
    by: &'a mut [u8],
    row: &'a mut [u8],
}

impl<'a> Judge<'a> {
    pub const BYTES: usize = ROW * JOBS + 3 * ROW;

    pub fn new(space: &'a mut [u8]) -> Judge<'a> {
        let (rows, space) = split(space);
        let (candidate, space) = space.split_at_mut(ROW);
        let (by, row) = space.split_at_mut(ROW);
        Judge { rows: Rows::new(rows), replaced: [0; JOBS], count: 0, candidate, by, row }
    }

    /// Whether two plans of equal norm are judged the same. Given two different jobs, `pair` says whether the left is the
    /// greater and writes the candidate of their pair to the end of an area, whose start it gives; or None if the pair is
    /// not held.
    pub fn judge(&mut self, p: &[u8], q: &[u8], pair: impl Fn(u8, u8, &mut [u8]) -> Option<(bool, usize)>) -> bool {
        let same = loop {
            match first_difference(&self.rows, p, q) {
                Difference::Equal => break true,
                Difference::Ends => break false,
                Difference::At(u, v) => {
                    let Some((left_greater, start)) = pair(u, v, self.candidate) else { break false };
                    let (y, x) = if left_greater { (u, v) } else { (v, u) };
                    self.replace(y, x, start);
                }
            }
        };
        self.reset();
        same
    }

    /// The job y replaced everywhere by x and the expansion of the candidate.
    fn replace(&mut self, y: u8, x: u8, start: usize) {
        self.by[0] = x;
        let len = 1 + self.rows.expand(&self.candidate[start..], &mut self.by[1..]);
        for i in 0..self.count {
            self.rewrite(self.replaced[i], y, len);
        }
        self.rows.set(y, &self.by[..len]);
        self.replaced[self.count] = y;
        self.count += 1;
    }

    fn rewrite(&mut self, job: u8, y: u8, len: usize) {
        if !self.rows.of(job).contains(&y) {
            return;
        }
        let mut at = 0;
        for &x in self.rows.of(job) {
            if x == y {
                self.row[at..at + len].copy_from_slice(&self.by[..len]);
                at += len;
            } else {
                self.row[at] = x;
                at += 1;
            }
        }
        self.rows.set(job, &self.row[..at]);
    }

    fn reset(&mut self) {
        for &j in &self.replaced[..self.count] {
            self.rows.set(j, &[j]);
        }
        self.count = 0;
    }
}
