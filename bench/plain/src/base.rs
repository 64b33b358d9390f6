//! The base of pairs, refined by rounds until one drops nothing, with every choice of speed.
use crate::held_pairs::Base;
use crate::index::{Index, NO_RULE};
use crate::judge::Judge;
use crate::region::{split, Rows, ROW};
use crate::table::{Table, JOBS, RULES};

pub fn compare(image: &[u8], left: &[u8], right: &[u8], space: &mut [u8]) -> i32 {
    crate::compare(image, left, right, space, prime_rows)
}

pub fn prime_form(image: &[u8], plan: &[u8], out: &mut [u8], space: &mut [u8]) -> i32 {
    crate::prime_form(image, plan, out, space, prime_rows)
}

/// The prime rows, and an area that is free then.
fn prime_rows<'a>(table: &Table, norms: &[u16; JOBS], space: &'a mut [u8]) -> (Rows<'a>, &'a mut [u8]) {
    let mut engine = Engine::new(table, norms, space);
    while engine.round() {}
    engine.base.prime_rows(&engine.index, &mut engine.forms);
    (engine.forms, engine.failed)
}

const FAILED: usize = RULES * 32;

/// A pair of jobs, with the place at which its candidate starts.
struct Pair {
    y: u8,
    x: u8,
    start: usize,
}

struct Engine<'t, 'a> {
    index: Index<'t>,
    judge: Judge<'a>,
    forms: Rows<'a>,
    // a candidate at the end, with room before it for the jobs after a rule
    remainder: &'a mut [u8],
    // a bit for each two rules: once judged apart, apart by every later base
    failed: &'a mut [u8],
    // for each job and each rule of another: the rule of the job that matched it last
    witness: &'a mut [u8],
    base: Base,
}

impl<'t, 'a> Engine<'t, 'a> {
    fn new(table: &'t Table, norms: &'t [u16; JOBS], space: &'a mut [u8]) -> Engine<'t, 'a> {
        let (judge, space) = space.split_at_mut(Judge::BYTES);
        let (forms, space) = split(space);
        let (remainder, space) = space.split_at_mut(4 + ROW);
        let (failed, space) = space.split_at_mut(FAILED);
        let witness = &mut space[..JOBS * RULES];
        failed.fill(0);
        witness.fill(NO_RULE);
        let index = Index::new(table, norms, &[true; RULES]);
        let marks = index.marks();
        let base = Base::new(&index, |y, x| marks[x as usize] == marks[y as usize]);
        Engine { index, judge: Judge::new(judge), forms: Rows::new(forms), remainder, failed, witness, base }
    }

    /// Drops each pair that does not fit, at once; whether one was dropped.
    fn round(&mut self) -> bool {
        let mut dropped = false;
        for i in 1..self.index.table.jobs {
            let y = self.index.order[i];
            let mut bits = self.base.ranks(y);
            while bits != 0 {
                let k = bits.trailing_zeros();
                bits &= bits - 1;
                if !self.fits(y, self.index.order[k as usize]) {
                    self.base.drop(y, k);
                    dropped = true;
                }
            }
        }
        dropped
    }

    /// Whether the moves of y and of x followed by the candidate match both ways.
    fn fits(&mut self, y: u8, x: u8) -> bool {
        let start = 4 + self.index.candidate(y, x, &mut self.remainder[4..]);
        let pair = Pair { y, x, start };
        let mut answered = [0u64; 4];
        for i in self.index.starts[y as usize]..self.index.starts[y as usize + 1] {
            let r = self.index.grouped[i as usize];
            let Some(s) = self.find(&pair, r, true) else { return false };
            answered[s as usize / 64] |= 1 << (s % 64);
        }
        for i in self.index.starts[x as usize]..self.index.starts[x as usize + 1] {
            let s = self.index.grouped[i as usize];
            let done = answered[s as usize / 64] >> (s % 64) & 1 == 1;
            if !done && self.find(&pair, s, false).is_none() {
                return false;
            }
        }
        true
    }

    /// A rule of the pair's other job that matches the rule: the last witness if it still does, else the first.
    fn find(&mut self, pair: &Pair, rule: u8, of_greater: bool) -> Option<u8> {
        let other = if of_greater { pair.x } else { pair.y };
        let at = other as usize * RULES + rule as usize;
        let last = self.witness[at];
        if last != NO_RULE && self.matches(pair, rule, last, of_greater) {
            return Some(last);
        }
        for i in self.index.starts[other as usize]..self.index.starts[other as usize + 1] {
            let s = self.index.grouped[i as usize];
            if s != last && self.matches(pair, rule, s, of_greater) {
                self.witness[at] = s;
                return Some(s);
            }
        }
        None
    }

    /// Equal moves, equal norms, and the remainders judged the same.
    fn matches(&mut self, pair: &Pair, rule: u8, other: u8, of_greater: bool) -> bool {
        let table = self.index.table;
        if table.action(rule as usize) != table.action(other as usize) {
            return false;
        }
        let (r, s) = if of_greater { (rule as usize, other as usize) } else { (other as usize, rule as usize) };
        let norms = self.index.norms;
        let behind = norms[pair.y as usize] - norms[pair.x as usize];
        if self.index.row_norms[r] != self.index.row_norms[s] + behind {
            return false;
        }
        let (at, bit) = (r * 32 + s / 8, 1 << (s % 8));
        if self.failed[at] & bit != 0 {
            return false;
        }
        let row = table.after(s);
        let from = pair.start - row.len();
        for (to, &j) in self.remainder[from..pair.start].iter_mut().zip(row) {
            *to = j;
        }
        let (index, base) = (&self.index, &self.base);
        let same = self.judge.judge(table.after(r), &self.remainder[from..], |u, v, area| base.pair(index, u, v, area));
        if !same {
            self.failed[at] |= bit;
        }
        same
    }
}
