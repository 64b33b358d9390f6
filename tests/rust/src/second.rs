//! A second comparer, by another method than the library's: equivalences given by decompositions into primes, refined
//! from the coarsest (equal norms) until nothing changes. No pair of jobs is ever kept, and nothing is expanded at a
//! difference.
//!
//! An equivalence is a row of primes for each job; plans are related if their rows, put together, are equal. Refining an
//! equivalence E gives the largest relation of that kind within E whose plans match their moves by E, and match their
//! norm-lowering moves by the new relation. Bisimilarity is within each, and the last, which refining leaves as it is, is
//! a bisimulation. (Czerwinski and Lasota, Fast equivalence-checking for normed context-free processes, 2010.)
//!
//! The answers do not rest on that argument: `certify` checks the last equivalence rule by rule, and play.rs checks that
//! the game tells each two plans apart that are said to be apart.
use crate::table::{norm, Plan, Rule, Table};
use std::collections::BTreeSet;

pub type Rows = Vec<Plan>;

pub struct Second<'t> {
    pub table: &'t Table,
    pub norms: Vec<u64>,
    /// The equivalences, from the coarsest to bisimilarity.
    pub history: Vec<Rows>,
}

pub fn flat(rows: &Rows, plan: &[u8]) -> Plan {
    plan.iter().flat_map(|&j| rows[j as usize].iter().copied()).collect()
}

impl<'t> Second<'t> {
    /// For a table in which every job has a norm.
    pub fn new(table: &'t Table) -> Second<'t> {
        let norms = table.finite_norms().expect("every job has a norm");
        let unit = (0..table.jobs).find(|&j| norms[j] == 1).expect("some job has norm 1") as u8;
        let coarsest = norms.iter().map(|&n| vec![unit; n as usize]).collect();
        let mut second = Second { table, norms, history: vec![coarsest] };
        loop {
            let rows = second.refine(second.bisimilarity());
            if &rows == second.bisimilarity() {
                return second;
            }
            second.history.push(rows);
        }
    }

    pub fn bisimilarity(&self) -> &Rows {
        self.history.last().unwrap()
    }

    /// How many primes there are, bisimilar ones counted once.
    pub fn primes(&self) -> usize {
        (0..).zip(self.bisimilarity()).filter(|(j, row)| **row == [*j]).count()
    }

    pub fn same(&self, p: &[u8], q: &[u8]) -> bool {
        self.form(p) == self.form(q)
    }

    pub fn form(&self, plan: &[u8]) -> Plan {
        flat(self.bisimilarity(), plan)
    }

    pub fn norm(&self, plan: &[u8]) -> u64 {
        norm(&self.norms, plan)
    }

    fn lowers(&self, r: &Rule) -> bool {
        self.norm(&r.after) + 1 == self.norms[r.job as usize]
    }

    fn refine(&self, old: &Rows) -> Rows {
        let mut new: Rows = vec![Vec::new(); self.table.jobs];
        let mut primes = Vec::new();
        let mut order: Vec<u8> = (0..self.table.jobs as u8).collect();
        order.sort_by_key(|&j| (self.norms[j as usize], j));
        for job in order {
            let found = self.rows_that_lower_alike(job, &primes, &new).into_iter().find(|w| self.matched(job, w, old, &new));
            new[job as usize] = found.unwrap_or_else(|| {
                primes.push(job);
                vec![job]
            });
        }
        new
    }

    /// The rows of primes that can follow one norm-lowering move of the job: any row that is related to it is among them.
    fn rows_that_lower_alike(&self, job: u8, primes: &[u8], new: &Rows) -> Vec<Plan> {
        let lowering = self.table.rules_of(job).filter(|r| self.lowers(r)).last().expect("some rule lowers the norm");
        let target = flat(new, &lowering.after);
        let mut rows = Vec::new();
        for &p in primes {
            for s in self.table.rules_of(p).filter(|s| s.action == lowering.action && self.lowers(s)) {
                if let Some(rest) = target.strip_prefix(&flat(new, &s.after)[..]) {
                    rows.push([&[p], rest].concat());
                }
            }
        }
        rows
    }

    /// The moves of a job with others behind it, each remainder as its row; only those that lower the norm, if asked so.
    fn remainders(&self, job: u8, behind: &[u8], rows: &Rows, lowering_only: bool) -> BTreeSet<(u16, Plan)> {
        let rules = self.table.rules_of(job).filter(|r| !lowering_only || self.lowers(r));
        rules.map(|r| (r.action, flat(rows, &[&r.after, behind].concat()))).collect()
    }

    fn matched(&self, job: u8, row: &[u8], old: &Rows, new: &Rows) -> bool {
        let alike = |rows, lowering_only| {
            self.remainders(job, &[], rows, lowering_only) == self.remainders(row[0], &row[1..], rows, lowering_only)
        };
        flat(old, &[job]) == flat(old, row) && alike(old, false) && alike(new, true)
    }

    /// Checks that the pairs of a job and its row are a self-bisimulation: each move of either side is matched by an equal
    /// move of the other, and the remainders are joined by putting rows for jobs. Then every two plans of equal rows are
    /// bisimilar, however the rows were found.
    pub fn certify(&self) -> Result<(), String> {
        let rows = self.bisimilarity();
        for (job, row) in rows.iter().enumerate() {
            if row.is_empty() || row.iter().any(|&p| rows[p as usize] != [p]) {
                return Err(format!("the row of job {job} is not made of primes"));
            }
            let (left, right) = (self.table.moves(&[job as u8]), self.table.moves(row));
            let answered =
                |(a, p): &(u16, Plan), by: &[(u16, Plan)]| by.iter().any(|(b, q)| a == b && flat(rows, p) == flat(rows, q));
            if !left.iter().all(|m| answered(m, &right)) || !right.iter().all(|m| answered(m, &left)) {
                return Err(format!("job {job} and its row {row:?} do not match"));
            }
        }
        Ok(())
    }
}
