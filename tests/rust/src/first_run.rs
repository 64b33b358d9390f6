//! Shortest runs of a plan, move after move: all plans that are reached by the same moves at once, as Earley's parser holds them.
//!
//! What is left of such a plan is a chain of rows that are begun: of each, whose place it takes and what waits in it. Plans share
//! their rows, so that at a place of the run there are no more of them than jobs in the rules. The first run makes at each place the
//! least move that any of the plans can make. No run of a job is kept, and no two runs are compared.
use crate::table::{norm, Rule, Table};
use std::collections::{BTreeMap, BTreeSet};

/// The job that a row has replaced, and the place of the run at which it began; none for the plan itself.
type Owner = Option<(u8, usize)>;

/// For each job that can move at a place: the rows that wait for its end, each as its owner and the jobs behind.
type Place<'t> = BTreeMap<u8, BTreeSet<(Owner, &'t [u8])>>;

/// All plans that are reached by the moves so far, each of which lowered the norm.
pub struct Reached<'t> {
    // of each job the rules that lower its norm
    lowering: Vec<Vec<&'t Rule>>,
    places: Vec<Place<'t>>,
}

impl<'t> Reached<'t> {
    pub fn new(table: &'t Table, norms: &[u64], plan: &'t [u8]) -> Reached<'t> {
        let lowers = |r: &&Rule| norm(norms, &r.after) + 1 == norms[r.job as usize];
        let lowering = (0..table.jobs as u8).map(|j| table.rules_of(j).filter(lowers).collect()).collect();
        let mut reached = Reached { lowering, places: Vec::new() };
        reached.open(vec![(None, plan)]);
        reached
    }

    /// A new place: rows from there on. Where nothing of a row is left its owner has ended, and all rows go on that waited for it.
    fn open(&mut self, mut rows: Vec<(Owner, &'t [u8])>) {
        let mut place = Place::new();
        let mut ended = BTreeSet::new();
        while let Some((owner, row)) = rows.pop() {
            match (row, owner) {
                (&[job, ref behind @ ..], _) => {
                    place.entry(job).or_default().insert((owner, behind));
                }
                ([], Some((job, from))) if ended.insert((job, from)) => rows.extend(&self.places[from][&job]),
                _ => {}
            }
        }
        self.places.push(place);
    }

    fn rules(&self) -> impl Iterator<Item = &'t Rule> + '_ {
        self.places[self.places.len() - 1].keys().flat_map(|&j| self.lowering[j as usize].iter().copied())
    }

    /// The moves that can follow on a shortest run.
    pub fn moves(&self) -> BTreeSet<u16> {
        self.rules().map(|r| r.action).collect()
    }

    pub fn make(&mut self, action: u16) {
        let here = self.places.len() - 1;
        let rows = self.rules().filter(|r| r.action == action).map(|r| (Some((r.job, here)), &r.after[..])).collect();
        self.open(rows);
    }
}

/// The first shortest run of a plan in dictionary order of move numbers.
pub fn first_run(table: &Table, norms: &[u64], plan: &[u8]) -> Vec<u16> {
    let mut reached = Reached::new(table, norms, plan);
    let mut run = Vec::new();
    while let Some(&least) = reached.moves().first() {
        reached.make(least);
        run.push(least);
    }
    run
}

/// Moves as they are written.
pub fn bytes_of(run: &[u16]) -> Vec<u8> {
    run.iter().flat_map(|action| action.to_le_bytes()).collect()
}

/// All runs of so many moves to the empty plan, whatever they do to the norm.
pub fn all_runs(table: &Table, plan: &[u8], moves: usize) -> Vec<Vec<u16>> {
    if plan.is_empty() && moves == 0 {
        return vec![Vec::new()];
    }
    if plan.is_empty() || plan.len() > moves {
        return Vec::new(); // each job makes a move at least
    }
    let mut runs = Vec::new();
    for (action, rest) in table.moves(plan) {
        runs.extend(all_runs(table, &rest, moves - 1).into_iter().map(|run| [vec![action], run].concat()));
    }
    runs
}
