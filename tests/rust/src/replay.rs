//! Logs replayed by the definition: all plans that are reached after each move, one beside the other. No places of a log are
//! kept for a job, and nothing is worked out from the log's end.
//!
//! Of a plan only its first jobs are held, one more than moves are left: each job makes a move at least, so that those behind
//! them wait whatever happens, and the last of them says that the plan is not at its end.
use crate::table::{Plan, Rule, Table};
use std::collections::HashSet;

/// The answer about a log on a plan. None: more plans than the most are reached at once.
pub fn by_plans(table: &Table, plan: &[u8], log: &[u16], most: usize) -> Option<i32> {
    let rules: Vec<Vec<&Rule>> = (0..table.jobs as u8).map(|j| table.rules_of(j).collect()).collect();
    let mut plans = HashSet::from([cut(plan, log.len())]);
    for (place, action) in log.iter().enumerate() {
        let left = log.len() - place - 1;
        let mut next = HashSet::new();
        for (first, behind) in plans.iter().filter_map(|plan| plan.split_first()) {
            for r in rules[*first as usize].iter().filter(|r| r.action == *action) {
                next.insert(cut(&[&r.after, behind].concat(), left));
            }
            if next.len() > most {
                return None;
            }
        }
        if next.is_empty() {
            return Some(2 + place as i32);
        }
        plans = next;
    }
    Some(i32::from(plans.contains(&Vec::new())))
}

fn cut(plan: &[u8], moves_left: usize) -> Plan {
    plan[..plan.len().min(moves_left + 1)].to_vec()
}

/// The answer of a program that follows one rule for each move, the first or the last in image order: often a wrong one.
pub fn by_one_rule(table: &Table, plan: &[u8], log: &[u16], last: bool) -> i32 {
    let mut plan = plan.to_vec();
    for (place, action) in log.iter().enumerate() {
        let mut next = table.moves(&plan).into_iter().filter(|step| step.0 == *action);
        let Some((_, rest)) = (if last { next.next_back() } else { next.next() }) else { return 2 + place as i32 };
        plan = rest;
    }
    i32::from(plan.is_empty())
}

/// For a table whose moves are all one: how many moves the complete runs of its jobs have. Which moves they are does not matter
/// then, nor their order.
pub struct Lengths {
    // for each job and number of moves up to the most: whether there is such a run
    runs: Vec<Vec<bool>>,
    // for each job the moves of its longest run, or one more than the most if that is longer or there is none
    longest: Vec<usize>,
    most: usize,
}

impl Lengths {
    pub fn new(table: &Table, most: usize) -> Lengths {
        let mut runs = vec![vec![false; most + 1]; table.jobs];
        // for each rule and each beginning of its row: the same
        let mut rows: Vec<Vec<Vec<bool>>> = table.rules.iter().map(|r| vec![vec![false; most + 1]; r.after.len() + 1]).collect();
        for moves in 0..most {
            for (r, row) in table.rules.iter().zip(&mut rows) {
                row[0][moves] = moves == 0;
                for (i, &job) in r.after.iter().enumerate() {
                    let splits = |first: usize| row[i][first] && runs[job as usize][moves - first];
                    row[i + 1][moves] = (0..=moves).any(splits);
                }
            }
            for (r, row) in table.rules.iter().zip(&rows) {
                runs[r.job as usize][moves + 1] |= row[r.after.len()][moves];
            }
        }
        let mut longest = vec![0; table.jobs];
        loop {
            let before = longest.clone();
            for r in &table.rules {
                let moves = 1 + r.after.iter().map(|&j| longest[j as usize]).sum::<usize>();
                longest[r.job as usize] = longest[r.job as usize].max(moves.min(most + 1));
            }
            if longest == before {
                return Lengths { runs, longest, most };
            }
        }
    }

    /// The answer about a log of so many moves on a plan, of which only so many first ones are the move of the rules.
    pub fn answer(&self, plan: &[u8], moves: usize, right: usize) -> i32 {
        let longest = plan.iter().map(|&j| self.longest[j as usize]).sum::<usize>();
        if right < moves || longest < moves {
            return 2 + right.min(longest) as i32;
        }
        i32::from(self.whole(plan)[moves])
    }

    /// For each number of moves up to the most: whether a plan has a complete run of so many.
    fn whole(&self, plan: &[u8]) -> Vec<bool> {
        let mut sums = vec![false; self.most + 1];
        sums[0] = true;
        for &job in plan.iter().take(self.most + 1) {
            let splits = |sum: usize| (0..=sum).any(|first| sums[first] && self.runs[job as usize][sum - first]);
            sums = (0..=self.most).map(splits).collect();
        }
        sums
    }
}
