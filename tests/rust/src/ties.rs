//! Tables whose jobs have many shortest runs, which differ late or not at all.
use crate::first_run::first_run;
use crate::rng::Rng;
use crate::shapes::{any_move, finished, renumbered, Made, RULES_MAX};
use crate::table::{norm, rule, Plan, Rule, Table};
use std::collections::BTreeSet;

/// Jobs each of which has several rules that lower its norm, of few moves, and some that make a lesser move and do not lower it.
pub fn tied(rng: &mut Rng, jobs_most: usize, norm_most: u64) -> Made {
    let moves = few_moves(rng);
    let jobs = rng.range(2, jobs_most);
    let letters = rng.range(1, 3).min(jobs);
    let each = rng.range(1, (RULES_MAX / jobs).min(14));
    let (mut rules, mut norms) = (Vec::new(), Vec::new());
    for j in 0..jobs as u8 {
        let rows = if norms.len() < letters { vec![Vec::new()] } else { equal_rows(rng, &norms, norm_most, each) };
        norms.push(1 + norm(&norms, &rows[0]));
        let usual = *rng.pick(&moves);
        rules.extend(rows.iter().map(|row| rule(j, if rng.once_in(8) { *rng.pick(&moves) } else { usual }, row)));
    }
    let lesser = moves.iter().min().map_or(0, |least| least.saturating_sub(1));
    for _ in 0..rng.below(5).min(RULES_MAX - rules.len()) {
        rules.extend(rule_that_does_not_lower(rng, &norms, lesser));
    }
    let table = finished(rng, Table { jobs, rules });
    let words = (0..jobs as u8).map(|j| vec![j]).collect();
    renumbered(rng, table, words).expect("an accepted table")
}

/// One move; two with one low byte; two whose low bytes are ordered the other way; or any three.
fn few_moves(rng: &mut Rng) -> Vec<u16> {
    let [low, high] = [rng.range(1, 255), rng.range(1, 255)].map(|b| b as u8);
    match rng.below(5) {
        0 => vec![any_move(rng, low)],
        1 => vec![u16::from_le_bytes([low, high]), u16::from_le_bytes([low, high - 1])],
        2 => vec![u16::from_le_bytes([low, high - 1]), u16::from_le_bytes([low - 1, high])],
        3 => vec![0x00ff, 0x0100],
        _ => (0..3).map(|_| any_move(rng, low)).collect(),
    }
}

/// Different rows of up to four jobs, all of one norm, which is below the most: at most so many.
fn equal_rows(rng: &mut Rng, norms: &[u64], most: u64, count: usize) -> Vec<Plan> {
    let mut first = random_row(rng, norms.len(), 4);
    while norm(norms, &first) >= most {
        first.pop();
    }
    let total = norm(norms, &first);
    let mut rows = vec![first];
    for _ in 0..4 * count {
        let old = rng.pick(&rows).clone();
        let row = varied(rng, norms, old, total);
        if rows.len() < count && norm(norms, &row) == total && !rows.contains(&row) {
            rows.push(row);
        }
    }
    rows
}

/// Up to so many jobs, often of the last ones.
fn random_row(rng: &mut Rng, jobs: usize, most: usize) -> Plan {
    let from = if rng.once_in(2) { jobs.saturating_sub(3) } else { 0 };
    (0..rng.range(0, most)).map(|_| rng.range(from, jobs - 1) as u8).collect()
}

/// A row in another order, with another job of an equal norm, or anew with a last job that makes up the norm.
fn varied(rng: &mut Rng, norms: &[u64], mut row: Plan, total: u64) -> Plan {
    if rng.once_in(2) {
        row = random_row(rng, norms.len(), 3);
    } else {
        rng.shuffle(&mut row);
        row.pop();
    }
    let left = total.checked_sub(norm(norms, &row));
    let fit: Vec<u8> = (0..norms.len() as u8).filter(|&j| Some(norms[j as usize]) == left).collect();
    if !fit.is_empty() {
        row.push(*rng.pick(&fit));
    }
    row
}

/// None if the row that was drawn has too low a norm for that.
fn rule_that_does_not_lower(rng: &mut Rng, norms: &[u64], action: u16) -> Option<Rule> {
    let job = rng.below(norms.len());
    let row = random_row(rng, norms.len(), 4);
    (norm(norms, &row) >= norms[job]).then(|| rule(job as u8, action, &row))
}

/// How the first runs by two rules of one job may stand to each other; and a rule that is none of a shortest run.
pub const KINDS: [&str; 8] = [FIRST, HIGH, OTHER_WAY, SECOND, MIDDLE, LAST, EQUAL, RISING];

const FIRST: &str = "apart in the first move";
const HIGH: &str = "apart in a high byte only";
const OTHER_WAY: &str = "apart in a move with the greater low byte";
const SECOND: &str = "apart in the second move of many";
const MIDDLE: &str = "apart behind the middle of many";
const LAST: &str = "apart in the last move of many";
const EQUAL: &str = "equal runs by different rows";
const RISING: &str = "a lesser move that does not lower the norm";

/// The kinds that are found in a table. Of two rules the one that comes first by its run is the later one in image order.
pub fn kinds(made: &Made) -> BTreeSet<&'static str> {
    let mut found = BTreeSet::new();
    let run = |r: &Rule| [vec![r.action], first_run(&made.table, &made.norms, &r.after)].concat();
    for j in 0..made.table.jobs as u8 {
        let (lowering, others): (Vec<&Rule>, Vec<&Rule>) =
            made.table.rules_of(j).partition(|r| made.norm(&r.after) + 1 == made.norms[j as usize]);
        let runs: Vec<Vec<u16>> = lowering.iter().map(|r| run(r)).collect();
        let least = runs.iter().map(|run| run[0]).min();
        found.extend(others.iter().filter(|r| Some(r.action) < least).map(|_| RISING));
        for (k, later) in runs.iter().enumerate() {
            let earlier = runs[..k].iter().enumerate().filter(|(_, run)| later <= run);
            found.extend(earlier.flat_map(|(i, run)| kinds_of_pair(run, later, lowering[i].after != lowering[k].after)));
        }
    }
    found
}

/// The kinds of two runs of one length that are equal, or of which the second comes first.
fn kinds_of_pair(run: &[u16], first: &[u16], by_other_rows: bool) -> Vec<&'static str> {
    let Some(at) = run.iter().zip(first).position(|(x, y)| x != y) else {
        return by_other_rows.then_some(EQUAL).into_iter().collect();
    };
    let ([low, high], [first_low, first_high]) = (run[at].to_le_bytes(), first[at].to_le_bytes());
    let many = run.len() >= 8;
    [
        (FIRST, at == 0),
        (HIGH, low == first_low && high != first_high),
        (OTHER_WAY, low < first_low),
        (SECOND, many && at == 1),
        (MIDDLE, many && at > run.len() / 2),
        (LAST, many && at == run.len() - 1),
    ]
    .into_iter()
    .filter_map(|(kind, holds)| holds.then_some(kind))
    .collect()
}
