//! Tables with a choice of outcome and without: rules of one job and one move, and the rows of jobs after it.
use crate::alike::Listed;
use crate::repeated::{one_thing_changed, write_again};
use crate::rng::Rng;
use crate::shapes::{any_move, Made};
use crate::table::{rule, Plan, Rule, Table};
use std::collections::{BTreeMap, BTreeSet};

/// All rows of each job and move.
fn rows(table: &Table) -> BTreeMap<(u8, u16), BTreeSet<&[u8]>> {
    let mut rows: BTreeMap<_, BTreeSet<_>> = BTreeMap::new();
    for r in &table.rules {
        rows.entry((r.job, r.action)).or_default().insert(&r.after[..]);
    }
    rows
}

/// Whether no job has two rows for a move.
pub fn without_choice(table: &Table) -> bool {
    rows(table).values().all(|rows| rows.len() == 1)
}

fn some_moves(rng: &mut Rng, most: usize) -> Vec<u16> {
    (0..rng.range(1, most)).map(|_| any_move(rng, 97)).collect::<BTreeSet<u16>>().into_iter().collect()
}

fn row(rng: &mut Rng, below: usize, most: usize) -> Plan {
    let len = if below == 0 { 0 } else { rng.below(most + 1) };
    (0..len).map(|_| rng.below(below) as u8).collect()
}

/// Up to 24 jobs and eight moves, with at most one row for each job and move, or one for each job; every second time with a rule more
/// that differs in one thing from another. Rules are written again, and stand in any order.
pub fn few_choices(rng: &mut Rng) -> Made {
    let (jobs, one_row) = (rng.range(1, 24), rng.once_in(3));
    let moves = some_moves(rng, 8);
    let mut rules = Vec::new();
    for j in 0..jobs {
        // the first rule has no job after it or one with a lower number, so that the table is accepted
        let first = row(rng, j, 1);
        rules.push(rule(j as u8, moves[0], &first));
        for &action in &moves[1..] {
            if !rng.once_in(3) {
                let after = if one_row { first.clone() } else { row(rng, jobs, 4) };
                rules.push(rule(j as u8, action, &after));
            }
        }
    }
    rng.shuffle(&mut rules);
    if rng.once_in(2) {
        let near = one_thing_changed(rng, jobs, &rules[0]);
        rules.insert(rng.below(rules.len() + 1), near);
    }
    let mut table = Table { jobs, rules };
    if rng.once_in(2) {
        write_again(rng, &mut table);
    }
    Made::of_table(table).expect("an accepted table")
}

/// A few jobs and moves, so that many plans are the same or nearly so; every second time at most one row for each job and move. If it
/// is asked for, rows are of lower jobs only, so that all runs end.
pub fn small(rng: &mut Rng, ends: bool) -> Made {
    let jobs = rng.range(2, 6);
    let moves = some_moves(rng, 3);
    let mut rules = Vec::new();
    for j in 0..jobs {
        let (first, count) = (rng.below(moves.len()), rng.range(1, moves.len()));
        for i in 0..count {
            let below = if ends || i == 0 { j } else { jobs };
            rules.push(rule(j as u8, moves[(first + i) % moves.len()], &row(rng, below, 2)));
        }
    }
    if rng.once_in(2) {
        for _ in 0..rng.range(1, 4) {
            let j = rng.below(jobs);
            rules.push(rule(j as u8, *rng.pick(&moves), &row(rng, if ends { j } else { jobs }, 2)));
        }
    }
    rng.shuffle(&mut rules);
    Made::of_table(Table { jobs, rules }).expect("an accepted table")
}

/// What the rows of a table may be, as it is and under a list.
pub const KINDS: [&str; 9] = [NONE, CHOICE, BY_LIST, AGAIN, OTHER_JOB, ONE, LONGER, PLACE, BLOCKS];

const NONE: &str = "no choice under the list";
const CHOICE: &str = "a choice without a list";
const BY_LIST: &str = "a choice under the list only";
const AGAIN: &str = "a rule twice under the list only, and no choice";
const OTHER_JOB: &str = "two jobs that make one move with different rows, and no choice";
const ONE: &str = "one job and move with a choice, and no other";
const LONGER: &str = "a choice of a row and a longer one that begins with it";
const PLACE: &str = "a choice of rows that differ in one job";
const BLOCKS: &str = "a choice of rules in different blocks";

/// The kinds that are found.
pub fn kinds(listed: &Listed) -> BTreeSet<&'static str> {
    let (raw, table) = (&listed.raw, &listed.made.table);
    let none = without_choice(table);
    let choices: Vec<(usize, usize)> = (0..table.rules.len())
        .flat_map(|k| (0..k).map(move |i| (i, k)))
        .filter(|&(i, k)| is_choice(&table.rules[i], &table.rules[k]))
        .collect();
    let among = |holds: fn(&[u8], &[u8]) -> bool| {
        choices.iter().map(|&(i, k)| (&table.rules[i].after, &table.rules[k].after)).any(|(a, b)| holds(a, b) || holds(b, a))
    };
    [
        (NONE, none),
        (CHOICE, !without_choice(raw)),
        (BY_LIST, without_choice(raw) && !none),
        (AGAIN, none && table.different_rules() < raw.different_rules()),
        (OTHER_JOB, none && rows_by_move(table).values().any(|rows| rows.len() > 1)),
        (ONE, rows(table).values().filter(|rows| rows.len() > 1).count() == 1),
        (LONGER, among(|a, b| a.len() < b.len() && b.starts_with(a))),
        (PLACE, among(|a, b| a.len() == b.len() && a.iter().zip(b).filter(|(x, y)| x != y).count() == 1)),
        (BLOCKS, choices.iter().any(|(i, k)| i / 63 != k / 63)),
    ]
    .into_iter()
    .filter_map(|(kind, holds)| holds.then_some(kind))
    .collect()
}

fn is_choice(a: &Rule, b: &Rule) -> bool {
    a.job == b.job && a.action == b.action && a.after != b.after
}

fn rows_by_move(table: &Table) -> BTreeMap<u16, BTreeSet<&[u8]>> {
    let mut rows: BTreeMap<_, BTreeSet<_>> = BTreeMap::new();
    for r in &table.rules {
        rows.entry(r.action).or_default().insert(&r.after[..]);
    }
    rows
}
