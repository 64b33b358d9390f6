//! Tables in which rules are written again, or differ in one thing only from another rule.
use crate::rng::Rng;
use crate::shapes::{Made, RULES_MAX, SHAPES};
use crate::table::{Rule, Table};
use std::collections::BTreeSet;

/// A table of any shape with rules written again: it means what it meant.
pub fn repeated(rng: &mut Rng) -> Made {
    let mut made = with_room(rng);
    write_again(rng, &mut made.table);
    made
}

/// The same with rules that are nearly others, too. Norms only fall by them, so that the table is accepted.
pub fn nearly_repeated(rng: &mut Rng) -> Made {
    let mut table = with_room(rng).table;
    for _ in 0..rng.below((RULES_MAX - table.rules.len()).min(100)) {
        let i = rng.below(table.rules.len());
        let near = one_thing_changed(rng, table.jobs, &table.rules[i]);
        put(rng, &mut table, i, near);
    }
    write_again(rng, &mut table);
    Made::of_table(table).expect("an accepted table")
}

/// Rules of a table written again, one or more if there is room.
pub fn write_again(rng: &mut Rng, table: &mut Table) {
    let most = RULES_MAX.min(table.rules.len() + rng.pick(&[1, 8, 64, RULES_MAX]));
    while table.rules.len() < most {
        let i = rng.below(table.rules.len());
        put(rng, table, i, table.rules[i].clone());
    }
}

fn with_room(rng: &mut Rng) -> Made {
    loop {
        let made = Made::new(*rng.pick(&SHAPES), rng);
        if made.table.rules.len() < RULES_MAX {
            return made;
        }
    }
}

/// Behind the rule at place i, at the beginning, at the end, or anywhere.
fn put(rng: &mut Rng, table: &mut Table, i: usize, rule: Rule) {
    let len = table.rules.len();
    let places = [i + 1, 0, len, rng.below(len + 1)];
    table.rules.insert(*rng.pick(&places), rule);
}

/// Another low byte of the move, another high byte, another job, a shorter row, a longer one, another job in it.
pub fn one_thing_changed(rng: &mut Rng, jobs: usize, rule: &Rule) -> Rule {
    let mut near = rule.clone();
    let job = rng.below(jobs) as u8;
    match rng.below(6) {
        0 => near.action ^= 1 << rng.below(8),
        1 => near.action ^= 256 << rng.below(8),
        2 => near.job = job,
        3 => near.after.truncate(rule.after.len().saturating_sub(1)),
        4 if rule.after.len() < 4 => near.after.push(job),
        _ if rule.after.is_empty() => near.after.push(job),
        _ => near.after[rng.below(rule.after.len())] = job,
    }
    near
}

/// How a rule may stand to an earlier one: repeat it, or differ from it in one thing only.
pub const KINDS: [&str; 11] = [NEXT, THIRD, FAR, NEXT_BLOCK, LAST_BLOCK, JOB, LOW, HIGH, LONGER, SHORTER, ROW];

const NEXT: &str = "again, next to it";
const THIRD: &str = "again, a third time";
const FAR: &str = "again, 100 rules away";
const NEXT_BLOCK: &str = "again, in the next block";
const LAST_BLOCK: &str = "again, three blocks away";
const JOB: &str = "another job";
const LOW: &str = "another low byte of the move";
const HIGH: &str = "another high byte of the move";
const LONGER: &str = "a longer row";
const SHORTER: &str = "a shorter row";
const ROW: &str = "another row";

/// The kinds that are found among rules.
pub fn kinds(rules: &[Rule]) -> BTreeSet<&'static str> {
    let mut found = BTreeSet::new();
    for (k, later) in rules.iter().enumerate() {
        for (i, earlier) in rules[..k].iter().enumerate() {
            let (row, old_row) = (&later.after, &earlier.after);
            match differences(earlier, later) {
                [false, false, false, false] => found.extend(repetitions(i, k, rules[i + 1..k].contains(later))),
                [true, false, false, false] => found.extend([JOB]),
                [false, true, false, false] => found.extend([LOW]),
                [false, false, true, false] => found.extend([HIGH]),
                [false, false, false, true] if row.starts_with(old_row) => found.extend([LONGER]),
                [false, false, false, true] if old_row.starts_with(row) => found.extend([SHORTER]),
                [false, false, false, true] => found.extend([ROW]),
                _ => {}
            }
        }
    }
    found
}

/// In what two rules differ: job, low and high byte of the move, row.
fn differences(a: &Rule, b: &Rule) -> [bool; 4] {
    let [low, high] = (a.action ^ b.action).to_le_bytes();
    [a.job != b.job, low != 0, high != 0, a.after != b.after]
}

/// The kinds of a rule that stands at places i and k, and perhaps between them.
fn repetitions(i: usize, k: usize, between: bool) -> impl Iterator<Item = &'static str> {
    let blocks = k / 63 - i / 63;
    [(NEXT, k == i + 1), (THIRD, between), (FAR, k >= i + 100), (NEXT_BLOCK, blocks == 1), (LAST_BLOCK, blocks == 3)]
        .into_iter()
        .filter_map(|(kind, holds)| holds.then_some(kind))
}
