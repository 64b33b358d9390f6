//! Plans that grow and plans that do not: by the plans that are reached, by their classes, and by jobs that reach each other. And tables
//! with plans to ask about.
use crate::repeated::write_again;
use crate::rng::Rng;
use crate::second::Second;
use crate::shapes::{any_move, Made};
use crate::table::{norm, rule, Plan, Rule, Table};
use std::collections::{BTreeSet, BinaryHeap, HashSet, VecDeque};

/// The most jobs that a move leaves behind the first job of its row.
fn most_left(table: &Table) -> usize {
    table.rules.iter().map(|r| r.after.len().saturating_sub(1)).max().unwrap_or(0)
}

/// The answer by the plans that a plan becomes. None: they are more than the most.
///
/// Before the other jobs of the first plan stands what a chain of jobs left, each of them in a row of the one before it. If no job comes
/// round with others behind it, those that leave some are all different, and the job that they lead to is none of them: a plan gets longer by at
/// most `most_left` times the jobs of the table but one. As many more, and one, are enough to end what stands before a job that is
/// reached, by moves that lower the norm. Plans beyond both are not followed: some plan gets there exactly if the first is endless.
pub fn by_plans(table: &Table, plan: &[u8], most: usize) -> Option<i32> {
    let longest = plan.len() + 2 * most_left(table) * (table.jobs - 1) + 1;
    let (mut seen, mut open) = (HashSet::from([plan.to_vec()]), VecDeque::from([plan.to_vec()]));
    let (mut jobs, mut endless) = (BTreeSet::<u8>::new(), false);
    while let Some(plan) = open.pop_front() {
        jobs.extend(&plan);
        for (_, rest) in table.moves(&plan) {
            if rest.len() > longest {
                endless = true;
            } else if seen.insert(rest.clone()) {
                open.push_back(rest);
            }
        }
        if seen.len() > most {
            return None;
        }
    }
    Some(2 * jobs.len() as i32 + i32::from(endless))
}

/// The classes of bisimilar plans that a plan becomes.
#[derive(Debug, PartialEq, Eq)]
pub enum Classes {
    /// There are so many, and no more.
    All(usize),
    /// There is one beyond the norm.
    Beyond,
}

/// The classes up to a norm, those of greater norms first; of each class one plan is followed, since the others become the same ones.
/// None: they are more than the most.
pub fn classes(second: &Second, plan: &[u8], highest: u64, most: usize) -> Option<Classes> {
    let mut seen = HashSet::from([second.form(plan)]);
    let mut open = BinaryHeap::from([(second.norm(plan), plan.to_vec())]);
    while let Some((norm, plan)) = open.pop() {
        if norm > highest {
            return Some(Classes::Beyond);
        }
        for (_, rest) in second.table.moves(&plan) {
            if seen.insert(second.form(&rest)) {
                open.push((second.norm(&rest), rest));
            }
        }
        if seen.len() > most {
            return None;
        }
    }
    Some(Classes::All(seen.len()))
}

/// No plan that a finite one becomes has a greater norm, for the reason that `by_plans` gives.
pub fn highest_norm(made: &Made, plan: &[u8]) -> u64 {
    let most = made.norms.iter().max().expect("a job");
    norm(&made.norms, plan) + most * ((most_left(&made.table) * (made.table.jobs - 1)) as u64 + 1)
}

/// The jobs that some jobs reach, themselves among them.
pub fn reached(table: &Table, from: &[u8]) -> BTreeSet<u8> {
    let mut reached = BTreeSet::new();
    let mut open = from.to_vec();
    while let Some(job) = open.pop() {
        if reached.insert(job) {
            open.extend(table.rules_of(job).flat_map(|r| &r.after));
        }
    }
    reached
}

/// For each job the number of its component: jobs that reach each other have one. By Kosaraju's way: jobs are left in an order, and
/// then those that reach a job are gathered, from the one that was left last on.
fn components(table: &Table) -> Vec<usize> {
    let mut order = Vec::new();
    let mut met = vec![false; table.jobs];
    (0..table.jobs as u8).for_each(|job| leave(table, job, &mut met, &mut order));
    let mut component = vec![usize::MAX; table.jobs];
    for (number, &job) in order.iter().rev().enumerate() {
        let mut open = vec![job];
        while let Some(job) = open.pop() {
            if component[job as usize] == usize::MAX {
                component[job as usize] = number;
                open.extend(table.rules.iter().filter(|r| r.after.contains(&job)).map(|r| r.job));
            }
        }
    }
    component
}

fn leave(table: &Table, job: u8, met: &mut [bool], order: &mut Vec<u8>) {
    if !std::mem::replace(&mut met[job as usize], true) {
        table.rules_of(job).flat_map(|r| &r.after).for_each(|&next| leave(table, next, met, order));
        order.push(job);
    }
}

/// Whether a rule makes its job come round with others behind it.
fn grows(component: &[usize], r: &Rule) -> bool {
    let waiting = r.after.split_last().map_or(&[][..], |(_, before)| before);
    waiting.iter().any(|&job| component[job as usize] == component[r.job as usize])
}

/// The rules by which a plan is endless.
pub fn growing_rules<'t>(table: &'t Table, plan: &[u8]) -> Vec<&'t Rule> {
    let (reached, component) = (reached(table, plan), components(table));
    table.rules.iter().filter(|r| reached.contains(&r.job) && grows(&component, r)).collect()
}

/// The answer by jobs that reach each other.
pub fn by_components(table: &Table, plan: &[u8]) -> i32 {
    2 * reached(table, plan).len() as i32 + i32::from(is_endless(table, plan))
}

pub fn is_endless(table: &Table, plan: &[u8]) -> bool {
    !growing_rules(table, plan).is_empty()
}

/// A table and a plan to ask about.
pub struct Asked {
    pub made: Made,
    pub plan: Plan,
}

/// How large a table is: the most jobs, the longest row, the most rules besides those by which jobs end.
pub struct Size {
    pub jobs: usize,
    pub row: usize,
    pub rules: usize,
}

pub const LARGE: Size = Size { jobs: 24, row: 4, rules: 228 };
pub const SMALL: Size = Size { jobs: 4, row: 2, rules: 8 };
pub const TWO_JOBS: Size = Size { jobs: 2, row: 4, rules: 4 };

impl Asked {
    /// A table on levels, on which nothing grows; then rules that keep to no level. Every second time the plan shall be endless, and
    /// rules are put in until it is; else each that would make it so is left out, and what grows is not reached. Rules stand in any
    /// order, or the last of them at the end, perhaps of a full image, and may be written again.
    pub fn new(rng: &mut Rng, size: &Size) -> Asked {
        let jobs = if rng.once_in(3) { size.jobs } else { rng.range(1, size.jobs) };
        let (few, endless) = (rng.once_in(2), rng.once_in(2));
        let rules = rng.below(if few { jobs + 1 } else { size.rules } + 1);
        let mut table = on_levels(rng, jobs, rules.min(size.rules), size.row);
        let plan = some_plan(rng, jobs);
        for _ in 0..if endless { 100 } else { rng.below(20) } {
            if endless && is_endless(&table, &plan) || table.rules.len() == 252 {
                break;
            }
            let any = near(rng, &table, size.row);
            table.rules.push(any);
            if !endless && is_endless(&table, &plan) {
                table.rules.pop();
            }
        }
        match rng.below(4) {
            0 if size.jobs == LARGE.jobs => end_again_in_front(&mut table),
            1 => {}
            _ => rng.shuffle(&mut table.rules),
        }
        if rng.once_in(3) {
            write_again(rng, &mut table);
        }
        Asked { made: Made::of_table(table).expect("an accepted table"), plan }
    }

    /// The answer by jobs that reach each other.
    pub fn answer(&self) -> i32 {
        by_components(&self.made.table, &self.plan)
    }
}

/// A rule by which a job ends stands in front so often that the table has 252 rules.
fn end_again_in_front(table: &mut Table) {
    let end = table.rules.iter().find(|r| r.after.is_empty()).expect("a job that ends by itself").clone();
    let more = 252 - table.rules.len();
    table.rules.splice(0..0, std::iter::repeat_n(end, more));
}

/// One to four jobs, or up to 60; at times none.
fn some_plan(rng: &mut Rng, jobs: usize) -> Plan {
    let len = match rng.below(20) {
        0 => 0,
        1..=4 => rng.range(1, 60),
        _ => rng.range(1, 4),
    };
    (0..len).map(|_| rng.below(jobs) as u8).collect()
}

/// Jobs on levels: in a row all jobs but the last are of lower levels than the job of the rule, and the last is of no higher one. Each
/// job ends by itself, or by one of a lower level.
fn on_levels(rng: &mut Rng, jobs: usize, rules: usize, row: usize) -> Table {
    let levels = if rng.once_in(2) { rng.range(1, jobs.min(4)) } else { rng.range(1, jobs) };
    let level: Vec<usize> = (0..jobs).map(|_| rng.below(levels)).collect();
    let below = |most: usize| (0..jobs as u8).filter(|&job| level[job as usize] < most).collect::<Plan>();
    let mut table = Table { jobs, rules: Vec::new() };
    for i in 0..jobs + rules {
        let (job, most) = if i < jobs { (i, 1) } else { (rng.below(jobs), row) };
        let (lower, no_higher) = (below(level[job]), below(level[job] + usize::from(i >= jobs)));
        let len = rng.below(most + 1);
        let picked = (1..=len).filter_map(|place| {
            let from = if place < len { &lower } else { &no_higher };
            (!from.is_empty()).then(|| *rng.pick(from))
        });
        let after: Plan = picked.collect();
        table.rules.push(rule(job as u8, any_move(rng, 97), &after));
    }
    table
}

/// A rule of a table with its row turned round, or with another job in it, or a rule with any row.
fn near(rng: &mut Rng, table: &Table, row: usize) -> Rule {
    let mut near = rng.pick(&table.rules).clone();
    let job = rng.below(table.jobs) as u8;
    match rng.below(4) {
        0 if near.after.len() > 1 => near.after.reverse(),
        1 if !near.after.is_empty() => near.after[0] = job,
        2 if near.after.len() < row => near.after.push(job),
        _ => near = rule(job, 97, &(0..rng.range(1, row)).map(|_| rng.below(table.jobs) as u8).collect::<Plan>()),
    }
    near
}

/// What a table and a plan may be to each other.
pub const KINDS: [&str; 12] =
    [FINITE, ENDLESS, ELSEWHERE, ROUND, ONE_RULE, WAITS, TURNED, RING, FEW_REACHED, ALL_REACHED, LATER_BLOCK, AGAIN];

const FINITE: &str = "finite";
const ENDLESS: &str = "endless";
const ELSEWHERE: &str = "finite, and a job grows that is not reached";
const ROUND: &str = "finite, and a job that is reached comes round at the last place of a row";
const ONE_RULE: &str = "endless by one rule alone";
const WAITS: &str = "endless, and the plan's first job is finite";
const TURNED: &str = "finite, and endless with one row turned round";
const RING: &str = "endless by a job that comes round by way of two others or more";
const FEW_REACHED: &str = "half of 12 jobs or more are not reached";
const ALL_REACHED: &str = "all of 12 jobs or more are reached";
const LATER_BLOCK: &str = "endless by rules of later blocks alone";
const AGAIN: &str = "a rule is written again";

/// The kinds that are found.
pub fn kinds(asked: &Asked) -> BTreeSet<&'static str> {
    let (table, plan) = (&asked.made.table, &asked.plan);
    let (reached, component) = (reached(table, plan), components(table));
    let growing = growing_rules(table, plan);
    let endless = !growing.is_empty();
    let round = |r: &&Rule| r.after.last().is_some_and(|&job| component[job as usize] == component[r.job as usize]);
    let turned = |i: usize| {
        let mut other = table.clone();
        other.rules[i].after.reverse();
        is_endless(&other, plan)
    };
    let in_block_0 = |r: &&Rule| table.rules.iter().take(63).any(|s| s == *r);
    let ring = |r: &&Rule| component.iter().filter(|&&number| number == component[r.job as usize]).count() > 2;
    [
        (FINITE, !endless),
        (ENDLESS, endless),
        (ELSEWHERE, !endless && table.rules.iter().any(|r| grows(&component, r))),
        (ROUND, !endless && table.rules.iter().filter(|r| reached.contains(&r.job)).any(|r| round(&r))),
        (ONE_RULE, growing.iter().map(|r| (r.job, &r.after)).collect::<BTreeSet<_>>().len() == 1),
        (WAITS, endless && !is_endless(table, &plan[..1])),
        (TURNED, !endless && (0..table.rules.len()).any(turned)),
        (RING, growing.iter().any(ring)),
        (FEW_REACHED, table.jobs >= 12 && 2 * reached.len() <= table.jobs),
        (ALL_REACHED, table.jobs >= 12 && reached.len() == table.jobs),
        (LATER_BLOCK, endless && !growing.iter().any(in_block_0)),
        (AGAIN, table.different_rules() < table.rules.len()),
    ]
    .into_iter()
    .filter_map(|(kind, holds)| holds.then_some(kind))
    .collect()
}
