//! Tables and pairs of plans to time.
use crate::pairs::{Pairs, PLAN_NORM};
use crate::{hostile, hostile_runs};
use outside::rng::Rng;
use outside::second::Second;
use outside::shapes::Made;
use outside::table::{Plan, Table};
use std::ops::RangeInclusive;

pub type Pair = (Plan, Plan);

pub struct Input {
    pub name: String,
    pub table: Table,
    pub image: Vec<u8>,
    pub pairs: Vec<Pair>,
}

fn input(name: &str, made: &Made, pairs: Vec<Pair>) -> Input {
    Input { name: name.to_string(), table: made.table.clone(), image: made.table.image(), pairs }
}

/// Pairs of norm 4,096 whatever they are.
fn some_pairs(rng: &mut Rng, made: &Made, count: usize) -> Vec<Pair> {
    (0..count)
        .map(|i| {
            let p = made.plan_of_norm(rng, PLAN_NORM as u64);
            let q = made.rewritten(rng, &p);
            let q = if i % 2 == 0 { q } else { made.perturbed(rng, &q) };
            (p, q)
        })
        .collect()
}

/// How a table is made.
pub type Make = fn(&mut Rng) -> Made;

/// A table of 24 jobs that is timed alone: how many primes it has, bisimilar ones counted once, and how it is made.
pub type SingleTable = (&'static str, RangeInclusive<usize>, Make);

pub const SINGLE_TABLES: [SingleTable; 7] = [
    ("40 rules", 5..=12, |rng| Made::of_base(rng, (4, 12), 2, 24, 40)),
    ("252 rules", 5..=12, |rng| Made::of_base(rng, (4, 12), 16, 24, 252)),
    ("40 rules, much bisimilar", 2..=4, |rng| Made::of_base(rng, (2, 4), 2, 24, 40)),
    ("252 rules, much bisimilar", 2..=4, |rng| Made::of_base(rng, (2, 4), 16, 24, 252)),
    ("40 rules, little bisimilar", 18..=23, |rng| Made::of_base(rng, (20, 20), 2, 24, 40)),
    ("252 rules, little bisimilar", 18..=23, |rng| Made::of_base(rng, (20, 20), 20, 24, 252)),
    ("252 rules, norms up to 512", 2..=2, hostile::long),
];

/// The names of those tables, and of further ones.
pub fn names_with(further: impl Iterator<Item = &'static str>) -> Vec<&'static str> {
    SINGLE_TABLES.iter().map(|(name, ..)| *name).chain(further).collect()
}

/// One of those tables, and so many pairs; from random numbers of its own, so that it can be made alone.
pub fn single_table(seed: u64, index: usize, count: usize) -> Input {
    let (name, primes, make) = &SINGLE_TABLES[index];
    let (made, pairs) = with_pairs(&mut Rng::of_iteration(seed, name, 0), primes, *make, count);
    input(name, &made, pairs)
}

/// A table with so many primes, few of whose rules are written twice, and so many pairs.
pub(crate) fn with_pairs(rng: &mut Rng, primes: &RangeInclusive<usize>, make: Make, count: usize) -> (Made, Vec<Pair>) {
    loop {
        let made = make(rng);
        let few_twice = 10 * made.table.different_rules() >= 7 * made.table.rules.len();
        if few_twice && primes.contains(&Second::new(&made.table).primes()) {
            let pairs = Pairs::new(rng, &made).map(|pairs| pairs.make(rng, count));
            if let Some(pairs) = pairs {
                return (made, pairs);
            }
        }
    }
}

fn tables(rng: &mut Rng, name: &str, rules: usize) -> Vec<Input> {
    let mut inputs = Vec::new();
    while inputs.len() < 20 {
        let made = Made::of_size(rng, 24, rules);
        if let Some(pairs) = Pairs::new(rng, &made) {
            inputs.push(input(name, &made, pairs.make(rng, 50)));
        }
    }
    inputs
}

/// 1,000 comparisons each over 20 tables of 24 jobs: 40 rules, 252 rules.
pub fn light_and_full(rng: &mut Rng) -> [(&'static str, Vec<Input>); 2] {
    [("40 rules", 40), ("252 rules", 252)].map(|(name, rules)| (name, tables(rng, name, rules)))
}

/// Five tables of so many jobs and rules.
pub fn by_size(rng: &mut Rng, jobs: usize, rules: usize) -> Vec<Input> {
    (0..5)
        .map(|_| {
            let made = Made::of_size(rng, jobs, rules);
            let pairs = some_pairs(rng, &made, 10);
            input("by size", &made, pairs)
        })
        .collect()
}

pub fn hostile(rng: &mut Rng) -> Vec<Input> {
    let tables = hostile::tables(rng);
    let mut inputs = Vec::new();
    for (name, made) in tables {
        let pairs = some_pairs(rng, &made, 6);
        inputs.push(input(name, &made, pairs));
    }
    inputs
}

/// Tables that make the first shortest run work: for each plan an input, with the plan on the left.
pub fn hostile_runs() -> Vec<Input> {
    let mut inputs = Vec::new();
    for (name, made) in hostile_runs::tables() {
        for (kind, plan) in hostile_runs::plans(&made, PLAN_NORM) {
            inputs.push(input(&format!("{name}, {kind}"), &made, vec![(plan, Vec::new())]));
        }
    }
    inputs
}
