//! Plans to ask whether they grow.
use crate::calls::Program;
use crate::inputs::{names_with, single_table, Input, SINGLE_TABLES};
use outside::growth::{Asked, LARGE};
use outside::rng::Rng;
use outside::table::{rule, Plan, Rule, Table};

/// The growth of the left plan: the library, the plain program.
pub const GROWTH: [Program; 2] = [
    ("library", |image, (left, _), _| gindrazoma::raw::plan_growth(image, left)),
    ("plain", |image, (left, _), _| plain::plan_growth(image, left)),
];

/// A table and a plan, besides the tables that are timed alone, and what shall be answered about them.
pub type GrowthTable = (&'static str, i32, fn() -> (Table, Plan));

pub const GROWTH_TABLES: [GrowthTable; 8] = [
    ("chain of 24 jobs", 48, || (chain(47, false), vec![0])),
    ("chain, 252 rules, backwards", 48, || (chain(252, true), vec![0])),
    ("chain, a plan of 4,096 jobs", 48, || (chain(252, true), (0..24).cycle().take(4096).collect())),
    ("all jobs reach all", 49, || (dense(), vec![0])),
    ("ring, next job last in rows", 48, || (ring(false), vec![0])),
    ("ring, one row turned round", 49, || (ring(true), vec![0])),
    ("at random, finite", 48, || at_random(48)),
    ("at random, endless", 49, || at_random(49)),
];

pub fn names() -> Vec<&'static str> {
    names_with(GROWTH_TABLES.iter().map(|(name, ..)| *name))
}

/// A table by its place among the names, with a plan on the left: of norm 4,096 over the tables that are timed alone.
pub fn growth_input(index: usize) -> Input {
    let Some(further) = index.checked_sub(SINGLE_TABLES.len()) else { return single_table(1, index, 1) };
    let (name, _, make) = GROWTH_TABLES[further];
    let (table, plan) = make();
    Input { name: name.to_string(), image: table.image(), table, pairs: vec![(plan, Vec::new())] }
}

/// Each job ends by itself.
fn ends() -> Vec<Rule> {
    (0..24).map(|job| rule(job, 97, &[])).collect()
}

/// Each job becomes the next one; the rules by which jobs end stand again and again until there are so many. Backwards, the first rules
/// are those of the last jobs.
fn chain(rules: usize, backwards: bool) -> Table {
    let steps = (1..24).map(|job| rule(job - 1, 98, &[job]));
    let mut all: Vec<Rule> = steps.chain(ends().into_iter().cycle()).take(rules).collect();
    if backwards {
        all.reverse();
    }
    Table { jobs: 24, rules: all }
}

/// 23 jobs reach each other, each by rows with the next one at the last place and job 23 before it; turned, in the last row behind it. All
/// rules are to be looked at before it is known whether something grows.
fn ring(turned: bool) -> Table {
    let rows = (0..).map(|i: u8| {
        let (job, next) = (i % 23, (i + 1) % 23);
        rule(job, 98 + u16::from(i), &[&[23, 23, 23][..usize::from(i / 23 % 4)], &[next]].concat())
    });
    let mut rules: Vec<Rule> = ends().into_iter().chain(rows.take(228)).collect();
    if turned {
        rules[251].after.reverse();
    }
    Table { jobs: 24, rules }
}

/// Rows of four jobs, each of which reaches all.
fn dense() -> Table {
    let row = |i: u16| [i + 1, 5 * i + 2, 7 * i + 3, 11 * i + 4].map(|job| (job % 24) as u8);
    let rows = (0..228).map(|i| rule((i % 24) as u8, 98 + i, &row(i + i / 24)));
    Table { jobs: 24, rules: ends().into_iter().chain(rows).collect() }
}

/// A table of 24 jobs and 200 rules or more of which few are written twice, with a plan of this answer.
fn at_random(answer: i32) -> (Table, Plan) {
    let rng = &mut Rng::of_iteration(1, "growth", 0);
    loop {
        let asked = Asked::new(rng, &LARGE);
        if asked.made.table.different_rules() >= 200 && asked.answer() == answer {
            return (asked.made.table, asked.plan);
        }
    }
}
