//! Pairs of tables that fit together, most of them with jobs for the same work or nearly so, and plans over both.
use crate::alike::{listed, moves_of, other_move, Pair, PAIRS_MAX};
use crate::repeated::one_thing_changed;
use crate::rng::Rng;
use crate::shapes::{words_of_base, Made, Shape, JOBS_MAX, RULES_MAX};
use crate::table::{Plan, Rule, Table};
use std::collections::BTreeSet;

/// Two tables, and an alike list for both.
pub struct Tables {
    pub left: Made,
    pub right: Made,
    pub pairs: Vec<Pair>,
}

impl Tables {
    /// Two tables by the rules of one of a shape, without a list. Each has a job for each job of it, and perhaps others that stand for rows of
    /// them: a renamed copy, or other jobs for the same work.
    pub fn new(shape: Shape, rng: &mut Rng) -> Tables {
        loop {
            let most = *rng.pick(&[2, 3, 5, 8, 12]);
            let base = Made::within(shape, rng, most).table;
            let Some(one) = other_jobs(rng, &base, JOBS_MAX - base.jobs, RULES_MAX - base.rules.len()) else { continue };
            let (jobs, rules) = (JOBS_MAX - one.table.jobs, RULES_MAX - one.table.rules.len());
            let Some(other) = other_jobs(rng, &base, jobs, rules) else { continue };
            if fit(&one.table, &other.table) {
                let (left, right) = if rng.once_in(2) { (one, other) } else { (other, one) };
                return Tables { left, right, pairs: Vec::new() };
            }
        }
    }

    /// The same with one thing changed in a rule of either table: jobs stand for nearly the same work.
    pub fn nearly(shape: Shape, rng: &mut Rng) -> Tables {
        let mut tables = Tables::new(shape, rng);
        let made = if rng.once_in(2) { &mut tables.left } else { &mut tables.right };
        *made = one_rule_changed(rng, made);
        tables
    }

    /// One of these two.
    pub fn any(shape: Shape, rng: &mut Rng) -> Tables {
        if rng.once_in(2) {
            Tables::new(shape, rng)
        } else {
            Tables::nearly(shape, rng)
        }
    }

    /// Two tables made one without the other, with the same moves as far as they have as many.
    pub fn unrelated(shapes: [Shape; 2], rng: &mut Rng) -> Tables {
        loop {
            let most = rng.range(2, JOBS_MAX - 2);
            let (left, right) = (Made::within(shapes[0], rng, most), Made::within(shapes[1], rng, JOBS_MAX - most));
            let (old, new) = (moves_of(&right.table), moves_of(&left.table));
            let as_left = |(i, &action): (usize, &u16)| (action, new[i % new.len()]);
            let right = right.replaced(&old.iter().enumerate().map(as_left).collect::<Vec<_>>());
            if fit(&left.table, &right.table) {
                return Tables { left, right, pairs: Vec::new() };
            }
        }
    }

    /// With a list of any kind, or at times without one.
    pub fn with_any_list(self, rng: &mut Rng) -> Tables {
        if rng.once_in(2) {
            return self.joined_by_list(rng);
        }
        let joined = self.left.joined(&self.right).expect("tables that fit together");
        let listed = listed(rng, joined);
        self.written(&listed.raw, listed.pairs)
    }

    /// Written with a list by which they are what they were, and so that either has other moves for those of the other, as far as the list has room.
    pub fn joined_by_list(self, rng: &mut Rng) -> Tables {
        let mut joined = self.left.table.joined(&self.right.table);
        let moves = moves_of(&joined);
        let (mut all, mut pairs) = (moves.clone(), Vec::new());
        let for_all = (!rng.once_in(3)).then(|| rng.below(3));
        for &action in moves.iter().take(PAIRS_MAX / 2) {
            let mut other = |rng: &mut Rng| {
                all.push(other_move(rng, &moves, &all));
                pairs.push((all[all.len() - 1], action));
                all[all.len() - 1]
            };
            let ways = match for_all.unwrap_or_else(|| rng.below(3)) {
                0 => [action, other(rng)],
                1 => [other(rng), action],
                _ => [other(rng), other(rng)],
            };
            for r in joined.rules.iter_mut().filter(|r| r.action == action) {
                r.action = ways[usize::from(usize::from(r.job) >= self.left.table.jobs)];
            }
        }
        rng.shuffle(&mut pairs);
        self.written(&joined, pairs)
    }

    /// The two tables as they stand in a joined one with other moves.
    fn written(self, joined: &Table, pairs: Vec<Pair>) -> Tables {
        let [left, right] = cut(joined, self.left.table.jobs);
        let accepted = "the same rows have the same norms";
        Tables { left: self.left.with_table(left).expect(accepted), right: self.right.with_table(right).expect(accepted), pairs }
    }

    /// What the two are together: the joined table, its moves replaced by the list.
    pub fn joined(&self) -> Table {
        self.left.table.joined(&self.right.table).replaced(&self.pairs)
    }

    /// A plan over the left table, and one over the right table that stands for the same base jobs.
    pub fn plans(&self, rng: &mut Rng, most: u64) -> [Plan; 2] {
        let left = self.left.plan(rng, most);
        let right = self.left.rewritten_over(rng, &self.right, &left);
        [left, right]
    }
}

/// Whether two tables have together no more jobs and rules than one may have.
fn fit(left: &Table, right: &Table) -> bool {
    left.jobs + right.jobs <= JOBS_MAX && left.rules.len() + right.rules.len() <= RULES_MAX
}

/// Three tables by the rules of one of a shape, each two of which fit together, perhaps with a rule of one of them changed.
pub fn three(shape: Shape, rng: &mut Rng) -> [Made; 3] {
    loop {
        let base = Made::within(shape, rng, 6).table;
        let tables = [(); 3].map(|()| other_jobs(rng, &base, JOBS_MAX / 2, RULES_MAX / 2));
        let [Some(left), Some(middle), Some(right)] = tables else { continue };
        let mut tables = [left, middle, right];
        if tables.iter().all(|made| made.table.rules.len() <= RULES_MAX / 2) {
            if rng.once_in(2) {
                let i = rng.below(3);
                tables[i] = one_rule_changed(rng, &tables[i]);
            }
            return tables;
        }
    }
}

/// A table with a job for each job of a given one, renumbered, and perhaps others for rows of these jobs: at most so many, and often as many; at
/// times with rules written again until there are so many.
fn other_jobs(rng: &mut Rng, base: &Table, jobs: usize, rules: usize) -> Option<Made> {
    let jobs = if rng.once_in(3) { jobs } else { rng.range(base.jobs, jobs) };
    let longest = *rng.pick(&[3, 40, 512]);
    let words = words_of_base(rng, &base.rules, base.jobs, jobs, longest);
    let fill = if rng.once_in(4) { rules } else { 0 };
    Made::of_words(rng, &base.rules, words, fill)
}

/// The same rows for a table with one thing changed in one of its rules.
fn one_rule_changed(rng: &mut Rng, made: &Made) -> Made {
    loop {
        let mut table = made.table.clone();
        let i = rng.below(table.rules.len());
        table.rules[i] = one_thing_changed(rng, table.jobs, &table.rules[i]);
        if let Some(changed) = made.with_table(table) {
            return changed;
        }
    }
}

/// The two tables of a joined one: the jobs of the left one are so many.
pub fn cut(joined: &Table, jobs: usize) -> [Table; 2] {
    let (left, right): (Vec<Rule>, Vec<Rule>) = joined.rules.iter().cloned().partition(|r| usize::from(r.job) < jobs);
    let numbered_back = |plan: &[u8]| -> Plan { plan.iter().map(|&job| job - jobs as u8).collect() };
    let right =
        right.iter().map(|r| Rule { job: r.job - jobs as u8, action: r.action, after: numbered_back(&r.after) }).collect();
    [Table { jobs, rules: left }, Table { jobs: joined.jobs - jobs, rules: right }]
}

/// How two tables and their list may stand to each other.
pub const KINDS: [&str; 9] = [JOBS, RULES, FEWER, MORE, BLOCKS, BOTH, JOINS, LEFT, RIGHT];

const JOBS: &str = "24 jobs together";
const RULES: &str = "252 rules together";
const FEWER: &str = "fewer jobs on the left";
const MORE: &str = "fewer jobs on the right";
const BLOCKS: &str = "more blocks in the joined image than in either";
const BOTH: &str = "a list that replaces moves of both";
const JOINS: &str = "a list by which a move of one becomes a move of the other";
const LEFT: &str = "a list that replaces moves of the left table only";
const RIGHT: &str = "a list that replaces moves of the right table only";

/// The kinds that are found.
pub fn kinds(tables: &Tables) -> BTreeSet<&'static str> {
    let [left, right] = [&tables.left.table, &tables.right.table];
    let (jobs, rules) = (left.jobs + right.jobs, left.rules.len() + right.rules.len());
    let blocks = |rules: usize| rules.div_ceil(63);
    let moves = [left, right].map(moves_of);
    let replaces = [0, 1].map(|side| tables.pairs.iter().any(|pair| moves[side].contains(&pair.0)));
    let joins = |(from, to): &Pair| [0, 1].iter().any(|&side| moves[side].contains(from) && moves[1 - side].contains(to));
    [
        (JOBS, jobs == JOBS_MAX),
        (RULES, rules == RULES_MAX),
        (FEWER, left.jobs < right.jobs),
        (MORE, left.jobs > right.jobs),
        (BLOCKS, blocks(rules) > blocks(left.rules.len()).max(blocks(right.rules.len()))),
        (BOTH, replaces == [true, true]),
        (JOINS, tables.pairs.iter().any(joins)),
        (LEFT, replaces == [true, false]),
        (RIGHT, replaces == [false, true]),
    ]
    .into_iter()
    .filter_map(|(kind, holds)| holds.then_some(kind))
    .collect()
}
