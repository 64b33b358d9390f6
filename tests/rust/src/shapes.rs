//! Random tables of several shapes, plans over them, and plans rewritten to other plans that are the same.
use crate::rng::Rng;
use crate::table::{norm, rule, Plan, Rule, Table};
use std::collections::{BTreeSet, HashSet};

/// The most jobs and rules of a table.
pub const JOBS_MAX: usize = 24;
pub const RULES_MAX: usize = 252;

/// A table with what its construction knows: the row of base jobs that each job stands for. Base jobs keep the numbers that they had before
/// the jobs of the table were renumbered, so that two tables by the same base rules have rows of the same base jobs.
pub struct Made {
    pub table: Table,
    pub norms: Vec<u64>,
    words: Vec<Plan>,
}

#[derive(Clone, Copy, Debug, PartialEq, Eq)]
pub enum Shape {
    /// a few jobs, one or two moves, rules at random
    Tiny,
    /// at most one job after: finitely many plans
    Regular,
    /// every move is the same
    OneMove,
    /// a few base jobs; all others are copies of jobs or made of several, written in many ways
    Equations,
    /// the same with 24 jobs and about 40 rules
    Light,
    /// the same with 24 jobs and 252 rules, many of them doubled or written otherwise
    Full,
    /// the same with one base job or two and norms up to 512
    Long,
    /// the same with one rule changed, so that much is nearly the same
    Near,
    /// two chains of jobs that differ at their ends only
    Chains,
    /// jobs and moves at random over all their numbers
    Wide,
}

pub const SHAPES: [Shape; 10] = [
    Shape::Tiny,
    Shape::Regular,
    Shape::OneMove,
    Shape::Equations,
    Shape::Light,
    Shape::Full,
    Shape::Long,
    Shape::Near,
    Shape::Chains,
    Shape::Wide,
];

impl Made {
    /// A table of a shape whose image is accepted.
    pub fn new(shape: Shape, rng: &mut Rng) -> Made {
        Made::within(shape, rng, JOBS_MAX)
    }

    /// The same with at most so many jobs, and a full one with as many rules for each; chains need two jobs.
    pub fn within(shape: Shape, rng: &mut Rng, most: usize) -> Made {
        let up_to = |from: usize, to: usize| (from.min(most), to.min(most));
        loop {
            let made = match shape {
                Shape::Tiny => random_table(rng, most.min(5), 2, 3, 3),
                Shape::Regular => random_table(rng, most.min(9), 2, 3, 1),
                Shape::OneMove => random_table(rng, most.min(8), 1, 3, 4),
                Shape::Wide => random_table(rng, most, ANY, 10, 4),
                Shape::Equations => equations(rng, Sizes { base: up_to(1, 4), jobs: up_to(4, 16), rules: 3, fill: 0, word: 40 }),
                Shape::Light => equations(rng, Sizes { base: up_to(4, 8), jobs: (most, most), rules: 2, fill: 0, word: 40 }),
                Shape::Full => {
                    let fill = RULES_MAX * most / JOBS_MAX;
                    equations(rng, Sizes { base: up_to(2, 5), jobs: (most, most), rules: 4, fill, word: 40 })
                }
                Shape::Long => equations(rng, Sizes { base: up_to(1, 2), jobs: up_to(8, 24), rules: 2, fill: 0, word: 512 }),
                Shape::Near => equations(rng, Sizes { base: up_to(1, 4), jobs: up_to(4, 16), rules: 3, fill: 0, word: 10 })
                    .and_then(|m| one_rule_changed(rng, m)),
                Shape::Chains => chains(rng, most / 2),
            };
            if let Some(mut made) = made {
                change_moves(rng, &mut made.table);
                return made;
            }
        }
    }

    /// The table alone; each job stands for itself.
    pub fn of_table(table: Table) -> Option<Made> {
        let words = (0..table.jobs as u8).map(|j| vec![j]).collect();
        Made::with_words(table, words)
    }

    /// A table of base rules and of jobs that stand for rows of base jobs, the base jobs first. Each has the rules of its
    /// row's first job with the rest behind, written with whatever jobs stand for it; rules are written again, perhaps
    /// in other words, until there are `fill`.
    pub fn of_words(rng: &mut Rng, rules: &[Rule], words: Vec<Plan>, fill: usize) -> Option<Made> {
        let mut all: Vec<Rule> = Vec::new();
        for (j, word) in words.iter().enumerate() {
            let ways = follow(rng, rules, &words, word)?;
            all.extend(ways.iter().map(|(a, after)| rule(j as u8, *a, after)));
        }
        while all.len() < fill {
            let j = rng.below(words.len());
            let ways = follow(rng, rules, &words, &words[j])?;
            let (a, after) = rng.pick(&ways);
            all.push(rule(j as u8, *a, after));
        }
        if all.len() > RULES_MAX {
            return None;
        }
        let table = finished(rng, Table { jobs: words.len(), rules: all });
        renumbered(rng, table, words)
    }

    /// A table by equations of so many jobs and rules.
    pub fn of_size(rng: &mut Rng, jobs: usize, rules: usize) -> Made {
        Made::of_base(rng, (jobs.div_ceil(6), jobs.div_ceil(3)), (rules / jobs).clamp(1, 3), jobs, rules)
    }

    /// The same with so many base jobs (from, to), each of at most `each` rules.
    pub fn of_base(rng: &mut Rng, base: (usize, usize), each: usize, jobs: usize, rules: usize) -> Made {
        loop {
            let made = equations(rng, Sizes { base, jobs: (jobs, jobs), rules: each, fill: rules, word: 40 });
            if let Some(made) = made.filter(|m| m.table.rules.len() == rules) {
                return made;
            }
        }
    }

    fn with_words(table: Table, words: Vec<Plan>) -> Option<Made> {
        let norms = table.finite_norms()?;
        let small = norms.iter().all(|&n| n <= 512) && (1..=RULES_MAX).contains(&table.rules.len());
        small.then_some(Made { table, norms, words })
    }

    /// The same with moves replaced by a list of pairs: rows that stood for one another still do.
    pub fn replaced(&self, pairs: &[(u16, u16)]) -> Made {
        Made { table: self.table.replaced(pairs), norms: self.norms.clone(), words: self.words.clone() }
    }

    /// Another table of as many jobs, each with the row that it has here; None if its image is not accepted.
    pub fn with_table(&self, table: Table) -> Option<Made> {
        Made::with_words(table, self.words.clone())
    }

    /// A copy with other numbers for its jobs and with its rules in another order.
    pub fn renamed(&self, rng: &mut Rng) -> Made {
        let mut table = self.table.clone();
        rng.shuffle(&mut table.rules);
        renumbered(rng, table, self.words.clone()).expect("norms of a copy")
    }

    /// The joined table, in which each job keeps its row; None if the two have too many rules.
    pub fn joined(&self, right: &Made) -> Option<Made> {
        Made::with_words(self.table.joined(&right.table), [&self.words[..], &right.words].concat())
    }

    pub fn norm(&self, plan: &[u8]) -> u64 {
        norm(&self.norms, plan)
    }

    /// Whether moves, two bytes each with the low byte first, are as many as the norm of a plan and can lead to the empty plan.
    pub fn is_shortest_run(&self, plan: &[u8], run: &[u8]) -> bool {
        let mut left = self.norm(plan);
        let mut plans = HashSet::from([plan.to_vec()]);
        for action in run.chunks(2).map(|m| u16::from(m[0]) + 256 * u16::from(m[1])) {
            left = left.wrapping_sub(1);
            let next = plans.iter().flat_map(|p| self.table.moves(p)).filter(|(a, q)| *a == action && self.norm(q) == left);
            plans = next.map(|(_, q)| q).collect();
        }
        plans.contains(&Vec::new())
    }

    /// A plan of a norm of at most `most`.
    pub fn plan(&self, rng: &mut Rng, most: u64) -> Plan {
        let mut plan = Vec::new();
        let mut left = most;
        for _ in 0..rng.below(12) {
            let j = rng.below(self.table.jobs);
            if self.norms[j] <= left {
                left -= self.norms[j];
                plan.push(j as u8);
            }
        }
        plan
    }

    /// A plan of exactly this norm: jobs at random, then such as fit.
    pub fn plan_of_norm(&self, rng: &mut Rng, total: u64) -> Plan {
        let mut plan = Vec::new();
        let mut left = total;
        while left > 0 {
            let fit: Vec<u8> = (0..self.table.jobs as u8).filter(|&j| self.norms[j as usize] <= left).collect();
            let j = *rng.pick(&fit);
            left -= self.norms[j as usize];
            plan.push(j);
        }
        rng.shuffle(&mut plan);
        plan
    }

    /// Another plan that stands for the same base jobs, so that the two are the same.
    pub fn rewritten(&self, rng: &mut Rng, plan: &[u8]) -> Plan {
        self.rewritten_over(rng, self, plan)
    }

    /// The same over another table, in which each base job has a job.
    pub fn rewritten_over(&self, rng: &mut Rng, other: &Made, plan: &[u8]) -> Plan {
        let word: Plan = plan.iter().flat_map(|&j| self.words[j as usize].clone()).collect();
        cover(rng, &other.words, &word, word.len()).unwrap()
    }

    /// Other jobs that stand for the same base jobs as a job; None if there are none.
    pub fn otherwise(&self, rng: &mut Rng, job: u8) -> Option<Plan> {
        let word = &self.words[job as usize];
        let mut others = self.words.clone();
        others[job as usize] = vec![u8::MAX]; // no row has it
        cover(rng, &others, word, word.len())
    }

    /// A plan of the same norm that differs in one place or two; perhaps it is the same all the same.
    pub fn perturbed(&self, rng: &mut Rng, plan: &[u8]) -> Plan {
        let mut other = plan.to_vec();
        if plan.is_empty() {
            return other;
        }
        let i = rng.below(plan.len());
        let alike: Vec<u8> = (0..self.table.jobs as u8)
            .filter(|&j| j != plan[i] && self.norms[j as usize] == self.norms[plan[i] as usize])
            .collect();
        if alike.is_empty() || rng.once_in(3) {
            let k = rng.below(plan.len());
            other.swap(i, k);
        } else {
            other[i] = *rng.pick(&alike);
        }
        other
    }
}

/// Rules at random; some job without a norm, or with one that is too high, gives none.
fn random_table(rng: &mut Rng, jobs_most: usize, actions: usize, rules_most: usize, after_most: usize) -> Option<Made> {
    let jobs = rng.range(1, jobs_most);
    let mut rules = Vec::new();
    for j in 0..jobs {
        for i in 0..rng.range(1, rules_most) {
            // the first rule goes to jobs with lower numbers, so that most tables are accepted
            let below = if i == 0 { j } else { jobs };
            let len = if below == 0 { 0 } else { rng.below(after_most + 1).min(rng.range(0, 4)) };
            let after: Plan = (0..len).map(|_| rng.below(below) as u8).collect();
            rules.push(rule(j as u8, action(rng, actions), &after));
        }
    }
    let table = finished(rng, Table { jobs, rules });
    let words = (0..jobs as u8).map(|j| vec![j]).collect();
    renumbered(rng, table, words)
}

/// Few moves: two that are equal in their low seven bits, and 0.
const MOVES: [u16; 3] = [97, 225, 0];

/// The first and last moves of one byte and of two.
pub const EDGES: [u16; 4] = [0, 255, 256, 65535];

/// Moves over their whole range.
const ANY: usize = 65536;

fn action(rng: &mut Rng, actions: usize) -> u16 {
    if actions == ANY {
        any_move(rng, 97)
    } else {
        MOVES[rng.below(actions)]
    }
}

/// Any move, often one with a given low byte or one of the edges.
pub fn any_move(rng: &mut Rng, low: u8) -> u16 {
    match rng.below(3) {
        0 => *rng.pick(&EDGES),
        1 => u16::from_le_bytes([low, rng.byte()]),
        _ => rng.number() as u16,
    }
}

/// Two times in three other moves for those of a table that has few, different ones for different ones: all with one low
/// byte, or of the whole range.
fn change_moves(rng: &mut Rng, table: &mut Table) {
    let old: BTreeSet<u16> = table.rules.iter().map(|r| r.action).collect();
    if old.len() > EDGES.len() || rng.once_in(3) {
        return;
    }
    let (low, one_low) = (rng.byte(), rng.once_in(2));
    let mut new = Vec::new();
    while new.len() < old.len() {
        let action = if one_low { u16::from_le_bytes([low, rng.byte()]) } else { any_move(rng, low) };
        if !new.contains(&action) {
            new.push(action);
        }
    }
    for r in &mut table.rules {
        r.action = new[old.range(..r.action).count()];
    }
}

/// Some rules doubled, and the rules shuffled.
pub(crate) fn finished(rng: &mut Rng, table: Table) -> Table {
    let mut rules = table.rules;
    if rng.once_in(3) {
        for _ in 0..rng.range(1, 3).min(RULES_MAX - rules.len()) {
            rules.push(rng.pick(&rules).clone());
        }
    }
    rng.shuffle(&mut rules);
    Table { jobs: table.jobs, rules }
}

/// What a table by equations is made of: base jobs and jobs (from, to), the most rules of a base job, the rules to
/// fill up to, the longest row of base jobs.
struct Sizes {
    base: (usize, usize),
    jobs: (usize, usize),
    rules: usize,
    fill: usize,
    word: usize,
}

/// Base jobs with rules at random, then jobs that stand for rows of base jobs.
fn equations(rng: &mut Rng, sizes: Sizes) -> Option<Made> {
    let base = rng.range(sizes.base.0, sizes.base.1);
    let jobs = rng.range(sizes.jobs.0, sizes.jobs.1);
    let rules = base_rules(rng, base, sizes.rules);
    let words = words_of_base(rng, &rules, base, jobs, sizes.word);
    Made::of_words(rng, &rules, words, sizes.fill)
}

/// The row of each base job by itself, and further rows of at most so many base jobs, for so many jobs in all.
pub(crate) fn words_of_base(rng: &mut Rng, rules: &[Rule], base: usize, jobs: usize, longest: usize) -> Vec<Plan> {
    let mut words: Vec<Plan> = (0..base as u8).map(|j| vec![j]).collect();
    while words.len() < jobs {
        let mut word = rng.pick(&words).clone();
        if longest > 100 && rng.once_in(2) {
            word = words.iter().max_by_key(|w| w.len()).unwrap().clone();
        }
        if !rng.once_in(4) {
            word.extend(rng.pick(&words));
        }
        if word.len() <= longest && follow(rng, rules, &words, &word).is_some() {
            words.push(word);
        }
    }
    words
}

fn base_rules(rng: &mut Rng, base: usize, most: usize) -> Vec<Rule> {
    let actions = rng.range(1, 3);
    let mut rules = Vec::new();
    for j in 0..base {
        for i in 0..rng.range(1, most) {
            let below = if i == 0 { j } else { base };
            let len = if below == 0 { 0 } else { rng.below(3) };
            let after: Plan = (0..len).map(|_| rng.below(below) as u8).collect();
            rules.push(rule(j as u8, action(rng, actions), &after));
        }
    }
    rules
}

/// One rule with another move, or with another job of the same norm after it.
fn one_rule_changed(rng: &mut Rng, made: Made) -> Option<Made> {
    let mut table = made.table;
    let i = rng.below(table.rules.len());
    if table.rules[i].after.is_empty() || rng.once_in(2) {
        table.rules[i].action = *rng.pick(&MOVES);
    } else {
        let k = rng.below(table.rules[i].after.len());
        let n = made.norms[table.rules[i].after[k] as usize];
        let alike: Vec<u8> = (0..table.jobs as u8).filter(|&j| made.norms[j as usize] == n).collect();
        table.rules[i].after[k] = *rng.pick(&alike);
    }
    Made::of_table(table)
}

/// Two chains of at most so many jobs: each job goes to the one before it in its chain; the first jobs may differ.
fn chains(rng: &mut Rng, longest: usize) -> Option<Made> {
    let len = rng.range(longest.min(2), longest);
    let widen = rng.once_in(2);
    let mut rules = Vec::new();
    for start in [0, len] {
        for i in 0..len {
            let j = (start + i) as u8;
            rules.push(rule(j, 97, &[]));
            let before = if i == 0 { j } else { j - 1 };
            let after = if widen { vec![before, before] } else { vec![before] };
            rules.push(rule(j, 98, &after));
        }
    }
    if !rng.once_in(3) {
        rules.push(rule(0, 98, &[]));
    }
    let table = finished(rng, Table { jobs: 2 * len, rules });
    let words = (0..2 * len as u8).map(|j| vec![j]).collect();
    renumbered(rng, table, words)
}

/// The rules of a job that stands for a row of base jobs: None if some remainder cannot be written with four jobs.
fn follow(rng: &mut Rng, rules: &[Rule], words: &[Plan], word: &[u8]) -> Option<Vec<(u16, Plan)>> {
    let mut ways = Vec::new();
    for r in rules.iter().filter(|r| r.job == word[0]) {
        let rest = [&r.after, &word[1..]].concat();
        ways.push((r.action, cover(rng, words, &rest, 4)?));
    }
    Some(ways)
}

/// At most `most` jobs whose words make up a word, at random.
fn cover(rng: &mut Rng, words: &[Plan], word: &[u8], most: usize) -> Option<Plan> {
    // fewest[i]: the fewest jobs that make up the word from place i on
    let mut fewest = vec![usize::MAX; word.len() + 1];
    fewest[word.len()] = 0;
    for i in (0..word.len()).rev() {
        for w in words.iter().filter(|w| word[i..].starts_with(w)) {
            fewest[i] = fewest[i].min(fewest[i + w.len()].saturating_add(1));
        }
    }
    let mut plan = Vec::new();
    let mut at = 0;
    while at < word.len() {
        let left = most.checked_sub(plan.len() + 1)?;
        let fit: Vec<usize> =
            (0..words.len()).filter(|&j| word[at..].starts_with(&words[j]) && fewest[at + words[j].len()] <= left).collect();
        if fit.is_empty() {
            return None;
        }
        let j = *rng.pick(&fit);
        plan.push(j as u8);
        at += words[j].len();
    }
    Some(plan)
}

pub(crate) fn renumbered(rng: &mut Rng, table: Table, words: Vec<Plan>) -> Option<Made> {
    let mut number: Vec<u8> = (0..table.jobs as u8).collect();
    rng.shuffle(&mut number);
    let anew = |plan: &[u8]| -> Plan { plan.iter().map(|&j| number[j as usize]).collect() };
    let rules = table.rules.iter().map(|r| rule(number[r.job as usize], r.action, &anew(&r.after))).collect();
    let mut moved = vec![Vec::new(); words.len()];
    for (j, word) in words.into_iter().enumerate() {
        moved[number[j] as usize] = word;
    }
    Made::with_words(Table { jobs: table.jobs, rules }, moved)
}
