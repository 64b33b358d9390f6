//! Logs of 128 moves to replay on plans of norm 4,096, without an alike list and under one of 32 pairs.
use crate::alike::LISTS;
use crate::calls::Program;
use crate::inputs::{single_table, Input, Pair};
use crate::pairs::PLAN_NORM;
use outside::logs::{bytes_of, run, Log, LOG_MAX};
use outside::rng::Rng;
use outside::shapes::Made;
use outside::table::{rule, Plan, Rule, Table};

/// A replay without a list by the library and by the plain program, and under a list by both (+).
pub const LOG: [Program; 4] = [
    ("library", |areas, pair, space| without_list(gindrazoma::raw::replay_log, areas, pair, space)),
    ("plain", |areas, pair, space| without_list(plain::replay_log, areas, pair, space)),
    ("library+", |areas, pair, space| under_list(gindrazoma::raw::replay_log, areas, pair, space)),
    ("plain+", |areas, pair, space| under_list(plain::replay_log, areas, pair, space)),
];

type Replay = fn(&[u8], &[u8], &[u8], &[u8], &mut [u8]) -> i32;

/// What these calls work on, one behind the other: the image; the image as it is written for the list, and the list.
pub fn areas(table: &Table) -> Vec<u8> {
    let (raw, pairs) = LISTS[0].1(table);
    [table.image(), raw.image(), outside::alike::bytes_of(&pairs)].concat()
}

/// On the right of a plan stands the log, and behind it the log as it is written for the list.
#[inline]
fn without_list(replay: Replay, areas: &[u8], (plan, logs): &Pair, space: &mut [u8]) -> i32 {
    replay(&areas[..image_len(areas)], &[], plan, &logs[..logs.len() / 2], space)
}

#[inline]
fn under_list(replay: Replay, areas: &[u8], (plan, logs): &Pair, space: &mut [u8]) -> i32 {
    let (raw, alike) = areas[image_len(areas)..].split_at(image_len(areas));
    replay(raw, alike, plan, &logs[logs.len() / 2..], space)
}

/// Both images have one length.
pub(crate) fn image_len(areas: &[u8]) -> usize {
    512 * usize::from(areas[508])
}

/// A table to replay a log on: how often it is timed, and how table, plan and log are made.
pub type LogTable = (&'static str, usize, fn(&mut Rng) -> (Table, Plan, Log));

pub const LOG_TABLES: [LogTable; 9] = [
    ("40 rules, a move each", 2000, |rng| with_run(rng, a_move_each(40))),
    ("252 rules, a move each", 2000, |rng| with_run(rng, a_move_each(252))),
    ("40 rules", 200, |rng| with_run(rng, single_table(1, 0, 1).table)),
    ("252 rules", 200, |rng| with_run(rng, single_table(1, 1, 1).table)),
    ("a job that may double", 500, |_| (may_double(), vec![0; PLAN_NORM], vec![97; LOG_MAX])),
    ("rows of a job with any end", 40, |_| on_first_jobs(1, rows_of_four(1, 1))),
    ("the same, left at the end", 40, |_| left_at_the_last_move(on_first_jobs(1, rows_of_four(1, 1)))),
    ("rows of 12 such jobs", 40, |_| on_first_jobs(12, rows_of_four(12, 1))),
    ("rows with every other end", 40, |_| on_first_jobs(1, rows_of_four(1, 2))),
];

/// One of those tables with its plan, and the log in both writings.
pub fn log_input(index: usize) -> Input {
    let (name, _, make) = LOG_TABLES[index];
    let (table, plan, log) = make(&mut Rng::of_iteration(1, name, 0));
    let (_, pairs) = LISTS[0].1(&table);
    let written = |(i, &action): (usize, &u16)| {
        let ways: Log = pairs.iter().filter(|pair| pair.1 == action).map(|pair| pair.0).collect();
        if ways.is_empty() {
            action
        } else {
            ways[i % ways.len()]
        }
    };
    let raw_log: Log = log.iter().enumerate().map(written).collect();
    let logs = [bytes_of(&log), bytes_of(&raw_log)].concat();
    Input { name: name.to_string(), image: table.image(), table, pairs: vec![(plan, logs)] }
}

fn with_run(rng: &mut Rng, table: Table) -> (Table, Plan, Log) {
    let made = Made::of_table(table).expect("an accepted table");
    let plan = made.plan_of_norm(rng, PLAN_NORM as u64);
    let (log, _) = run(rng, &made, &plan, LOG_MAX);
    (made.table, plan, log)
}

/// 24 jobs of norm 1, and so many rules, each with a move of its own.
pub(crate) fn a_move_each(rules: usize) -> Table {
    let row = |i: usize| [i, 7 * i, 5 * i, 11 * i].map(|j| (j % 24) as u8)[..if i < 24 { 0 } else { 1 + i % 4 }].to_vec();
    Table { jobs: 24, rules: (0..rules).map(|i| rule((i % 24) as u8, 97 + 211 * i as u16, &row(i))).collect() }
}

fn may_double() -> Table {
    Table::new(1, &[(0, 97, &[]), (0, 97, &[0]), (0, 97, &[0, 0])])
}

/// The first jobs may end with their move, or go on as so many of themselves: with one they may end at any place of the log, with two at
/// every other one. All other rules have rows of three of these jobs and any fourth. No rule is there twice, and every job is reached.
///
/// With one first job that may end anywhere, nearly as much is to be looked up as can be: three jobs of a row stand behind another, each
/// of them may begin at nearly every later place, and all rules but two have such a row.
fn rows_of_four(first_jobs: u8, again: usize) -> Table {
    let mut rules: Vec<Rule> = Vec::new();
    for j in 0..first_jobs {
        rules.extend([rule(j, 97, &[]), rule(j, 97, &vec![j; again])]);
    }
    let rows = (0..).flat_map(|n: usize| (0..24).map(move |j: usize| (n, j)));
    for (n, j) in rows.take(252 - rules.len()) {
        let first = [n + j, 3 * n + 5 * j, 7 * n + j].map(|i| (i % usize::from(first_jobs)) as u8);
        rules.push(rule(j as u8, 97, &[&first[..], &[((n + j) % 24) as u8]].concat()));
    }
    Table { jobs: 24, rules }
}

/// A plan of the first jobs by turns, and a log of their move.
fn on_first_jobs(first_jobs: u8, table: Table) -> (Table, Plan, Log) {
    (table, (0..first_jobs).cycle().take(PLAN_NORM).collect(), vec![97; LOG_MAX])
}

fn left_at_the_last_move((table, plan, mut log): (Table, Plan, Log)) -> (Table, Plan, Log) {
    log[LOG_MAX - 1] = 98;
    (table, plan, log)
}
