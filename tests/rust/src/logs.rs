//! Logs over tables: runs that are complete, cut off, lengthened or changed, and tables on which it matters which rule a move
//! is taken for.
use crate::alike::{moves_of, Pair};
use crate::replay::{by_one_rule, by_plans};
use crate::rng::Rng;
use crate::shapes::{any_move, finished, renumbered, Made, SHAPES};
use crate::table::{rule, Plan, Table};
use std::collections::BTreeSet;

pub type Log = Vec<u16>;

pub const LOG_MAX: usize = 128;

/// The most plans that are reached at once in a replay by the definition; logs are cut to what keeps to that.
pub const PLANS: usize = 400;

/// The same where kinds of logs are looked for.
const FEW_PLANS: usize = 50;

/// Moves as they are written.
pub fn bytes_of(log: &[u16]) -> Vec<u8> {
    log.iter().flat_map(|action| [action % 256, action / 256].map(|byte| byte as u8)).collect()
}

/// The moves of a log that passed check 11.
pub fn moves_in(log: &[u8]) -> Log {
    log.chunks(2).map(|action| u16::from(action[0]) + 256 * u16::from(action[1])).collect()
}

/// A table of any shape; often one on which it matters which rule is taken.
pub fn any_made(rng: &mut Rng) -> Made {
    if rng.once_in(3) {
        ambiguous(rng)
    } else {
        Made::new(*rng.pick(&SHAPES), rng)
    }
}

/// A few jobs and one or two moves, several rules for each move, and rows that go round: a job may end at many places of a log.
pub fn ambiguous(rng: &mut Rng) -> Made {
    loop {
        let jobs = rng.range(1, 4);
        let moves: Vec<u16> = (0..rng.range(1, 2)).map(|_| any_move(rng, 97)).collect();
        let mut rules = Vec::new();
        for j in 0..jobs {
            for i in 0..rng.range(2, 4) {
                let len = if i == 0 && j == 0 { 0 } else { rng.below(5).min(rng.below(5)) };
                let after: Plan = (0..len).map(|_| rng.below(jobs) as u8).collect();
                rules.push(rule(j as u8, *rng.pick(&moves), &after));
            }
        }
        let table = finished(rng, Table { jobs, rules });
        let words = (0..jobs as u8).map(|j| vec![j]).collect();
        if let Some(made) = renumbered(rng, table, words) {
            return made;
        }
    }
}

/// A table of one move with up to 252 rules, and rows of up to four jobs.
pub fn crowded(rng: &mut Rng) -> Made {
    loop {
        let jobs = rng.range(1, 24);
        let mut rules = vec![rule(0, 97, &[])];
        for _ in 1..rng.range(jobs, 252) {
            let len = *rng.pick(&[0, 1, 2, 3, 4, 4, 4]);
            let after: Plan = (0..len).map(|_| rng.below(jobs) as u8).collect();
            rules.push(rule(rng.below(jobs) as u8, 97, &after));
        }
        if let Some(made) = Made::of_table(Table { jobs, rules }) {
            return made;
        }
    }
}

/// A run of at most so many moves, with the plan that is left: some moves at random, and then such as lower the norm. Mostly it
/// comes to its end if it can.
pub fn run(rng: &mut Rng, made: &Made, plan: &[u8], most: usize) -> (Log, Plan) {
    let (mut log, mut plan) = (Log::new(), plan.to_vec());
    let to_its_end = !rng.once_in(4) && made.norm(&plan) as usize <= most;
    let wander = if rng.once_in(4) { most } else { rng.below(most.min(30) + 1) };
    while !plan.is_empty() && log.len() < most {
        let norm = if log.len() >= wander {
            made.norm(&plan) - 1
        } else if to_its_end {
            (most - log.len() - 1) as u64
        } else {
            u64::MAX
        };
        plan = step(rng, made, &plan, norm, &mut log);
    }
    (log, plan)
}

/// The plan after a move that leaves at most a norm; the move is put to the log.
fn step(rng: &mut Rng, made: &Made, plan: &[u8], norm: u64, log: &mut Log) -> Plan {
    let mut steps = made.table.moves(plan);
    steps.retain(|(_, rest)| made.norm(rest) <= norm);
    let (action, rest) = steps.swap_remove(rng.below(steps.len()));
    log.push(action);
    rest
}

/// A plan and a complete run of it that has so many moves.
pub fn run_of_length(rng: &mut Rng, made: &Made, moves: usize) -> (Plan, Log) {
    let mut plan = made.plan(rng, moves as u64);
    let (mut log, rest) = run(rng, made, &plan, moves);
    if !rest.is_empty() {
        (plan, log) = (Plan::new(), Log::new());
    }
    let more = made.plan_of_norm(rng, (moves - log.len()) as u64);
    plan.extend(&more);
    let mut rest = more;
    while !rest.is_empty() {
        rest = step(rng, made, &rest, made.norm(&rest) - 1, &mut log);
    }
    (plan, log)
}

/// A move to put into a log: one that some rule makes, or one that is nearly another, or any.
pub fn some_move(rng: &mut Rng, table: &Table, near: u16) -> u16 {
    match rng.below(6) {
        0 => near ^ 1 << rng.below(8),
        1 => near ^ 256 << rng.below(8),
        2 => near.swap_bytes(),
        3 => any_move(rng, near as u8),
        _ => *rng.pick(&moves_of(table)),
    }
}

/// A log cut off, lengthened, with moves changed, exchanged, doubled or left out, or as it is; at most 128 moves.
pub fn varied(rng: &mut Rng, table: &Table, log: &[u16]) -> Log {
    let mut log = log.to_vec();
    let len = log.len();
    match rng.below(8) {
        0 | 1 => {}
        2 => log.truncate(rng.below(len + 1)),
        3 => {
            for _ in 0..rng.range(1, 3) {
                let near = log.last().copied().unwrap_or(0);
                log.push(some_move(rng, table, near));
            }
        }
        4 if len > 1 => {
            let i = rng.below(len - 1);
            log.swap(i, i + 1);
        }
        5 if len > 0 => {
            let i = rng.below(len);
            log.insert(i, log[i]);
        }
        6 if len > 0 => {
            log.remove(rng.below(len));
        }
        _ if len > 0 => {
            let i = if rng.once_in(2) { 0 } else { rng.below(len) };
            log[i] = some_move(rng, table, log[i]);
        }
        _ => {}
    }
    log.truncate(LOG_MAX);
    log
}

/// A log with its moves replaced by a list.
pub fn counted(pairs: &[Pair], log: &[u16]) -> Log {
    log.iter().map(|&action| pairs.iter().find(|pair| pair.0 == action).map_or(action, |pair| pair.1)).collect()
}

/// A log in other moves that count as its own by a list.
pub fn written_otherwise(rng: &mut Rng, pairs: &[Pair], log: &[u16]) -> Log {
    let other = |rng: &mut Rng, action: u16| {
        let ways: Vec<u16> = pairs.iter().filter(|pair| pair.1 == action).map(|pair| pair.0).collect();
        if ways.is_empty() || rng.once_in(3) {
            action
        } else {
            *rng.pick(&ways)
        }
    };
    log.iter().map(|&action| other(rng, action)).collect()
}

/// The answer about a log, and the log: cut if too many plans are reached by it.
pub fn cut_to_answer(table: &Table, plan: &[u8], mut log: Log) -> (Log, i32) {
    loop {
        match by_plans(table, plan, &log, PLANS) {
            Some(answer) => return (log, answer),
            None => log.truncate(log.len() * 3 / 4),
        }
    }
}

/// What a log may be for a plan.
pub const KINDS: [&str; 14] =
    [WHOLE, PART, AT_ONCE, MIDDLE, LAST, BEYOND, LONG, FULL, NOT_SHORTEST, BY_FIRST, BY_LAST, GREEDY, WITHIN, WITH];

const WHOLE: &str = "whole";
const PART: &str = "part";
const AT_ONCE: &str = "left at the first of several moves";
const MIDDLE: &str = "left at a move behind the first and before the last";
const LAST: &str = "left at the last of several moves";
const BEYOND: &str = "a complete run, and a move more";
const LONG: &str = "more than 64 moves";
const FULL: &str = "127 or 128 moves";
const NOT_SHORTEST: &str = "whole, with more moves than the norm";
const BY_FIRST: &str = "another answer by the first rule for each move";
const BY_LAST: &str = "another answer by the last rule for each move";
const GREEDY: &str = "whole, and left both by the first and by the last rule for each move";
const WITHIN: &str = "part, and no job has just ended";
const WITH: &str = "part, and a job of the plan has just ended";

/// A table, and plans over it with a log each: of every kind.
pub fn some_logs(rng: &mut Rng) -> (Made, Vec<(Plan, Log)>) {
    let made = any_made(rng);
    let mut logs = Vec::new();
    for _ in 0..6 {
        let len = if rng.once_in(3) { rng.range(LOG_MAX - 1, LOG_MAX) } else { rng.range(1, 90) };
        let (plan, log) = if rng.once_in(2) {
            run_of_length(rng, &made, len)
        } else {
            let most = if rng.once_in(3) { 4096 } else { len as u64 };
            let plan = made.plan(rng, most);
            let log = run(rng, &made, &plan, len).0;
            (plan, log)
        };
        let log = if rng.once_in(3) { log } else { varied(rng, &made.table, &log) };
        logs.push((plan, log));
    }
    (made, logs)
}

/// The kinds that are found among such logs.
pub fn kinds(rng: &mut Rng) -> BTreeSet<&'static str> {
    let (made, logs) = some_logs(rng);
    logs.iter().flat_map(|(plan, log)| kinds_of_log(&made, plan, log)).collect()
}

fn kinds_of_log(made: &Made, plan: &[u8], log: &[u16]) -> Vec<&'static str> {
    let replayed = |plan: &[u8], log: &[u16]| by_plans(&made.table, plan, log, FEW_PLANS);
    let Some(answer) = replayed(plan, log) else { return Vec::new() };
    let (moves, place) = (log.len(), answer - 2);
    let [first, last] = [false, true].map(|last| by_one_rule(&made.table, plan, log, last));
    let some_part = answer == 0 && moves > 0 && plan.len() < 12;
    let with_a_job = some_part && (0..plan.len()).any(|jobs| replayed(&plan[..jobs], log) == Some(1));
    [
        (WHOLE, answer == 1 && moves > 0),
        (PART, answer == 0 && moves > 0),
        (AT_ONCE, place == 0 && moves > 1),
        (MIDDLE, place > 0 && (place as usize) < moves - 1),
        (LAST, place > 0 && place as usize == moves - 1),
        (BEYOND, place > 0 && replayed(plan, &log[..place as usize]) == Some(1)),
        (LONG, moves > 64 && answer < 2),
        (FULL, moves >= LOG_MAX - 1),
        (NOT_SHORTEST, answer == 1 && moves as u64 > made.norm(plan)),
        (BY_FIRST, first != answer),
        (BY_LAST, last != answer),
        (GREEDY, answer == 1 && first > 1 && last > 1),
        (WITHIN, some_part && !with_a_job),
        (WITH, with_a_job),
    ]
    .into_iter()
    .filter_map(|(kind, holds)| holds.then_some(kind))
    .collect()
}
