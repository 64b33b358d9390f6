//! Logs: the plain program and the library beside the replay by all plans that are reached.
use bench::alike::LISTS;
use bench::inputs::Input;
use bench::logs::{areas, log_input, LOG};
use bench::pairs::PLAN_NORM;
use outside::alike::{self, moves_of, pairs_of, Listed, PAIRS_MAX};
use outside::damage::{damaged, damaged_list, damaged_log};
use outside::harness::Outcome;
use outside::logs::{any_made, bytes_of, counted, cut_to_answer, moves_in, run, varied, written_otherwise, LOG_MAX, PLANS};
use outside::refusals::{of_alike, of_log, of_plans_alike, table_of_image};
use outside::refused::{any_length, any_plan};
use outside::replay::{by_plans, Lengths};
use outside::rng::Rng;
use outside::table::{norm, Table};
use outside::{ensure, ensure_eq};

type Replay = fn(&[u8], &[u8], &[u8], &[u8], &mut [u8]) -> i32;

const PROGRAMS: [(&str, Replay); 2] = [("plain", plain::replay_log), ("library", gindrazoma::raw::replay_log)];

/// Logs on plans over a table with a list, and over the table whose moves are replaced.
pub fn on_plans(rng: &mut Rng) -> Outcome {
    let made = any_made(rng);
    let Listed { raw, pairs, made } = Listed::new(rng, made);
    let mut space = rng.bytes(plain::WORKSPACE);
    for _ in 0..4 {
        let plan = made.plan(rng, 200);
        let (log, _) = run(rng, &made, &plan, LOG_MAX);
        let log = written_otherwise(rng, &pairs, &log);
        let mut log = varied(rng, &raw, &log);
        let (counted, wanted) = cut_to_answer(&made.table, &plan, counted(&pairs, &log));
        log.truncate(counted.len());
        for (table, pairs, log) in [(&raw, &pairs[..], &log), (&made.table, &[], &counted)] {
            for (name, call) in PROGRAMS {
                let answer = call(&table.image(), &alike::bytes_of(pairs), &plan, &bytes_of(log), &mut space);
                ensure_eq!(answer, wanted, "{name}: {log:?} on {plan:?} over {table:?} under {pairs:?}");
                ensure!(space.iter().all(|&b| b == 0), "{name}: the workspace is not cleared");
            }
        }
    }
    Ok(())
}

/// Any damage to any of the areas: the refusal of the documents, or the answer over what the areas mean.
pub fn refused(rng: &mut Rng) -> Outcome {
    let made = any_made(rng);
    let listed = Listed::new(rng, made);
    let (mut image, mut list) = (listed.raw.image(), alike::bytes_of(&listed.pairs));
    let (plan, len, mut log) = (any_plan(rng, &listed.made), any_length(rng), rng.bytes(20));
    if rng.once_in(3) {
        image = damaged(rng, &image);
    }
    if rng.once_in(3) {
        list = damaged_list(rng, &list);
    }
    if rng.once_in(2) {
        log = damaged_log(rng, &log);
    }
    let refusal = match of_plans_alike(&image, &list, &[&plan]) {
        _ if len < plain::WORKSPACE => 1,
        0 => of_log(&log),
        refusal => refusal,
    };
    let replayed = || {
        let pairs = pairs_of(&list);
        by_plans(&table_of_image(&image).replaced(&pairs), &plan, &counted(&pairs, &moves_in(&log)), PLANS)
    };
    let wanted = if refusal == 0 { replayed() } else { Some(-i32::from(refusal)) };
    for (name, call) in PROGRAMS {
        let answer = call(&image, &list, &plan, &log, &mut rng.bytes(len));
        ensure!(wanted.is_none_or(|wanted| answer == wanted), "{name}: {answer} and not {wanted:?} for {log:?} on {plan:?}");
    }
    Ok(())
}

/// A log that is timed has 128 moves and a plan of norm 4,096, and is written for a list under which it is what it was; each program
/// answers rightly.
pub fn timed(index: usize) -> Outcome {
    let Input { name, table, pairs: logs, .. } = log_input(index);
    let (raw, pairs) = LISTS[0].1(&table);
    ensure_eq!((pairs.len(), of_alike(&alike::bytes_of(&pairs))), (PAIRS_MAX, 0), "pairs and refusal of the list for {name}");
    ensure!(raw.replaced(&pairs) == table, "{name} under its list is another table");
    let (norms, areas) = (table.finite_norms().expect("norms of jobs"), areas(&table));
    for pair in &logs {
        let (plan, both) = pair;
        let (log, written) = both.split_at(both.len() / 2);
        let (log, written) = (moves_in(log), moves_in(written));
        ensure_eq!((norm(&norms, plan) as usize, log.len()), (PLAN_NORM, LOG_MAX), "norm and moves of {name}");
        ensure!(log != written && counted(&pairs, &written) == log, "the log of {name} is not as it is written for the list");
        let answers = LOG.map(|(_, call)| call(&areas, pair, &mut vec![0; plain::WORKSPACE]));
        let wanted = answer(&table, plan, &log).unwrap_or(answers[0]);
        ensure_eq!(answers, [wanted; 4], "the answers about {name}");
    }
    Ok(())
}

/// The answer by the definition, or by the numbers of moves if all rules make one; None if too many plans are reached.
fn answer(table: &Table, plan: &[u8], log: &[u16]) -> Option<i32> {
    if moves_of(table) != log[..1] {
        return by_plans(table, plan, log, 10 * PLANS);
    }
    let right = log.iter().take_while(|&&action| action == log[0]).count();
    Some(Lengths::new(table, log.len()).answer(plan, log.len(), right))
}
