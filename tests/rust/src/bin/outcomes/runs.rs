//! What "same" and "apart" say about complete runs, over tables with a choice of outcome and without.
use crate::calls::Calls;
use gindrazoma::raw::{compare_alike, replay_log};
use outside::alike::{listed, Listed};
use outside::complete_runs::{complete_runs, walked, Walk};
use outside::harness::Outcome;
use outside::logs::{bytes_of, LOG_MAX, PLANS};
use outside::outcomes::{small, without_choice};
use outside::replay::by_plans;
use outside::rng::Rng;
use outside::shapes::Made;
use outside::space::SPACE;
use outside::table::Plan;
use outside::tally::Tally;
use outside::{ensure, ensure_eq};

pub const KINDS: [&str; 8] = [NONE_SAME, NONE_APART, SAME, APART, EQUAL_RUNS, GOING_SAME, GOING_APART, GOING_EQUAL_RUNS];

const NONE_SAME: &str = "no choice, all runs end: the same, and the same complete runs";
const NONE_APART: &str = "no choice, all runs end: apart, and other complete runs";
const SAME: &str = "a choice, all runs end: the same, and the same complete runs";
const APART: &str = "a choice, all runs end: apart, and other complete runs";
const EQUAL_RUNS: &str = "a choice, all runs end: apart, and the same complete runs";
const GOING_SAME: &str = "no choice, runs may go on: the same";
const GOING_APART: &str = "no choice, runs may go on: apart, and a complete run of one alone";
const GOING_EQUAL_RUNS: &str = "a choice, runs may go on: apart, and the same complete runs of few moves";

/// The most plans that are reached by complete runs of one length, and the most pairs that are walked to.
const REACHED: usize = 3000;
const WALKED: usize = 1500;

/// Complete runs of so many moves are looked at where runs may go on.
const MOVES: u64 = 7;

/// Whether a table is without a choice under a list: by the call, whose answer is that of the rows.
fn asked(listed: &Listed) -> Result<bool, String> {
    let calls = Calls::of(listed);
    calls.expect(without_choice(&listed.made.table))?;
    Ok(calls.answer()? == 1)
}

fn same(listed: &Listed, p: &[u8], q: &[u8]) -> Result<bool, String> {
    let calls = Calls::of(listed);
    let answer = compare_alike(&calls.image, &calls.alike, p, q, &mut [0; SPACE]);
    ensure!(answer >= 0, "{answer} for {p:?} and {q:?}");
    Ok(answer == 1)
}

/// Two plans of one to three jobs, mostly of one norm: those of different norms are told apart at once.
fn two_plans(rng: &mut Rng, made: &Made) -> (Plan, Plan) {
    let mut plan = || -> Plan { (0..rng.range(1, 3)).map(|_| rng.below(made.table.jobs) as u8).collect() };
    let p = plan();
    for _ in 0..20 {
        let q = plan();
        if q != p && made.norm(&q) == made.norm(&p) {
            return (p, q);
        }
    }
    let q = plan();
    (p, q)
}

/// The moves of the longest run of a plan, over a table whose rules lead to lower jobs only.
fn longest(made: &Made, plan: &[u8]) -> u64 {
    let mut jobs = vec![0; made.table.jobs];
    for j in 0..made.table.jobs {
        let rows = made.table.rules_of(j as u8).map(|r| r.after.iter().map(|&k| jobs[usize::from(k)]).sum::<u64>());
        jobs[j] = 1 + rows.max().expect("a rule");
    }
    plan.iter().map(|&j| jobs[usize::from(j)]).sum()
}

/// All complete runs of both plans are there to compare: "same" says that they are equal, and without a choice "apart" that they are not.
pub fn plans_whose_runs_end(rng: &mut Rng, pairs: &Tally) -> Outcome {
    let made = small(rng, true);
    let listed = listed(rng, made);
    let none = asked(&listed)?;
    for _ in 0..6 {
        let (p, q) = two_plans(rng, &listed.made);
        let runs = |plan: &[u8]| complete_runs(&listed.made, plan, longest(&listed.made, plan), REACHED);
        let (Some(of_p), Some(of_q)) = (runs(&p), runs(&q)) else { continue };
        let (same, equal) = (same(&listed, &p, &q)?, of_p == of_q);
        ensure!(!same || equal, "{p:?} and {q:?} are the same with other complete runs over {:?}", listed.made.table);
        ensure!(!none || same == equal, "{p:?} and {q:?} are apart with equal complete runs over {:?}", listed.made.table);
        pairs.came(match (none, same, equal) {
            (true, true, _) => NONE_SAME,
            (true, false, _) => NONE_APART,
            (false, true, _) => SAME,
            (false, false, false) => APART,
            (false, false, true) => EQUAL_RUNS,
        });
    }
    Ok(())
}

/// "Same" says that complete runs of few moves are equal. Without a choice, plans that are apart are walked to where they differ.
pub fn plans_whose_runs_may_go_on(rng: &mut Rng, pairs: &Tally) -> Outcome {
    let made = small(rng, false);
    let listed = listed(rng, made);
    let none = asked(&listed)?;
    for _ in 0..6 {
        let (p, q) = two_plans(rng, &listed.made);
        let same = same(&listed, &p, &q)?;
        if none {
            walk(&listed, &p, &q, same)?;
            pairs.came(if same { GOING_SAME } else { GOING_APART });
        }
        let runs = |plan: &[u8]| complete_runs(&listed.made, plan, MOVES, REACHED);
        let (Some(of_p), Some(of_q)) = (runs(&p), runs(&q)) else { continue };
        ensure!(!same || of_p == of_q, "{p:?} and {q:?} are the same with other complete runs over {:?}", listed.made.table);
        if !none && !same && of_p == of_q && of_p.len() > 1 {
            pairs.came(GOING_EQUAL_RUNS);
        }
    }
    Ok(())
}

/// Plans that are the same never differ; those that are apart do, by a complete run that one has and the other leaves.
fn walk(listed: &Listed, p: &[u8], q: &[u8], same: bool) -> Outcome {
    let made = &listed.made;
    match walked(made, p, q, WALKED) {
        Walk::Differ { run, on_left } => {
            ensure!(!same, "{p:?} and {q:?} are the same, and only one has the complete run {run:?}");
            for (plan, whole) in [(p, on_left), (q, !on_left)] {
                let answer = by_plans(&made.table, plan, &run, PLANS);
                ensure_eq!(answer.map(|answer| answer == 1), Some(whole), "{run:?} on {plan:?} over {:?}", made.table);
                let calls = Calls::of(listed);
                let replayed = replay_log(&calls.image, &calls.alike, plan, &bytes_of(&run), &mut [0; SPACE]);
                ensure!(run.len() > LOG_MAX || answer == Some(replayed), "{replayed} for {run:?} on {plan:?}");
            }
        }
        Walk::Alike => ensure!(same, "{p:?} and {q:?} are apart, and no run tells them apart over {:?}", made.table),
        Walk::TooFar => ensure!(same, "{p:?} and {q:?} are apart, and {WALKED} pairs can make equal moves over {:?}", made.table),
    }
    Ok(())
}
