//! Cases with random numbers.
use crate::calls::Calls;
use gindrazoma::raw::{nth_move, shortest_run, MOVE_MAX, RUN_MAX};
use outside::alike::{listed, Listed, Pair, PAIRS_MAX};
use outside::damage::{damaged, damaged_list, damaged_log};
use outside::harness::Outcome;
use outside::logs::{ambiguous, any_made, counted, crowded, cut_to_answer, run, run_of_length, some_logs, some_move, varied};
use outside::logs::{bytes_of, moves_in, written_otherwise, Log, LOG_MAX, PLANS};
use outside::refusals::{of_log, of_plans_alike};
use outside::refused::{any_length, any_plan};
use outside::repeated::write_again;
use outside::replay::{by_plans, Lengths};
use outside::rng::Rng;
use outside::shapes::{Made, Shape, EDGES};
use outside::space::SPACE;
use outside::{ensure, ensure_eq};

fn calls_of(listed: &Listed) -> Calls {
    Calls::new(&listed.raw, &listed.pairs)
}

/// Plans and logs over a table and a list: the answer is that about the replaced log over the replaced table.
pub fn under_a_list(rng: &mut Rng, make: impl Fn(&mut Rng) -> Made) -> Outcome {
    let made = make(rng);
    let listed = listed(rng, made);
    let Listed { raw, pairs, made } = &listed;
    let replaced = Calls::new(&made.table, &[]);
    for _ in 0..6 {
        let (most, moves) = (*rng.pick(&[10, 40, 120, 4096]), *rng.pick(&[3, 20, 60, LOG_MAX]));
        let plan = made.plan(rng, most);
        let (log, _) = run(rng, made, &plan, moves);
        let log = written_otherwise(rng, pairs, &log);
        let mut log = if rng.once_in(2) { varied(rng, raw, &log) } else { varied(rng, &made.table, &log) };
        let (counted, wanted) = cut_to_answer(&made.table, &plan, counted(pairs, &log));
        log.truncate(counted.len());
        calls_of(&listed).expect(rng, &plan, &log, wanted)?;
        replaced.expect(rng, &plan, &counted, wanted)?;
    }
    Ok(())
}

pub fn logs_of_any_kind(rng: &mut Rng) -> Outcome {
    let (made, logs) = some_logs(rng);
    let calls = Calls::new(&made.table, &[]);
    for (plan, log) in logs {
        let (log, wanted) = cut_to_answer(&made.table, &plan, log);
        calls.expect(rng, &plan, &log, wanted)?;
    }
    Ok(())
}

/// A complete run; each of its moves for another one; its beginnings.
pub fn a_move_changed_at_every_place(rng: &mut Rng) -> Outcome {
    let made = any_made(rng);
    let calls = Calls::new(&made.table, &[]);
    let moves = rng.range(1, 40);
    let (plan, log) = run_of_length(rng, &made, moves);
    let (log, _) = cut_to_answer(&made.table, &plan, log);
    for place in 0..log.len() {
        let mut other = log.clone();
        other[place] = some_move(rng, &made.table, log[place]);
        for log in [&other[..], &log[..place]] {
            if let Some(wanted) = by_plans(&made.table, &plan, log, PLANS) {
                calls.expect(rng, &plan, log, wanted)?;
            }
        }
    }
    Ok(())
}

/// Complete runs of 127, 128 and 129 moves; on a plan with a job more, without the last move, and with half a move at the end.
pub fn most_moves(rng: &mut Rng) -> Outcome {
    let made = any_made(rng);
    let listed = listed(rng, made);
    let calls = calls_of(&listed);
    for moves in [LOG_MAX - 1, LOG_MAX, LOG_MAX + 1] {
        let (plan, log) = run_of_length(rng, &listed.made, moves);
        let log = written_otherwise(rng, &listed.pairs, &log);
        let accepted = moves <= LOG_MAX;
        calls.expect(rng, &plan, &log, if accepted { 1 } else { -11 })?;
        let longer = [&plan[..], &[rng.below(listed.raw.jobs) as u8]].concat();
        let answer = calls.answer(rng, &longer, &log)?;
        ensure!(if accepted { [0, 1].contains(&answer) } else { answer == -11 }, "{answer} for {longer:?} by {log:?}");
        let answer = calls.answer(rng, &plan, &log[..moves - 1])?;
        ensure!([0, 1].contains(&answer), "{answer} for {plan:?} by {log:?} without its last move");
        let bytes = [&bytes_of(&log)[..], &[0]].concat();
        for len in [bytes.len(), bytes.len() - 2] {
            ensure_eq!(calls.replayed(rng, &plan, &bytes[..len], SPACE)?, -11, "a log of {len} bytes");
        }
    }
    Ok(())
}

/// Up to 252 rules that all make moves which count as one, by up to 32 pairs: the numbers of moves tell the answer.
pub fn one_move_many_rules(rng: &mut Rng) -> Outcome {
    let made = crowded(rng);
    let lengths = Lengths::new(&made.table, LOG_MAX);
    let pairs: Vec<Pair> = (0..rng.range(0, PAIRS_MAX)).map(|i| (1000 + 255 * i as u16, 97)).collect();
    let ways: Log = pairs.iter().map(|pair| pair.0).chain([97]).collect();
    let mut raw = made.table.clone();
    raw.rules.iter_mut().for_each(|r| r.action = *rng.pick(&ways));
    let calls = Calls::new(&raw, &pairs);
    for _ in 0..4 {
        let most = *rng.pick(&[1, 20, 140]);
        let plan = made.plan(rng, most);
        let moves = if rng.once_in(2) { LOG_MAX } else { rng.below(LOG_MAX + 1) };
        let right = if rng.once_in(2) { moves } else { rng.below(moves + 1) };
        let mut log: Log = (0..moves).map(|_| *rng.pick(&ways)).collect();
        if right < moves {
            log[right] = 98;
        }
        let wanted = lengths.answer(&plan, moves, right);
        ensure_eq!(calls.answer(rng, &plan, &log)?, wanted, "{moves} moves, {right} of them right, on {plan:?} over {raw:?}");
    }
    Ok(())
}

/// A log on a plan is whole exactly if it is cut somewhere into logs that are whole on two parts of the plan, and it gets as far
/// as the best of them.
pub fn plans_in_two_parts(rng: &mut Rng) -> Outcome {
    let made = if rng.once_in(2) { ambiguous(rng) } else { Made::new(Shape::OneMove, rng) };
    let calls = Calls::new(&made.table, &[]);
    let plan = made.plan(rng, 60);
    let (left, right) = plan.split_at(rng.below(plan.len() + 1));
    let moves = *rng.pick(&[30, 100, LOG_MAX]);
    let (log, _) = run(rng, &made, &plan, moves);
    let log = varied(rng, &made.table, &log);
    let far = |answer: i32, log: &[u16]| if answer < 2 { log.len() } else { answer as usize - 2 };
    let (mut whole, mut furthest) = (false, far(calls.answer(rng, left, &log)?, &log));
    for place in 0..=log.len() {
        if calls.answer(rng, left, &log[..place])? == 1 {
            let rest = calls.answer(rng, right, &log[place..])?;
            whole |= rest == 1;
            furthest = furthest.max(place + far(rest, &log[place..]));
        }
    }
    let wanted = match furthest {
        _ if whole => 1,
        place if place == log.len() => 0,
        place => 2 + place as i32,
    };
    calls.expect(rng, &plan, &log, wanted)
}

/// Plans that are the same have the same runs.
pub fn same_plans(rng: &mut Rng) -> Outcome {
    let shape = *rng.pick(&[Shape::Equations, Shape::Light, Shape::Full, Shape::Long]);
    let made = Made::new(shape, rng);
    let listed = listed(rng, made);
    let calls = calls_of(&listed);
    for _ in 0..4 {
        let most = *rng.pick(&[40, 128, 4096]);
        let p = listed.made.plan(rng, most);
        let q = listed.made.rewritten(rng, &p);
        let (log, _) = run(rng, &listed.made, &q, LOG_MAX);
        let log = written_otherwise(rng, &listed.pairs, &log);
        let log = varied(rng, &listed.raw, &log);
        let answer = calls.answer(rng, &q, &log)?;
        calls.expect(rng, &p, &log, answer)?;
    }
    Ok(())
}

/// A log that is whole under the list, and that no run begins with over the table as it is.
pub fn matches_under_the_list_only(rng: &mut Rng) -> Outcome {
    for _ in 0..1000 {
        let made = any_made(rng);
        let listed = Listed::new(rng, made);
        let moves = rng.range(1, 30);
        let (plan, log) = run_of_length(rng, &listed.made, moves);
        let log = written_otherwise(rng, &listed.pairs, &log);
        let Some(without) = by_plans(&listed.raw, &plan, &log, PLANS).filter(|&answer| answer >= 2) else { continue };
        Calls::new(&listed.raw, &[]).expect(rng, &plan, &log, without)?;
        let mut pairs = listed.pairs.clone();
        for _ in 0..3 {
            rng.shuffle(&mut pairs);
            Calls::new(&listed.raw, &pairs).expect(rng, &plan, &log, 1)?;
        }
        return Ok(());
    }
    Err("no such log was found".to_string())
}

/// The library's own shortest runs are whole, and their beginnings part; of long ones there are the first 128 moves.
pub fn shortest_runs(rng: &mut Rng) -> Outcome {
    let made = any_made(rng);
    let listed = listed(rng, made);
    let most = *rng.pick(&[20, 128, 128, 600]);
    let plan = if rng.once_in(2) { listed.made.plan_of_norm(rng, most) } else { listed.made.plan(rng, most) };
    let mut bytes = vec![0; RUN_MAX];
    let used = shortest_run(&listed.raw.image(), &plan, &mut bytes);
    ensure_eq!(used, 2 * listed.made.norm(&plan) as i32, "the bytes of a shortest run of {plan:?}");
    let run = moves_in(&bytes[..used as usize]);
    let log = &run[..run.len().min(LOG_MAX)];
    for calls in [calls_of(&listed), Calls::new(&listed.raw, &[])] {
        calls.expect(rng, &plan, log, i32::from(log == run))?;
        let begun = rng.below(log.len() + 1);
        if begun < run.len() {
            calls.expect(rng, &plan, &log[..begun], 0)?; // no run is shorter
        }
    }
    Ok(())
}

/// The moves that the library shows of a plan, each as the first move of a log; and moves that it does not show.
pub fn every_move(rng: &mut Rng) -> Outcome {
    let made = any_made(rng);
    let calls = Calls::new(&made.table, &[]);
    let plan = made.plan(rng, 4096);
    let (mut out, mut shown) = (vec![0; MOVE_MAX], Vec::new());
    for index in 0.. {
        let used = nth_move(&calls.image, &plan, index, &mut out);
        ensure!(used >= 0, "move {index} of {plan:?} is refused: {used}");
        if used == 0 {
            break;
        }
        let ends = used == 2;
        shown.push((moves_in(&out[..2])[0], ends));
    }
    for &(action, _) in &shown {
        calls.expect(rng, &plan, &[action], i32::from(shown.contains(&(action, true))))?;
        let other = some_move(rng, &made.table, action);
        ensure!(calls.answer(rng, &plan, &[action, other])? != 2, "{action} and {other} are left at once by {plan:?}");
    }
    for near in EDGES {
        let other = some_move(rng, &made.table, near);
        if shown.iter().all(|step| step.0 != other) {
            calls.expect(rng, &plan, &[other], 2)?;
            calls.expect(rng, &plan, &[other, other], 2)?;
        }
    }
    Ok(())
}

/// A walk of up to 128 moves that the library shows: some run begins with them.
pub fn walks(rng: &mut Rng) -> Outcome {
    let made = if rng.once_in(3) { crowded(rng) } else { any_made(rng) };
    let listed = listed(rng, made);
    let calls = calls_of(&listed);
    let plan = listed.made.plan(rng, 60);
    let (mut rest, mut log, mut out) = (plan.clone(), Log::new(), vec![0; MOVE_MAX]);
    while log.len() < LOG_MAX && !rest.is_empty() {
        let index = rng.below(listed.raw.moves(&rest).len()) as u32;
        let used = nth_move(&calls.image, &rest, index, &mut out);
        if used == -9 {
            break;
        }
        ensure!(used >= 2, "move {index} of {rest:?}: {used}");
        log.push(moves_in(&out[..2])[0]);
        rest = out[2..used as usize].to_vec();
    }
    let answer = calls.answer(rng, &plan, &log)?;
    ensure!(answer == 1 || answer == 0 && !rest.is_empty(), "{answer} for {log:?} on {plan:?}, which leads to {rest:?}");
    Ok(())
}

/// The answer is the same whatever the order of the rules and however often they are written.
pub fn rules_in_another_order(rng: &mut Rng) -> Outcome {
    let (made, logs) = some_logs(rng);
    let listed = listed(rng, made);
    for (plan, log) in logs {
        let log = written_otherwise(rng, &listed.pairs, &log);
        let answer = calls_of(&listed).answer(rng, &plan, &log)?;
        let mut other = listed.raw.clone();
        if rng.once_in(2) {
            write_again(rng, &mut other);
        }
        rng.shuffle(&mut other.rules);
        Calls::new(&other, &listed.pairs).expect(rng, &plan, &log, answer)?;
    }
    Ok(())
}

/// Calls over two tables in any order, one log on many plans among them: each is answered as if it were the only one.
pub fn one_after_the_other(rng: &mut Rng) -> Outcome {
    let mut asked = Vec::new();
    for _ in 0..2 {
        let (made, logs) = some_logs(rng);
        let calls = calls_of(&listed(rng, made));
        asked.extend(logs.into_iter().map(|(plan, log)| (calls.clone(), plan, log)));
    }
    let log = rng.pick(&asked).2.clone();
    asked.extend(asked.clone().into_iter().map(|(calls, plan, _)| (calls, plan, log.clone())));
    let wanted: Vec<Option<i32>> = asked.iter().map(|(calls, plan, log)| calls.by_plans(plan, log)).collect();
    for _ in 0..60 {
        let i = rng.below(asked.len());
        let (calls, plan, log) = &asked[i];
        let answer = calls.answer(rng, plan, log)?;
        ensure!(wanted[i].is_none_or(|wanted| answer == wanted), "{answer} for {log:?} on {plan:?} after other calls");
    }
    Ok(())
}

/// Any damage to any of the areas: the refusal, or the answer over what the areas mean.
pub fn refused_calls(rng: &mut Rng) -> Outcome {
    let made = any_made(rng);
    let listed = listed(rng, made);
    let mut calls = calls_of(&listed);
    let (plan, len) = (any_plan(rng, &listed.made), any_length(rng));
    let jobs: Vec<u8> = plan.iter().copied().filter(|&j| usize::from(j) < listed.raw.jobs).collect();
    let mut log = bytes_of(&run(rng, &listed.made, &jobs, 20).0);
    if rng.once_in(3) {
        calls.image = damaged(rng, &calls.image);
    }
    if rng.once_in(3) {
        calls.alike = damaged_list(rng, &calls.alike);
    }
    if rng.once_in(2) {
        log = damaged_log(rng, &log);
    }
    let refusal = match of_plans_alike(&calls.image, &calls.alike, &[&plan]) {
        _ if len < SPACE => 1,
        0 => of_log(&log),
        refusal => refusal,
    };
    let wanted = if refusal == 0 { calls.by_plans(&plan, &moves_in(&log)) } else { Some(-i32::from(refusal)) };
    let answer = calls.replayed(rng, &plan, &log, len)?;
    ensure!(wanted.is_none_or(|wanted| answer == wanted), "{answer} for {log:?} on {plan:?} under {:?}", calls.alike);
    Ok(())
}
