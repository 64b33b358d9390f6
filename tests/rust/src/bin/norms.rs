//! Norms of plans, moves by index, first shortest runs.
use gindrazoma::raw::{nth_move, plan_norm, read_image, shortest_run, write_image, IMAGE_MAX, READ_MAX, RUN_MAX};
use outside::area::Area;
use outside::damage::damaged;
use outside::first_run::{all_runs, bytes_of, first_run};
use outside::harness::{often, Outcome, Suite};
use outside::refusals::of_plans;
use outside::repeated::{kinds, nearly_repeated, write_again, KINDS};
use outside::rng::Rng;
use outside::shapes::{Made, Shape, EDGES, SHAPES};
use outside::table::{rule, Plan, Table};
use outside::ties::{self, tied};
use outside::{ensure, ensure_eq};
use std::process::ExitCode;

fn main() -> ExitCode {
    let mut suite = Suite::new();
    suite.fixed("plans to try", plans_to_try);
    suite.fixed("moves of two bytes", moves_of_two_bytes);
    suite.fixed("every kind of repeated rule", kinds_of_repeated_rules);
    suite.random("norms", 6000, norms);
    suite.random("every move of a plan", 1500, every_move);
    suite.random("repeated rules", 500, repeated_rules);
    suite.fixed("every kind of tie", kinds_of_ties);
    suite.random("shortest runs", 3000, shortest_runs);
    suite.random("all shortest runs", 1000, all_shortest_runs);
    suite.random("tied runs", 600, tied_runs);
    suite.random("rules in another order", 600, rules_in_another_order);
    suite.random("long plans", 300, long_plans);
    suite.random("refused calls", 8000, refused_calls);
    suite.finish()
}

/// Job 0: a; each job k from 1: a, then job k-1 twice.
fn doubling(jobs: usize) -> Table {
    let mut table = Table::new(jobs, &[(0, 97, &[])]);
    for k in 1..jobs as u8 {
        table.rules.push(rule(k, 97, &[k - 1, k - 1]));
    }
    table
}

fn plans_to_try() -> Outcome {
    let t = Table::new(4, &[(0, 97, &[]), (1, 97, &[0]), (2, 97, &[1]), (3, 98, &[0])]).image();
    let norms: Vec<i32> = (0..4).map(|j| plan_norm(&t, &[j])).collect();
    ensure_eq!(norms, [1, 2, 3, 2], "norms of table T");
    let s = Table::new(5, &[(0, 97, &[1]), (1, 98, &[]), (1, 99, &[]), (2, 97, &[3]), (2, 97, &[4]), (3, 98, &[]), (4, 99, &[])]);
    let norms: Vec<i32> = (0..5).map(|j| plan_norm(&s.image(), &[j])).collect();
    ensure_eq!(norms, [2, 1, 2, 1, 1], "norms of S1, X, S2, B, C");
    let xyz = Table::new(3, &[(0, 97, &[1]), (1, 97, &[1, 2]), (1, 98, &[]), (2, 98, &[])]);
    let norms: Vec<i32> = (0..3).map(|j| plan_norm(&xyz.image(), &[j])).collect();
    ensure_eq!(norms, [2, 1, 1], "norms of X, Y, Z");
    let one = Table::new(1, &[(0, 97, &[0]), (0, 97, &[])]);
    ensure_eq!(plan_norm(&one.image(), &[0]), 1, "a rule to itself and one to nothing");

    let mut chain = doubling(9);
    ensure_eq!(plan_norm(&chain.image(), &[8]), 511, "job 8 of the doubling table");
    ensure_eq!(plan_norm(&doubling(10).image(), &[8]), -7, "job 9 of the doubling table");
    chain.jobs = 10;
    chain.rules.push(rule(9, 97, &[8]));
    let image = chain.image();
    ensure_eq!(plan_norm(&image, &[9]), 512, "a, then job 8");
    ensure_eq!(plan_norm(&image, &[9; 8]), 4096, "eight jobs of norm 512");
    ensure_eq!(plan_norm(&image, &[9, 9, 9, 9, 9, 9, 9, 9, 0]), -9, "a ninth job");
    Ok(())
}

/// Each as the only move of a job, and all of them as the moves of one: their bytes, low ones first.
fn moves_of_two_bytes() -> Outcome {
    let mut rng = Rng::new(1);
    let mut rules: Vec<_> = (0..).zip(EDGES).map(|(j, a)| rule(j, a, &[])).collect();
    rules.extend(EDGES.map(|a| rule(4, a, &[3])));
    let made = Made::of_table(Table { jobs: 5, rules }).expect("an accepted table");
    let image = made.table.image();
    let bytes = [[0, 0], [255, 0], [0, 1], [255, 255]];
    for (index, bytes) in (0..).zip(bytes) {
        let mut out = [9; 6];
        ensure_eq!(nth_move(&image, &[4, 1], index, &mut out), 4, "move {index} of job 4");
        ensure_eq!(out, [bytes[0], bytes[1], 3, 1, 9, 9], "move {index} of job 4");
    }
    for len in 0..12 {
        let (mut out, mut wanted) = ([9; 12], [9; 12]);
        if len >= 8 {
            wanted[..8].copy_from_slice(bytes.as_flattened());
        }
        ensure_eq!(shortest_run(&image, &[0, 1, 2, 3], &mut out[..len]), if len < 8 { -10 } else { 8 }, "a run into {len} bytes");
        ensure_eq!(out, wanted, "a run into {len} bytes");
    }
    run_of(&mut rng, &image, &[4, 4, 2], &[0, 65535, 0, 65535, 256])
}

fn norms(rng: &mut Rng) -> Outcome {
    let made = Made::new(*rng.pick(&SHAPES), rng);
    let image = made.table.image();
    for _ in 0..4 {
        let plan = made.plan(rng, 4096);
        ensure_eq!(plan_norm(&image, &plan), made.norm(&plan) as i32, "norm of {plan:?}");
    }
    for j in 0..made.table.jobs as u8 {
        ensure_eq!(plan_norm(&image, &[j]), made.norms[j as usize] as i32, "norm of job {j}");
    }
    Ok(())
}

fn moves_at(rng: &mut Rng, image: &[u8], plan: &[u8], index: u32, wanted: Option<&(u16, Plan)>) -> Outcome {
    let wanted: Plan = wanted.map_or(Vec::new(), |(a, rest)| [&a.to_le_bytes(), &rest[..]].concat());
    let need = wanted.len();
    for len in [need, need + rng.below(50), need.saturating_sub(1), 0] {
        let mut out = Area::new(rng, len);
        let expected = if len < need { -10 } else { need as i32 };
        ensure_eq!(nth_move(image, plan, index, out.bytes()), expected, "move {index} of {plan:?} into {len} bytes");
        let used = expected.max(0) as usize;
        ensure_eq!(out.first(used), &wanted[..used], "move {index} of {plan:?}");
        ensure!(out.kept_beyond(used), "bytes beyond the output have changed");
    }
    Ok(())
}

fn every_move(rng: &mut Rng) -> Outcome {
    let made = Made::new(*rng.pick(&SHAPES), rng);
    let image = made.table.image();
    let tail = made.plan(rng, 1000);
    for j in 0..made.table.jobs as u8 {
        moves_of(rng, &made.table, &image, &[&[j], &tail[..]].concat())?;
    }
    moves_at(rng, &image, &[], 0, None)
}

/// Every index of a plan's moves, and those beyond.
fn moves_of(rng: &mut Rng, table: &Table, image: &[u8], plan: &[u8]) -> Outcome {
    let moves = table.moves(plan);
    for (i, wanted) in moves.iter().enumerate() {
        moves_at(rng, image, plan, i as u32, Some(wanted))?;
    }
    let count = moves.len() as u32;
    for index in [count, count + 1, count + 256, count + 65536, u32::MAX, count.max(rng.number() as u32)] {
        moves_at(rng, image, plan, index, None)?;
    }
    Ok(())
}

/// The tables with repeated rules have every kind of them often.
fn kinds_of_repeated_rules() -> Outcome {
    often(&KINDS, |rng| kinds(&nearly_repeated(rng).table.rules))
}

/// Moves before plans that begin like rows, and that repeated rules change nothing else.
fn repeated_rules(rng: &mut Rng) -> Outcome {
    let made = nearly_repeated(rng);
    let (table, image) = (&made.table, made.table.image());
    ensure!(table.different_rules() < table.rules.len(), "no rule is repeated");
    for j in 0..table.jobs as u8 {
        let tail = if rng.once_in(3) { made.plan(rng, 1000) } else { vec![rng.below(table.jobs) as u8; rng.below(6)] };
        let plan = [&[j], &tail[..]].concat();
        moves_of(rng, table, &image, &plan)?;
        ensure_eq!(plan_norm(&image, &plan), made.norm(&plan) as i32, "norm of {plan:?}");
    }
    let mut out = [0; READ_MAX];
    let used = read_image(&image, &mut out);
    ensure_eq!(used, table.read().len() as i32, "the bytes that the reader writes");
    ensure_eq!(out[..used as usize], table.read(), "what the reader writes");
    Ok(())
}

/// The tables with ties have every kind of them often.
fn kinds_of_ties() -> Outcome {
    often(&ties::KINDS, |rng| ties::kinds(&tied(rng, 24, 60)))
}

fn shortest_runs(rng: &mut Rng) -> Outcome {
    let made = Made::new(*rng.pick(&SHAPES), rng);
    let plan = made.plan(rng, 60);
    let run = first_run(&made.table, &made.norms, &plan);
    ensure!(made.is_shortest_run(&plan, &bytes_of(&run)), "{run:?} is no run of {plan:?}");
    run_of(rng, &made.table.image(), &plan, &run)
}

/// Every run of as few moves as can be, and the least of them.
fn all_shortest_runs(rng: &mut Rng) -> Outcome {
    let made = if rng.once_in(2) { Made::new(Shape::Tiny, rng) } else { tied(rng, 5, 5) };
    let plan = made.plan(rng, 7);
    let runs = (0..).map(|moves| all_runs(&made.table, &plan, moves)).find(|runs| !runs.is_empty());
    let first = runs.and_then(|runs| runs.into_iter().min()).expect("a run");
    ensure_eq!(first_run(&made.table, &made.norms, &plan), first, "the first run of {plan:?} by its places");
    run_of(rng, &made.table.image(), &plan, &first)
}

fn tied_runs(rng: &mut Rng) -> Outcome {
    let most = *rng.pick(&[8, 60, 512]);
    let made = tied(rng, 24, most);
    let image = made.table.image();
    let longest = (0..made.table.jobs as u8).max_by_key(|&j| made.norms[j as usize]).expect("a job");
    for plan in [vec![longest], made.plan(rng, 2 * most)] {
        run_of(rng, &image, &plan, &first_run(&made.table, &made.norms, &plan))?;
    }
    Ok(())
}

/// A run on output areas at, beyond and below its length.
fn run_of(rng: &mut Rng, image: &[u8], plan: &[u8], run: &[u16]) -> Outcome {
    let wanted = bytes_of(run);
    let need = wanted.len();
    for len in [need, need + 1, need + rng.below(50), need.saturating_sub(1), need.saturating_sub(2), need / 2, 0] {
        let mut out = Area::new(rng, len);
        let expected = if len < need { -10 } else { need as i32 };
        ensure_eq!(shortest_run(image, plan, out.bytes()), expected, "run of {plan:?} into {len} bytes");
        let used = expected.max(0) as usize;
        ensure_eq!(out.first(used), &wanted[..used], "run of {plan:?}");
        ensure!(out.kept_beyond(used), "bytes beyond the output have changed");
    }
    Ok(())
}

/// The run is the same, whatever the order of the rules and however often they are written.
fn rules_in_another_order(rng: &mut Rng) -> Outcome {
    let made = match rng.below(3) {
        0 => Made::new(*rng.pick(&SHAPES), rng),
        1 => nearly_repeated(rng),
        _ => tied(rng, 24, 512),
    };
    let plan = made.plan(rng, 4096);
    let run = written_run(&made.table, &plan)?;
    for _ in 0..5 {
        let mut other = made.table.clone();
        if rng.once_in(2) {
            write_again(rng, &mut other);
        }
        rng.shuffle(&mut other.rules);
        ensure_eq!(written_run(&other, &plan)?, run, "run of {plan:?} with the rules in another order");
    }
    Ok(())
}

/// The bytes of a run over the image that the library writes.
fn written_run(table: &Table, plan: &[u8]) -> Result<Vec<u8>, String> {
    let (mut image, mut run) = (vec![0; IMAGE_MAX], vec![0; RUN_MAX]);
    let len = write_image(table.jobs as u32, &table.places(), &mut image);
    ensure!(len > 0, "an image is refused: {len}");
    let used = shortest_run(&image[..len as usize], plan, &mut run);
    ensure!(used >= 0, "the run of {plan:?} is refused: {used}");
    run.truncate(used as usize);
    Ok(run)
}

fn long_plans(rng: &mut Rng) -> Outcome {
    let made = if rng.once_in(2) { Made::new(*rng.pick(&SHAPES), rng) } else { tied(rng, 24, 512) };
    let image = made.table.image();
    let plan = made.plan_of_norm(rng, 4096);
    ensure_eq!(plan_norm(&image, &plan), 4096, "a plan of norm 4,096");
    run_of(rng, &image, &plan, &first_run(&made.table, &made.norms, &plan))?;
    let mut out = vec![0; 8200];
    let longer = [&plan[..], &[rng.below(made.table.jobs) as u8]].concat();
    ensure_eq!(plan_norm(&image, &longer), -9, "one job more");
    ensure_eq!(nth_move(&image, &longer, 0, &mut out), -9, "a move of it");
    let wrong = [&longer[..], &[made.table.jobs as u8]].concat();
    ensure_eq!(plan_norm(&image, &wrong), -8, "a job that is none behind it");
    let (action, rest) = made.table.moves(&plan).swap_remove(0);
    moves_at(rng, &image, &plan, 0, Some(&(action, rest)))
}

fn refused_calls(rng: &mut Rng) -> Outcome {
    let made = Made::new(*rng.pick(&SHAPES), rng);
    let mut image = made.table.image();
    let mut plan = if rng.once_in(3) { made.plan_of_norm(rng, 4096) } else { made.plan(rng, 4096) };
    if rng.once_in(2) {
        image = damaged(rng, &image);
    }
    for _ in 0..rng.below(3) {
        let job = if rng.once_in(3) { rng.byte() } else { rng.below(made.table.jobs) as u8 };
        plan.insert(rng.below(plan.len() + 1), job);
    }
    let refusal = -i32::from(of_plans(&image, &[&plan]));
    if refusal == 0 {
        return Ok(());
    }
    let len = rng.below(40);
    let mut out = Area::new(rng, len);
    ensure_eq!(plan_norm(&image, &plan), refusal, "norm");
    ensure_eq!(shortest_run(&image, &plan, out.bytes()), refusal, "shortest run");
    ensure_eq!(nth_move(&image, &plan, rng.below(3) as u32, out.bytes()), refusal, "n-th move");
    ensure!(out.kept_beyond(0), "a refused call changed its output");
    Ok(())
}
