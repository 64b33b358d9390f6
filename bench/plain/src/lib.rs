//! The calls of gindrazoma as an ordinary Rust program: the baseline of the benchmark. Compare and prime form are there
//! three times: by document 01's method as one writes it at first (`first`) and with every choice of speed (`base`), and
//! by the library's method (`rows`); the shortest run twice, as it is written at first and with every choice of speed; the replay of a
//! log and the test for a choice of outcome once, under an alike list; and the test whether a plan grows. Answers, refusals and areas are those of include/gindrazoma.h.
#![no_std]
#![forbid(unsafe_code)]

extern crate alloc;

mod alike;
pub mod base;
pub mod first;
mod first_runs;
mod growth;
mod held_pairs;
mod image;
mod index;
mod judge;
mod logs;
mod norms;
mod outcomes;
mod region;
pub mod rows;
mod runs;
mod steps;
mod table;

pub use steps::{Meter, Steps};

use alike::Alike;
use image::{fill_block, layout_of_list, load};
use index::first_written;
use logs::Log;
use norms::{job_norms, plan_norms, table_refusal};
use region::Rows;
use table::{Table, JOBS, RULE};

/// The length of the workspace of a call that takes one.
pub const WORKSPACE: usize = 65536;

pub fn read_image(image: &[u8], out: &mut [u8]) -> i32 {
    answer(|| {
        let (table, _) = checked(image)?;
        let rules = table.bytes();
        let out = output(out, 1 + rules.len())?;
        out[0] = table.jobs as u8;
        out[1..].copy_from_slice(rules);
        Ok(out.len() as i32)
    })
}

pub fn write_image(jobs: u32, rules: &[u8], out: &mut [u8]) -> i32 {
    answer(|| {
        layout_of_list(jobs, rules)?;
        let table = Table::new(jobs as usize, rules);
        table_refusal(&job_norms(&table), table.jobs)?;
        let blocks = rules.len().div_ceil(63 * RULE);
        let out = output(out, 512 * blocks)?;
        for (k, block) in out.chunks_exact_mut(512).enumerate() {
            fill_block(block, jobs as u8, k, blocks, rules);
        }
        Ok(out.len() as i32)
    })
}

pub fn plan_norm(image: &[u8], plan: &[u8]) -> i32 {
    answer(|| {
        let (table, norms) = checked(image)?;
        let [norm] = plan_norms(&norms, table.jobs, [plan])?;
        Ok(norm as i32)
    })
}

/// The first shortest run, with every choice of speed.
pub fn shortest_run(image: &[u8], plan: &[u8], out: &mut [u8]) -> i32 {
    run_of(runs::shortest, image, plan, out)
}

/// The same as it is written at first.
pub fn shortest_run_at_first(image: &[u8], plan: &[u8], out: &mut [u8]) -> i32 {
    run_of(first_runs::shortest, image, plan, out)
}

fn run_of(shortest: fn(&Table, &[u16; JOBS], &[u8], &mut [u8]), image: &[u8], plan: &[u8], out: &mut [u8]) -> i32 {
    answer(|| {
        let (table, norms) = checked(image)?;
        let [norm] = plan_norms(&norms, table.jobs, [plan])?;
        let out = output(out, 2 * norm)?;
        shortest(&table, &norms, plan, out);
        Ok(out.len() as i32)
    })
}

pub fn nth_move(image: &[u8], plan: &[u8], index: u32, out: &mut [u8]) -> i32 {
    answer(|| {
        let (table, norms) = checked(image)?;
        plan_norms(&norms, table.jobs, [plan])?;
        let Some((&first, behind)) = plan.split_first() else { return Ok(0) };
        let first_written = first_written(&table);
        let mut rules = (0..table.count).filter(|&r| table.job(r) == first as usize && first_written[r]);
        let Some(r) = rules.nth(index as usize) else { return Ok(0) };
        let after = table.after(r);
        let out = output(out, 2 + after.len() + behind.len())?;
        out[..2].copy_from_slice(&table.action(r).to_le_bytes());
        out[2..2 + after.len()].copy_from_slice(after);
        out[2 + after.len()..].copy_from_slice(behind);
        Ok(out.len() as i32)
    })
}

pub fn replay_log(image: &[u8], alike: &[u8], plan: &[u8], log: &[u8], space: &mut [u8]) -> i32 {
    in_workspace(space, |space| {
        let (mut table, norms) = checked(image)?;
        let alike = Alike::load(alike)?;
        plan_norms(&norms, table.jobs, [plan])?;
        let mut log = Log::load(log)?;
        alike.replace(table.actions());
        alike.replace(log.moves());
        Ok(logs::replay(&table, plan, &log, space))
    })
}

pub fn deterministic(image: &[u8], alike: &[u8]) -> i32 {
    answer(|| {
        let (mut table, _) = checked(image)?;
        Alike::load(alike)?.replace(table.actions());
        Ok(outcomes::without_choice(&table) as i32)
    })
}

pub fn plan_growth(image: &[u8], plan: &[u8]) -> i32 {
    answer(|| {
        let (table, norms) = checked(image)?;
        plan_norms(&norms, table.jobs, [plan])?;
        Ok(growth::growth(&table, plan))
    })
}

/// Whether two plans are the same by the prime rows that a method finds.
fn compare<F>(image: &[u8], left: &[u8], right: &[u8], space: &mut [u8], prime_rows: F) -> i32
where
    F: for<'a> FnOnce(&Table, &[u16; JOBS], &'a mut [u8]) -> (Rows<'a>, &'a mut [u8]),
{
    in_workspace(space, |space| {
        let (table, norms) = checked(image)?;
        plan_norms(&norms, table.jobs, [left, right])?;
        let (rows, area) = prime_rows(&table, &norms, space);
        Ok(rows.same(left, right, area) as i32)
    })
}

/// The prime form of a plan by the prime rows that a method finds.
fn prime_form<F>(image: &[u8], plan: &[u8], out: &mut [u8], space: &mut [u8], prime_rows: F) -> i32
where
    F: for<'a> FnOnce(&Table, &[u16; JOBS], &'a mut [u8]) -> (Rows<'a>, &'a mut [u8]),
{
    in_workspace(space, |space| {
        let (table, norms) = checked(image)?;
        plan_norms(&norms, table.jobs, [plan])?;
        let (rows, _) = prime_rows(&table, &norms, space);
        let out = output(out, rows.expanded_len(plan))?;
        Ok(rows.expand(plan, out) as i32)
    })
}

type Answer<T> = Result<T, i32>;

fn answer(body: impl FnOnce() -> Answer<i32>) -> i32 {
    body().unwrap_or_else(|refusal| -refusal)
}

/// Refusal 1, the body on the first 65,536 bytes, and those bytes cleared.
fn in_workspace(space: &mut [u8], body: impl FnOnce(&mut [u8]) -> Answer<i32>) -> i32 {
    if space.len() < WORKSPACE {
        return -1;
    }
    let space = &mut space[..WORKSPACE];
    let result = answer(|| body(space));
    space.fill(0);
    result
}

/// The table of an accepted image, with the norms of its jobs.
fn checked(image: &[u8]) -> Answer<(Table, [u16; JOBS])> {
    let table = load(image)?;
    let norms = job_norms(&table);
    table_refusal(&norms, table.jobs)?;
    Ok((table, norms))
}

fn output(out: &mut [u8], need: usize) -> Answer<&mut [u8]> {
    out.get_mut(..need).ok_or(10)
}
