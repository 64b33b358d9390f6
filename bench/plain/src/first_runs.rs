//! The first shortest run of a plan as a programmer writes it at first: for each job, by rising norm, the least of the runs by its rules.
use crate::table::{Table, JOBS};
use alloc::{vec, vec::Vec};

/// Writes the moves of the run; the output is twice as long as the plan's norm.
pub fn shortest(table: &Table, norms: &[u16; JOBS], plan: &[u8], out: &mut [u8]) {
    let mut order: Vec<usize> = (0..table.jobs).collect();
    order.sort_by_key(|&job| norms[job]);
    let mut runs = vec![Vec::new(); table.jobs];
    for job in order {
        let lowering = (0..table.count).filter(|&r| table.job(r) == job && lowers(table, norms, r));
        let first = lowering.map(|r| run_by(table, r, &runs)).min();
        runs[job] = first.expect("each job has a rule that lowers its norm");
    }
    let moves = plan.iter().flat_map(|&job| &runs[job as usize]);
    for (to, action) in out.chunks_exact_mut(2).zip(moves) {
        to.copy_from_slice(&action.to_le_bytes());
    }
}

/// Whether a rule lowers the norm of its job by one.
fn lowers(table: &Table, norms: &[u16; JOBS], r: usize) -> bool {
    let row: u16 = table.after(r).iter().map(|&job| norms[job as usize]).sum();
    norms[table.job(r)] == row + 1
}

/// The move of a rule, and the first runs of the jobs after it.
fn run_by(table: &Table, r: usize, runs: &[Vec<u16>]) -> Vec<u16> {
    let mut run = vec![table.action(r)];
    for &job in table.after(r) {
        run.extend_from_slice(&runs[job as usize]);
    }
    run
}
