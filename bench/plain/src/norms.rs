//! Norms of jobs and plans, and refusals 6 to 9.
use crate::table::{Table, JOBS, RULES};
use crate::Answer;

/// A job that is not known to finish.
pub const NONE: u16 = u16::MAX;
const JOB_MOST: u16 = 512;
const PLAN_MOST: usize = 4096;

/// The norm of the jobs after a rule, capped above the most that a job may have.
fn row_norm(norms: &[u16; JOBS], row: &[u8]) -> u16 {
    let mut sum = 0;
    for &j in row {
        let n = norms[j as usize];
        if n == NONE {
            return NONE;
        }
        sum += n;
    }
    sum.min(JOB_MOST)
}

/// Norms by passes over the rules until nothing changes, capped at 513.
pub fn job_norms(table: &Table) -> [u16; JOBS] {
    let mut norms = [NONE; JOBS];
    loop {
        let mut changed = false;
        for r in 0..table.count {
            let after = row_norm(&norms, table.after(r));
            let j = table.job(r);
            if after != NONE && after + 1 < norms[j] {
                norms[j] = after + 1;
                changed = true;
            }
        }
        if !changed {
            return norms;
        }
    }
}

pub fn table_refusal(norms: &[u16; JOBS], jobs: usize) -> Answer<()> {
    if norms[..jobs].contains(&NONE) {
        return Err(6);
    }
    if norms[..jobs].iter().any(|&n| n > JOB_MOST) {
        return Err(7);
    }
    Ok(())
}

/// The norms of plans, or refusal 8 or 9, each over all plans before the next.
pub fn plan_norms<const N: usize>(norms: &[u16; JOBS], jobs: usize, plans: [&[u8]; N]) -> Answer<[usize; N]> {
    if plans.iter().any(|p| !all_below(jobs as u8, p)) {
        return Err(8);
    }
    let sums = plans.map(|p| plan_norm_of(norms, p));
    if sums.iter().any(|&n| n > PLAN_MOST) {
        return Err(9);
    }
    Ok(sums)
}

/// Whether all jobs of a plan are below a count. It has no early end, so that many are looked at at once.
fn all_below(jobs: u8, plan: &[u8]) -> bool {
    plan.iter().fold(true, |below, &j| below & (j < jobs))
}

/// The norm of a plan, or some number above 4,096.
fn plan_norm_of(norms: &[u16; JOBS], plan: &[u8]) -> usize {
    if plan.len() > PLAN_MOST {
        return plan.len(); // each norm is at least 1
    }
    plan.iter().map(|&j| norms[j as usize] as usize).sum()
}

/// The norm of the jobs after each rule.
pub fn row_norms(table: &Table, norms: &[u16; JOBS]) -> [u16; RULES] {
    let mut sums = [0; RULES];
    for (r, sum) in sums[..table.count].iter_mut().enumerate() {
        *sum = table.after(r).iter().map(|&j| norms[j as usize]).sum();
    }
    sums
}

/// For each job the first rule that lowers its norm by one.
pub fn lowering_rules(table: &Table, norms: &[u16; JOBS], row_norms: &[u16; RULES]) -> [u8; JOBS] {
    let mut lowering = [u8::MAX; JOBS];
    for r in (0..table.count).rev() {
        let j = table.job(r);
        if row_norms[r] + 1 == norms[j] {
            lowering[j] = r as u8;
        }
    }
    lowering
}
