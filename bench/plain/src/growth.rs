//! Whether a plan grows, and how many jobs it reaches: sets of jobs as bits.
use crate::table::{Table, JOBS};

/// Twice the number of jobs that a plan reaches, and 1 more if one of them comes round with others behind it.
pub fn growth(table: &Table, plan: &[u8]) -> i32 {
    let reached = reached(table);
    let by_plan = plan.iter().fold(0, |all, &job| all | reached[job as usize]);
    let grows = |r: usize| {
        let job = table.job(r);
        let waiting = table.after(r).split_last().map_or(&[][..], |(_, before)| before);
        has(by_plan, job) && waiting.iter().any(|&next| has(reached[next as usize], job))
    };
    2 * by_plan.count_ones() as i32 + i32::from((0..table.count).any(grows))
}

/// The jobs that each job reaches, itself among them, by Warshall's way.
fn reached(table: &Table) -> [u32; JOBS] {
    let mut reached = core::array::from_fn(|job| 1 << job);
    for r in 0..table.count {
        for &next in table.after(r) {
            reached[table.job(r)] |= 1 << next;
        }
    }
    for by in 0..table.jobs {
        let further = reached[by];
        for all in reached[..table.jobs].iter_mut().filter(|all| has(**all, by)) {
            *all |= further;
        }
    }
    reached
}

fn has(set: u32, job: usize) -> bool {
    set >> job & 1 == 1
}
