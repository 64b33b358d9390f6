//! Cases without random numbers.
use crate::calls::Calls;
use gindrazoma::raw::plan_growth;
use outside::ensure_eq;
use outside::growth::{by_components, by_plans};
use outside::harness::Outcome;
use outside::refused::{images_by_length, images_by_refusal, plans_by_refusal};
use outside::table::{rule, Plan, Rule, Table};

/// A rule for each job that ends it, and others of one move.
fn with_ends(jobs: u8, rules: &[(u8, &[u8])]) -> Table {
    let ends = (0..jobs).map(|job| rule(job, 97, &[]));
    Table { jobs: jobs.into(), rules: ends.chain(rules.iter().map(|&(job, row)| rule(job, 98, row))).collect() }
}

/// Rules besides those by which jobs end, and plans with their answers.
type Tried<'a> = (&'a [(u8, &'a [u8])], &'a [(&'a [u8], i32)]);

pub fn plans_to_try() -> Outcome {
    let tried: [Tried; 12] = [
        (&[], &[(&[], 0), (&[0], 2), (&[4], 2), (&[4, 4, 4], 2), (&[0, 1, 2, 3, 4], 10)]),
        (&[(0, &[0])], &[(&[0], 2), (&[1, 0], 4)]),
        (&[(0, &[0, 0])], &[(&[0], 3), (&[1], 2), (&[1, 0], 5)]),
        (&[(0, &[1, 0])], &[(&[0], 4), (&[1], 2), (&[0, 0, 0], 4)]),
        (&[(0, &[0, 1])], &[(&[0], 5), (&[1], 2), (&[1, 1, 0], 5)]),
        (&[(0, &[1, 1])], &[(&[0], 4)]),
        (&[(0, &[1, 0, 2])], &[(&[0], 7), (&[2, 1], 4)]),
        (&[(0, &[1, 2, 1, 0])], &[(&[0], 6)]),
        (&[(0, &[1]), (1, &[0, 2])], &[(&[0], 7), (&[1], 7), (&[2], 2)]),
        (&[(0, &[1]), (1, &[2, 0])], &[(&[0], 6), (&[1], 6)]),
        (&[(0, &[3, 1]), (1, &[2, 3]), (2, &[3, 0])], &[(&[0], 9), (&[2], 9), (&[3], 2), (&[4, 3, 2], 11)]),
        (&[(0, &[1, 2, 3]), (3, &[3, 4])], &[(&[0], 11), (&[1, 2], 4), (&[3], 5), (&[4], 2)]),
    ];
    for (rules, plans) in tried {
        let table = with_ends(5, rules);
        for &(plan, answer) in plans {
            Calls::new(&table, plan).expect(answer)?;
            ensure_eq!(by_components(&table, plan), answer, "{plan:?} over {table:?} by components");
            ensure_eq!(by_plans(&table, plan, 3_000_000).unwrap_or(answer), answer, "{plan:?} over {table:?} by plans");
        }
    }
    Ok(())
}

/// A chain of all jobs, and a ring of them: with the numbers rising and falling, and with the rules in either order.
pub fn chains_and_rings() -> Outcome {
    for len in 1..=24 {
        for falling in [false, true] {
            let at = |step: u8| if falling { 23 - step } else { step };
            let mut rules: Vec<Rule> = (1..len).map(|step| rule(at(step - 1), 98, &[at(step)])).collect();
            rules.extend((0..24).map(|job| rule(job, 97, &[])));
            for (row, answer) in
                [(vec![], 0), (vec![at(len - 1)], 0), (vec![at(len - 1); 2], 1), (vec![at(0)], 0), (vec![at(0), at(0)], 1)]
            {
                let ring = row.first() == Some(&at(0));
                rules.push(rule(at(len - 1), 99, &row));
                for step in 0..len {
                    let jobs = i32::from(if ring { len } else { len - step });
                    for rules in [rules.clone(), rules.iter().rev().cloned().collect()] {
                        Calls::new(&Table { jobs: 24, rules }, &[at(step)]).expect(2 * jobs + answer)?;
                    }
                }
                rules.pop();
            }
        }
    }
    Ok(())
}

/// The plan within the image, and both side by side.
pub fn areas_that_coincide() -> Outcome {
    let table = Table::new(3, &[(1, 2, &[1, 0]), (0, 2, &[]), (1, 2, &[]), (2, 2, &[])]);
    let image = table.image(); // bytes 2 to 6: 1, 2, 2, 1, 0
    for (from, to, answer) in [(2, 3, 5), (2, 4, 7), (3, 5, 2), (6, 9, 2), (2, 2, 0), (0, 512, -8)] {
        ensure_eq!(plan_growth(&image, &image[from..to]), answer, "bytes {from} to {to} of the image as its plan");
    }
    let bytes = [&[1][..], &image, &[2]].concat();
    ensure_eq!(plan_growth(&bytes[1..513], &bytes[..1]), 5, "a plan next to the image");
    ensure_eq!(plan_growth(&bytes[1..513], &bytes[513..]), 2, "a plan behind the image");
    Ok(())
}

/// 252 rules of which one makes a job grow, or reach another, at each place.
pub fn every_place_of_a_full_image() -> Outcome {
    let all: Vec<Rule> = (0..252).map(|i| rule((i % 24) as u8, 257 * i, &[])).collect();
    let table = Table { jobs: 24, rules: all };
    for place in 0..252 {
        let job = (place % 24) as u8;
        for (row, answer) in [(vec![job; 2], 3), (vec![job], 2), (vec![23 - job], 4), (vec![23 - job, job, 23 - job], 5)] {
            let mut other = table.clone();
            other.rules[place].after = row;
            Calls::new(&other, &[job]).expect(answer)?;
            Calls::new(&other, &[(job + 1) % 24]).expect(2)?;
        }
    }
    Ok(())
}

/// Norms up to 4,096 and above, and the job that grows at each end and in the middle.
pub fn long_plans() -> Outcome {
    let table = with_ends(3, &[(1, &[1, 2])]);
    for len in [1, 255, 256, 257, 1024, 4095, 4096, 4097, 65536, 65537] {
        for place in [0, len / 2, len - 1] {
            let mut plan: Plan = vec![0; len];
            for (job, answer) in [(0, 2), (1, if len == 1 { 5 } else { 7 }), (2, if len == 1 { 2 } else { 4 })] {
                plan[place] = job;
                Calls::new(&table, &plan).expect(if len > 4096 { -9 } else { answer })?;
            }
            plan[place] = 3;
            Calls::new(&table, &plan).expect(-8)?;
        }
    }
    Ok(())
}

/// Jobs of norms 511 to 514, of which the first two are accepted, whatever the plan.
pub fn norms_of_jobs() -> Outcome {
    let mut table = Table::new(9, &[(0, 97, &[])]);
    table.rules.extend((1..9).map(|job| rule(job, 97, &[job - 1, job - 1])));
    for last in 8..12 {
        for plan in [vec![], vec![0], vec![last], vec![last; 8]] {
            let reached = 2 * (1 + plan.first().copied().unwrap_or(0)) * u8::from(!plan.is_empty());
            Calls::new(&table, &plan).expect(if last < 10 { reached.into() } else { -7 })?;
        }
        table.jobs += 1;
        table.rules.push(rule(last + 1, 97, &[last]));
    }
    Ok(())
}

pub fn lengths_of_images() -> Outcome {
    for (refusal, image) in images_by_length() {
        let wanted = if refusal == 0 { 2 } else { -refusal };
        ensure_eq!(plan_growth(&image, &[0]), wanted, "an image of {} bytes", image.len());
    }
    Ok(())
}

/// Every way in which image and plan fail at once, and a plan that grows: the answer is the first refusal.
pub fn order_of_refusals() -> Outcome {
    let grows = Table::new(2, &[(0, 97, &[]), (0, 97, &[0, 0]), (1, 98, &[0])]).image();
    let images = images_by_refusal().into_iter().map(|(image, bytes)| (image, 2, bytes)).chain([(0, 3, grows)]);
    for (image, answer, bytes) in images {
        // the last of them names no job of any image
        for (refusal, plan) in plans_by_refusal().into_iter().chain([(8, vec![255])]) {
            let calls = Calls { image: bytes.clone(), plan };
            let wanted = [image, refusal].iter().find(|&&refusal| refusal != 0).map_or(answer, |refusal| -refusal);
            ensure_eq!(calls.answer()?, wanted, "where {image} and {refusal} are due");
        }
        ensure_eq!(plan_growth(&bytes, &[]), -image, "the empty plan where {image} is due");
    }
    Ok(())
}
