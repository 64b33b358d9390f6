//! Plans that grow and plans that do not, and how many jobs they reach.
use gindrazoma::{Growth, Refusal, Rule, Table, Workspace};
use std::collections::BTreeSet;

/// A rule for each job that ends it, and others.
fn table(jobs: u8, rules: &[(u8, &[u8])]) -> Table {
    let ends = (0..jobs).map(|job| Rule::new(job, 97, &[]));
    let others = (1000..).zip(rules).map(|(action, &(job, after))| Rule::new(job, action, after));
    Table::from_rules(jobs.into(), &ends.chain(others).collect::<Vec<Rule>>()).unwrap()
}

fn finite(jobs: u32) -> Result<Growth, Refusal> {
    Ok(Growth { jobs, endless: false })
}

fn endless(jobs: u32) -> Result<Growth, Refusal> {
    Ok(Growth { jobs, endless: true })
}

/// The plans that a plan can become, as their prime forms, so that those that are bisimilar are one; at most so many are looked for.
fn reached(t: &Table, plan: &[u8], most: usize) -> BTreeSet<Vec<u8>> {
    let mut space = Workspace::new();
    let mut open = vec![plan.to_vec()];
    let mut seen = BTreeSet::new();
    while let Some(plan) = open.pop() {
        if seen.len() < most && seen.insert(t.prime_form(&mut space, &plan).unwrap()) {
            open.splice(0..0, t.moves(&plan).unwrap().into_iter().map(|m| m.rest));
        }
    }
    seen
}

#[test]
fn the_empty_plan_and_jobs_alone() {
    let t = table(24, &[(23, &[23])]);
    assert_eq!(t.growth(&[]), finite(0));
    for job in 0..24 {
        assert_eq!(t.growth(&[job]), finite(1));
        assert_eq!(t.growth(&[job, job, 0]), finite(if job == 0 { 1 } else { 2 }));
    }
    assert_eq!(t.growth(&(0..24).collect::<Vec<u8>>()), finite(24));
}

#[test]
fn a_job_comes_round_before_the_last_place_of_a_row() {
    let rows: [(&[u8], bool); 12] = [
        (&[1], false),
        (&[0, 1], false),
        (&[1, 0], true),
        (&[1, 1], true),
        (&[0, 0], false),
        (&[0, 2, 1], false),
        (&[0, 1, 2], true),
        (&[1, 0, 2], true),
        (&[0, 2, 0, 1], false),
        (&[0, 0, 1, 0], true),
        (&[0, 1, 0, 1], true),
        (&[2, 2, 2, 2], false),
    ];
    for (row, grows) in rows {
        let jobs = row.iter().chain(&[1]).collect::<BTreeSet<_>>().len() as u32;
        assert_eq!(table(3, &[(1, row)]).growth(&[1]), Ok(Growth { jobs, endless: grows }), "{row:?}");
    }
}

#[test]
fn jobs_come_round_together() {
    assert_eq!(table(4, &[(0, &[3, 1]), (1, &[3, 2]), (2, &[3, 0])]).growth(&[0]), finite(4));
    assert_eq!(table(4, &[(0, &[1, 3]), (1, &[3, 2]), (2, &[3, 0])]).growth(&[0]), endless(4));
    assert_eq!(table(4, &[(0, &[3, 1]), (1, &[2, 3]), (2, &[3, 0])]).growth(&[0]), endless(4));
    assert_eq!(table(4, &[(0, &[3, 1]), (1, &[3, 2]), (2, &[0, 3])]).growth(&[0]), endless(4));
    assert_eq!(table(4, &[(0, &[3, 1]), (1, &[3, 2]), (2, &[2, 3])]).growth(&[0]), endless(4));
    assert_eq!(table(4, &[(0, &[1, 2]), (1, &[2, 3]), (2, &[3])]).growth(&[0]), finite(4));
}

#[test]
fn only_what_is_reached_counts() {
    let t = table(5, &[(1, &[1, 2]), (3, &[4])]);
    assert_eq!(t.growth(&[0, 3]), finite(3));
    assert_eq!(t.growth(&[1]), endless(2));
    for plan in [&[0, 1][..], &[1, 0], &[0, 0, 0, 1], &[0, 2, 1, 2, 0]] {
        assert_eq!(t.growth(plan), endless(3), "{plan:?}");
    }
    assert_eq!(t.growth(&[0, 1, 3]), endless(5));
}

#[test]
fn all_24_jobs_in_a_chain() {
    let last = [23, 23];
    let rows: Vec<[u8; 1]> = (1..24).map(|job| [job]).collect();
    let chain: Vec<(u8, &[u8])> = (0..).zip(&rows).map(|(job, row)| (job, &row[..])).collect();
    let (stays, grows) = (table(24, &chain), table(24, &[&chain[..], &[(23, &last)]].concat()));
    for job in 0..24 {
        assert_eq!(stays.growth(&[job]), finite(24 - u32::from(job)));
        assert_eq!(grows.growth(&[job]), endless(24 - u32::from(job)));
    }
}

#[test]
fn finite_plans_become_finitely_many_and_endless_ones_ever_more() {
    let t = table(4, &[(0, &[0]), (1, &[0, 2, 1]), (2, &[0, 0]), (3, &[3, 2])]);
    for (plan, grows) in [(&[1][..], false), (&[2, 1, 1], false), (&[3], true), (&[0, 2, 3], true)] {
        assert_eq!(t.growth(plan).map(|growth| growth.endless), Ok(grows), "{plan:?}");
        assert_eq!(reached(&t, plan, 200).len() == 200, grows, "{plan:?}");
    }
}

#[test]
fn neither_moves_nor_order_nor_repetition_matter() {
    let mut rules: Vec<Rule> = table(3, &[(1, &[0, 1]), (2, &[2, 1])]).rules().to_vec();
    for round in 0..20 {
        rules.rotate_left(1);
        rules.push(rules[round % 5].clone());
        rules.iter_mut().zip([0, 255, 256, 65535, 97].into_iter().cycle()).for_each(|(rule, action)| rule.action = action);
        let t = Table::from_rules(3, &rules).unwrap();
        assert_eq!((t.growth(&[1]), t.growth(&[2])), (finite(2), endless(3)));
    }
}

#[test]
fn refusals() {
    let t = table(3, &[(1, &[1, 0])]);
    assert_eq!(t.growth(&[0; 4096]), finite(1));
    assert_eq!(t.growth(&[1; 4096]), endless(2));
    assert_eq!(t.growth(&[1; 4097]), Err(Refusal::PlanNormHigh));
    assert_eq!(t.growth(&[3]), Err(Refusal::NoSuchJob));
    assert_eq!(t.growth(&[&[1; 4097][..], &[3]].concat()), Err(Refusal::NoSuchJob));
}

#[test]
fn threads() {
    let (stays, grows) = (table(2, &[(0, &[1, 0])]), table(2, &[(0, &[0, 1])]));
    std::thread::scope(|scope| {
        for _ in 0..8 {
            scope.spawn(|| {
                for _ in 0..100 {
                    assert_eq!((stays.growth(&[0]), grows.growth(&[0])), (finite(2), endless(2)));
                }
            });
        }
    });
}
