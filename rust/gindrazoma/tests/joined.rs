//! Comparisons of plans of two tables.
use gindrazoma::{Alike, Refusal, Rule, Table, Workspace};

/// A container is lifted and then set down.
fn ship() -> Table {
    Table::from_rules(3, &[Rule::new(0, 301, &[1]), Rule::new(1, 320, &[]), Rule::new(1, 321, &[]), Rule::new(2, 40, &[])])
        .unwrap()
}

/// The same work by other jobs: job 4 is two containers, and job 3 is one that is lifted by another crane.
fn port() -> Table {
    let rules = [
        Rule::new(0, 40, &[]),
        Rule::new(1, 321, &[]),
        Rule::new(1, 320, &[]),
        Rule::new(2, 301, &[1]),
        Rule::new(3, 302, &[1]),
        Rule::new(4, 301, &[1, 2]),
    ];
    Table::from_rules(5, &rules).unwrap()
}

/// Jobs that make one move each, from a first one on.
fn letters(jobs: u8, first: u16) -> Table {
    Table::from_rules(jobs.into(), &(0..jobs).map(|job| Rule::new(job, first + u16::from(job), &[])).collect::<Vec<_>>()).unwrap()
}

/// A comparison, which the tables exchanged answer alike.
fn same(left: (&Table, &[u8]), right: (&Table, &[u8]), alike: &[(u16, u16)]) -> Result<bool, Refusal> {
    let (mut space, alike) = (Workspace::new(), Alike::new(alike));
    let answer = left.0.same_as_alike(&mut space, &alike, left.1, right.0, right.1);
    assert_eq!(right.0.same_as_alike(&mut space, &alike, right.1, left.0, left.1), answer);
    if alike == Alike::default() {
        assert_eq!(left.0.same_as(&mut space, left.1, right.0, right.1), answer);
    }
    answer
}

#[test]
fn the_same_work_by_other_jobs() {
    let (s, p) = (ship(), port());
    for (left, right) in [(&[0][..], &[2][..]), (&[1], &[1]), (&[2], &[0]), (&[0, 0], &[4]), (&[0, 0, 2], &[2, 2, 0]), (&[], &[])]
    {
        assert_eq!(same((&s, left), (&p, right), &[]), Ok(true), "{left:?} and {right:?}");
        assert_eq!(same((&s, left), (&p, &[right, &[1]].concat()), &[]), Ok(false), "{left:?} and {right:?}");
    }
    for (left, right) in [(&[0][..], &[0][..]), (&[0], &[4]), (&[2], &[2]), (&[2, 0], &[2, 0]), (&[], &[0]), (&[0], &[3])] {
        assert_eq!(same((&s, left), (&p, right), &[]), Ok(false), "{left:?} and {right:?}");
    }
}

#[test]
fn lists_over_both_tables() {
    let (s, p) = (ship(), port());
    for list in [&[(302, 301)][..], &[(301, 302)], &[(301, 1), (302, 1)], &[(1, 2), (302, 301), (40, 320)]] {
        assert_eq!(same((&s, &[0, 0]), (&p, &[2, 3]), list), Ok(true), "{list:?}");
        assert_eq!(same((&s, &[0, 0]), (&p, &[3, 3]), list), Ok(true), "{list:?}");
    }
    for list in [&[][..], &[(302, 300)], &[(301, 1), (302, 2)], &[(40, 301)], &[(302, 557)]] {
        assert_eq!(same((&s, &[0, 0]), (&p, &[2, 3]), list), Ok(false), "{list:?}");
        assert_eq!(same((&s, &[0, 0]), (&p, &[4]), list), Ok(true), "{list:?}");
    }
}

#[test]
fn one_table_with_itself() {
    let (p, copy, mut space) = (port(), port(), Workspace::new());
    let plans: Vec<Vec<u8>> = (0..6).flat_map(|i| (0..6).map(move |j| if j < 5 { vec![i, j] } else { vec![i] })).collect();
    for list in [&[][..], &[(302, 301)], &[(301, 320), (302, 320), (321, 320)], &[(5, 5)]] {
        for (left, right) in plans.iter().flat_map(|left| plans.iter().map(move |right| (left, right))) {
            let answer = p.same_alike(&mut space, &Alike::new(list), left, right);
            assert_eq!(same((&p, left), (&p, right), list), answer, "{left:?} and {right:?}");
            assert_eq!(same((&p, left), (&copy, right), list), answer, "{left:?} and {right:?}");
        }
    }
}

#[test]
fn jobs_are_those_of_the_own_table() {
    for (i, j) in [(1, 23), (23, 1), (12, 12), (3, 7), (20, 4)] {
        let (left, right) = (letters(i, 1000), letters(j, 1000));
        for job in 0..=24 {
            let whether = |jobs: u8| if job < jobs { Ok(job == 0) } else { Err(Refusal::NoSuchJob) };
            assert_eq!(same((&left, &[job]), (&right, &[0]), &[]), whether(i));
            assert_eq!(same((&left, &[0]), (&right, &[job]), &[]), whether(j));
            assert_eq!(same((&left, &[job]), (&right, &[job]), &[]), whether(i.min(j)).map(|_| true));
        }
    }
}

#[test]
fn jobs_and_rules_together() {
    for i in 1..=24 {
        for j in 1..=24 {
            let wanted = if i + j > 24 { Err(Refusal::TablesLarge) } else { Ok(i == j) };
            assert_eq!(same((&letters(i, 7), &[i - 1]), (&letters(j, 7), &[j - 1]), &[]), wanted);
        }
    }
    let rules = |count: usize| Table::from_rules(1, &vec![Rule::new(0, 97, &[]); count]).unwrap();
    for i in [1, 2, 53, 63, 126, 127, 200, 251, 252] {
        for all in 251.max(i + 1)..=254.min(i + 252) {
            let wanted = if all > 252 { Err(Refusal::TablesLarge) } else { Ok(true) };
            assert_eq!(same((&rules(i), &[0]), (&rules(all - i), &[0]), &[]), wanted, "{i} of {all}");
        }
    }
}

#[test]
fn refusals_in_order() {
    let (s, p, large) = (ship(), port(), letters(24, 0));
    let pairs: Vec<(u16, u16)> = (0..33).map(|i| (1000 + i, 97)).collect();
    let (clash, long) = ([(1, 1)], [0; 4097]);
    assert_eq!(same((&s, &[9]), (&large, &[0]), &pairs), Err(Refusal::TablesLarge));
    assert_eq!(same((&s, &[9]), (&p, &long), &pairs), Err(Refusal::AlikeLength));
    assert_eq!(same((&s, &[9]), (&p, &long), &clash), Err(Refusal::AlikeClash));
    assert_eq!(same((&s, &[9]), (&p, &long), &pairs[..32]), Err(Refusal::NoSuchJob));
    assert_eq!(same((&s, &long), (&p, &[5]), &[]), Err(Refusal::NoSuchJob));
    assert_eq!(same((&s, &[3]), (&p, &[3]), &[]), Err(Refusal::NoSuchJob));
    assert_eq!(same((&s, &[0]), (&p, &long), &[]), Err(Refusal::PlanNormHigh));
    assert_eq!(same((&s, &[0; 2049]), (&p, &[2]), &[]), Err(Refusal::PlanNormHigh));
    assert_eq!(same((&s, &[0; 2048]), (&p, &[4; 1024]), &[]), Ok(true));
    assert_eq!(same((&s, &[0; 2048]), (&p, &[4; 1025]), &[]), Err(Refusal::PlanNormHigh));
    assert_eq!(
        Refusal::TablesLarge.to_string(),
        "refused 15: the two tables together have more than 24 jobs or more than 252 rules"
    );
}

#[test]
fn threads_with_workspaces_of_their_own() {
    let (s, p, list) = (ship(), port(), Alike::new(&[(302, 301)]));
    std::thread::scope(|scope| {
        for _ in 0..8 {
            scope.spawn(|| {
                let mut space = Workspace::new();
                for _ in 0..100 {
                    assert_eq!(s.same_as(&mut space, &[0, 0], &p, &[4]), Ok(true));
                    assert_eq!(s.same_as_alike(&mut space, &list, &[0], &p, &[3]), Ok(true));
                    assert_eq!(p.same_as(&mut space, &[3], &s, &[0]), Ok(false));
                }
            });
        }
    });
}
