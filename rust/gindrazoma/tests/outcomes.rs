//! Tables with a choice of outcome and without, and what comparing plans means over them.
use gindrazoma::{Alike, Refusal, Rule, Table, Workspace};
use std::collections::BTreeSet;

fn table(jobs: u32, rules: &[(u8, u16, &[u8])]) -> Table {
    let rules: Vec<Rule> = rules.iter().map(|&(job, action, after)| Rule::new(job, action, after)).collect();
    Table::from_rules(jobs, &rules).unwrap()
}

/// Job 0 is S1, which chooses after its move; job 2 is S2, which chooses by it.
fn s1_and_s2() -> Table {
    table(5, &[(0, 97, &[1]), (1, 98, &[]), (1, 99, &[]), (2, 97, &[3]), (2, 97, &[4]), (3, 98, &[]), (4, 99, &[])])
}

/// Lifts by either of two cranes, 97 and 353, which have one low byte: under `cranes` job 2 has a choice, job 3 a rule twice.
fn two_cranes() -> Table {
    table(4, &[(0, 97, &[]), (1, 98, &[]), (2, 97, &[0]), (2, 353, &[1]), (3, 97, &[0]), (3, 353, &[0])])
}

fn cranes() -> Alike {
    Alike::new(&[(353, 97)])
}

/// The complete runs of a plan over a table whose runs all end.
fn complete_runs(t: &Table, plan: &[u8]) -> BTreeSet<Vec<u16>> {
    if plan.is_empty() {
        return BTreeSet::from([Vec::new()]);
    }
    let moves = t.moves(plan).unwrap();
    let runs = moves.iter().flat_map(|m| complete_runs(t, &m.rest).into_iter().map(|run| [&[m.action], &run[..]].concat()));
    runs.collect()
}

#[test]
fn a_choice_after_the_move_and_by_the_move() {
    assert!(table(2, &[(0, 97, &[1]), (1, 98, &[]), (1, 99, &[])]).deterministic());
    assert!(!table(3, &[(0, 97, &[1]), (0, 97, &[2]), (1, 98, &[]), (2, 99, &[])]).deterministic());
    assert!(!s1_and_s2().deterministic());
}

#[test]
fn rows_are_compared_as_they_stand() {
    let rows = [&[][..], &[0], &[1], &[0, 0], &[0, 1], &[1, 0], &[0, 0, 0], &[0, 0, 0, 0], &[0, 0, 0, 1], &[1, 0, 0, 0]];
    for left in rows {
        for right in rows {
            let t = table(3, &[(0, 97, &[]), (1, 98, &[]), (2, 99, left), (2, 99, right)]);
            assert_eq!(t.deterministic(), left == right, "{left:?} and {right:?}");
        }
    }
}

#[test]
fn bisimilar_rows_are_a_choice() {
    let t = table(4, &[(0, 97, &[1]), (0, 97, &[2]), (1, 98, &[]), (2, 98, &[]), (3, 97, &[1])]);
    assert_eq!(t.same(&mut Workspace::new(), &[0], &[3]), Ok(true));
    assert!(!t.deterministic());
}

#[test]
fn rules_written_again_and_rules_of_other_jobs() {
    let rules: Vec<Rule> = (0..252).map(|i| Rule::new(i % 3, 97, &[&[][..], &[0], &[1]][usize::from(i % 3)])).collect();
    assert!(Table::from_rules(3, &rules).unwrap().deterministic());
    let mut other = rules.clone();
    other[251].after = vec![0];
    assert!(!Table::from_rules(3, &other).unwrap().deterministic());
    other[251].action = 353;
    assert!(Table::from_rules(3, &other).unwrap().deterministic());
}

#[test]
fn a_list_makes_choices_and_takes_none_away() {
    let t = two_cranes();
    assert!(t.deterministic());
    for list in [Alike::default(), Alike::new(&[(1, 2)]), Alike::new(&[(353, 354)]), Alike::new(&[(97, 98), (353, 99)])] {
        assert_eq!(t.deterministic_alike(&list), Ok(true), "{list:?}");
    }
    for list in [cranes(), Alike::new(&[(97, 353)]), Alike::new(&[(97, 7), (353, 7)])] {
        assert_eq!(t.deterministic_alike(&list), Ok(false), "{list:?}");
    }
    let twice = Table::from_rules(4, &[&t.rules()[..3], &t.rules()[4..]].concat()).unwrap();
    assert_eq!(twice.deterministic_alike(&cranes()), Ok(true));
    for list in [Alike::default(), cranes(), Alike::new(&[(97, 5)]), Alike::new(&[(98, 5), (99, 6)])] {
        assert_eq!(s1_and_s2().deterministic_alike(&list), Ok(false));
    }
}

#[test]
fn without_a_choice_the_same_are_those_with_the_same_complete_runs() {
    let rules: [(u8, u16, &[u8]); 8] =
        [(0, 97, &[]), (1, 98, &[]), (2, 97, &[0]), (3, 97, &[]), (3, 98, &[0]), (4, 97, &[1]), (5, 97, &[]), (5, 98, &[3])];
    let (t, mut space) = (table(6, &rules), Workspace::new());
    assert!(t.deterministic());
    let plans: Vec<Vec<u8>> = (0..6).flat_map(|i| (0..7).map(move |j| if j < 6 { vec![i, j] } else { vec![i] })).collect();
    let runs: Vec<_> = plans.iter().map(|plan| complete_runs(&t, plan)).collect();
    let mut same = 0;
    for (left, left_runs) in plans.iter().zip(&runs) {
        for (right, right_runs) in plans.iter().zip(&runs) {
            assert_eq!(t.same(&mut space, left, right), Ok(left_runs == right_runs), "{left:?} and {right:?}");
            same += usize::from(left != right && left_runs == right_runs);
        }
    }
    assert!(same > 0);
}

#[test]
fn with_a_choice_plans_of_the_same_complete_runs_may_be_apart() {
    let t = s1_and_s2();
    assert_eq!(complete_runs(&t, &[0]), complete_runs(&t, &[2]));
    assert_eq!(t.same(&mut Workspace::new(), &[0], &[2]), Ok(false));
}

#[test]
fn refusals() {
    let pairs: Vec<(u16, u16)> = (0..33).map(|i| (1000 + i, 97)).collect();
    for t in [two_cranes(), s1_and_s2()] {
        let refused = |pairs: &[(u16, u16)]| t.deterministic_alike(&Alike::new(pairs)).err();
        assert_eq!(refused(&pairs[..32]), None);
        assert_eq!(refused(&pairs), Some(Refusal::AlikeLength));
        for clash in [&[(1, 2), (1, 2)][..], &[(1, 2), (1, 3)], &[(1, 2), (2, 3)], &[(2, 3), (1, 2)], &[(97, 97)]] {
            assert_eq!(refused(clash), Some(Refusal::AlikeClash));
            assert_eq!(refused(&[clash, &pairs[..32]].concat()), Some(Refusal::AlikeLength));
        }
    }
}

#[test]
fn threads() {
    let (without, with) = (two_cranes(), s1_and_s2());
    std::thread::scope(|scope| {
        for _ in 0..8 {
            scope.spawn(|| {
                for _ in 0..100 {
                    assert!(without.deterministic() && !with.deterministic());
                    assert_eq!(without.deterministic_alike(&cranes()), Ok(false));
                }
            });
        }
    });
}
