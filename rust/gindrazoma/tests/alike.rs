//! Comparisons and prime forms under alike lists.
use gindrazoma::{Alike, Refusal, Rule, Table, Workspace};
use std::collections::HashSet;

/// Lifts by either of two cranes, 97 and 353, which have one low byte: job 3 is 0 and then 1, and job 4 is none of them.
fn table() -> Table {
    let rules = [
        Rule::new(0, 97, &[]),
        Rule::new(1, 353, &[]),
        Rule::new(2, 97, &[]),
        Rule::new(2, 353, &[]),
        Rule::new(3, 97, &[1]),
        Rule::new(4, 98, &[]),
    ];
    Table::from_rules(5, &rules).unwrap()
}

fn cranes() -> Alike {
    Alike::new(&[(353, 97)])
}

#[test]
fn same_under_the_list_only() {
    let (t, mut space) = (table(), Workspace::new());
    for (left, right) in [(&[0][..], &[1][..]), (&[1], &[2]), (&[3], &[0, 0]), (&[3, 4], &[2, 1, 4])] {
        assert_eq!(t.same(&mut space, left, right), Ok(false));
        assert_eq!(t.same_alike(&mut space, &cranes(), left, right), Ok(true));
        assert_eq!(t.same_alike(&mut space, &cranes(), right, left), Ok(true));
    }
    assert_eq!(t.same_alike(&mut space, &cranes(), &[0], &[4]), Ok(false));
    assert_eq!(t.same_alike(&mut space, &cranes(), &[0], &[0, 1]), Ok(false));
    assert_eq!(t.same_alike(&mut space, &cranes(), &[], &[]), Ok(true));
}

#[test]
fn same_under_one_of_two_lists() {
    let (t, mut space) = (table(), Workspace::new());
    let other = Alike::new(&[(98, 97)]);
    assert_eq!(t.same_alike(&mut space, &cranes(), &[0], &[1]), Ok(true));
    assert_eq!(t.same_alike(&mut space, &other, &[0], &[1]), Ok(false));
    assert_eq!(t.same_alike(&mut space, &cranes(), &[0], &[4]), Ok(false));
    assert_eq!(t.same_alike(&mut space, &other, &[0], &[4]), Ok(true));
    let both = [Alike::new(&[(98, 97), (353, 97)]), Alike::new(&[(353, 7), (97, 7), (98, 7)])];
    for list in both {
        assert_eq!(t.same_alike(&mut space, &list, &[0, 3], &[4, 1, 2]), Ok(true));
    }
    let apart = Alike::new(&[(353, 7), (97, 8)]);
    assert_eq!(t.same_alike(&mut space, &apart, &[0], &[1]), Ok(false));
}

#[test]
fn prime_forms() {
    let (t, mut space) = (table(), Workspace::default());
    assert_eq!(t.prime_form(&mut space, &[3, 4, 2]), Ok(vec![0, 1, 4, 2]));
    assert_eq!(t.prime_form_alike(&mut space, &cranes(), &[3, 4, 2]), Ok(vec![0, 0, 4, 0]));
    assert_eq!(t.prime_form_alike(&mut space, &Alike::new(&[(98, 353)]), &[3, 4, 2]), Ok(vec![0, 1, 1, 2]));
    assert_eq!(t.prime_form_alike(&mut space, &cranes(), &[]), Ok(vec![]));
}

#[test]
fn equal_forms_exactly_for_the_same() {
    let (t, mut space) = (table(), Workspace::new());
    let plans: Vec<Vec<u8>> = (0..5).flat_map(|i| (0..6).map(move |j| if j < 5 { vec![i, j] } else { vec![i] })).collect();
    for list in [Alike::default(), cranes(), Alike::new(&[(97, 98)]), Alike::new(&[(98, 1), (97, 1), (353, 1)])] {
        let forms: Vec<_> = plans.iter().map(|plan| t.prime_form_alike(&mut space, &list, plan).unwrap()).collect();
        for (left, form) in plans.iter().zip(&forms) {
            for (right, other) in plans.iter().zip(&forms) {
                assert_eq!(t.same_alike(&mut space, &list, left, right), Ok(form == other), "{left:?} and {right:?}");
            }
        }
    }
}

#[test]
fn no_list_is_the_call_without() {
    let (t, mut space) = (table(), Workspace::new());
    for list in [Alike::new(&[]), Alike::default()] {
        for (left, right) in [(&[3][..], &[0, 1][..]), (&[0], &[1]), (&[5], &[0]), (&[0; 4097], &[0])] {
            assert_eq!(t.same_alike(&mut space, &list, left, right), t.same(&mut space, left, right));
            assert_eq!(t.prime_form_alike(&mut space, &list, left), t.prime_form(&mut space, left));
        }
    }
}

/// Both calls under a list, each for a plan on its left.
fn refused(list: &[(u16, u16)], plan: &[u8]) -> Refusal {
    let (t, mut space, list) = (table(), Workspace::new(), Alike::new(list));
    let refusal = t.same_alike(&mut space, &list, plan, &[]).unwrap_err();
    assert_eq!(t.prime_form_alike(&mut space, &list, plan), Err(refusal));
    assert_eq!(t.same_alike(&mut space, &list, &[], plan), Err(refusal));
    refusal
}

#[test]
fn refusals() {
    let pairs: Vec<(u16, u16)> = (0..33).map(|i| (1000 + i, 97)).collect();
    assert_eq!(refused(&pairs, &[0]), Refusal::AlikeLength);
    for clash in [&[(1, 2), (1, 2)][..], &[(1, 2), (1, 3)], &[(1, 2), (2, 3)], &[(2, 3), (1, 2)], &[(1, 1)]] {
        assert_eq!(refused(clash, &[0]), Refusal::AlikeClash);
        assert_eq!(refused(clash, &[5]), Refusal::AlikeClash);
        assert_eq!(refused(&[clash, &pairs[..32]].concat(), &[5]), Refusal::AlikeLength);
    }
    assert_eq!(refused(&pairs[..32], &[5]), Refusal::NoSuchJob);
    assert_eq!(refused(&pairs[..32], &[0; 4097]), Refusal::PlanNormHigh);
    let (t, mut space) = (table(), Workspace::new());
    assert_eq!(t.same_alike(&mut space, &Alike::new(&pairs[..32]), &[0], &[2]), Ok(false));
}

#[test]
fn words_of_refusals() {
    assert_eq!(Refusal::AlikeLength.to_string(), "refused 12: the alike list has more than 32 pairs, or an unfinished one");
    let words = "refused 13: a from-move stands twice in the alike list, or stands in it as a to-move";
    assert_eq!(Refusal::AlikeClash.to_string(), words);
    let error: Box<dyn std::error::Error> = Box::new(Refusal::AlikeClash);
    assert_eq!(error.to_string(), words);
}

/// Name and number of each refusal of the header.
fn refusals_of_header() -> Vec<(String, u8)> {
    let header = include_str!("../../../include/gindrazoma.h");
    let lines = header.lines().skip_while(|line| !line.starts_with("enum gindrazoma_refusal")).skip(1);
    let entry = |line: &str| {
        let (name, rest) = line.trim().strip_prefix("GINDRAZOMA_")?.split_once(" = ")?;
        let number = rest.split(|c: char| !c.is_ascii_digit()).next()?;
        Some((name.replace('_', "").to_lowercase(), number.parse().ok()?))
    };
    lines.take_while(|line| !line.starts_with('}')).filter_map(entry).collect()
}

#[test]
fn every_refusal_of_the_header_has_words() {
    let all = [
        Refusal::WorkspaceShort,
        Refusal::BadLength,
        Refusal::BadChecksum,
        Refusal::BadHeader,
        Refusal::BadPlace,
        Refusal::NoNorm,
        Refusal::JobNormHigh,
        Refusal::NoSuchJob,
        Refusal::PlanNormHigh,
        Refusal::OutputShort,
        Refusal::LogLength,
        Refusal::AlikeLength,
        Refusal::AlikeClash,
        Refusal::TablesLarge,
    ];
    assert_eq!(all.map(|r| (format!("{r:?}").to_lowercase(), r.number())).to_vec(), refusals_of_header());
    let words: HashSet<String> =
        all.iter().map(|r| r.to_string()[format!("refused {}: ", r.number()).len()..].to_string()).collect();
    assert_eq!(words.len(), all.len());
    assert!(words.iter().all(|words| words.len() > 10));
}

#[test]
fn lists_as_values() {
    let list = Alike::new(&[(353, 97), (1000, 97)]);
    assert_eq!(list, list.clone());
    assert_ne!(list, cranes());
    assert_ne!(cranes(), Alike::new(&[(97, 353)]));
    assert_eq!(Alike::default(), Alike::new(&[]));
    assert_eq!(HashSet::from([list.clone(), cranes(), list]).len(), 2);
    assert_ne!(format!("{:?}", cranes()), format!("{:?}", Alike::default()));
}

#[test]
fn threads_with_workspaces_of_their_own() {
    let (t, list) = (table(), cranes());
    std::thread::scope(|scope| {
        for _ in 0..8 {
            scope.spawn(|| {
                let mut space = Workspace::new();
                for _ in 0..100 {
                    assert_eq!(t.same_alike(&mut space, &list, &[3], &[0, 0]), Ok(true));
                }
            });
        }
    });
}
