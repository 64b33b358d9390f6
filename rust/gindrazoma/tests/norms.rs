//! Norms, moves and shortest runs.
use gindrazoma::{Move, Refusal, Rule, Table};

fn table() -> Table {
    let rules = [Rule::new(0, 97, &[]), Rule::new(1, 97, &[0]), Rule::new(1, 98, &[1, 0]), Rule::new(2, 99, &[1])];
    Table::from_rules(3, &rules).unwrap()
}

#[test]
fn norms() {
    assert_eq!(table().norm(&[]), Ok(0));
    assert_eq!(table().norm(&[2, 1, 0]), Ok(6));
    assert_eq!(table().norm(&[3]), Err(Refusal::NoSuchJob));
    assert_eq!(table().norm(&[0; 4096]), Ok(4096));
    assert_eq!(table().norm(&[0; 4097]), Err(Refusal::PlanNormHigh));
}

#[test]
fn moves() {
    let t = table();
    assert_eq!(t.nth_move(&[1, 2], 0), Ok(Some(Move { action: 97, rest: vec![0, 2] })));
    assert_eq!(t.nth_move(&[1, 2], 1), Ok(Some(Move { action: 98, rest: vec![1, 0, 2] })));
    assert_eq!(t.nth_move(&[1, 2], 2), Ok(None));
    assert_eq!(t.nth_move(&[0], 0), Ok(Some(Move { action: 97, rest: vec![] })));
    assert_eq!(t.nth_move(&[], 0), Ok(None));
    assert_eq!(t.nth_move(&[9], 0), Err(Refusal::NoSuchJob));
}

/// Job 1 has seven rules; the third and fifth repeat the first, the sixth repeats the second. The fourth has another row than the
/// first, the last another high byte. Job 0 has the first rule, too.
fn table_with_repeated_rules() -> Table {
    let rules = [
        Rule::new(1, 97, &[]),
        Rule::new(1, 97, &[0]),
        Rule::new(0, 97, &[]),
        Rule::new(1, 97, &[]),
        Rule::new(1, 97, &[0, 0]),
        Rule::new(1, 97, &[]),
        Rule::new(1, 97, &[0]),
        Rule::new(1, 353, &[]),
    ];
    Table::from_rules(2, &rules).unwrap()
}

#[test]
fn repeated_rules() {
    let t = table_with_repeated_rules();
    let wanted: [(u16, &[u8]); 4] = [(97, &[0, 1]), (97, &[0, 0, 1]), (97, &[0, 0, 0, 1]), (353, &[0, 1])];
    for (index, (action, rest)) in (0..).zip(wanted) {
        assert_eq!(t.nth_move(&[1, 0, 1], index), Ok(Some(Move { action, rest: rest.to_vec() })));
    }
    for index in [4, 5, 6, 7, u32::MAX] {
        assert_eq!(t.nth_move(&[1, 0, 1], index), Ok(None));
    }
    assert_eq!(t.nth_move(&[0, 1], 0), Ok(Some(Move { action: 97, rest: vec![1] })));
    assert_eq!(t.nth_move(&[0, 1], 1), Ok(None));
    assert_eq!(t.rules().len(), 8);
    assert_eq!(t.norm(&[1, 0, 1]), Ok(3));
}

#[test]
fn lists_of_moves() {
    let t = table_with_repeated_rules();
    let wanted: [(u16, &[u8]); 4] = [(97, &[]), (97, &[0]), (97, &[0, 0]), (353, &[])];
    assert_eq!(t.moves(&[1]), Ok(wanted.map(|(action, rest)| Move { action, rest: rest.to_vec() }).to_vec()));
    assert_eq!(t.moves(&[]), Ok(vec![]));
    assert_eq!(t.moves(&[2]), Err(Refusal::NoSuchJob));
    assert_eq!(t.moves(&[0; 4097]), Err(Refusal::PlanNormHigh));
    let rules: Vec<Rule> = (0..252).map(|action| Rule::new(0, action, &[])).collect();
    let actions: Vec<u16> = Table::from_rules(1, &rules).unwrap().moves(&[0]).unwrap().iter().map(|m| m.action).collect();
    assert_eq!(actions, (0..252).collect::<Vec<u16>>());
}

#[test]
fn moves_of_two_bytes() {
    let moves = [0, 255, 256, 353, 65535];
    let rules: Vec<Rule> = (0..).zip(moves).map(|(job, action)| Rule::new(job, action, &[])).collect();
    let t = Table::from_rules(5, &rules).unwrap();
    for (job, action) in (0..).zip(moves) {
        assert_eq!(t.nth_move(&[job, 1, 0], 0), Ok(Some(Move { action, rest: vec![1, 0] })));
    }
    assert_eq!(t.shortest_run(&[4, 3, 2, 1, 0, 2]), Ok(vec![65535, 353, 256, 255, 0, 256]));
    assert_eq!(t.shortest_run(&[4; 4096]), Ok(vec![65535; 4096]));
}

#[test]
fn runs() {
    assert_eq!(table().shortest_run(&[]), Ok(vec![]));
    assert_eq!(table().shortest_run(&[2, 0]), Ok(vec![99, 97, 97, 97]));
    assert_eq!(table().shortest_run(&[0; 4097]), Err(Refusal::PlanNormHigh));
}

/// Seven rules lower the norm of job 5, and two of them give its first run. Its rule with the least move does not, nor does that
/// of job 3.
fn rules_with_ties() -> Vec<Rule> {
    vec![
        Rule::new(0, 255, &[]),
        Rule::new(1, 256, &[]),
        Rule::new(2, 1, &[]),
        Rule::new(3, 7, &[1]),
        Rule::new(3, 7, &[0]),
        Rule::new(3, 6, &[2, 2]),
        Rule::new(4, 7, &[0]),
        Rule::new(5, 9, &[1, 3]),
        Rule::new(5, 9, &[3, 1]),
        Rule::new(5, 9, &[4, 0]),
        Rule::new(5, 9, &[3, 2]),
        Rule::new(5, 9, &[4, 2]),
        Rule::new(5, 9, &[0, 3]),
        Rule::new(5, 10, &[2, 3]),
        Rule::new(5, 0, &[5]),
    ]
}

#[test]
fn first_runs() {
    let t = Table::from_rules(6, &rules_with_ties()).unwrap();
    assert_eq!(t.shortest_run(&[3]), Ok(vec![7, 255]));
    assert_eq!(t.shortest_run(&[5]), Ok(vec![9, 7, 255, 1]));
    assert_eq!(t.shortest_run(&[2, 5, 3, 1]), Ok(vec![1, 9, 7, 255, 1, 7, 255, 256]));
    let two = Table::from_rules(1, &[Rule::new(0, 256, &[]), Rule::new(0, 255, &[]), Rule::new(0, 0, &[0])]).unwrap();
    assert_eq!(two.shortest_run(&[0; 4096]), Ok(vec![255; 4096]));
}

#[test]
fn first_runs_whatever_the_order_of_the_rules() {
    let mut rules = rules_with_ties();
    for again in [false, true] {
        if again {
            rules.extend_from_within(3..12);
        }
        for _ in 0..rules.len() {
            rules.rotate_left(1);
            for rules in [rules.clone(), rules.iter().rev().cloned().collect()] {
                let t = Table::from_rules(6, &rules).unwrap();
                assert_eq!(t.shortest_run(&[5, 3]), Ok(vec![9, 7, 255, 1, 7, 255]));
            }
        }
    }
}
