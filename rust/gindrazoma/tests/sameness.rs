//! Comparisons and prime forms.
use gindrazoma::{Refusal, Rule, Table, Workspace};

fn table() -> Table {
    let rules = [Rule::new(0, 97, &[]), Rule::new(1, 97, &[0]), Rule::new(2, 97, &[1]), Rule::new(3, 98, &[0])];
    Table::from_rules(4, &rules).unwrap()
}

#[test]
fn comparisons() {
    let (t, mut space) = (table(), Workspace::new());
    assert_eq!(t.same(&mut space, &[2, 3], &[0, 1, 3]), Ok(true));
    assert_eq!(t.same(&mut space, &[3, 0], &[0, 3]), Ok(false));
    assert_eq!(t.same(&mut space, &[], &[]), Ok(true));
    assert_eq!(t.same(&mut space, &[0], &[4]), Err(Refusal::NoSuchJob));
}

#[test]
fn moves_that_differ_in_their_high_bytes() {
    let rules = [Rule::new(0, 97, &[]), Rule::new(1, 353, &[]), Rule::new(2, 353, &[])];
    let (t, mut space) = (Table::from_rules(3, &rules).unwrap(), Workspace::new());
    assert_eq!(t.same(&mut space, &[0], &[1]), Ok(false));
    assert_eq!(t.same(&mut space, &[2], &[1]), Ok(true));
    assert_eq!(t.prime_form(&mut space, &[2, 1, 0]), Ok(vec![1, 1, 0]));
}

#[test]
fn prime_forms() {
    let (t, mut space) = (table(), Workspace::default());
    assert_eq!(t.prime_form(&mut space, &[2, 3]), Ok(vec![0, 0, 0, 3]));
    assert_eq!(t.prime_form(&mut space, &[]), Ok(vec![]));
    assert_eq!(t.prime_form(&mut space, &[2; 1366]), Err(Refusal::PlanNormHigh));
}

#[test]
fn threads_with_workspaces_of_their_own() {
    let t = table();
    std::thread::scope(|scope| {
        for _ in 0..8 {
            scope.spawn(|| {
                let mut space = Workspace::new();
                for _ in 0..100 {
                    assert_eq!(t.same(&mut space, &[2, 3], &[0, 1, 3]), Ok(true));
                }
            });
        }
    });
}
