//! Logs replayed on plans, with an alike list and without.
use gindrazoma::Replay::{Leaves, Part, Whole};
use gindrazoma::{Alike, Refusal, Replay, Rule, Table, Workspace};
use std::collections::HashSet;

/// Lifts by either of two cranes, 97 and 353, which have one low byte. Job 3 has two rules for one move, and the first of them
/// is not always the right one. Job 4 may go on as long as it likes.
fn table() -> Table {
    let rules = [
        Rule::new(0, 97, &[]),
        Rule::new(1, 353, &[]),
        Rule::new(2, 98, &[0, 1]),
        Rule::new(3, 97, &[0]),
        Rule::new(3, 97, &[1]),
        Rule::new(4, 97, &[]),
        Rule::new(4, 97, &[4]),
        Rule::new(4, 97, &[4, 4]),
    ];
    Table::from_rules(5, &rules).unwrap()
}

fn cranes() -> Alike {
    Alike::new(&[(353, 97)])
}

/// A replay without a list, and under one that says nothing about the table's moves.
fn replayed(plan: &[u8], log: &[u16]) -> Result<Replay, Refusal> {
    let (t, mut space) = (table(), Workspace::new());
    let replay = t.replay(&mut space, plan, log);
    for list in [Alike::default(), Alike::new(&[(5, 6)])] {
        assert_eq!(t.replay_alike(&mut space, &list, plan, log), replay);
    }
    replay
}

#[test]
fn whole_part_and_leaves() {
    for (log, replay) in [
        (&[][..], Part),
        (&[98], Part),
        (&[98, 97], Part),
        (&[98, 97, 353], Part),
        (&[98, 97, 353, 97], Whole),
        (&[98, 97, 353, 97, 97], Leaves { place: 4 }),
        (&[97], Leaves { place: 0 }),
        (&[354, 97], Leaves { place: 0 }),
        (&[98, 353], Leaves { place: 1 }),
        (&[98, 97, 97, 97], Leaves { place: 2 }),
        (&[98, 97, 353, 98, 98], Leaves { place: 3 }),
    ] {
        assert_eq!(replayed(&[2, 0], log), Ok(replay), "{log:?}");
    }
}

#[test]
fn empty_logs_and_plans() {
    assert_eq!(replayed(&[], &[]), Ok(Whole));
    assert_eq!(replayed(&[], &[97]), Ok(Leaves { place: 0 }));
    assert_eq!(replayed(&[], &[97; 128]), Ok(Leaves { place: 0 }));
    for job in 0..5 {
        assert_eq!(replayed(&[job], &[]), Ok(Part));
        assert_eq!(replayed(&[job; 1000], &[]), Ok(Part));
    }
}

#[test]
fn every_rule_for_a_move_is_followed() {
    assert_eq!(replayed(&[3], &[97, 97]), Ok(Whole));
    assert_eq!(replayed(&[3], &[97, 353]), Ok(Whole));
    assert_eq!(replayed(&[3, 3], &[97, 353, 97, 97]), Ok(Whole));
    assert_eq!(replayed(&[3, 0], &[97, 353]), Ok(Part));
    assert_eq!(replayed(&[3, 0], &[97, 353, 353]), Ok(Leaves { place: 2 }));
    assert_eq!(replayed(&[3], &[97, 98]), Ok(Leaves { place: 1 }));
    for moves in 1..=128 {
        assert_eq!(replayed(&[4], &vec![97; moves]), Ok(Whole));
        assert_eq!(replayed(&[4; 3], &vec![97; moves]), Ok(if moves < 3 { Part } else { Whole }));
        let mut log = vec![97; moves];
        log[moves - 1] = 353;
        let last = if moves == 1 { Leaves { place: 0 } } else { Whole };
        assert_eq!(replayed(&[4, 1], &log), Ok(last));
    }
}

#[test]
fn both_sides_are_replaced_by_the_list() {
    let (t, mut space) = (table(), Workspace::new());
    let mut under = |list: &Alike, plan: &[u8], log: &[u16]| t.replay_alike(&mut space, list, plan, log).unwrap();
    assert_eq!(replayed(&[2], &[98, 353, 97]), Ok(Leaves { place: 1 }));
    assert_eq!(under(&cranes(), &[2], &[98, 353, 97]), Whole); // in the rules for the last move, in the log for the one before
    assert_eq!(under(&Alike::new(&[(97, 353)]), &[2], &[98, 353, 97]), Whole);
    assert_eq!(under(&Alike::new(&[(97, 7), (353, 7)]), &[2], &[98, 353, 7]), Whole);
    assert_eq!(under(&Alike::new(&[(97, 7), (353, 8)]), &[2], &[98, 7, 353]), Whole);
    assert_eq!(under(&Alike::new(&[(97, 7), (353, 8)]), &[2], &[98, 7, 97]), Leaves { place: 2 });
    assert_eq!(under(&Alike::new(&[(1000, 98)]), &[2, 2], &[1000, 97, 353, 98, 97]), Part); // no rule makes move 1000
    assert_eq!(under(&cranes(), &[2], &[98, 98, 97]), Leaves { place: 1 });
}

#[test]
fn shortest_runs_are_whole() {
    let (t, mut space) = (table(), Workspace::new());
    for plan in [&[][..], &[2], &[3, 2, 4], &[4, 3, 2, 1, 0, 2, 2]] {
        let run = t.shortest_run(plan).unwrap();
        assert_eq!(t.replay(&mut space, plan, &run), Ok(Whole));
        assert_eq!(t.replay_alike(&mut space, &cranes(), plan, &run), Ok(Whole));
        for len in 0..run.len() {
            assert_eq!(t.replay(&mut space, plan, &run[..len]), Ok(Part));
        }
        let longer = [&run[..], &[99]].concat();
        assert_eq!(t.replay(&mut space, plan, &longer), Ok(Leaves { place: run.len() }));
    }
}

#[test]
fn every_move_begins_a_run() {
    let (t, mut space) = (table(), Workspace::new());
    for plan in [&[0][..], &[1], &[2, 0], &[3], &[4], &[4, 1]] {
        for step in t.moves(plan).unwrap() {
            let replay = t.replay(&mut space, plan, &[step.action]);
            assert_eq!(replay, Ok(if plan.len() == 1 && plan != [3] { Whole } else { Part }));
        }
        assert_eq!(t.replay(&mut space, plan, &[99]), Ok(Leaves { place: 0 }));
    }
}

#[test]
fn the_most_moves() {
    let run: Vec<u16> = [98, 97, 353].repeat(43);
    assert_eq!(replayed(&[2; 43], &run[..127]), Ok(Part));
    assert_eq!(replayed(&[2; 43], &run[..128]), Ok(Part));
    assert_eq!(replayed(&[2; 43], &run), Err(Refusal::LogLength));
    assert_eq!(replayed(&[&[1], &[2; 42][..], &[1]].concat(), &[&[353], &run[..126], &[353]].concat()), Ok(Whole));
    for place in 0..128 {
        let mut log = run[..128].to_vec();
        log[place] ^= 256;
        assert_eq!(replayed(&[2; 43], &log), Ok(Leaves { place }));
        assert_eq!(replayed(&[2; 1300], &log), Ok(Leaves { place }));
    }
}

#[test]
fn refusals() {
    let (t, mut space) = (table(), Workspace::new());
    let pairs: Vec<(u16, u16)> = (0..33).map(|i| (1000 + i, 97)).collect();
    let mut refused = |list: &[(u16, u16)], plan: &[u8], moves: usize| {
        t.replay_alike(&mut space, &Alike::new(list), plan, &vec![97; moves]).err().map(Refusal::number)
    };
    assert_eq!(refused(&pairs[..32], &[0; 4096], 128), None);
    for moves in [129, 130, 255, 256, 257, 32768, 65536] {
        assert_eq!(refused(&pairs[..32], &[0; 4096], moves), Some(11));
        assert_eq!(refused(&pairs[..32], &[0; 4097], moves), Some(9));
        assert_eq!(refused(&pairs[..32], &[5; 4097], moves), Some(8));
        assert_eq!(refused(&[(1, 2), (2, 3)], &[5], moves), Some(13));
        assert_eq!(refused(&pairs, &[5], moves), Some(12));
    }
    assert_eq!(t.replay(&mut space, &[0], &[97; 129]), Err(Refusal::LogLength));
    assert_eq!(t.replay(&mut space, &[5], &[97; 129]), Err(Refusal::NoSuchJob));
    let words = "refused 11: the log has more than 128 moves, or half a move at its end";
    assert_eq!(Refusal::LogLength.to_string(), words);
}

#[test]
fn replays_as_values() {
    let all = [Whole, Part, Leaves { place: 0 }, Leaves { place: 127 }];
    assert_eq!(all, all.clone());
    assert_eq!(HashSet::from([all, all]).iter().flatten().collect::<HashSet<_>>().len(), 4);
    assert_eq!(format!("{:?}", all[3]), "Leaves { place: 127 }");
}

#[test]
fn one_workspace_for_all_calls() {
    let (t, mut space) = (table(), Workspace::new());
    for _ in 0..3 {
        assert_eq!(t.replay(&mut space, &[4, 2], &[97, 97, 98, 97, 353]), Ok(Whole));
        assert_eq!(t.same(&mut space, &[3], &[3]), Ok(true));
        assert_eq!(t.replay(&mut space, &[4, 2], &[97, 97, 98, 97, 97]), Ok(Leaves { place: 4 }));
        assert_eq!(t.prime_form(&mut space, &[2]), Ok(vec![2]));
        assert_eq!(t.replay(&mut space, &[2], &[98; 129]), Err(Refusal::LogLength));
    }
}

#[test]
fn threads_with_workspaces_of_their_own() {
    let (t, list) = (table(), cranes());
    std::thread::scope(|scope| {
        for thread in 1..=8 {
            let (t, list) = (&t, &list);
            scope.spawn(move || {
                let mut space = Workspace::new();
                for moves in 1..=100 {
                    let log = [vec![353; moves], vec![98; thread]].concat();
                    let replay = if thread == 1 { Part } else { Leaves { place: moves + 1 } };
                    assert_eq!(t.replay_alike(&mut space, list, &[4, 2, 0], &log), Ok(replay));
                }
            });
        }
    });
}
