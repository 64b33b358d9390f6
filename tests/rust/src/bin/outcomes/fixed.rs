//! Cases without random numbers.
use crate::calls::Calls;
use gindrazoma::raw::{compare, deterministic};
use outside::alike::{bytes_of, Pair};
use outside::complete_runs::complete_runs;
use outside::harness::Outcome;
use outside::refused::{images_by_refusal, lists_by_refusal, pair_at};
use outside::shapes::Made;
use outside::space::SPACE;
use outside::table::{rule, Rule, Table};
use outside::{ensure, ensure_eq};

/// Rules besides those of jobs 0, 1 and 2, and whether there is no choice under each of some lists.
type Tried<'a> = (&'a [(u8, u16, &'a [u8])], &'a [(&'a [Pair], bool)]);

const NO_LIST: &[Pair] = &[];

pub fn tables_to_try() -> Outcome {
    let tried: [Tried; 8] = [
        (&[(2, 7, &[0]), (2, 8, &[1])], &[(NO_LIST, true), (&[(7, 8)], false), (&[(8, 7)], false), (&[(7, 9)], true)]),
        (&[(2, 7, &[0]), (2, 8, &[1])], &[(&[(7, 9), (8, 9)], false), (&[(7, 9), (8, 10)], true), (&[(9, 7), (10, 8)], true)]),
        (&[(2, 7, &[0]), (2, 8, &[0])], &[(NO_LIST, true), (&[(7, 8)], true), (&[(7, 9), (8, 9)], true)]),
        (&[(2, 7, &[0]), (2, 7, &[0, 0])], &[(NO_LIST, false), (&[(7, 9)], false), (&[(9, 7)], false)]),
        (&[(2, 7, &[0, 1]), (2, 7, &[1, 0])], &[(NO_LIST, false), (&[(97, 98)], false)]),
        (&[(1, 7, &[0]), (2, 7, &[1])], &[(NO_LIST, true), (&[(7, 97)], true), (&[(7, 98)], false), (&[(7, 99)], false)]),
        (&[(2, 7, &[]), (2, 7, &[0])], &[(NO_LIST, false)]),
        (&[(2, 7, &[1]), (2, 7, &[1]), (2, 263, &[0])], &[(NO_LIST, true), (&[(263, 7)], false), (&[(7, 263)], false)]),
    ];
    for (rules, lists) in tried {
        let table = Table::new(3, &[&[(0, 97, &[][..]), (1, 98, &[]), (2, 99, &[])], rules].concat());
        for &(pairs, without) in lists {
            Calls::new(&table, pairs).expect(without)?;
        }
    }
    Ok(())
}

/// Document 01's planners' mistake: S1 and S2 have the same complete runs and are apart. Each of them alone is told from the other by
/// the answer; and rows that are bisimilar are a choice, too.
pub fn s1_and_s2() -> Outcome {
    let s1 = [(0, 97, &[1][..]), (1, 98, &[]), (1, 99, &[])];
    let s2 = [(2, 97, &[3][..]), (2, 97, &[4]), (3, 98, &[]), (4, 99, &[])];
    let table = Table::new(5, &[&s1[..], &s2].concat());
    let calls = Calls::new(&table, &[]);
    calls.expect(false)?;
    ensure_eq!(compare(&calls.image, &[0], &[2], &mut [0; SPACE]), 0, "S1 and S2");
    let made = Made::of_table(table).expect("an accepted table");
    let runs = [[0], [2]].map(|plan| complete_runs(&made, &plan, 2, 10));
    ensure!(runs[0].as_ref().is_some_and(|runs| runs.len() == 2), "the complete runs of S1: {:?}", runs[0]);
    ensure_eq!(runs[0], runs[1], "the complete runs of S1 and S2");
    Calls::new(&Table::new(2, &s1), &[]).expect(true)?;
    Calls::new(&Table::new(5, &[&s1[..], &s2[1..], &[(3, 98, &[])]].concat()), &[]).expect(true)?;
    let alike = Table::new(4, &[(0, 97, &[1]), (0, 97, &[2]), (1, 98, &[]), (2, 98, &[]), (3, 97, &[1])]);
    ensure_eq!(compare(&alike.image(), &[0], &[3], &mut [0; SPACE]), 1, "rows that are bisimilar");
    Calls::new(&alike, &[]).expect(false)
}

/// The list within the image, and both side by side.
pub fn areas_that_coincide() -> Outcome {
    let table = Table::new(2, &[(0, 1, &[]), (1, 1, &[0]), (1, 0, &[])]);
    let image = table.image(); // bytes 3 to 6: from-move 1, to-move 0
    ensure_eq!(deterministic(&image, &image[3..7]), 0, "a list within the image");
    ensure_eq!(deterministic(&image, &image[3..3]), 1, "a list of length 0 within the image");
    ensure_eq!(deterministic(&image, &image), -12, "the image as its list");
    let bytes = [bytes_of(&[(1, 0)]), image, bytes_of(&[(0, 1)])].concat();
    for list in [&bytes[..4], &bytes[516..]] {
        ensure_eq!(deterministic(&bytes[4..516], list), 0, "a list next to the image");
    }
    Ok(())
}

/// Two rules of one job, of each two of these moves, and every list of one pair of them: a choice if the two count as one.
pub fn moves_of_two_bytes() -> Outcome {
    let moves = [0, 97, 255, 256, 353, 24832, 65280, 65535];
    let both = || moves.iter().flat_map(|&a| moves.iter().map(move |&b| (a, b)));
    for (a, b) in both() {
        let table = Table::new(1, &[(0, a, &[]), (0, b, &[0])]);
        Calls::new(&table, &[]).expect(a != b)?;
        for (from, to) in both().filter(|(from, to)| from != to) {
            let counted = |action| if action == from { to } else { action };
            Calls::new(&table, &[(from, to)]).expect(counted(a) != counted(b))?;
        }
    }
    Ok(())
}

/// 252 rules with moves of their own, and the move of one for that of another at places all over the image: written so, and by a list.
pub fn every_place_of_a_full_image() -> Outcome {
    let rules: Vec<Rule> = (0..252).map(|i| rule((i % 2) as u8, 259 * i, &vec![0; usize::from(i % 3)])).collect();
    let table = Table { jobs: 2, rules };
    Calls::new(&table, &[]).expect(true)?;
    for (i, k) in (0..252).flat_map(|k| (0..k).map(move |i| (i, k))).step_by(53) {
        let without = i % 2 != k % 2 || i % 3 == k % 3;
        let mut other = table.clone();
        other.rules[k].action = table.rules[i].action;
        Calls::new(&other, &[]).expect(without)?;
        let [first, second] = [i, k].map(|place| table.rules[place].action);
        for pairs in [&[(first, second)][..], &[(second, first)], &[(first, 65500), (second, 65500)]] {
            Calls::new(&table, pairs).expect(without)?;
        }
    }
    Ok(())
}

/// Every length up to 140 bytes and some more. Each pair of an accepted list replaces, and no pair that is not there does.
pub fn lengths_of_lists() -> Outcome {
    let all = bytes_of(&(0..50_000).map(pair_at).collect::<Vec<_>>());
    for len in (0..=140usize).chain([255, 256, 260, 512, 65536, 65540, 131_072, 200_000]) {
        let whole = len / 4;
        for place in [0, whole / 2, whole.saturating_sub(1), whole] {
            let table = Table::new(1, &[(0, 97, &[]), (0, pair_at(place).0, &[0])]);
            let calls = Calls { image: table.image(), alike: all[..len].to_vec() };
            let wanted = if len % 4 == 0 && len <= 128 { i32::from(place >= whole) } else { -12 };
            ensure_eq!(calls.answer()?, wanted, "{len} bytes, the move of pair {place}");
        }
    }
    Ok(())
}

/// Every way in which image and list fail at once, and a table with a choice under each list: the answer is the first refusal.
pub fn order_of_refusals() -> Outcome {
    let choice = Table::new(1, &[(0, 97, &[]), (0, 97, &[0])]).image();
    let images = images_by_refusal().into_iter().map(|(image, bytes)| (image, 1, bytes)).chain([(0, 0, choice)]);
    for (image, answer, bytes) in images {
        for (list, alike) in lists_by_refusal() {
            let calls = Calls { image: bytes.clone(), alike };
            let wanted = [image, list].iter().find(|&&refusal| refusal != 0).map_or(answer, |refusal| -refusal);
            ensure_eq!(calls.answer()?, wanted, "where {image} and {list} are due");
        }
    }
    Ok(())
}
