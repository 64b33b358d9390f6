//! Cases without random numbers.
use crate::calls::Calls;
use gindrazoma::raw::compare_tables;
use outside::alike::{bytes_of, Pair, PAIRS_MAX};
use outside::ensure_eq;
use outside::harness::Outcome;
use outside::refused::{images_by_length, images_by_refusal, lists_by_refusal, pair_at, plans_by_refusal};
use outside::rng::Rng;
use outside::space::SPACE;
use outside::table::{rule, Plan, Table};

/// A plan over the left table, one over the right table, and whether they are the same.
type Compared<'a> = (&'a [u8], &'a [u8], bool);

/// Two tables, a list, and plans to compare.
type Tried<'a> = (&'a Table, &'a Table, &'a [Pair], &'a [Compared<'a>]);

pub fn tables_to_try() -> Outcome {
    let mut rng = Rng::new(1);
    let t = Table::new(4, &[(0, 97, &[]), (1, 97, &[0]), (2, 97, &[1]), (3, 98, &[0])]);
    // the same work in other jobs: job 1 is a, job 0 is b a
    let other = Table::new(2, &[(0, 98, &[1]), (1, 97, &[])]);
    let one = Table::new(1, &[(0, 97, &[])]);
    let capital = Table::new(1, &[(0, 65, &[])]);
    // a choice that the first move makes, and one that it leaves
    let early = Table::new(3, &[(0, 97, &[1]), (0, 97, &[2]), (1, 98, &[]), (2, 99, &[])]);
    let late = Table::new(2, &[(0, 97, &[1]), (1, 98, &[]), (1, 99, &[])]);
    // a job that comes round to itself, and the same with the numbers exchanged
    let around = Table::new(2, &[(0, 97, &[]), (0, 98, &[0, 1]), (1, 97, &[])]);
    let round = Table::new(2, &[(1, 97, &[]), (1, 98, &[1, 0]), (0, 97, &[])]);
    let tried: [Tried; 9] = [
        (
            &t,
            &other,
            &[],
            &[(&[2, 3], &[1, 1, 1, 0], true), (&[3, 0], &[0, 1], true), (&[0, 3], &[0, 1], false), (&[], &[], true)],
        ),
        (
            &t,
            &other,
            &[],
            &[(&[0], &[0], false), (&[1], &[1], false), (&[0], &[1], true), (&[3], &[0], true), (&[], &[1], false)],
        ),
        (&t, &t, &[], &[(&[2, 3], &[0, 1, 3], true), (&[3, 0], &[0, 3], false), (&[0], &[0], true), (&[1], &[], false)]),
        (&one, &capital, &[], &[(&[0], &[0], false), (&[], &[], true)]),
        (&one, &capital, &[(65, 97)], &[(&[0], &[0], true), (&[0, 0], &[0], false)]),
        (&one, &capital, &[(97, 65)], &[(&[0], &[0], true)]),
        (&one, &capital, &[(97, 7), (65, 7)], &[(&[0], &[0], true)]),
        (&early, &late, &[], &[(&[0], &[0], false), (&[1], &[1], false), (&[0], &[0, 1], false)]),
        (&around, &round, &[], &[(&[0], &[1], true), (&[1], &[0], true), (&[0], &[0], false), (&[0, 1, 1], &[1, 0, 0], true)]),
    ];
    for (left, right, pairs, compared) in tried {
        for &(p, q, same) in compared {
            Calls::new([left, right], pairs, [p, q]).expect_both_ways(&mut rng, same.into())?;
        }
    }
    Ok(())
}

/// Each job makes one move and becomes the one before it, by rising numbers; or the one behind it.
fn chain(jobs: u8, rising: bool) -> Table {
    let last = jobs - 1;
    let step = |n: u8| if rising { rule(n, 97, &[n - 1]) } else { rule(last - n, 97, &[last - n + 1]) };
    let end = rule(if rising { 0 } else { last }, 97, &[]);
    Table { jobs: jobs.into(), rules: (1..jobs).map(step).chain([end]).collect() }
}

/// Chains of all numbers of jobs: those of equal norms are the same, 24 jobs fit together and 25 do not, and each plan has the jobs of its own table.
pub fn every_two_numbers_of_jobs() -> Outcome {
    let mut rng = Rng::new(1);
    for (m, n) in (1..=24).flat_map(|m| (1..=24).map(move |n| (m, n))) {
        let (left, right) = (chain(m, true), chain(n, false)); // norms m for job m - 1, n for job 0
        let least = m.min(n);
        let plans = [([m - 1], [0], m == n), ([least - 1], [n - least], true), ([m], [0], false), ([0], [n], false)];
        for (p, q, same) in plans {
            let wanted = match m + n {
                25.. => -15,
                _ if p[0] == m || q[0] == n => -8,
                _ => i32::from(same),
            };
            let answer = Calls::new([&left, &right], &[], [&p, &q]).answer(&mut rng, SPACE)?;
            ensure_eq!(answer, wanted, "{p:?} of {m} jobs and {q:?} of {n}");
        }
    }
    Ok(())
}

/// One job with a rule again and again and another rule at the end or at the beginning: 252 rules fit together and 253 do not, though they are two.
pub fn every_two_numbers_of_rules() -> Outcome {
    let mut rng = Rng::new(1);
    let ended = |rules: usize, ends: [u16; 2]| {
        let again = vec![rule(0, ends[0], &[]); rules - 1];
        Table { jobs: 1, rules: again.into_iter().chain([rule(0, ends[1], &[])]).collect() }
    };
    for left in 1..=252 {
        for right in [252 - left, 253 - left, 1, 252].into_iter().filter(|&right| right > 0) {
            let same = (left > 1) == (right > 1);
            let wanted = if left + right > 252 { -15 } else { i32::from(same) };
            let mut last_first = ended(right, [97, 98]);
            last_first.rules.reverse();
            let calls = Calls::new([&ended(left, [97, 98]), &last_first], &[], [&[0], &[0]]);
            ensure_eq!(calls.answer(&mut rng, SPACE)?, wanted, "{left} and {right} rules");
        }
    }
    Ok(())
}

/// 126 and 126 rules of 12 and 12 jobs, each with a move of its own, and one thing changed at each place of either table.
pub fn every_place_of_two_tables() -> Outcome {
    let mut rng = Rng::new(1);
    let row = |i: u16| [i + 1, i + 5, 2 * i, 7 * i].map(|job| (job % 12) as u8);
    let rules = (0..126u16).map(|i| rule((i % 12) as u8, 257 * i, &row(i)[..usize::from(i / 12 % 5)]));
    let table = Table { jobs: 12, rules: rules.collect() };
    let jobs: Plan = (0..12).collect();
    Calls::new([&table, &table], &[], [&jobs, &jobs]).expect(&mut rng, 1)?;
    for place in 0..126 {
        let (mut other, job) = (table.clone(), table.rules[place].job);
        match other.rules[place].after.last_mut() {
            Some(last) if place % 2 == 0 => *last = (*last + 1) % 12,
            _ => other.rules[place].action ^= if place % 4 == 1 { 1 } else { 256 },
        }
        Calls::new([&table, &other], &[], [&[job], &[job]]).expect_both_ways(&mut rng, 0)?;
    }
    Ok(())
}

/// One area as both images, as both plans, as image and plan, and all that is read side by side.
pub fn areas_that_coincide() -> Outcome {
    let mut space = vec![0; SPACE];
    let mut compared = |left_image: &[u8], right_image: &[u8], alike: &[u8], left: &[u8], right: &[u8]| {
        compare_tables(left_image, right_image, alike, left, right, &mut space)
    };
    let image = Table::new(3, &[(0, 1, &[]), (1, 0, &[]), (2, 1, &[])]).image(); // bytes 3 to 6: from-move 1, to-move 0
    ensure_eq!(compared(&image, &image, &[], &[0], &[2]), 1, "one image");
    ensure_eq!(compared(&image, &image, &[], &[0], &[1]), 0, "one image");
    ensure_eq!(compared(&image, &image, &image[3..7], &[0], &[1]), 1, "a list within the images");
    ensure_eq!(compared(&image, &image, &[], &image[2..3], &image[10..11]), 0, "plans within the images"); // 0 and 1
    ensure_eq!(compared(&image, &image, &[], &image[10..11], &image[3..4]), 1, "plans within the images"); // 1 and 1
    let both = bytes_of(&[(1, 0)]); // as a plan: jobs 1, 0, 0, 0
    ensure_eq!(compared(&image, &image, &both, &both, &[1; 4]), 1, "a list that is a plan");
    ensure_eq!(compared(&image, &image, &both, &both, &both), 1, "a list that is both plans");
    ensure_eq!(compared(&image, &image, &[], &both, &both[1..]), 0, "a plan within the other");
    let bytes = [&image[..], &Table::new(1, &[(0, 0, &[])]).image(), &both].concat();
    let (left, right, alike) = (&bytes[..512], &bytes[512..1024], &bytes[1024..]);
    ensure_eq!(compared(left, right, &[], &alike[..1], &alike[1..2]), 1, "all side by side");
    ensure_eq!(compared(left, right, &[], &alike[1..2], &alike[1..2]), 0, "all side by side");
    ensure_eq!(compared(left, right, alike, &alike[1..2], &alike[1..2]), 1, "all side by side, under a list");
    ensure_eq!(compared(&bytes[..1024], right, &[], &[0], &[0]), -4, "an image within the other");
    Ok(())
}

/// Norms up to 4,096 and above on either side, with a job that tells at each end and in the middle.
pub fn long_plans() -> Outcome {
    let mut rng = Rng::new(1);
    let left = Table::new(3, &[(0, 97, &[]), (1, 98, &[]), (2, 97, &[0])]);
    let right = Table::new(2, &[(1, 97, &[]), (0, 98, &[])]);
    let mut compare = |p: &[u8], q: &[u8]| Calls::new([&left, &right], &[], [p, q]).answer(&mut rng, SPACE);
    for len in [1, 255, 256, 257, 4095, 4096, 4097, 65536, 65537] {
        let [p, q] = [0, 1].map(|job| vec![job; len]);
        let high = len > 4096;
        ensure_eq!(compare(&p, &q)?, if high { -9 } else { 1 }, "{len} jobs");
        ensure_eq!(compare(&p, &[])?, if high { -9 } else { 0 }, "{len} jobs and none");
        ensure_eq!(compare(&[], &q)?, if high { -9 } else { 0 }, "no job and {len}");
        ensure_eq!(compare(&[p.clone(), vec![2]].concat(), &q)?, if len > 4094 { -9 } else { 0 }, "{len} jobs and one of norm 2");
        for place in [0, len / 2, len - 1] {
            let (mut p, mut q) = (p.clone(), q.clone());
            q[place] = 0;
            ensure_eq!(compare(&p, &q)?, if high { -9 } else { 0 }, "another job at {place} of {len} on the right");
            p[place] = 1;
            ensure_eq!(compare(&p, &q)?, if high { -9 } else { 1 }, "another job at {place} of {len} on both sides");
            q[place] = 2;
            ensure_eq!(compare(&p, &q)?, -8, "no job at {place} of {len} on the right");
            p[place] = 3;
            ensure_eq!(compare(&p, &[1])?, -8, "no job at {place} of {len} on the left");
        }
    }
    Ok(())
}

/// Jobs of norms 511 to 514 on either side, of which the first two are accepted, and eight of norm 512 in a plan.
pub fn norms_of_jobs() -> Outcome {
    let mut rng = Rng::new(1);
    let one = Table::new(1, &[(0, 97, &[])]);
    let mut table = Table::new(9, &[(0, 97, &[])]);
    table.rules.extend((1..9).map(|job| rule(job, 97, &[job - 1, job - 1])));
    for last in 8..12u8 {
        let norm = 511 + usize::from(last) - 8;
        for (times, plan) in [(1, vec![last]), (8, vec![last; 8])] {
            let wanted = if last < 10 { 1 } else { -7 };
            Calls::new([&table, &one], &[], [&plan, &vec![0; norm * times]]).expect_both_ways(&mut rng, wanted)?;
        }
        table.jobs += 1;
        table.rules.push(rule(last + 1, 97, &[last]));
    }
    Ok(())
}

/// Workspaces of all lengths near the one that is needed, and what they may hold.
pub fn workspaces() -> Outcome {
    let mut rng = Rng::new(1);
    let (left, right) = (chain(5, true), chain(7, false));
    for (p, q, same) in [([4], [2], 1), ([4], [3], 0)] {
        let calls = Calls::new([&left, &right], &[], [&p, &q]);
        for len in [0, 1, 512, 65535, 65536, 65537, 70000, 131_072] {
            ensure_eq!(calls.answer(&mut rng, len)?, if len < SPACE { -1 } else { same }, "{p:?} and {q:?} in {len} bytes");
        }
        for byte in [0, 1, 7, 127, 255] {
            let mut space = vec![byte; SPACE];
            let answer = compare_tables(&calls.images[0], &calls.images[1], &[], &p, &q, &mut space);
            ensure_eq!((answer, space == [0; SPACE]), (same, true), "{p:?} and {q:?} in a workspace full of {byte}");
        }
    }
    Ok(())
}

pub fn lengths_of_images() -> Outcome {
    let one = Table::new(1, &[(0, 97, &[])]).image();
    for (refusal, image) in images_by_length() {
        let calls = Calls { images: [image, one.clone()], alike: Vec::new(), plans: [vec![0], vec![0]] };
        calls.expect_both_ways(&mut Rng::new(1), if refusal == 0 { 1 } else { -refusal })?;
    }
    Ok(())
}

/// A list of 32 pairs with one to-move, and jobs of one move each: those that make a from-move or the to-move are the same on either side, and one
/// that makes another move is the same as itself only.
pub fn every_pair_of_a_list() -> Outcome {
    let mut rng = Rng::new(1);
    let list: Vec<Pair> = (0..PAIRS_MAX).map(pair_at).collect();
    let moves: Vec<u16> = (0..=PAIRS_MAX).map(|place| pair_at(place).0).chain([97]).collect();
    for (i, k) in (0..moves.len()).flat_map(|i| (0..moves.len()).map(move |k| (i, k))).step_by(3) {
        let [left, right] = [i, k].map(|place| Table::new(1, &[(0, moves[place], &[])]));
        let same = i == k || i != PAIRS_MAX && k != PAIRS_MAX;
        ensure_eq!(
            Calls::new([&left, &right], &list, [&[0], &[0]]).answer(&mut rng, SPACE)?,
            i32::from(same),
            "the moves of pairs {i} and {k}"
        );
    }
    Ok(())
}

/// Every way to choose one of so many things in each of six places, not the first one in three places at most.
fn choices(counts: [usize; 6]) -> impl Iterator<Item = [usize; 6]> {
    let digits = move |mut number: usize| {
        counts.map(|count| {
            let digit = number % count;
            number /= count;
            digit
        })
    };
    (0..counts.iter().product()).map(digits).filter(|choice| choice.iter().filter(|&&place| place > 0).count() <= 3)
}

/// Every way in which up to three areas fail at once, and tables that do not fit together: the answer is the first by the order that is written here.
pub fn order_of_refusals() -> Outcome {
    let mut rng = Rng::new(1);
    let (lists, plans, mut images) = (lists_by_refusal(), plans_by_refusal(), images_by_refusal());
    // too large beside any table, that of an image that is refused with them
    let large = images.len();
    images.push((0, Table { jobs: 24, rules: (0..252).map(|i| rule((i % 24) as u8, 97, &[])).collect() }.image()));
    for [space, left, right, list, p, q] in choices([2, images.len(), images.len(), lists.len(), plans.len(), plans.len()]) {
        let calls = Calls {
            images: [images[left].1.clone(), images[right].1.clone()],
            alike: lists[list].1.clone(),
            plans: [plans[p].1.clone(), plans[q].1.clone()],
        };
        let together = if left == large || right == large { 15 } else { 0 };
        let [no_job, high] = [8, 9].map(|refusal| if [p, q].iter().any(|&plan| plans[plan].0 == refusal) { refusal } else { 0 });
        let order = [space as i32, images[left].0, images[right].0, together, lists[list].0, no_job, high];
        let wanted = order.iter().find(|&&refusal| refusal != 0).map_or(1, |refusal| -refusal);
        ensure_eq!(calls.answer(&mut rng, SPACE - space)?, wanted, "where {order:?} are due");
    }
    Ok(())
}
