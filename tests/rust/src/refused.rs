//! Inputs by the refusal that they meet, 0 for none; and inputs that perhaps meet one.
use crate::alike::{bytes_of, Pair, PAIRS_MAX};
use crate::rng::Rng;
use crate::shapes::Made;
use crate::space::{some_length, SPACE};
use crate::table::{rule, seal, Plan, Table};

/// For each refusal of an image one that is refused by it, and one that is accepted: of two jobs, and job 0 makes move 97.
pub fn images_by_refusal() -> Vec<(i32, Vec<u8>)> {
    let good = Table::new(2, &[(0, 97, &[]), (1, 98, &[0])]).image();
    let sealed = |at: usize, byte: u8| {
        let mut image = good.clone();
        image[at] = byte;
        seal(&mut image);
        image
    };
    let mut checksum = good.clone();
    checksum[510] ^= 1;
    let mut doubling = Table::new(10, &[(0, 97, &[])]);
    doubling.rules.extend((1..10).map(|k| rule(k, 97, &[k - 1, k - 1])));
    vec![
        (0, good.clone()),
        (2, good[1..].to_vec()),
        (3, checksum),
        (4, sealed(0, 25)),
        (5, sealed(2, 2)),
        (6, sealed(2, 1)),
        (7, doubling.image()),
    ]
}

/// Images by their refusal, of lengths of which the low bits, or all but the lowest, are those of an accepted one: of one job, which makes move 97.
pub fn images_by_length() -> Vec<(i32, Vec<u8>)> {
    let longer = [Table::new(1, &[(0, 97, &[])]).image(), vec![0; 131_072]].concat();
    let refusal = |len| match len {
        512 => 0,
        1024 => 4,
        _ => 2,
    };
    [0, 1, 256, 511, 512, 513, 768, 1024, 2560, 65536, 65536 + 512, 65536 + 2048, 131_072 + 512]
        .map(|len| (refusal(len), longer[..len].to_vec()))
        .to_vec()
}

/// A pair for each place of a list: its to-move is 97, and no two from-moves are equal.
pub fn pair_at(i: usize) -> Pair {
    (1000 + i as u16, 97)
}

/// Lists by their refusal; those that both are too long and clash are refused by 12.
pub fn lists_by_refusal() -> Vec<(i32, Vec<u8>)> {
    let good: Vec<Pair> = (0..PAIRS_MAX).map(pair_at).collect();
    let clash = [&good[1..], &[(97, 97)]].concat();
    let long = bytes_of(&[&good[..], &[pair_at(PAIRS_MAX)]].concat());
    let both = bytes_of(&[&clash[..], &[(97, 97)]].concat());
    let unfinished = bytes_of(&clash)[..127].to_vec();
    let early = [bytes_of(&[(1, 1)]), vec![0]].concat();
    vec![(0, bytes_of(&good)), (13, bytes_of(&clash)), (12, long), (12, both), (12, unfinished), (12, early)]
}

/// Plans over the accepted image by their refusal; one that both names no job and has too high a norm is refused by 8.
pub fn plans_by_refusal() -> Vec<(i32, Plan)> {
    let both = [vec![0; 4097], vec![2]].concat();
    vec![(0, vec![0]), (8, vec![2]), (9, vec![0; 4097]), (8, both)]
}

/// A plan, at times with a norm that is too high or with a job that is perhaps none.
pub fn any_plan(rng: &mut Rng, made: &Made) -> Plan {
    let mut plan = made.plan(rng, 4096);
    if rng.once_in(4) {
        plan = made.plan_of_norm(rng, 4096);
        plan.push(rng.below(made.table.jobs) as u8);
    }
    if rng.once_in(4) {
        plan.insert(rng.below(plan.len() + 1), rng.byte());
    }
    plan
}

/// A length of a workspace, at times one that is too short.
pub fn any_length(rng: &mut Rng) -> usize {
    if rng.once_in(6) {
        rng.below(SPACE)
    } else {
        some_length(rng)
    }
}
