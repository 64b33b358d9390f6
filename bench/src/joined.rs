//! Plans over two tables, beside the same comparisons over the image of the joined table.
use crate::calls::Program;
use crate::hostile::half_of_long;
use crate::inputs::{with_pairs, Input, Make, Pair, SINGLE_TABLES};
use crate::logs::image_len;
use outside::joined::cut;
use outside::rng::Rng;
use outside::shapes::Made;
use outside::table::{Plan, Table};
use std::ops::RangeInclusive;

/// The call on two images; compare on the image of the joined table, by the library and by the plain program of its method.
pub const JOINED: [Program; 3] = [
    ("tables", over_two_images),
    ("joined", |areas, pair, space| over_joined(gindrazoma::raw::compare, areas, pair, space)),
    ("rows", |areas, pair, space| over_joined(plain::rows::compare, areas, pair, space)),
];

type Compare = fn(&[u8], &[u8], &[u8], &mut [u8]) -> i32;

/// What these calls work on, one behind the other: the images of the two tables, and that of the joined one.
pub fn areas(joined: &Table) -> Vec<u8> {
    let [left, right] = cut(joined, HALF);
    [left.image(), right.image(), joined.image()].concat()
}

/// On the right of a pair stands the right plan, and behind it the same with its jobs numbered on. The first two images have one length.
#[inline]
fn over_two_images(areas: &[u8], (left, rights): &Pair, space: &mut [u8]) -> i32 {
    let (left_image, behind) = areas.split_at(image_len(areas));
    gindrazoma::raw::compare_tables(left_image, &behind[..left_image.len()], &[], left, &rights[..rights.len() / 2], space)
}

#[inline]
fn over_joined(compare: Compare, areas: &[u8], (left, rights): &Pair, space: &mut [u8]) -> i32 {
    compare(&areas[2 * image_len(areas)..], left, &rights[rights.len() / 2..], space)
}

/// The jobs of each of two tables.
pub const HALF: usize = 12;

/// Half of each of the tables that are timed alone: how many primes it has, and how it is made.
pub const HALVES: [(RangeInclusive<usize>, Make); SINGLE_TABLES.len()] = [
    (3..=6, |rng| Made::of_base(rng, (2, 6), 2, HALF, 20)),
    (3..=6, |rng| Made::of_base(rng, (2, 6), 16, HALF, 126)),
    (2..=2, |rng| Made::of_base(rng, (2, 2), 2, HALF, 20)),
    (2..=2, |rng| Made::of_base(rng, (2, 2), 16, HALF, 126)),
    (9..=11, |rng| Made::of_base(rng, (10, 10), 2, HALF, 20)),
    (9..=11, |rng| Made::of_base(rng, (10, 10), 20, HALF, 126)),
    (2..=2, half_of_long),
];

/// Such a half and a renamed copy of it as a joined table, and so many pairs of a plan over either, of norm 4,096.
pub fn joined_input(seed: u64, index: usize, count: usize) -> Input {
    let ((name, ..), (primes, make)) = (&SINGLE_TABLES[index], &HALVES[index]);
    let rng = &mut Rng::of_iteration(seed, name, 1);
    let (left, pairs) = with_pairs(rng, primes, *make, count);
    let right = left.renamed(rng);
    let table = left.table.joined(&right.table);
    let pairs =
        pairs.into_iter().map(|(p, q)| (p, in_both_numbers(&left.table, &left.rewritten_over(rng, &right, &q)))).collect();
    Input { name: name.to_string(), image: table.image(), table, pairs }
}

/// The same with plans of one job, of the least norm.
pub fn short_plans(input: &Input) -> Input {
    let [left, right] = cut(&input.table, HALF);
    let least = |table: &Table| {
        let norms = table.finite_norms().expect("norms of jobs");
        vec![(0..).zip(norms).min_by_key(|(_, norm)| *norm).expect("a job").0]
    };
    let pairs = vec![(least(&left), in_both_numbers(&left, &least(&right))); input.pairs.len()];
    Input { name: input.name.clone(), table: input.table.clone(), image: input.image.clone(), pairs }
}

/// A right plan, and behind it the same with its jobs numbered on.
fn in_both_numbers(left: &Table, plan: &[u8]) -> Plan {
    [plan, &left.numbered_on(plan)].concat()
}
