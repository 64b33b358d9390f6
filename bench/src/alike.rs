//! Comparisons under alike lists, beside the same comparisons without a list over the image whose moves are replaced.
use crate::calls::Program;
use crate::inputs::Pair;
use gindrazoma::raw::{compare, compare_alike};
use outside::alike::{bytes_of, moves_of, PAIRS_MAX};
use outside::table::Table;

/// A table that is a given one under a list of 32 pairs, and the list.
pub type Listed = (Table, Vec<(u16, u16)>);

/// A list's name, and how a table is written for it.
pub type List = (&'static str, fn(&Table) -> Listed);

pub const LISTS: [List; 4] = [
    ("32 moves of rules", spread),
    ("one low byte, the last pairs", |table| at_the_end(table, |i| 256 * i + low_byte(table))),
    ("one high byte, the last pairs", |table| at_the_end(table, |i| i)),
    ("one low byte, no move of a rule", |table| (table.clone(), at_the_end(table, |i| 256 * i + low_byte(table)).1)),
];

/// Compare without a list, and under each of the lists.
pub const ALIKE: [Program; 5] = [
    ("none", |areas, (left, right), space| compare(&areas[..image_len(areas)], left, right, space)),
    ("rules", |areas, pair, space| under_list(areas, 0, pair, space)),
    ("low", |areas, pair, space| under_list(areas, 1, pair, space)),
    ("high", |areas, pair, space| under_list(areas, 2, pair, space)),
    ("idle", |areas, pair, space| under_list(areas, 3, pair, space)),
];

const LIST_BYTES: usize = 4 * PAIRS_MAX;

/// What these calls work on, one behind the other: the image whose moves are replaced; for each list the image as it is written
/// for it, and the list.
pub fn areas(table: &Table) -> Vec<u8> {
    let listed = LISTS.iter().map(|(_, list)| list(table));
    listed.fold(table.image(), |areas, (raw, pairs)| [areas, raw.image(), bytes_of(&pairs)].concat())
}

/// All images have one length.
fn image_len(areas: &[u8]) -> usize {
    (areas.len() - LISTS.len() * LIST_BYTES) / (LISTS.len() + 1)
}

#[inline]
fn under_list(areas: &[u8], list: usize, (left, right): &Pair, space: &mut [u8]) -> i32 {
    let len = image_len(areas);
    let (image, behind) = areas[len + list * (len + LIST_BYTES)..].split_at(len);
    compare_alike(image, &behind[..LIST_BYTES], left, right, space)
}

/// As many from-moves as a list can have, each in a rule: a new one for each of the first rules, and the later rules by turns.
fn spread(table: &Table) -> Listed {
    let from = other_moves(table, |i| 1000 + 331 * i);
    let pairs: Vec<_> = from.into_iter().zip(table.rules.iter().map(|r| r.action).cycle()).collect();
    let mut raw = table.clone();
    for (i, r) in raw.rules.iter_mut().enumerate() {
        let ways: Vec<u16> = pairs.iter().filter(|pair| pair.1 == r.action).map(|pair| pair.0).collect();
        r.action = match (pairs.get(i), ways.len()) {
            (Some(pair), _) => pair.0,
            (None, 0) => r.action,
            (None, count) => ways[i % count],
        };
    }
    (raw, pairs)
}

/// Every rule of a table of few moves by one of the last pairs, so that a search from the front passes all others.
fn at_the_end(table: &Table, way: impl Fn(u16) -> u16) -> Listed {
    let (from, moves) = (other_moves(table, way), moves_of(table));
    let first = PAIRS_MAX - moves.len();
    let pairs: Vec<_> = from.iter().enumerate().map(|(i, &from)| (from, moves[i.saturating_sub(first)])).collect();
    let mut raw = table.clone();
    for r in &mut raw.rules {
        r.action = pairs[first..].iter().find(|pair| pair.1 == r.action).map_or(r.action, |pair| pair.0);
    }
    (raw, pairs)
}

/// The first moves by a way to make them that no rule makes, as many as a list has.
fn other_moves(table: &Table, way: impl Fn(u16) -> u16) -> Vec<u16> {
    let moves = moves_of(table);
    (0..255).map(way).filter(|action| !moves.contains(action)).take(PAIRS_MAX).collect()
}

fn low_byte(table: &Table) -> u16 {
    table.rules[0].action % 256
}
