//! Tables to ask for a choice of outcome, without an alike list and under one of 32 pairs.
use crate::calls::Program;
use crate::inputs::{names_with, single_table, Input, SINGLE_TABLES};
use crate::logs::{a_move_each, image_len};
use outside::table::{rule, Table};

/// The test without a list by the library and by the plain program, and under a list by both (+), on the areas of log-calls.
pub const OUTCOME: [Program; 4] = [
    ("library", |areas, _, _| without_list(gindrazoma::raw::deterministic, areas)),
    ("plain", |areas, _, _| without_list(plain::deterministic, areas)),
    ("library+", |areas, _, _| under_list(gindrazoma::raw::deterministic, areas)),
    ("plain+", |areas, _, _| under_list(plain::deterministic, areas)),
];

type Test = fn(&[u8], &[u8]) -> i32;

#[inline]
fn without_list(test: Test, areas: &[u8]) -> i32 {
    test(&areas[..image_len(areas)], &[])
}

#[inline]
fn under_list(test: Test, areas: &[u8]) -> i32 {
    let (raw, alike) = areas[image_len(areas)..].split_at(image_len(areas));
    test(raw, alike)
}

/// Tables without a choice, besides those that are timed alone.
pub const OUTCOME_TABLES: [(&str, fn() -> Table); 4] = [
    ("252 rules, a move each", || a_move_each(252)),
    ("252 moves, low byte 0", || low_byte_0(1)),
    ("126 such moves, each twice", || low_byte_0(2)),
    ("one rule 252 times", || Table { jobs: 1, rules: vec![rule(0, 97, &[]); 252] }),
];

pub fn names() -> Vec<&'static str> {
    names_with(OUTCOME_TABLES.iter().map(|(name, _)| *name))
}

/// A table by its place among the names, with two empty plans, which the calls do not look at.
pub fn outcome_input(index: usize) -> Input {
    let table = match index.checked_sub(SINGLE_TABLES.len()) {
        None => single_table(1, index, 1).table,
        Some(further) => OUTCOME_TABLES[further].1(),
    };
    Input { name: names()[index].to_string(), image: table.image(), table, pairs: vec![Default::default()] }
}

/// One job with 252 rules whose moves differ in the high byte alone, each so many times: the first eight digits of a move tell nothing.
fn low_byte_0(times: u16) -> Table {
    Table { jobs: 1, rules: (0..252).map(|i| rule(0, 256 * (i / times), &[])).collect() }
}
