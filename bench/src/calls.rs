//! The calls to time, and a program of calls and nothing else, for a tool that counts instructions.
use crate::inputs::{names_with, single_table, Input, Pair};
use crate::pairs::PLAN_NORM;
use outside::table::put_plan;
use std::io::{stdin, stdout, Read, Write};
use std::process::ExitCode;

/// A call on an image, or on several areas in its place, and a pair of plans.
pub type Call = fn(&[u8], &Pair, &mut [u8]) -> i32;

/// A program's name, and its call.
pub type Program = (&'static str, Call);

/// Compare: the library, and the plain programs.
pub const COMPARE: [Program; 4] = [
    ("library", |image, (left, right), space| gindrazoma::raw::compare(image, left, right, space)),
    ("first", |image, (left, right), space| plain::first::compare(image, left, right, space)),
    ("base", |image, (left, right), space| plain::base::compare(image, left, right, space)),
    ("rows", |image, (left, right), space| plain::rows::compare(image, left, right, space)),
];

/// The norm of the left plan: the library, the plain program.
pub const NORM: [Program; 2] = [
    ("library", |image, (left, _), _| gindrazoma::raw::plan_norm(image, left)),
    ("plain", |image, (left, _), _| plain::plan_norm(image, left)),
];

/// An index past the moves of the left plan, for which all rules are looked at: the library, the plain program.
pub const MOVE: [Program; 2] = [
    ("library", |image, (left, _), out| gindrazoma::raw::nth_move(image, left, u32::MAX, out)),
    ("plain", |image, (left, _), out| plain::nth_move(image, left, u32::MAX, out)),
];

/// The first shortest run of the left plan: the library, the plain program as it is written at first, and with every choice of speed.
pub const RUN: [Program; 3] = [
    ("library", |image, (left, _), out| gindrazoma::raw::shortest_run(image, left, out)),
    ("first", |image, (left, _), out| plain::shortest_run_at_first(image, left, out)),
    ("fast", |image, (left, _), out| plain::shortest_run(image, left, out)),
];

/// What all three answer and write.
pub fn runs(image: &[u8], pair: &Pair) -> [(i32, Vec<u8>); 3] {
    RUN.map(|(_, call)| {
        let mut out = vec![0; 2 * PLAN_NORM + 2];
        (call(image, pair, &mut out), out)
    })
}

/// Inputs of calls: their names, how many pairs each has, how each is made, and what the calls get for its image.
pub struct Inputs {
    pub names: Vec<&'static str>,
    pub pairs: usize,
    pub make: fn(usize) -> Input,
    pub areas: fn(&[u8]) -> Vec<u8>,
}

/// Every kind of pair is among so many.
pub const PAIRS: usize = 12;

impl Inputs {
    /// The tables that are timed alone.
    pub fn single_tables() -> Inputs {
        let names = names_with(std::iter::empty());
        Inputs { names, pairs: PAIRS, make: |i| single_table(1, i, PAIRS), areas: |image| image.to_vec() }
    }
}

/// Without words: a line for each table, and one with the number of pairs and the programs. With a table's number: its image and
/// pairs as planlook reads them. With a program and how often: its call so often on each of the pairs of such an input.
pub fn run(programs: &[Program], inputs: Inputs) -> ExitCode {
    let words: Vec<String> = std::env::args().skip(1).collect();
    let done = match &words[..] {
        [] => list(programs, &inputs),
        [table] => write_input(table, &inputs),
        [name, times] => make_calls(programs, name, times, inputs.areas),
        _ => None,
    };
    if done.is_none() {
        eprintln!("words: none, or a table's number, or a program's name and how often it makes the calls of the input");
    }
    ExitCode::from(if done.is_some() { 0 } else { 2 })
}

fn list(programs: &[Program], inputs: &Inputs) -> Option<()> {
    inputs.names.iter().enumerate().for_each(|(i, name)| println!("{i} {name}"));
    println!("{} {}", inputs.pairs, programs.iter().map(|(name, _)| *name).collect::<Vec<_>>().join(" "));
    Some(())
}

fn write_input(table: &str, inputs: &Inputs) -> Option<()> {
    let input = (inputs.make)(table.parse().ok().filter(|&i| i < inputs.names.len())?);
    let mut bytes = input.image;
    for plan in input.pairs.iter().flat_map(|(left, right)| [left, right]) {
        put_plan(&mut bytes, plan);
    }
    stdout().write_all(&bytes).ok()
}

fn make_calls(programs: &[Program], name: &str, times: &str, areas: fn(&[u8]) -> Vec<u8>) -> Option<()> {
    let (_, call) = programs.iter().find(|program| program.0 == name)?;
    let times: usize = times.parse().ok()?;
    let mut bytes = Vec::new();
    stdin().read_to_end(&mut bytes).ok()?;
    let (image, mut rest) = bytes.split_at_checked(512 * *bytes.get(508)? as usize)?;
    let mut pairs = Vec::new();
    while !rest.is_empty() {
        pairs.push((next_plan(&mut rest)?, next_plan(&mut rest)?));
    }
    let image = areas(image);
    let mut space = vec![0; plain::WORKSPACE];
    let mut sum = 0;
    for _ in 0..times {
        sum += pairs.iter().map(|pair| i64::from(call(&image, pair, &mut space))).sum::<i64>();
    }
    println!("{name}: {times} times {} calls, answers sum to {sum}", pairs.len());
    Some(())
}

fn next_plan(rest: &mut &[u8]) -> Option<Vec<u8>> {
    let (len, behind) = rest.split_first_chunk()?;
    let (plan, behind) = behind.split_at_checked(u16::from_le_bytes(*len) as usize)?;
    *rest = behind;
    Some(plan.to_vec())
}
