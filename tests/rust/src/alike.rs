//! Tables with alike lists, and what they are under the lists.
use crate::rng::Rng;
use crate::shapes::{any_move, Made};
use crate::table::Table;
use std::collections::BTreeSet;

/// A from-move and its to-move.
pub type Pair = (u16, u16);

pub const PAIRS_MAX: usize = 32;

/// A table, a list, and what the table is once its moves are replaced by the list.
pub struct Listed {
    pub raw: Table,
    pub pairs: Vec<Pair>,
    pub made: Made,
}

/// A list as it is given to a call.
pub fn bytes_of(pairs: &[Pair]) -> Vec<u8> {
    pairs.iter().flat_map(|&(from, to)| [from % 256, from / 256, to % 256, to / 256].map(|byte| byte as u8)).collect()
}

/// The pairs of a list that passed check 12.
pub fn pairs_of(alike: &[u8]) -> Vec<Pair> {
    let number = |bytes: &[u8]| u16::from(bytes[0]) + 256 * u16::from(bytes[1]);
    alike.chunks(4).map(|pair| (number(&pair[..2]), number(&pair[2..]))).collect()
}

pub fn moves_of(table: &Table) -> Vec<u16> {
    table.rules.iter().map(|r| r.action).collect::<BTreeSet<u16>>().into_iter().collect()
}

/// A table with a list, or without one.
pub fn listed(rng: &mut Rng, made: Made) -> Listed {
    if rng.once_in(4) {
        Listed { raw: made.table.clone(), pairs: Vec::new(), made }
    } else {
        Listed::new(rng, made)
    }
}

impl Listed {
    pub fn new(rng: &mut Rng, made: Made) -> Listed {
        if rng.once_in(2) {
            Listed::merged(rng, made)
        } else {
            Listed::split(rng, made)
        }
    }

    /// A list for a table: some of its moves count as others, which are its own or which no rule makes.
    pub fn merged(rng: &mut Rng, made: Made) -> Listed {
        let mut moves = moves_of(&made.table);
        rng.shuffle(&mut moves);
        let count = some_count(rng);
        let least = usize::from(!rng.once_in(8));
        let (from, kept) = moves.split_at(rng.range(least, moves.len().min(count)));
        let mut from = from.to_vec();
        while from.len() < count {
            from.push(other_move(rng, &moves, &[&moves[..], &from].concat()));
        }
        let to: Vec<u16> = (0..rng.range(1, 6))
            .map(|_| if kept.is_empty() || rng.once_in(3) { other_move(rng, &moves, &from) } else { *rng.pick(kept) })
            .collect();
        let mut pairs: Vec<Pair> = from.iter().map(|&from| (from, *rng.pick(&to))).collect();
        rng.shuffle(&mut pairs);
        let replaced = made.replaced(&pairs);
        Listed { raw: made.table, pairs, made: replaced }
    }

    /// A table that is a given one under a list: some of its moves are written as others that count as them.
    pub fn split(rng: &mut Rng, made: Made) -> Listed {
        let moves = moves_of(&made.table);
        let (mut from, mut pairs) = (Vec::new(), Vec::new());
        for _ in 0..some_count(rng) {
            from.push(other_move(rng, &moves, &[&moves[..], &from].concat()));
        }
        for (i, &action) in from.iter().enumerate() {
            let to = if i > 0 && rng.once_in(6) { other_move(rng, &moves, &from) } else { *rng.pick(&moves) };
            pairs.push((action, to));
        }
        rng.shuffle(&mut pairs);
        let mut raw = made.table.clone();
        for r in &mut raw.rules {
            let ways: Vec<&Pair> = pairs.iter().filter(|pair| pair.1 == r.action).collect();
            if !ways.is_empty() && !rng.once_in(3) {
                r.action = rng.pick(&ways).0;
            }
        }
        Listed { raw, pairs, made }
    }
}

/// How many pairs: often as few or as many as can be.
fn some_count(rng: &mut Rng) -> usize {
    match rng.below(3) {
        0 => rng.range(1, 3),
        1 => rng.range(PAIRS_MAX - 1, PAIRS_MAX),
        _ => rng.range(1, PAIRS_MAX),
    }
}

/// A move that is none of some: often one that has a byte of some other move, or both of them exchanged.
pub(crate) fn other_move(rng: &mut Rng, near: &[u16], none_of: &[u16]) -> u16 {
    loop {
        let [low, high] = rng.pick(near).to_le_bytes();
        let action = match rng.below(5) {
            0 => u16::from_le_bytes([high, low]),
            1 | 2 => u16::from_le_bytes([low, rng.byte()]),
            3 => u16::from_le_bytes([rng.byte(), high]),
            _ => any_move(rng, low),
        };
        if !none_of.contains(&action) {
            return action;
        }
    }
}

/// What a list may do to a table, and how its moves may stand to those of the rules.
pub const KINDS: [&str; 13] = [ONE, FULL, MERGED, UNMADE, EQUAL, OFTEN, IDLE, LOW, HIGH, FIRST, LAST, BLOCK, PLACE];

const ONE: &str = "one pair";
const FULL: &str = "32 pairs";
const MERGED: &str = "moves of two rules become one";
const UNMADE: &str = "a move of a rule becomes one that no rule makes";
const EQUAL: &str = "two rules become equal";
const OFTEN: &str = "a to-move that stands often";
const IDLE: &str = "a from-move that no rule makes";
const LOW: &str = "a move of a rule with the low byte of a from-move that it is not";
const HIGH: &str = "a move of a rule with the high byte of a from-move that it is not";
const FIRST: &str = "the first of several pairs replaces";
const LAST: &str = "the last of several pairs replaces";
const BLOCK: &str = "a rule of a later block is replaced";
const PLACE: &str = "the last rule of a full block is replaced";

/// The kinds that are found.
pub fn kinds(listed: &Listed) -> BTreeSet<&'static str> {
    let Listed { raw, pairs, made } = listed;
    let moves = moves_of(raw);
    let is_from = |action: &u16| pairs.iter().any(|pair| pair.0 == *action);
    let stays_near = |mask: u16| {
        let near = |action: &u16| pairs.iter().any(|pair| (pair.0 ^ action) & mask == 0);
        moves.iter().any(|action| !is_from(action) && near(action))
    };
    let replaces = |pair: Option<&Pair>| pairs.len() > 1 && pair.is_some_and(|pair| moves.contains(&pair.0));
    let different_to: BTreeSet<u16> = pairs.iter().map(|pair| pair.1).collect();
    let changed = |i: usize| raw.rules.get(i).is_some_and(|r| is_from(&r.action));
    [
        (ONE, pairs.len() == 1),
        (FULL, pairs.len() == PAIRS_MAX),
        (MERGED, moves_of(&made.table).len() < moves.len()),
        (UNMADE, pairs.iter().any(|(from, to)| moves.contains(from) && !moves.contains(to))),
        (EQUAL, made.table.different_rules() < raw.different_rules()),
        (OFTEN, different_to.len() < pairs.len()),
        (IDLE, pairs.iter().any(|(from, _)| !moves.contains(from))),
        (LOW, stays_near(0x00ff)),
        (HIGH, stays_near(0xff00)),
        (FIRST, replaces(pairs.first())),
        (LAST, replaces(pairs.last())),
        (BLOCK, (63..252).any(changed)),
        (PLACE, changed(62)),
    ]
    .into_iter()
    .filter_map(|(kind, holds)| holds.then_some(kind))
    .collect()
}
