//! Images: refusals 2 to 5, loading, and the filling of a block.
use crate::table::{Table, JOBS, RULE, RULES};
use crate::Answer;

const BLOCK: usize = 512;

fn two_bytes(block: &[u8], at: usize) -> usize {
    block[at] as usize + 256 * block[at + 1] as usize
}

fn checksum(block: &[u8]) -> usize {
    block[..510].iter().map(|&b| b as usize).sum::<usize>() % 65521
}

fn head_is_good(block: &[u8], jobs: u8, k: usize, blocks: usize) -> bool {
    let rules = block[1] as usize;
    let full = if k + 1 == blocks { (1..=63).contains(&rules) } else { rules == 63 };
    block[0] == jobs
        && (1..=JOBS).contains(&(jobs as usize))
        && full
        && two_bytes(block, 506) == k
        && two_bytes(block, 508) == blocks
}

fn place_is_good(place: &[u8], jobs: u8) -> bool {
    let after = place[2] as usize;
    place[0] < jobs && after <= 4 && place[3..3 + after].iter().all(|&j| j < jobs) && place[3 + after..7].iter().all(|&b| b == 0)
}

fn places_are_good(block: &[u8], jobs: u8) -> bool {
    let end = 2 + RULE * block[1] as usize;
    block[2..end].chunks_exact(RULE).all(|p| place_is_good(p, jobs)) && block[end..506].iter().all(|&b| b == 0)
}

/// The table of an image that refusals 2 to 5 let pass.
pub fn load(image: &[u8]) -> Answer<Table> {
    let blocks = image.len() / BLOCK;
    if !image.len().is_multiple_of(BLOCK) || !(1..=4).contains(&blocks) {
        return Err(2);
    }
    let each = || image.chunks_exact(BLOCK);
    if each().any(|b| two_bytes(b, 510) != checksum(b)) {
        return Err(3);
    }
    let jobs = image[0];
    if each().enumerate().any(|(k, b)| !head_is_good(b, jobs, k, blocks)) {
        return Err(4);
    }
    if each().any(|b| !places_are_good(b, jobs)) {
        return Err(5);
    }
    let mut table = Table::new(jobs as usize, &[]);
    for block in each() {
        table.push(&block[2..2 + RULE * block[1] as usize]);
    }
    Ok(table)
}

/// Refusals 2, 4 and 5 of a rule list.
pub fn layout_of_list(jobs: u32, rules: &[u8]) -> Answer<()> {
    if rules.is_empty() || !rules.len().is_multiple_of(RULE) || rules.len() > RULE * RULES {
        return Err(2);
    }
    if !(1..=JOBS as u32).contains(&jobs) {
        return Err(4);
    }
    if !rules.chunks_exact(RULE).all(|p| place_is_good(p, jobs as u8)) {
        return Err(5);
    }
    Ok(())
}

pub fn fill_block(block: &mut [u8], jobs: u8, k: usize, blocks: usize, rules: &[u8]) {
    let rest = &rules[63 * RULE * k..];
    let part = &rest[..rest.len().min(63 * RULE)];
    block.fill(0);
    block[0] = jobs;
    block[1] = (part.len() / RULE) as u8;
    block[2..2 + part.len()].copy_from_slice(part);
    block[506] = k as u8;
    block[508] = blocks as u8;
    let sum = checksum(block);
    block[510] = (sum % 256) as u8;
    block[511] = (sum / 256) as u8;
}
