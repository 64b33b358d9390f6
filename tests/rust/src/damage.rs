//! Images that are damaged: bytes changed, blocks cut off, added or exchanged, with the checksums set anew or not; and damaged
//! alike lists and logs.
use crate::rng::Rng;
use crate::table::seal;

pub fn damaged(rng: &mut Rng, image: &[u8]) -> Vec<u8> {
    let mut image = image.to_vec();
    for _ in 0..rng.range(1, 3) {
        match rng.below(12) {
            0 => {
                let len = rng.below(image.len() + 1);
                image.truncate(len);
            }
            1 => {
                let n = rng.below(600);
                image.extend(rng.bytes(n));
            }
            2 => image.extend_from_within(..image.len().min(512)),
            3 => image.truncate(image.len().saturating_sub(512)),
            4 => exchange_blocks(rng, &mut image),
            _ => change_byte(rng, &mut image),
        }
    }
    if !rng.once_in(4) {
        image.chunks_exact_mut(512).for_each(seal);
    }
    image
}

fn exchange_blocks(rng: &mut Rng, image: &mut [u8]) {
    let blocks = image.len() / 512;
    if blocks < 2 {
        return;
    }
    let k = rng.below(blocks - 1);
    let (left, right) = image.split_at_mut(512 * (k + 1));
    left[512 * k..].swap_with_slice(&mut right[..512]);
}

/// One byte, often one of the header's, of a place in use or the last of any place, and often a number that is nearly right.
fn change_byte(rng: &mut Rng, image: &mut [u8]) {
    let blocks = image.len() / 512;
    if blocks == 0 {
        return;
    }
    let block = &mut image[512 * rng.below(blocks)..][..512];
    let at = match rng.below(5) {
        0 => *rng.pick(&[0, 1, 506, 507, 508, 509, 510, 511]),
        1 => rng.below(512),
        2 => 2 + 8 * rng.below(63) + 7,
        _ => 2 + rng.below(8 * usize::from(block[1]).clamp(1, 63)),
    };
    block[at] = match rng.below(4) {
        0 => block[at].wrapping_add(1),
        1 => block[at].wrapping_sub(1),
        2 => rng.below(26) as u8,
        _ => rng.byte(),
    };
}

/// A list cut off, lengthened, with a move in it once more, with bytes exchanged or changed: perhaps it is accepted all the same.
pub fn damaged_list(rng: &mut Rng, list: &[u8]) -> Vec<u8> {
    let mut list = list.to_vec();
    for _ in 0..rng.range(1, 2) {
        let (moves, len) = (list.len() / 2, list.len());
        match rng.below(7) {
            0 => list.truncate(rng.below(len + 1)),
            1 => {
                let more = *rng.pick(&[1, 2, 3, 4, 8, 128]);
                list.extend(rng.bytes(more));
            }
            2 => {
                let missing = 132usize.saturating_sub(len);
                list.extend(rng.bytes(missing));
            }
            3 | 4 if moves > 0 => {
                let (from, to) = (2 * rng.below(moves), 2 * rng.below(moves));
                list.copy_within(from..from + 2, to);
            }
            5 if len > 0 => list.swap(rng.below(len), rng.below(len)),
            _ if len > 0 => list[rng.below(len)] = rng.byte(),
            _ => {}
        }
    }
    list
}

/// A log cut off, lengthened to about 128 moves or far beyond, or with a byte changed: perhaps it is accepted all the same.
pub fn damaged_log(rng: &mut Rng, log: &[u8]) -> Vec<u8> {
    let mut log = log.to_vec();
    let len = log.len();
    match rng.below(5) {
        0 => log.truncate(rng.below(len + 1)),
        1 => {
            let more = *rng.pick(&[1, 2, 3, 128, 256, 257, 512, 65536]);
            log.extend(rng.bytes(more));
        }
        2 | 3 => {
            let about = rng.range(250, 262);
            log.extend(rng.bytes(about.saturating_sub(len)));
        }
        _ if len > 0 => log[rng.below(len)] = rng.byte(),
        _ => {}
    }
    log
}
