//! Areas to write to: random bytes in them, and guard bytes around them.
//!
//! With AREAS=exact an area is a block of its own of just its length, for valgrind to watch.
use crate::rng::Rng;
use std::sync::OnceLock;

const POOL: usize = 1 << 18;

/// Random bytes that areas begin with, each at another place.
fn pool() -> &'static [u8] {
    static BYTES: OnceLock<Vec<u8>> = OnceLock::new();
    BYTES.get_or_init(|| Rng::new(1).bytes(POOL))
}

pub struct Area {
    block: Vec<u8>,
    before: &'static [u8],
    guard: usize,
}

impl Area {
    pub fn new(rng: &mut Rng, len: usize) -> Area {
        let guard = if std::env::var("AREAS").is_ok_and(|a| a == "exact") { 0 } else { 64 };
        let whole = len + 2 * guard;
        let at = rng.below(POOL - whole + 1);
        let before = &pool()[at..at + whole];
        Area { block: before.to_vec(), before, guard }
    }

    pub fn bytes(&mut self) -> &mut [u8] {
        let end = self.block.len() - self.guard;
        &mut self.block[self.guard..end]
    }

    pub fn first(&self, len: usize) -> &[u8] {
        &self.block[self.guard..self.guard + len]
    }

    /// Whether all bytes but the first so many are as they were, the guards included.
    pub fn kept_beyond(&self, len: usize) -> bool {
        let at = self.guard + len;
        self.block[..self.guard] == self.before[..self.guard] && self.block[at..] == self.before[at..]
    }

    /// Whether the first so many bytes are zero.
    pub fn zero_up_to(&self, len: usize) -> bool {
        static ZEROS: [u8; 1 << 16] = [0; 1 << 16];
        self.first(len).chunks(ZEROS.len()).all(|part| part == &ZEROS[..part.len()])
    }
}
