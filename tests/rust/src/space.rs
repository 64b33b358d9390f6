//! Workspaces: their lengths, and what holds of them after a call.
use crate::area::Area;
use crate::ensure;
use crate::harness::Outcome;
use crate::rng::Rng;

/// The bytes that a workspace needs.
pub const SPACE: usize = 65536;

/// A length that is enough.
pub fn some_length(rng: &mut Rng) -> usize {
    if rng.once_in(2) {
        SPACE
    } else {
        SPACE + rng.below(3000)
    }
}

/// What must hold of a workspace of a length after an answer.
pub fn cleared(space: &Area, len: usize, answer: i32) -> Outcome {
    let zeros = if answer == -1 { 0 } else { SPACE.min(len) };
    ensure!(space.zero_up_to(zeros), "the workspace is not cleared after {answer}");
    ensure!(space.kept_beyond(zeros), "the workspace has changed beyond what is cleared after {answer}");
    Ok(())
}
