/// What a log of moves is for a plan.
#[derive(Clone, Copy, Debug, PartialEq, Eq, Hash)]
pub enum Replay {
    /// The log is a complete run: it leads from the plan to the empty plan.
    Whole,
    /// The log is no complete run, and some complete run begins with it.
    Part,
    /// No run begins with the log up to and including the move at this place, counted from 0. Some run begins with the moves
    /// before it.
    Leaves { place: usize },
}

impl Replay {
    /// What an answer of the library means.
    #[inline]
    pub(crate) fn of_answer(answer: usize) -> Replay {
        match answer {
            0 => Replay::Part,
            1 => Replay::Whole,
            _ => Replay::Leaves { place: answer - 2 },
        }
    }
}
