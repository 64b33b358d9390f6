/// Whether a plan ever grows, and how many jobs it reaches.
#[derive(Clone, Copy, Debug, PartialEq, Eq, Hash)]
pub struct Growth {
    /// How many different jobs stand in the plan or in any plan that it can become.
    pub jobs: u32,
    /// Whether the plan can become infinitely many plans of which no two are bisimilar.
    pub endless: bool,
}

impl Growth {
    /// What an answer of the library means.
    #[inline]
    pub(crate) fn of_answer(answer: usize) -> Growth {
        Growth { jobs: (answer / 2) as u32, endless: answer % 2 == 1 }
    }
}
