use std::fmt;

/// A reason for which a call is refused.
#[derive(Clone, Copy, Debug, PartialEq, Eq, Hash)]
#[repr(u8)]
pub enum Refusal {
    WorkspaceShort = 1,
    BadLength = 2,
    BadChecksum = 3,
    BadHeader = 4,
    BadPlace = 5,
    NoNorm = 6,
    JobNormHigh = 7,
    NoSuchJob = 8,
    PlanNormHigh = 9,
    OutputShort = 10,
    LogLength = 11,
    AlikeLength = 12,
    AlikeClash = 13,
    TablesLarge = 15,
}

const ALL: [(Refusal, &str); 14] = [
    (Refusal::WorkspaceShort, "the workspace is shorter than 65,536 bytes"),
    (Refusal::BadLength, "the image is not 1 to 4 blocks, or the rules are not 1 to 252"),
    (Refusal::BadChecksum, "the checksum of a block is wrong"),
    (Refusal::BadHeader, "a job count, rule count, block number or number of blocks is wrong"),
    (Refusal::BadPlace, "a rule names a job at or above the count, more than 4 jobs after, or has a byte that should be 0"),
    (Refusal::NoNorm, "a job can never finish"),
    (Refusal::JobNormHigh, "a job has a norm above 512"),
    (Refusal::NoSuchJob, "a plan names a job at or above its table's count"),
    (Refusal::PlanNormHigh, "a plan has a norm above 4,096"),
    (Refusal::OutputShort, "the output area is shorter than the output"),
    (Refusal::LogLength, "the log has more than 128 moves, or half a move at its end"),
    (Refusal::AlikeLength, "the alike list has more than 32 pairs, or an unfinished one"),
    (Refusal::AlikeClash, "a from-move stands twice in the alike list, or stands in it as a to-move"),
    (Refusal::TablesLarge, "the two tables together have more than 24 jobs or more than 252 rules"),
];

impl Refusal {
    /// Its number in the header.
    pub fn number(self) -> u8 {
        self as u8
    }

    /// The refusal of a number, with its words. The library gives no other number.
    fn find(number: i32) -> &'static (Refusal, &'static str) {
        ALL.iter().find(|(refusal, _)| i32::from(refusal.number()) == number).expect("a refusal of the header")
    }

    /// An answer of the library as a result.
    pub(crate) fn check(answer: i32) -> Result<usize, Refusal> {
        usize::try_from(answer).map_err(|_| Refusal::find(-answer).0)
    }
}

impl fmt::Display for Refusal {
    fn fmt(&self, f: &mut fmt::Formatter<'_>) -> fmt::Result {
        write!(f, "refused {}: {}", self.number(), Refusal::find(i32::from(self.number())).1)
    }
}

impl std::error::Error for Refusal {}
