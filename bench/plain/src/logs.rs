//! A log replayed on a plan: for each number of moves left and each job the numbers of moves left at which the job can end, and the
//! fewest moves left that it can get to, from the log's end to its beginning.
use crate::table::{Table, JOBS};
use crate::Answer;

const MOVES: usize = 128;

/// The moves of a log that refusal 11 lets pass.
pub struct Log {
    moves: [u16; MOVES],
    count: usize,
}

impl Log {
    pub fn load(bytes: &[u8]) -> Answer<Log> {
        let (places, half) = bytes.as_chunks();
        if places.len() > MOVES || !half.is_empty() {
            return Err(11);
        }
        let mut log = Log { moves: [0; MOVES], count: places.len() };
        for (action, &place) in log.moves.iter_mut().zip(places) {
            *action = u16::from_le_bytes(place);
        }
        Ok(log)
    }

    pub fn moves(&mut self) -> &mut [u16] {
        &mut self.moves[..self.count]
    }
}

/// 1 for a complete run of the plan, 0 for the beginning of one, else 2 and the place of the move that no run makes there.
pub fn replay(table: &Table, plan: &[u8], log: &Log, space: &mut [u8]) -> i32 {
    let moves = &log.moves[..log.count];
    let (Some((&first, behind)), Some((&action, later))) = (plan.split_first(), moves.split_first()) else {
        return match (plan, moves) {
            ([], []) => 1,
            ([], _) => 2,
            _ => 0,
        };
    };
    let rules_of = |action: u16| (0..table.count).filter(move |&r| table.action(r) == action);
    let mut played = Played::new(space);
    played.begin(0);
    for (left, &action) in (1..).zip(later.iter().rev()) {
        played.begin(left);
        for r in rules_of(action) {
            let ways = played.row(table.after(r), left - 1);
            played.add(table.job(r), left, ways);
        }
    }
    let mut ways = Ways { ends: 0, fewest: moves.len() as u8 };
    for r in rules_of(action).filter(|&r| table.job(r) == first as usize) {
        ways = ways.or(played.row(table.after(r), later.len()));
    }
    match played.follow(ways, behind) {
        Ways { ends, .. } if ends & 1 == 1 => 1,
        Ways { fewest: 0, .. } => 0,
        Ways { fewest, .. } => 2 + (moves.len() - fewest as usize) as i32,
    }
}

/// What jobs can do from some place of the log on: a bit for each number of moves left at which they can end, and the fewest moves left
/// that they can get to.
#[derive(Clone, Copy)]
struct Ways {
    ends: u128,
    fewest: u8,
}

impl Ways {
    fn or(self, other: Ways) -> Ways {
        Ways { ends: self.ends | other.ends, fewest: self.fewest.min(other.fewest) }
    }
}

/// The ways of each job for each number of moves left, in the workspace.
struct Played<'a> {
    ends: &'a mut [[[u8; 16]; MOVES]],
    fewest: &'a mut [[u8; MOVES]],
}

impl<'a> Played<'a> {
    fn new(space: &'a mut [u8]) -> Played<'a> {
        let (ends, space) = space.split_at_mut(16 * MOVES * JOBS);
        let fewest = &mut space[..MOVES * JOBS];
        Played { ends: ends.as_chunks_mut().0.as_chunks_mut().0, fewest: fewest.as_chunks_mut().0 }
    }

    /// No job has a way yet.
    fn begin(&mut self, left: usize) {
        for (ends, fewest) in self.ends.iter_mut().zip(&mut *self.fewest) {
            ends[left] = [0; 16];
            fewest[left] = left as u8;
        }
    }

    fn of(&self, job: usize, left: usize) -> Ways {
        Ways { ends: u128::from_le_bytes(self.ends[job][left]), fewest: self.fewest[job][left] }
    }

    fn add(&mut self, job: usize, left: usize, more: Ways) {
        let ways = self.of(job, left).or(more);
        self.ends[job][left] = ways.ends.to_le_bytes();
        self.fewest[job][left] = ways.fewest;
    }

    /// The ways of a row of jobs.
    fn row(&self, row: &[u8], left: usize) -> Ways {
        match row.split_first() {
            None => Ways { ends: 1 << left, fewest: left as u8 },
            Some((&first, behind)) => self.follow(self.of(first as usize, left), behind),
        }
    }

    /// The ways with more jobs behind, until none goes on.
    fn follow(&self, mut ways: Ways, behind: &[u8]) -> Ways {
        for &job in behind {
            if ways.ends == 0 {
                break;
            }
            ways = self.then(ways, job as usize);
        }
        ways
    }

    /// The ways with one job behind.
    fn then(&self, ways: Ways, job: usize) -> Ways {
        let mut all = Ways { ends: 0, ..ways };
        let halves = self.ends[job].as_chunks::<64>().0.iter().zip(self.fewest[job].as_chunks::<64>().0);
        for ((ends, fewest), half) in halves.zip([ways.ends as u64, (ways.ends >> 64) as u64]) {
            let mut bits = half;
            while bits != 0 {
                let left = bits.trailing_zeros() as usize % 64;
                bits &= bits - 1;
                all = all.or(Ways { ends: u128::from_le_bytes(ends[left]), fewest: fewest[left] });
            }
        }
        all
    }
}
