use crate::{raw, Alike, Growth, Refusal, Replay};

/// A job may make a move and then becomes 0 to 4 jobs.
#[derive(Clone, Debug, PartialEq, Eq, Hash)]
pub struct Rule {
    pub job: u8,
    pub action: u16,
    pub after: Vec<u8>,
}

impl Rule {
    pub fn new(job: u8, action: u16, after: &[u8]) -> Rule {
        Rule { job, action, after: after.to_vec() }
    }

    /// The rule as 8 bytes; more than four jobs after give a place that is refused.
    fn place(&self) -> [u8; 8] {
        let [low, high] = self.action.to_le_bytes();
        let mut place = [self.job, low, self.after.len().min(255) as u8, 0, 0, 0, 0, high];
        for (byte, &job) in place[3..7].iter_mut().zip(&self.after) {
            *byte = job;
        }
        place
    }

    fn of_place(place: &[u8]) -> Rule {
        Rule::new(place[0], u16::from_le_bytes([place[1], place[7]]), &place[3..3 + place[2] as usize])
    }
}

/// A move of a plan with the plan that remains.
#[derive(Clone, Debug, PartialEq, Eq, Hash)]
pub struct Move {
    pub action: u16,
    pub rest: Vec<u8>,
}

/// The memory that a comparison or a replay works in; it may serve any number of calls, one after the other.
pub struct Workspace(Vec<u8>);

impl Workspace {
    pub fn new() -> Workspace {
        Workspace(vec![0; raw::WORKSPACE])
    }
}

impl Default for Workspace {
    fn default() -> Workspace {
        Workspace::new()
    }
}

/// A table whose image is accepted.
#[derive(Clone, Debug, PartialEq, Eq, Hash)]
pub struct Table {
    image: Vec<u8>,
    jobs: u8,
    rules: Vec<Rule>,
}

/// What a call writes into an area of a length, cut to what it wrote.
#[inline]
fn written(len: usize, call: impl FnOnce(&mut [u8]) -> i32) -> Result<Vec<u8>, Refusal> {
    let mut out = vec![0; len];
    let used = Refusal::check(call(&mut out))?;
    out.truncate(used);
    Ok(out)
}

impl Table {
    pub fn from_image(image: &[u8]) -> Result<Table, Refusal> {
        let read = written(raw::READ_MAX, |out| raw::read_image(image, out))?;
        let rules = read[1..].chunks_exact(raw::RULE_BYTES).map(Rule::of_place).collect();
        Ok(Table { image: image.to_vec(), jobs: read[0], rules })
    }

    pub fn from_rules(jobs: u32, rules: &[Rule]) -> Result<Table, Refusal> {
        let places: Vec<u8> = rules.iter().flat_map(Rule::place).collect();
        Table::from_image(&written(raw::IMAGE_MAX, |out| raw::write_image(jobs, &places, out))?)
    }

    pub fn image(&self) -> &[u8] {
        &self.image
    }

    pub fn jobs(&self) -> u8 {
        self.jobs
    }

    /// The rules in image order.
    pub fn rules(&self) -> &[Rule] {
        &self.rules
    }

    /// The fewest moves that lead from a plan to the empty plan.
    #[inline]
    pub fn norm(&self, plan: &[u8]) -> Result<usize, Refusal> {
        Refusal::check(raw::plan_norm(&self.image, plan))
    }

    /// Moves that lead from a plan to the empty plan, as few as can be: of all such runs the first in dictionary order of move
    /// numbers. The order of the rules does not matter, nor how often one is written.
    #[inline]
    pub fn shortest_run(&self, plan: &[u8]) -> Result<Vec<u16>, Refusal> {
        let run = written(raw::RUN_MAX, |out| raw::shortest_run(&self.image, plan, out))?;
        Ok(run.as_chunks().0.iter().map(|&action| u16::from_le_bytes(action)).collect())
    }

    /// The move of a plan at an index, which counts each combination of move and remaining plan once: at the first rule of the
    /// plan's first job that gives it, in image order.
    #[inline]
    pub fn nth_move(&self, plan: &[u8], index: u32) -> Result<Option<Move>, Refusal> {
        let out = written(raw::MOVE_MAX, |out| raw::nth_move(&self.image, plan, index, out))?;
        Ok(out.split_first_chunk().map(|(&action, rest)| Move { action: u16::from_le_bytes(action), rest: rest.to_vec() }))
    }

    /// All moves of a plan in the order of their indexes, each combination of move and remaining plan once. Every one of them is
    /// a call of the library.
    pub fn moves(&self, plan: &[u8]) -> Result<Vec<Move>, Refusal> {
        (0..).map_while(|index| self.nth_move(plan, index).transpose()).collect()
    }

    /// Whether two plans are bisimilar.
    #[inline]
    pub fn same(&self, space: &mut Workspace, left: &[u8], right: &[u8]) -> Result<bool, Refusal> {
        Refusal::check(raw::compare(&self.image, left, right, &mut space.0)).map(|answer| answer == 1)
    }

    /// The prime form of a plan: equal for two plans exactly if they are bisimilar.
    #[inline]
    pub fn prime_form(&self, space: &mut Workspace, plan: &[u8]) -> Result<Vec<u8>, Refusal> {
        written(raw::FORM_MAX, |out| raw::prime_form(&self.image, plan, out, &mut space.0))
    }

    /// Whether two plans are bisimilar once the moves of all rules are replaced by an alike list.
    #[inline]
    pub fn same_alike(&self, space: &mut Workspace, alike: &Alike, left: &[u8], right: &[u8]) -> Result<bool, Refusal> {
        let answer = raw::compare_alike(&self.image, alike.bytes(), left, right, &mut space.0);
        Refusal::check(answer).map(|answer| answer == 1)
    }

    /// The prime form of a plan under an alike list: equal for two plans under one list exactly if they are bisimilar under it.
    /// Forms under different lists are not to be compared.
    #[inline]
    pub fn prime_form_alike(&self, space: &mut Workspace, alike: &Alike, plan: &[u8]) -> Result<Vec<u8>, Refusal> {
        written(raw::FORM_MAX, |out| raw::prime_form_alike(&self.image, alike.bytes(), plan, out, &mut space.0))
    }

    /// What a log of moves is for a plan. Where several rules make one move, each of them is followed. A log has at most 128 moves.
    #[inline]
    pub fn replay(&self, space: &mut Workspace, plan: &[u8], log: &[u16]) -> Result<Replay, Refusal> {
        self.replay_alike(space, &Alike::default(), plan, log)
    }

    /// What a log of moves is for a plan once the moves of all rules and of the log are replaced by an alike list.
    #[inline]
    pub fn replay_alike(&self, space: &mut Workspace, alike: &Alike, plan: &[u8], log: &[u16]) -> Result<Replay, Refusal> {
        let log: Vec<u8> = log.iter().flat_map(|action| action.to_le_bytes()).collect();
        let answer = raw::replay_log(&self.image, alike.bytes(), plan, &log, &mut space.0);
        Refusal::check(answer).map(Replay::of_answer)
    }

    /// Whether the table is without a choice of outcome: no job has two rules of one move whose rows of jobs after it differ. A
    /// rule that is written again is no choice; two rows that are bisimilar but not equal are one.
    ///
    /// Over such a table [`Table::same`] holds exactly if both plans have the same complete runs. Over every table plans that are
    /// bisimilar have the same complete runs.
    #[inline]
    pub fn deterministic(&self) -> bool {
        raw::deterministic(&self.image, &[]) == 1 // the image is accepted, and there is no list to refuse
    }

    /// The same once the moves of all rules are replaced by an alike list, and so of [`Table::same_alike`] under this list. A list
    /// can make a choice, by moves that count as one, and takes none away.
    #[inline]
    pub fn deterministic_alike(&self, alike: &Alike) -> Result<bool, Refusal> {
        Refusal::check(raw::deterministic(&self.image, alike.bytes())).map(|answer| answer == 1)
    }

    /// Whether a plan ever grows, and how many different jobs stand in it or in any plan that it can become.
    ///
    /// It is endless exactly if some job that it reaches can come round to itself with further jobs behind it; that is, if some job that
    /// it reaches has a rule in whose row a job before the last one is this job or reaches it. A finite plan never becomes one of more
    /// jobs than its own and three for each job that it reaches. The moves of the rules do not matter, nor their order.
    ///
    /// ```
    /// use gindrazoma::{Growth, Rule, Table};
    /// let ends = [0, 1, 2].map(|job| Rule::new(job, 98, &[]));
    /// let table = Table::from_rules(3, &[&ends[..], &[Rule::new(1, 97, &[0, 1]), Rule::new(2, 97, &[2, 0])]].concat())?;
    /// assert_eq!(table.growth(&[1])?, Growth { jobs: 2, endless: false }); // job 1 comes round at the end of its row
    /// assert_eq!(table.growth(&[2])?, Growth { jobs: 2, endless: true }); // job 2 comes round, and one job 0 more waits each time
    /// assert_eq!(table.growth(&[1, 2])?, Growth { jobs: 3, endless: true });
    /// assert_eq!(table.growth(&[])?, Growth { jobs: 0, endless: false });
    /// # Ok::<(), gindrazoma::Refusal>(())
    /// ```
    #[inline]
    pub fn growth(&self, plan: &[u8]) -> Result<Growth, Refusal> {
        Refusal::check(raw::plan_growth(&self.image, plan)).map(Growth::of_answer)
    }

    /// Whether a plan of this table, the left one, and a plan of another table are bisimilar. They are compared over the joined
    /// table, which has this table's jobs and rules and behind them the other one's, with its jobs numbered on from this one's;
    /// each plan is given in the job numbers of its own table. Together the tables have at most 24 jobs and 252 rules.
    ///
    /// ```
    /// use gindrazoma::{Refusal, Rule, Table, Workspace};
    /// // a container is lifted and then set down, job 1 of the ship and job 0 of the port; the port's job 1 is two containers
    /// let ship = Table::from_rules(2, &[Rule::new(0, 301, &[1]), Rule::new(1, 320, &[])])?;
    /// let port = Table::from_rules(3, &[Rule::new(0, 320, &[]), Rule::new(1, 301, &[0, 2]), Rule::new(2, 301, &[0])])?;
    /// let mut space = Workspace::new();
    /// assert!(ship.same_as(&mut space, &[0, 0], &port, &[1])?);
    /// assert!(port.same_as(&mut space, &[1, 2], &ship, &[0, 0, 0])?);
    /// assert!(!ship.same_as(&mut space, &[0], &port, &[1])?);
    /// assert_eq!(ship.same_as(&mut space, &[2], &port, &[2]), Err(Refusal::NoSuchJob)); // the ship has two jobs, the port three
    /// # Ok::<(), gindrazoma::Refusal>(())
    /// ```
    #[inline]
    pub fn same_as(&self, space: &mut Workspace, left: &[u8], other: &Table, right: &[u8]) -> Result<bool, Refusal> {
        self.same_as_alike(space, &Alike::default(), left, other, right)
    }

    /// The same once the moves of all rules of both tables are replaced by an alike list. So moves that the two tables number
    /// otherwise can count as one.
    #[inline]
    pub fn same_as_alike(
        &self,
        space: &mut Workspace,
        alike: &Alike,
        left: &[u8],
        other: &Table,
        right: &[u8],
    ) -> Result<bool, Refusal> {
        let answer = raw::compare_tables(&self.image, &other.image, alike.bytes(), left, right, &mut space.0);
        Refusal::check(answer).map(|answer| answer == 1)
    }
}
