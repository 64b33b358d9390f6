//! Tables that make the first shortest run work: many rules that lower the norm, and runs that differ late or not at all.
use outside::shapes::Made;
use outside::table::{rule, Plan, Rule, Table};

const JOBS: usize = 24;
const RULES: usize = 252;
const JOB_NORM: u64 = 512;

/// Each with its name.
pub fn tables() -> Vec<(&'static str, Made)> {
    let made = [
        ("equal runs", equal_runs()),
        ("runs apart in the last move", apart_in_the_last_move()),
        ("two moves in turn", moves_in_turn()),
        ("229 rows of a job", many_rows()),
        ("252 different moves", different_moves()),
    ];
    made.map(|(name, table)| (name, Made::of_table(table).unwrap_or_else(|| panic!("{name}: no such table")))).into()
}

/// Plans of a norm, each with its name: of jobs of the greatest norm in turn, of jobs of norm 1, and of both; norm 1 fills up.
pub fn plans(made: &Made, norm: usize) -> [(&'static str, Plan); 3] {
    let greatest = made.norms.iter().copied().max().unwrap_or(1);
    let in_turn = |norm: u64| {
        let jobs: Plan = (0..).zip(&made.norms).filter(|(_, &n)| n == norm).map(|(j, _)| j).collect();
        jobs.into_iter().cycle()
    };
    let (long, ones, each) = (in_turn(greatest), in_turn(1), greatest as usize);
    let filled = |mut plan: Plan| -> Plan {
        plan.extend(ones.clone().take(norm - made.norm(&plan) as usize));
        plan
    };
    let only_long = long.clone().take(norm / each).collect();
    let mixed = long.take(norm / each / 2).flat_map(|job| [job].into_iter().chain(ones.clone().take(each))).collect();
    [("long jobs", filled(only_long)), ("jobs of norm 1", filled(Vec::new())), ("mixed", filled(mixed))]
}

/// Rules of one move, and the norms of their jobs.
struct Powers {
    rules: Vec<Rule>,
    norms: Vec<u64>,
    action: u16,
}

impl Powers {
    fn new(action: u16) -> Powers {
        Powers { rules: Vec::new(), norms: Vec::new(), action }
    }

    /// A job with these rows, all of one norm.
    fn add(&mut self, rows: &[Plan]) {
        let job = self.norms.len() as u8;
        self.norms.push(1 + rows[0].iter().map(|&j| self.norms[j as usize]).sum::<u64>());
        self.rules.extend(rows.iter().map(|row| rule(job, self.action, row)));
    }

    /// All rows of a norm that begin with some jobs and go on with so many of others at most.
    fn rows(&self, begin: &[u8], others: &[u8], norm: u64, places: usize) -> Vec<Plan> {
        let mut rows = if norm == 0 { vec![begin.to_vec()] } else { Vec::new() };
        for &j in others.iter().filter(|_| places > 0) {
            if let Some(left) = norm.checked_sub(self.norms[j as usize]) {
                rows.extend(self.rows(&[begin, &[j]].concat(), others, left, places - 1));
            }
        }
        rows
    }

    fn table(self) -> Table {
        Table { jobs: self.norms.len(), rules: self.rules }
    }
}

/// So many of some rows, taken evenly.
fn some(rows: &[Plan], count: usize) -> Vec<Plan> {
    (0..count).map(|i| rows[i * rows.len() / count].clone()).collect()
}

/// Powers of one job: 1, 5, 21, 85, 341, and 19 by 13 rows each, of the greatest norm up to 512 for which there are so many.
fn equal_runs() -> Table {
    let mut powers = Powers::new(97);
    powers.add(&[vec![]]);
    (0..4).for_each(|j| powers.add(&[vec![j; 4]]));
    for jobs in 5..JOBS as u8 {
        let others: Plan = (0..jobs).collect();
        let mut rows = (0..JOB_NORM).rev().map(|norm| powers.rows(&[], &others, norm, 4));
        let rows = rows.find(|rows| rows.len() >= 13).expect("13 rows");
        powers.add(&some(&rows, 13));
    }
    powers.table()
}

/// 11 powers of a job, two jobs with another move, and 11 of norm 512 by rows of three powers and one of those two.
fn apart_in_the_last_move() -> Table {
    let mut powers = Powers::new(97);
    let rows: [&[u8]; 11] =
        [&[], &[0; 3], &[0; 4], &[2, 2, 2, 1], &[2; 4], &[4, 4, 4, 3], &[4; 4], &[6, 5], &[6, 6, 5], &[6; 3], &[6; 4]];
    rows.iter().for_each(|row| powers.add(&[row.to_vec()]));
    let rows = powers.rows(&[], &(0..11).collect::<Plan>(), JOB_NORM - 2, 3);
    for action in [99, 98] {
        powers.add(&[vec![]]);
        powers.rules.last_mut().expect("a rule").action = action;
    }
    let rows: Vec<Plan> = [11, 12].iter().flat_map(|&last| rows.iter().map(move |row| [&row[..], &[last]].concat())).collect();
    for _ in 13..JOBS {
        powers.add(&some(&rows, 21));
    }
    powers.table()
}

/// Moves 1 and 256 in turn, whose bytes have one sum: powers of a job that makes both, and 9 jobs of norm 512 by 26 rows of three
/// such powers, some with a power at the end that makes its last two moves in the other order.
fn moves_in_turn() -> Table {
    let mut powers = Powers::new(1);
    let rows: [&[u8]; 8] = [&[], &[], &[1], &[0], &[1, 2, 2], &[1, 2, 2, 2], &[1, 5, 5, 5], &[1, 6, 6, 6]];
    rows.iter().for_each(|row| powers.add(&[row.to_vec()]));
    [1, 3].iter().for_each(|&turned: &usize| powers.rules[turned].action = 256);
    // norms 168, 170 and 172, two jobs each; and the one with another end
    let rows: [&[u8]; 7] = [&[1, 7, 7, 4], &[1, 7, 7, 4], &[1, 7, 7, 5], &[1, 7, 7, 5], &[1, 10], &[1, 11], &[1, 8, 3]];
    rows.iter().for_each(|row| powers.add(&[row.to_vec()]));
    let mut rows = powers.rows(&[1], &(8..15).collect::<Plan>(), JOB_NORM - 2, 3);
    rows.retain(|row| !row[..3].contains(&14));
    for _ in 15..JOBS {
        powers.add(&some(&rows, 26));
    }
    powers.table()
}

/// 229 rows of four out of 22 jobs of norm 5.
fn many_rows() -> Table {
    let mut powers = Powers::new(97);
    powers.add(&[vec![]]);
    (1..23).for_each(|_| powers.add(&[vec![0; 4]]));
    let rows: Vec<Plan> = (0..RULES - 23).map(|n| [n % 22, n / 22, n % 7, n % 3].map(|j| 1 + j as u8).to_vec()).collect();
    powers.add(&rows);
    powers.table()
}

/// The table of equal runs with a lesser move for each next rule.
fn different_moves() -> Table {
    let mut table = equal_runs();
    for (r, action) in table.rules.iter_mut().zip((0..=u16::MAX).rev().step_by(257)) {
        r.action = action;
    }
    table
}
