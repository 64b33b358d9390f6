//! Cases without random numbers.
use crate::calls::Calls;
use gindrazoma::raw::replay_log;
use outside::alike;
use outside::harness::Outcome;
use outside::logs::{Log, LOG_MAX, PLANS};
use outside::refused::{images_by_refusal, lists_by_refusal, plans_by_refusal};
use outside::replay::by_plans;
use outside::rng::Rng;
use outside::space::SPACE;
use outside::table::{rule, Plan, Table};
use outside::{ensure, ensure_eq};

/// A plan, and logs with their answers.
type Tried<'a> = (&'a [u8], &'a [(&'a [u16], i32)]);

pub fn logs_to_try() -> Outcome {
    let mut rng = Rng::new(1);
    let t = Table::new(4, &[(0, 97, &[]), (1, 97, &[0]), (2, 97, &[1]), (3, 98, &[0])]);
    let s = Table::new(3, &[(0, 97, &[1]), (0, 97, &[2]), (1, 98, &[]), (2, 99, &[])]);
    let again = Table::new(2, &[(0, 97, &[]), (0, 97, &[0]), (0, 97, &[0, 0]), (1, 98, &[])]);
    let t_plans: [Tried; 4] = [
        (&[], &[(&[], 1), (&[97], 2), (&[97, 97], 2), (&[0], 2)]),
        (&[0], &[(&[], 0), (&[97], 1), (&[98], 2), (&[97, 97], 3), (&[97, 97, 97], 3), (&[98, 97], 2)]),
        (&[3, 2], &[(&[98], 0), (&[98, 97], 0), (&[98, 97, 97, 97, 97], 1), (&[98, 97, 97, 97, 97, 97], 7), (&[98, 98], 3)]),
        (&[1, 3, 0], &[(&[97, 97, 98, 97, 97], 1), (&[97, 97, 98, 97], 0), (&[97, 97, 97, 97], 4), (&[97, 98], 3)]),
    ];
    let s_plans: [Tried; 2] = [
        (&[0], &[(&[97], 0), (&[97, 98], 1), (&[97, 99], 1), (&[97, 97], 3), (&[97, 98, 99], 4), (&[98], 2)]),
        (&[0, 0], &[(&[97, 99, 97, 98], 1), (&[97, 98, 97, 99], 1), (&[97, 98, 97], 0), (&[97, 99, 98, 97], 4)]),
    ];
    let again_plans: [Tried; 3] = [
        (&[0], &[(&[97], 1), (&[97; 2], 1), (&[97; 128], 1), (&[97, 98], 3), (&[97, 97, 98], 4)]),
        (&[0, 1], &[(&[97], 0), (&[97; 128], 0), (&[97, 98], 1), (&[97, 97, 97, 98], 1), (&[97, 98, 97], 4), (&[98], 2)]),
        (&[0, 0, 1, 0], &[(&[97, 98], 3), (&[97, 97, 98], 0), (&[97, 97, 98, 97], 1), (&[97, 97, 97, 98, 98], 6)]),
    ];
    for (table, plans) in [(&t, &t_plans[..]), (&s, &s_plans), (&again, &again_plans)] {
        let calls = Calls::new(table, &[]);
        for (plan, logs) in plans {
            for (log, wanted) in logs.iter() {
                calls.expect(&mut rng, plan, log, *wanted)?;
                ensure_eq!(by_plans(table, plan, log, PLANS), Some(*wanted), "{log:?} on {plan:?} by the plans that are reached");
            }
        }
    }
    Ok(())
}

/// One area as list, plan and log, and all that is read side by side.
pub fn areas_that_coincide() -> Outcome {
    let table = Table::new(3, &[(0, 1, &[]), (1, 2, &[]), (2, 1, &[])]);
    let mut space = vec![0; SPACE];
    let all = alike::bytes_of(&[(1, 2)]); // as a plan 1, 0, 2, 0; as a log 1, 2
    ensure_eq!(replay_log(&table.image(), &all, &all, &all, &mut space), 0, "a list that is plan and log");
    ensure_eq!(replay_log(&table.image(), &all, &all[..2], &all, &mut space), 1, "a list that is log and begins with the plan");
    ensure_eq!(replay_log(&table.image(), &[], &all, &all, &mut space), 2, "a plan that is a log");
    let bytes = [table.image(), all, vec![0, 1]].concat();
    let (image, list, plan) = (&bytes[..512], &bytes[512..516], &bytes[516..]);
    ensure_eq!(replay_log(image, list, plan, list, &mut space), 1, "areas side by side");
    ensure_eq!(replay_log(image, list, plan, &bytes[514..518], &mut space), 3, "a log that ends with the plan");
    ensure_eq!(replay_log(image, &bytes[2..6], plan, &bytes[2..8], &mut space), 2, "list and log within the image");
    Ok(())
}

/// Jobs of one move each, and logs of one move: under a list of any two of these moves exactly the two count as one.
pub fn moves_of_two_bytes() -> Outcome {
    let mut rng = Rng::new(1);
    let moves = [0, 97, 255, 256, 353, 24832, 65535];
    let table = Table { jobs: moves.len(), rules: (0..).zip(moves).map(|(j, a)| rule(j, a, &[])).collect() };
    let none = Calls::new(&table, &[]);
    none.expect(&mut rng, &(0..moves.len() as u8).collect::<Plan>(), &moves, 1)?;
    let both = || (0..moves.len()).flat_map(|i| (0..moves.len()).map(move |k| (i, k)));
    for (job, made) in both() {
        let wanted = if job == made { 1 } else { 2 };
        ensure_eq!(none.answer(&mut rng, &[job as u8], &[moves[made]])?, wanted, "job {job} by move {}", moves[made]);
    }
    for (from, to) in both().filter(|(from, to)| from != to) {
        let calls = Calls::new(&table, &[(moves[from], moves[to])]);
        for (job, made) in both().filter(|(job, made)| [*job, *made].iter().any(|i| [from, to].contains(i))) {
            let alike = job == made || [job, made] == [from, to] || [made, job] == [from, to];
            let answer = calls.answer(&mut rng, &[job as u8], &[moves[made]])?;
            let wanted = if alike { 1 } else { 2 };
            ensure_eq!(answer, wanted, "job {job} by move {}, {} for {}", moves[made], moves[to], moves[from]);
        }
    }
    Ok(())
}

/// Numbers of bytes about the bound and far from it, on plans with a job less, as many jobs as moves, and more.
pub fn lengths_of_logs() -> Outcome {
    let mut rng = Rng::new(1);
    let calls = Calls::new(&Table::new(1, &[(0, 97, &[])]), &[]);
    let bytes = [97, 0].repeat(70_000);
    let far = [511, 512, 513, 514, 1024, 65536, 65537, 65538, 65792, 131_072, 131_074, 131_328];
    for len in (0..=20).chain(120..=136).chain(240..=264).chain(far) {
        let moves: usize = len / 2;
        for jobs in [0, moves.saturating_sub(1), moves, moves + 1, 4096] {
            let wanted = match jobs {
                4097.. => -9,
                _ if len % 2 == 1 || len > 2 * LOG_MAX => -11,
                _ if jobs == moves => 1,
                _ if jobs > moves => 0,
                _ => 2 + jobs as i32,
            };
            let answer = calls.replayed(&mut rng, &vec![0; jobs], &bytes[..len], SPACE)?;
            ensure_eq!(answer, wanted, "{len} bytes on {jobs} jobs");
        }
    }
    Ok(())
}

/// Runs of 128 moves: of as many jobs, of 4,096, of few jobs by a chain and by rows of four, with another move at each place.
pub fn a_wrong_move_at_every_place() -> Outcome {
    let mut rng = Rng::new(1);
    let mut tower = Table::new(6, &[(0, 97, &[]), (5, 97, &[4, 3, 3])]);
    tower.rules.extend((1..5).map(|k| rule(k, 97, &[k - 1; 4])));
    let mut chain = Table::new(24, &[(0, 97, &[])]);
    chain.rules.extend((1..24).map(|k| rule(k, 97, &[k - 1])));
    let cases: [(&Table, &[u8], i32); 6] = [
        (&tower, &[0; LOG_MAX], 1),
        (&tower, &[0; 4096], 0),
        (&tower, &[5], 0),
        (&tower, &[3, 2, 2, 0], 1),
        (&chain, &[23; 6], 0),
        (&chain, &[22, 21, 20, 19, 18, 17, 4], 1),
    ];
    for (table, plan, answer) in cases {
        let calls = Calls::new(table, &[]);
        calls.expect(&mut rng, plan, &[97; LOG_MAX], answer)?;
        for place in 0..LOG_MAX {
            let mut log = [97; LOG_MAX];
            log[place] = *rng.pick(&[98, 96, 353, 225, 0, 24832, 65535]);
            ensure_eq!(calls.answer(&mut rng, plan, &log)?, 2 + place as i32, "a wrong move at {place} on {plan:?}");
        }
    }
    Ok(())
}

/// Job 0 may make any number of moves, job 1 ends it with another one: only one of 127 ends of job 0 is the right one. Job 2 is
/// the same by rules that grow, and job 3 makes an odd number of moves.
pub fn jobs_that_end_at_every_place() -> Outcome {
    let mut rng = Rng::new(1);
    let mut table = Table::new(4, &[(0, 97, &[]), (0, 97, &[0]), (1, 98, &[])]);
    table.rules.extend([rule(2, 97, &[2, 2]), rule(2, 97, &[2]), rule(2, 97, &[]), rule(3, 97, &[3, 3]), rule(3, 97, &[])]);
    let calls = Calls::new(&table, &[]);
    for moves in 1..LOG_MAX {
        let mut log = vec![97; LOG_MAX];
        log[moves] = 98;
        let (odd, to_its_end) = (moves % 2 == 1, moves == LOG_MAX - 1);
        for job in [0, 2] {
            let answers: [(&[u8], i32); 4] = [
                (&[job, 1], if to_its_end { 1 } else { 3 + moves as i32 }),
                (&[job, 1, job], i32::from(!to_its_end)),
                (&[job, 1, 3], i32::from(!to_its_end && !odd)),
                (&[3, 1, job], if odd { i32::from(!to_its_end) } else { 2 + moves as i32 }),
            ];
            for (plan, wanted) in answers {
                ensure_eq!(calls.answer(&mut rng, plan, &log)?, wanted, "the other move at {moves} on {plan:?}");
            }
        }
    }
    Ok(())
}

/// Rows of up to four jobs, each of which makes a move of its own: in their order, and none left out.
pub fn rows_of_every_length() -> Outcome {
    let mut rng = Rng::new(1);
    let letters = [(1, 1, &[][..]), (2, 2, &[]), (3, 3, &[]), (4, 4, &[])];
    for row in [&[][..], &[4], &[3, 4], &[2, 3, 4], &[1, 2, 3, 4], &[4, 3, 2, 1], &[1, 1, 2, 2]] {
        let calls = Calls::new(&Table::new(5, &[&letters[..], &[(0, 9, row)]].concat()), &[]);
        let run: Log = [9].into_iter().chain(row.iter().map(|&j| u16::from(j))).collect();
        calls.expect(&mut rng, &[0], &run, 1)?;
        calls.expect(&mut rng, &[0, 1], &[&run[..], &[1]].concat(), 1)?;
        for place in 0..run.len() {
            calls.expect(&mut rng, &[0], &run[..place], 0)?;
            for other in (1..=4).filter(|&other| other != run[place]) {
                let log = [&run[..place], &[other], &run[place..]].concat();
                calls.expect(&mut rng, &[0], &log, 2 + place as i32)?;
            }
        }
        calls.expect(&mut rng, &[0], &[&run[..], &[1]].concat(), 2 + run.len() as i32)?;
    }
    Ok(())
}

/// 252 rules with moves of their own, in the log and in the plan one after the other, and each alone.
pub fn every_rule_of_a_full_image() -> Outcome {
    let mut rng = Rng::new(1);
    let table = Table { jobs: 24, rules: (0..252).map(|i| rule((i % 24) as u8, 257 * i, &[])).collect() };
    let calls = Calls::new(&table, &[]);
    let (plan, log): (Plan, Log) = table.rules.iter().map(|r| (r.job, r.action)).unzip();
    for from in [0, 1, 62, 124] {
        let moves = &log[from..from + LOG_MAX];
        calls.expect(&mut rng, &plan[from..from + LOG_MAX], moves, 1)?;
        calls.expect(&mut rng, &[&plan[from..], &[0]].concat(), moves, 0)?;
    }
    for i in 0..252 {
        ensure_eq!(calls.answer(&mut rng, &plan[i..=i], &log[i..=i])?, 1, "rule {i}");
        ensure_eq!(calls.answer(&mut rng, &plan[i..=i], &[log[(i + 1) % 252]])?, 2, "the rule behind rule {i}");
    }
    Ok(())
}

/// A job with 229 rules of one move, each with another row of two jobs that have moves of their own; and a job with 252 rules of
/// one move, of which one ends it.
pub fn one_right_rule_of_many() -> Outcome {
    let mut rng = Rng::new(1);
    let rows: Vec<[u8; 2]> = (0..229).map(|n| [1 + n % 23, 1 + (n / 23 + n) % 23]).collect();
    let mut rules: Vec<_> = (1..24).map(|j| rule(j, 100 + u16::from(j), &[])).collect();
    rules.extend(rows.iter().map(|row| rule(0, 97, row)));
    let calls = Calls::new(&Table { jobs: 24, rules }, &[]);
    for row in (1..24).flat_map(|x| (1..24).map(move |y| [x, y])) {
        let log = [97, 100 + u16::from(row[0]), 100 + u16::from(row[1])];
        let wanted = if rows.contains(&row) { 1 } else { 4 };
        if wanted == 1 || rng.once_in(8) {
            ensure_eq!(calls.answer(&mut rng, &[0], &log)?, wanted, "the row {row:?}");
        }
    }
    for place in [0, 1, 62, 63, 64, 125, 126, 127, 128, 188, 189, 250, 251] {
        let mut table = Table { jobs: 1, rules: vec![rule(0, 97, &[0, 0, 0]); 252] };
        table.rules[place].after.clear();
        let calls = Calls::new(&table, &[]);
        for (moves, wanted) in [(1, 1), (2, 0), (3, 0), (4, 1)] {
            let answer = calls.answer(&mut rng, &[0], &vec![97; moves])?;
            ensure_eq!(answer, wanted, "{moves} moves, the last by rule {place}");
        }
    }
    Ok(())
}

/// Every way in which several checks fail at once: the answer is the first one by the order that is written here.
pub fn order_of_refusals() -> Outcome {
    let mut rng = Rng::new(1);
    let logs: [(i32, Vec<u8>); 5] =
        [(0, vec![97, 0]), (11, vec![97]), (11, vec![97; 255]), (11, vec![97; 257]), (11, vec![97; 258])];
    for (space, len) in [(0, SPACE), (1, SPACE - 1)] {
        for (image, bytes) in images_by_refusal() {
            for (list, alike) in lists_by_refusal() {
                let calls = Calls { image: bytes.clone(), alike };
                for ((plan, jobs), (log, moves)) in
                    plans_by_refusal().iter().flat_map(|plan| logs.iter().map(move |log| (plan, log)))
                {
                    let due = [space, image, list, *plan, *log];
                    let wanted = due.iter().find(|&&refusal| refusal != 0).map_or(1, |refusal| -refusal);
                    let answer = calls.replayed(&mut rng, jobs, moves, len)?;
                    ensure!(answer == wanted, "{answer} where {due:?} are due");
                }
            }
        }
    }
    Ok(())
}
