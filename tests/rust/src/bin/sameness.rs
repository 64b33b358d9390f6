//! Comparisons and prime forms, against the second comparer.
use gindrazoma::raw::{compare, prime_form};
use outside::area::Area;
use outside::damage::damaged;
use outside::harness::{Outcome, Suite};
use outside::refusals::of_plans;
use outside::rng::Rng;
use outside::second::Second;
use outside::shapes::{Made, Shape, SHAPES};
use outside::space::{cleared, some_length, SPACE};
use outside::table::{rule, Plan, Table};
use outside::{ensure, ensure_eq};
use std::process::ExitCode;

/// The most positions of a game that are replayed against every answer.
const POSITIONS: usize = 200;

fn main() -> ExitCode {
    let mut suite = Suite::new();
    suite.fixed("plans to try", plans_to_try);
    suite.fixed("planners' mistakes", planners_mistakes);
    suite.fixed("moves of two bytes", moves_of_two_bytes);
    for shape in SHAPES {
        let count = match shape {
            Shape::Full => 40,
            Shape::Light | Shape::Chains | Shape::OneMove => 250,
            _ => 500,
        };
        suite.random(&format!("shape {shape:?}"), count, move |rng| shape_case(rng, shape));
    }
    suite.random("plans of norm 4,096", 60, long_plans);
    suite.random("refused calls", 1500, refused_calls);
    suite.finish()
}

/// The answer, with what must hold of the workspace after it.
fn compared(rng: &mut Rng, image: &[u8], left: &[u8], right: &[u8], len: usize) -> Result<i32, String> {
    let mut space = Area::new(rng, len);
    let answer = compare(image, left, right, space.bytes());
    cleared(&space, len, answer)?;
    Ok(answer)
}

fn formed(rng: &mut Rng, image: &[u8], plan: &[u8], out: &mut Area, len: usize) -> Result<i32, String> {
    let mut space = Area::new(rng, len);
    let answer = prime_form(image, plan, out.bytes(), &mut space.bytes()[..len]);
    cleared(&space, len, answer)?;
    ensure!(out.kept_beyond(answer.max(0) as usize), "bytes beyond the output have changed");
    Ok(answer)
}

/// The prime form, made twice in other workspaces and outputs, and once with an output that is too short.
fn form(rng: &mut Rng, image: &[u8], plan: &[u8]) -> Result<Plan, String> {
    let len = some_length(rng);
    let mut out = Area::new(rng, 4096);
    let n = formed(rng, image, plan, &mut out, len)?;
    ensure!(n >= 0, "the prime form of {plan:?} is refused {n}");
    let form = out.first(n as usize).to_vec();
    let mut exact = Area::new(rng, form.len());
    ensure_eq!(formed(rng, image, plan, &mut exact, SPACE)?, n, "the form into an area of its length");
    ensure_eq!(exact.first(form.len()), &form[..], "the form made a second time");
    if n > 0 {
        let mut short = Area::new(rng, form.len() - 1);
        ensure_eq!(formed(rng, image, plan, &mut short, SPACE)?, -10, "the form into an area one too short");
    }
    Ok(form)
}

fn shape_case(rng: &mut Rng, shape: Shape) -> Outcome {
    let made = Made::new(shape, rng);
    let image = made.table.image();
    let second = Second::new(&made.table);
    second.certify()?;
    prime_jobs(rng, &made, &second, &image)?;
    for _ in 0..4 {
        let most = if rng.once_in(8) { 4096 } else { 150 };
        let p = made.plan(rng, most);
        let rewritten = made.rewritten(rng, &p);
        pair(rng, &made, &second, &image, &p, &rewritten)?;
        ensure!(second.same(&p, &rewritten), "{p:?} and {rewritten:?} are the same by the table's making");
        let q = if rng.once_in(4) { made.plan(rng, most) } else { made.perturbed(rng, &rewritten) };
        pair(rng, &made, &second, &image, &p, &q)?;
    }
    Ok(())
}

/// A pair in both orders, with both forms; what is apart is told apart by the game.
fn pair(rng: &mut Rng, made: &Made, second: &Second, image: &[u8], p: &[u8], q: &[u8]) -> Outcome {
    let same = second.same(p, q);
    let len = some_length(rng);
    ensure_eq!(compared(rng, image, p, q, len)?, i32::from(same), "{p:?} and {q:?} over {:?}", made.table);
    ensure_eq!(compared(rng, image, q, p, SPACE)?, i32::from(same), "{q:?} and {p:?} over {:?}", made.table);
    if !same {
        second.told_apart(p, q, POSITIONS, rng)?;
    }
    let (f, g) = (form(rng, image, p)?, form(rng, image, q)?);
    ensure_eq!(f == g, same, "equal forms of {p:?} and {q:?} over {:?}", made.table);
    ensure_eq!(f, second.form(p), "the form of {p:?} over {:?}", made.table);
    ensure_eq!(form(rng, image, &f)?, f, "the form of a form");
    ensure_eq!(compared(rng, image, p, &f, SPACE)?, 1, "{p:?} and its form");
    ensure!(f.len() >= p.len(), "the form {f:?} is shorter than its plan {p:?}");
    ensure!(!same || f.len() >= q.len(), "the form {f:?} is shorter than {q:?}, which is the same");
    Ok(())
}

/// A job stands in forms exactly if it is its own form: no plan of two or more jobs, no lower job is the same.
fn prime_jobs(rng: &mut Rng, made: &Made, second: &Second, image: &[u8]) -> Outcome {
    let jobs = made.table.jobs as u8;
    let forms = (0..jobs).map(|j| form(rng, image, &[j])).collect::<Result<Vec<Plan>, String>>()?;
    for j in 0..jobs {
        let f = &forms[j as usize];
        ensure_eq!(f, &second.form(&[j]), "the form of job {j} over {:?}", made.table);
        ensure!(f.iter().all(|&x| forms[x as usize] == [x]), "the form {f:?} of job {j} is not of primes");
        if f.len() == 1 {
            let lowest = (0..jobs).find(|&i| second.same(&[i], &[j]));
            ensure_eq!(Some(f[0]), lowest, "the lowest job that is the same as the prime {j}");
        }
    }
    Ok(())
}

fn answers(table: &Table, pairs: &[(&[u8], &[u8], bool)]) -> Outcome {
    let (image, mut rng) = (table.image(), Rng::new(1));
    for &(p, q, same) in pairs {
        ensure_eq!(compared(&mut rng, &image, p, q, SPACE)?, i32::from(same), "{p:?} and {q:?}");
        ensure_eq!(compared(&mut rng, &image, q, p, SPACE)?, i32::from(same), "{q:?} and {p:?}");
    }
    Ok(())
}

fn forms(table: &Table, pairs: &[(&[u8], &[u8])]) -> Outcome {
    for &(p, f) in pairs {
        ensure_eq!(form(&mut Rng::new(1), &table.image(), p)?, f, "the form of {p:?}");
    }
    Ok(())
}

fn plans_to_try() -> Outcome {
    let mut rng = Rng::new(1);
    let t = Table::new(4, &[(0, 97, &[]), (1, 97, &[0]), (2, 97, &[1]), (3, 98, &[0])]);
    answers(&t, &[(&[2, 3], &[0, 1, 3], true), (&[3, 0], &[0, 3], false), (&[], &[], true)])?;
    ensure_eq!(compared(&mut rng, &t.image(), &[0], &[4], SPACE)?, -8, "(0) and (4)");
    forms(&t, &[(&[2, 3], &[0, 0, 0, 3]), (&[0], &[0]), (&[1], &[0, 0]), (&[2], &[0, 0, 0]), (&[3], &[3]), (&[], &[])])?;
    let xyz = Table::new(3, &[(0, 97, &[1]), (1, 97, &[1, 2]), (1, 98, &[]), (2, 98, &[])]);
    answers(&xyz, &[(&[0], &[1, 2], false)])?;
    forms(&xyz, &[(&[0], &[0]), (&[1], &[1]), (&[2], &[2])])?;
    for doubled in [0, 1] {
        let twice = Table::new(2, &[(0, 97, &[]), (1, 97, &[]), (doubled, 97, &[])]);
        answers(&twice, &[(&[0], &[1], true)])?;
        forms(&twice, &[(&[1], &[0])])?;
    }
    for (len, expected) in [(0, -1), (65535, -1), (65536, 1), (65537, 1)] {
        ensure_eq!(compared(&mut rng, &t.image(), &[2, 3], &[0, 1, 3], len)?, expected, "a workspace of {len} bytes");
        let mut out = Area::new(&mut rng, 4);
        ensure_eq!(
            formed(&mut rng, &t.image(), &[2, 3], &mut out, len)?,
            if expected < 0 { -1 } else { 4 },
            "a workspace of {len}"
        );
    }
    Ok(())
}

fn planners_mistakes() -> Outcome {
    // equal complete runs; the moves of the left plan only
    let s = Table::new(5, &[(0, 97, &[1]), (1, 98, &[]), (1, 99, &[]), (2, 97, &[3]), (2, 97, &[4]), (3, 98, &[]), (4, 99, &[])]);
    answers(&s, &[(&[0], &[2], false)])?;
    // a fixed number of rounds: job k makes b only k times
    let mut chain = Table { jobs: 24, rules: vec![rule(0, 97, &[])] };
    for k in 1..24 {
        chain.rules.extend([rule(k, 97, &[]), rule(k, 98, &[k - 1])]);
    }
    for k in 0..23 {
        answers(&chain, &[(&[k], &[k + 1], false)])?;
    }
    // order by number: the longer job has the lower number
    let order = Table::new(2, &[(0, 97, &[1]), (1, 97, &[])]);
    answers(&order, &[(&[0], &[1, 1], true)])?;
    forms(&order, &[(&[0], &[1, 1]), (&[0, 1, 0], &[1, 1, 1, 1, 1])])?;
    // rules matched one to one
    let twice = Table::new(3, &[(0, 97, &[2]), (1, 97, &[2]), (1, 97, &[2]), (1, 97, &[2]), (2, 98, &[])]);
    answers(&twice, &[(&[0], &[1], true), (&[0, 1], &[1, 0], true)])
}

/// Jobs of one move each, and a copy of each: two are the same exactly if their moves are equal in both bytes.
fn moves_of_two_bytes() -> Outcome {
    let moves = [0, 97, 255, 256, 353, 511, 24929, 65280, 65377, 65535];
    let count = moves.len() as u8;
    let rules = (0..2 * count).map(|j| rule(j, moves[usize::from(j % count)], &[])).collect();
    let table = Table { jobs: moves.len() * 2, rules };
    for j in 0..2 * count {
        for k in 0..2 * count {
            answers(&table, &[(&[j], &[k], j % count == k % count), (&[j, k], &[k, j], j % count == k % count)])?;
        }
        forms(&table, &[(&[j, 0], &[j % count, 0])])?;
    }
    Ok(())
}

fn long_plans(rng: &mut Rng) -> Outcome {
    let shape = *rng.pick(&[Shape::Light, Shape::Full, Shape::Long, Shape::Equations, Shape::Near]);
    let made = Made::new(shape, rng);
    let (image, second) = (made.table.image(), Second::new(&made.table));
    second.certify()?;
    let p = made.plan_of_norm(rng, 4096);
    for q in [made.rewritten(rng, &p), made.perturbed(rng, &p)] {
        let same = i32::from(second.same(&p, &q));
        ensure_eq!(compared(rng, &image, &p, &q, SPACE)?, same, "long plans over {:?}", made.table);
        ensure_eq!(compared(rng, &image, &q, &p, SPACE)?, same, "long plans over {:?}", made.table);
        ensure_eq!(form(rng, &image, &q)?, second.form(&q), "the form of a long plan over {:?}", made.table);
    }
    Ok(())
}

fn refused_calls(rng: &mut Rng) -> Outcome {
    let made = Made::new(*rng.pick(&SHAPES), rng);
    let mut image = made.table.image();
    if rng.once_in(2) {
        image = damaged(rng, &image);
    }
    let mut plans = [made.plan(rng, 4096), made.plan(rng, 4096)];
    for plan in &mut plans {
        if rng.once_in(3) {
            *plan = made.plan_of_norm(rng, 4096);
            plan.push(rng.below(made.table.jobs) as u8);
        }
        if rng.once_in(3) {
            plan.insert(rng.below(plan.len() + 1), rng.byte());
        }
    }
    let len = if rng.once_in(5) { rng.below(SPACE) } else { some_length(rng) };
    let refusal = |plans: &[&[u8]]| if len < SPACE { -1 } else { -i32::from(of_plans(&image, plans)) };
    let (p, q) = (&plans[0], &plans[1]);
    let expected = refusal(&[p, q]);
    let answer = compared(rng, &image, p, q, len)?;
    ensure!(answer == expected || expected == 0 && answer >= 0, "compare answers {answer} and not {expected}");
    let expected = refusal(&[p]);
    let mut out = Area::new(rng, 4096);
    let answer = formed(rng, &image, p, &mut out, len)?;
    ensure!(answer == expected || expected == 0 && answer >= 0, "prime form answers {answer} and not {expected}");
    Ok(())
}
