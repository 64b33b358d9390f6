//! The plain programs beside the second comparer, the second way to first runs and the replay by all plans that are reached: what the
//! benchmark measures against answers rightly, and writes moves by the definitions. The library and they on the plans, the alike
//! lists and the logs that are timed, which are as they shall be. The library on the tables that are asked for a choice of outcome,
//! on the plans that are asked whether they grow, and on plans over two tables.
mod logs;

use bench::alike::{areas, ALIKE, LISTS};
use bench::calls::{runs, COMPARE, RUN};
use bench::growth::{growth_input, names as growth_names, GROWTH, GROWTH_TABLES};
use bench::inputs::{hostile_runs, single_table, Input, SINGLE_TABLES};
use bench::joined::{self, joined_input, short_plans, HALF, HALVES, JOINED};
use bench::logs::{self as timed_logs, LOG_TABLES};
use bench::outcomes::{names, outcome_input, OUTCOME};
use bench::pairs::{place_of, NEAR, PLAN_NORM};
use outside::alike::{self, moves_of, PAIRS_MAX};
use outside::damage::damaged;
use outside::first_run::{bytes_of, first_run};
use outside::growth::{by_components, Asked, LARGE};
use outside::harness::{Outcome, Suite};
use outside::joined::cut;
use outside::outcomes::without_choice;
use outside::refusals::{of_alike, of_plans, table_of_image};
use outside::refused::any_plan;
use outside::repeated::repeated;
use outside::rng::Rng;
use outside::second::Second;
use outside::shapes::{Made, Shape, SHAPES};
use outside::ties::tied;
use outside::{ensure, ensure_eq};
use std::process::ExitCode;

type Compare = fn(&[u8], &[u8], &[u8], &mut [u8]) -> i32;
type Form = fn(&[u8], &[u8], &mut [u8], &mut [u8]) -> i32;

const METHODS: [(&str, Compare, Form); 3] = [
    ("first", plain::first::compare, plain::first::prime_form),
    ("base", plain::base::compare, plain::base::prime_form),
    ("rows", plain::rows::compare, plain::rows::prime_form),
];

fn main() -> ExitCode {
    let mut suite = Suite::new();
    for shape in SHAPES {
        let count = if shape == Shape::Full { 30 } else { 200 };
        suite.random(&format!("plain, shape {shape:?}"), count, move |rng| agrees(&Made::new(shape, rng), rng));
    }
    suite.random("plain, repeated rules", 200, repeated_rules);
    suite.random("plain, tied runs", 200, tied_runs);
    suite.random("plain, logs", 300, logs::on_plans);
    suite.random("plain, refused logs", 1000, logs::refused);
    suite.random("plain, growth of plans", 1000, grown);
    for (index, (name, ..)) in SINGLE_TABLES.iter().enumerate() {
        suite.fixed(&format!("1,000 pairs, {name}"), move || one_table(index));
    }
    for input in hostile_runs() {
        suite.fixed(&format!("run, {}", input.name), move || same_runs(&input, 1));
    }
    for (index, (name, ..)) in LOG_TABLES.iter().enumerate() {
        suite.fixed(&format!("log, {name}"), move || logs::timed(index));
    }
    for (index, name) in names().into_iter().enumerate() {
        suite.fixed(&format!("outcome, {name}"), move || outcome(index));
    }
    for (index, name) in growth_names().into_iter().enumerate() {
        suite.fixed(&format!("growth, {name}"), move || growth(index));
    }
    for (index, (name, ..)) in SINGLE_TABLES.iter().enumerate() {
        suite.fixed(&format!("1,000 pairs over two tables, {name}"), move || two_tables(index));
    }
    suite.finish()
}

fn repeated_rules(rng: &mut Rng) -> Outcome {
    let made = repeated(rng);
    ensure!(made.table.different_rules() < made.table.rules.len(), "no rule is repeated");
    agrees(&made, rng)
}

fn tied_runs(rng: &mut Rng) -> Outcome {
    let made = tied(rng, 24, 512);
    let plan = made.plan(rng, 1000);
    runs_and_moves(&made, &made.table.image(), &plan)
}

fn agrees(made: &Made, rng: &mut Rng) -> Outcome {
    let (image, second) = (made.table.image(), Second::new(&made.table));
    second.certify()?;
    let mut space = rng.bytes(plain::WORKSPACE);
    for _ in 0..6 {
        let p = made.plan(rng, 600);
        let q = if rng.once_in(2) { made.rewritten(rng, &p) } else { made.perturbed(rng, &p) };
        let (same, form) = (i32::from(second.same(&p, &q)), second.form(&p));
        for (name, compare, prime_form) in METHODS {
            ensure_eq!(compare(&image, &p, &q, &mut space), same, "{name}: {p:?} and {q:?} over {:?}", made.table);
            let mut out = [0; 4096];
            let n = prime_form(&image, &p, &mut out, &mut space);
            ensure!(n >= 0 && out[..n as usize] == form, "{name}: the form of {p:?} over {:?}", made.table);
            ensure!(out[n as usize..].iter().all(|&b| b == 0), "{name}: the output behind the form of {p:?}");
        }
        ensure_eq!(plain::plan_norm(&image, &p), made.norm(&p) as i32, "the norm of {p:?}");
        runs_and_moves(made, &image, &p)?;
    }
    Ok(())
}

/// The run of a plan that the library and the plain program write, and the moves that the latter writes, into an area of their length
/// and into one that is too short.
fn runs_and_moves(made: &Made, image: &[u8], plan: &[u8]) -> Outcome {
    let wanted = bytes_of(&first_run(&made.table, &made.norms, plan));
    let pair = (plan.to_vec(), Vec::new());
    for (name, call) in RUN {
        let mut run = vec![0; wanted.len()];
        ensure_eq!(call(image, &pair, &mut run), run.len() as i32, "{name}: the run of {plan:?}");
        ensure_eq!(run, wanted, "{name}: the run of {plan:?} over {:?}", made.table);
        if let Some((_, short)) = run.split_last_mut() {
            ensure_eq!(call(image, &pair, short), -10, "{name}: the run of {plan:?} into an area one too short");
        }
    }
    let moves = made.table.moves(plan);
    for index in [moves.len() as u32, u32::MAX] {
        ensure_eq!(plain::nth_move(image, plan, index, &mut []), 0, "move {index} of {plan:?}");
    }
    for (index, (action, rest)) in (0..).zip(moves) {
        let wanted = [&action.to_le_bytes(), &rest[..]].concat();
        let mut out = vec![0; wanted.len()];
        ensure_eq!(
            plain::nth_move(image, plan, index, &mut out[1..]),
            -10,
            "move {index} of {plan:?} into an area one too short"
        );
        ensure_eq!(plain::nth_move(image, plan, index, &mut out), wanted.len() as i32, "move {index} of {plan:?}");
        ensure_eq!(out, wanted, "move {index} of {plan:?} over {:?}", made.table);
    }
    Ok(())
}

/// The pairs of a table are as they shall be, and each program answers rightly.
fn one_table(index: usize) -> Outcome {
    let input = single_table(1, index, 1000);
    let second = Second::new(&input.table);
    second.certify()?;
    ensure_eq!((input.table.jobs, input.pairs.len()), (24, 1000), "jobs and pairs of {}", input.name);
    ensure!(input.name.starts_with(&format!("{} rules", input.table.rules.len())), "the rules of {}", input.name);
    ensure!(SINGLE_TABLES[index].1.contains(&second.primes()), "the primes of {}", input.name);
    let mut space = vec![0; plain::WORKSPACE];
    for (i, pair) in input.pairs.iter().enumerate() {
        as_asked(&second, &pair.0, &pair.1, place_of(i)).map_err(|fault| format!("{}, pair {i}: {fault}", input.name))?;
        for (name, call) in COMPARE {
            let same = i32::from(place_of(i).is_none());
            ensure_eq!(call(&input.image, pair, &mut space), same, "{name} on pair {i} over {}", input.name);
        }
    }
    under_lists(&input)?;
    same_runs(&input, 12)
}

/// The table is what its writing for each list is under it, the first list has moves of rules alone, and all answers are right.
fn under_lists(input: &Input) -> Outcome {
    for (i, (name, list)) in LISTS.iter().enumerate() {
        let (raw, pairs) = list(&input.table);
        ensure_eq!((pairs.len(), of_alike(&alike::bytes_of(&pairs))), (PAIRS_MAX, 0), "pairs and refusal of list '{name}'");
        ensure!(raw.replaced(&pairs) == input.table, "{} under the list '{name}' is another table", input.name);
        let moves = moves_of(&raw);
        ensure!(i > 0 || pairs.iter().all(|pair| moves.contains(&pair.0)), "no rule makes a move of the list '{name}'");
    }
    let (areas, mut space) = (areas(&input.table), vec![0; plain::WORKSPACE]);
    for (i, pair) in input.pairs.iter().enumerate() {
        for (name, call) in ALIKE {
            let same = i32::from(place_of(i).is_none());
            ensure_eq!(call(&areas, pair, &mut space), same, "{name} on pair {i} over {}", input.name);
        }
    }
    Ok(())
}

/// The library and the plain programs write the same runs of the left plans; so many first ones are worked out the second way, too.
fn same_runs(input: &Input, worked_out: usize) -> Outcome {
    let norms = input.table.finite_norms().expect("norms of jobs");
    for (i, pair) in input.pairs.iter().enumerate() {
        let [library, at_first, fast] = runs(&input.image, pair);
        ensure_eq!(library.0 as usize, 2 * PLAN_NORM, "the bytes of run {i} over {}", input.name);
        ensure!(library == at_first && library == fast, "run {i} over {} differs", input.name);
        let first = || [bytes_of(&first_run(&input.table, &norms, &pair.0)), vec![0; 2]].concat();
        ensure!(i >= worked_out || fast.1 == first(), "run {i} over {} is not the first", input.name);
    }
    Ok(())
}

/// Plans of norm 4,096: the same, and no job of one stands where it stands in the other; or first different near a place.
fn as_asked(second: &Second, p: &[u8], q: &[u8], place: Option<usize>) -> Outcome {
    for plan in [p, q] {
        ensure_eq!(second.norm(plan) as usize, PLAN_NORM, "the norm of {plan:?}");
    }
    let Some(place) = place else {
        ensure!(second.same(p, q), "{p:?} and {q:?} are not the same");
        let (left, right) = (with_norms(second, p), with_norms(second, q));
        ensure!(left.iter().all(|job| right.binary_search(job).is_err()), "{p:?} and {q:?} have a job in common");
        return Ok(());
    };
    let (left, right) = (second.form(p), second.form(q));
    let alike = left.iter().zip(&right).take_while(|(x, y)| x == y).count();
    ensure!(alike < left.len(), "{p:?} and {q:?} are the same");
    let norm = second.norm(&left[..alike]) as usize;
    ensure!((place.saturating_sub(NEAR)..=place + 2 * NEAR).contains(&norm), "{p:?} and {q:?} differ first behind norm {norm}");
    Ok(())
}

/// The jobs of a plan, each with the norm of those before it.
fn with_norms(second: &Second, plan: &[u8]) -> Vec<(u64, u8)> {
    let mut norm = 0;
    plan.iter()
        .map(|&j| {
            norm += second.norms[j as usize];
            (norm - second.norms[j as usize], j)
        })
        .collect()
}

/// The library answers rightly on a table that is asked for a choice, without a list and under one; those besides the tables that are
/// timed alone have none.
fn outcome(index: usize) -> Outcome {
    let input = outcome_input(index);
    let without = without_choice(&input.table);
    ensure!(without || index < SINGLE_TABLES.len(), "{:?} has a choice", input.table);
    for (name, call) in OUTCOME {
        let answer = call(&timed_logs::areas(&input.table), &input.pairs[0], &mut []);
        ensure_eq!(answer, i32::from(without), "{name}: {:?}", input.table);
    }
    Ok(())
}

/// Tables that grow or nearly so, and perhaps damage to image and plan: the refusal of the documents, or the answer over what they mean.
fn grown(rng: &mut Rng) -> Outcome {
    let asked = Asked::new(rng, &LARGE);
    let (mut image, mut plan) = (asked.made.table.image(), asked.plan);
    if rng.once_in(3) {
        image = damaged(rng, &image);
    }
    if rng.once_in(3) {
        plan = any_plan(rng, &asked.made);
    }
    let wanted = match of_plans(&image, &[&plan]) {
        0 => by_components(&table_of_image(&image), &plan),
        refusal => -i32::from(refusal),
    };
    for (name, call) in GROWTH {
        let answer = call(&image, &(plan.clone(), Vec::new()), &mut []);
        ensure_eq!(answer, wanted, "{name}: {plan:?} over {:?}", image);
    }
    Ok(())
}

/// Both programs answer rightly on a plan that is timed; those besides the tables that are timed alone have the answers that they shall have.
fn growth(index: usize) -> Outcome {
    let input = growth_input(index);
    let (plan, _) = &input.pairs[0];
    let wanted = by_components(&input.table, plan);
    if let Some(further) = index.checked_sub(SINGLE_TABLES.len()) {
        ensure_eq!(wanted, GROWTH_TABLES[further].1, "the answer about {}", input.name);
    }
    for (name, call) in GROWTH {
        ensure_eq!(call(&input.image, &input.pairs[0], &mut []), wanted, "{name}: {plan:?} over {:?}", input.table);
    }
    Ok(())
}

/// The two tables and their pairs are as they shall be, and each program answers rightly, on plans of one job, too.
fn two_tables(index: usize) -> Outcome {
    let input = joined_input(1, index, 1000);
    let second = Second::new(&input.table);
    second.certify()?;
    let [left, right] = cut(&input.table, HALF);
    let sizes = [left.jobs, right.jobs, left.rules.len(), right.rules.len()];
    let rules = input.table.rules.len() / 2;
    ensure_eq!(sizes, [HALF, HALF, rules, rules], "the jobs and rules of {}", input.name);
    ensure!(left.joined(&right) == input.table, "{} is not the joined table of its halves", input.name);
    ensure!(input.name.starts_with(&format!("{} rules", 2 * rules)), "the rules of {}", input.name);
    ensure!(HALVES[index].0.contains(&second.primes()), "the primes of {}", input.name);
    for (i, (p, rights)) in input.pairs.iter().enumerate() {
        let (right, joined) = rights.split_at(rights.len() / 2);
        ensure_eq!(left.numbered_on(right), joined, "the right plan of pair {i} over {}", input.name);
        as_asked(&second, p, joined, place_of(i)).map_err(|fault| format!("{}, pair {i}: {fault}", input.name))?;
    }
    right_over_two_tables(&second, &input)?;
    right_over_two_tables(&second, &short_plans(&input))
}

fn right_over_two_tables(second: &Second, input: &Input) -> Outcome {
    let (areas, mut space) = (joined::areas(&input.table), vec![0; plain::WORKSPACE]);
    for (i, pair) in input.pairs.iter().enumerate() {
        let same = i32::from(second.same(&pair.0, &pair.1[pair.1.len() / 2..]));
        for (name, call) in JOINED {
            ensure_eq!(call(&areas, pair, &mut space), same, "{name} on pair {i} over {}", input.name);
        }
    }
    Ok(())
}
