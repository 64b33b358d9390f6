//! Cases with random numbers.
use crate::calls::Calls;
use gindrazoma::raw::plan_growth;
use outside::damage::damaged;
use outside::growth::{by_components, by_plans, classes, highest_norm, Asked, Classes, LARGE, SMALL, TWO_JOBS};
use outside::harness::Outcome;
use outside::refusals::{of_image, of_plans, table_of_image};
use outside::refused::any_plan;
use outside::repeated::{one_thing_changed, write_again};
use outside::rng::Rng;
use outside::second::Second;
use outside::shapes::{Made, Shape, SHAPES};
use outside::tally::Tally;
use outside::{ensure, ensure_eq};

/// Each job of a table and a plan, beside the jobs that reach each other; also with the rules in another order, and written again.
pub fn of_shape(rng: &mut Rng, shape: Shape) -> Outcome {
    let mut made = Made::new(shape, rng);
    let mut plans: Vec<_> = (0..made.table.jobs as u8).map(|job| vec![job]).collect();
    plans.push(made.plan(rng, 4096));
    for _ in 0..2 {
        for plan in &plans {
            Calls::new(&made.table, plan).expect(by_components(&made.table, plan))?;
        }
        write_again(rng, &mut made.table);
        rng.shuffle(&mut made.table.rules);
    }
    Ok(())
}

pub const ANSWERS: [&str; 2] = [FINITE, ENDLESS];

const FINITE: &str = "finite";
const ENDLESS: &str = "endless";

/// Tables of up to 24 jobs in which something grows, or nearly so.
pub fn large(rng: &mut Rng, answers: &Tally) -> Outcome {
    let asked = Asked::new(rng, &LARGE);
    Calls::of(&asked).expect(asked.answer())?;
    answers.came(ANSWERS[(asked.answer() % 2) as usize]);
    Ok(())
}

pub const REACHED: [&str; 4] = [ALL_PLANS, LONG_PLANS, ALL_CLASSES, HIGH_NORMS];

const ALL_PLANS: &str = "finite: all plans that are reached";
const LONG_PLANS: &str = "endless: a plan that is too long for a finite one";
const ALL_CLASSES: &str = "finite: all classes of bisimilar plans that are reached";
const HIGH_NORMS: &str = "endless: plans of ever greater norms";

/// The most plans that are looked at, and the most classes.
const PLANS: usize = 4000;

fn small(rng: &mut Rng) -> Asked {
    let size = if rng.once_in(3) { &TWO_JOBS } else { &SMALL };
    let mut asked = Asked::new(rng, size);
    asked.plan.truncate(2);
    asked
}

/// All plans that are reached: how many jobs stand in them, and whether one is too long.
pub fn plans_that_are_reached(rng: &mut Rng, reached: &Tally) -> Outcome {
    let asked = small(rng);
    if let Some(answer) = by_plans(&asked.made.table, &asked.plan, PLANS) {
        ensure_eq!(asked.answer(), answer, "{:?} over {:?} by components", asked.plan, asked.made.table);
        Calls::of(&asked).expect(answer)?;
        reached.came(if answer % 2 == 0 { ALL_PLANS } else { LONG_PLANS });
    }
    Ok(())
}

/// The classes of bisimilar plans, by the second comparer: of a finite plan they are so many and no more, whatever norm is allowed; from an
/// endless one a norm is reached that is beyond any finite one's, and beyond four times as much.
pub fn classes_that_are_reached(rng: &mut Rng, reached: &Tally) -> Outcome {
    let asked = small(rng);
    let second = Second::new(&asked.made.table);
    second.certify()?;
    let highest = highest_norm(&asked.made, &asked.plan);
    let found = [1, 2, 4].map(|times| classes(&second, &asked.plan, times * highest, PLANS));
    let [Some(first), Some(further), Some(furthest)] = found else { return Ok(()) };
    ensure!(first == further && first == furthest, "{first:?}, {further:?} and {furthest:?} for {:?}", asked.plan);
    let endless = first == Classes::Beyond;
    let answer = Calls::of(&asked).answer()?;
    ensure_eq!(answer % 2 == 1, endless, "{:?} over {:?}: {first:?}", asked.plan, asked.made.table);
    reached.came(if endless { HIGH_NORMS } else { ALL_CLASSES });
    Ok(())
}

/// A plan is endless exactly if a plan that it becomes by one move is, and reaches what those reach. Two plans in a row reach what both
/// do, in either order.
pub fn moves_and_rows(rng: &mut Rng) -> Outcome {
    let Asked { made, plan } = Asked::new(rng, &LARGE);
    let image = made.table.image();
    let answer = plan_growth(&image, &plan);
    let next: Vec<i32> = made.table.moves(&plan).iter().map(|(_, rest)| plan_growth(&image, rest)).collect();
    ensure!(next.iter().all(|&rest| (0..=answer).contains(&rest)), "{answer} becomes {next:?}: {plan:?} over {:?}", made.table);
    ensure_eq!(next.iter().any(|rest| rest % 2 == 1), answer % 2 == 1, "{plan:?} over {:?}", made.table);
    let other = made.plan(rng, 1000);
    let [both, turned] = [[&plan[..], &other].concat(), [&other[..], &plan].concat()].map(|row| plan_growth(&image, &row));
    let alone = plan_growth(&image, &other);
    ensure_eq!(both, turned, "{plan:?} before and behind {other:?} over {:?}", made.table);
    ensure!(both >= answer.max(alone) && both / 2 <= answer / 2 + alone / 2, "{both} from {answer} and {alone}");
    ensure_eq!(both % 2, (answer | alone) % 2, "{plan:?} and {other:?} over {:?}", made.table);
    Ok(())
}

/// A table, and the same with one thing changed in one of its rules, for every rule in turn.
pub fn one_rule_changed(rng: &mut Rng) -> Outcome {
    let asked = Asked::new(rng, &LARGE);
    let table = &asked.made.table;
    for i in (0..table.rules.len()).step_by(rng.range(1, 8)) {
        let mut other = table.clone();
        other.rules[i] = one_thing_changed(rng, table.jobs, &table.rules[i]);
        let calls = Calls::new(&other, &asked.plan);
        match of_plans(&calls.image, &[&asked.plan]) {
            0 => calls.expect(by_components(&other, &asked.plan))?,
            refusal => ensure_eq!(calls.answer()?, -i32::from(refusal), "rule {i} of {table:?} as {:?}", other.rules[i]),
        }
    }
    Ok(())
}

/// Calls over several tables in any order: each is answered as if it were the only one.
pub fn one_after_the_other(rng: &mut Rng) -> Outcome {
    let asked: Vec<Asked> = (0..6).map(|_| Asked::new(rng, &LARGE)).collect();
    for _ in 0..30 {
        let one = rng.pick(&asked);
        Calls::of(one).expect(one.answer())?;
    }
    Ok(())
}

/// Any damage to image or plan: the refusal, or the answer over what they mean.
pub fn refused_calls(rng: &mut Rng) -> Outcome {
    let made = if rng.once_in(2) { Made::new(*rng.pick(&SHAPES), rng) } else { Asked::new(rng, &LARGE).made };
    let mut calls = Calls::new(&made.table, &any_plan(rng, &made));
    if rng.once_in(2) {
        calls.image = damaged(rng, &calls.image);
    }
    match of_plans(&calls.image, &[&calls.plan]) {
        0 => calls.expect(by_components(&table_of_image(&calls.image), &calls.plan)),
        refusal => {
            ensure_eq!(calls.answer()?, -i32::from(refusal), "{:?} over {:?}", calls.plan, calls.image);
            ensure_eq!(plan_growth(&calls.image, &[]), -i32::from(of_image(&calls.image)), "no plan over {:?}", calls.image);
            Ok(())
        }
    }
}
