//! Cases with random numbers.
use crate::calls::Calls;
use outside::alike::{listed, Listed};
use outside::damage::{damaged, damaged_list};
use outside::harness::Outcome;
use outside::outcomes::{self, without_choice};
use outside::refusals::{of_alike, of_image};
use outside::repeated::{nearly_repeated, one_thing_changed, write_again};
use outside::rng::Rng;
use outside::shapes::{Made, Shape, SHAPES};
use outside::tally::Tally;
use outside::{ensure, ensure_eq};

/// A table of any shape or one of few choices, with a list or without; often one by which moves of rules become one.
pub fn any_listed(rng: &mut Rng) -> Listed {
    let made = match rng.below(6) {
        0 => Made::new(*rng.pick(&SHAPES), rng),
        1 => nearly_repeated(rng),
        _ => outcomes::few_choices(rng),
    };
    if rng.once_in(3) {
        Listed::merged(rng, made)
    } else {
        listed(rng, made)
    }
}

/// The answer under a list is that of the rows under it; also with the rules and pairs in another order, and written again.
pub fn under_a_list(rng: &mut Rng, shape: Shape) -> Outcome {
    let made = Made::new(shape, rng);
    let mut listed = listed(rng, made);
    let without = without_choice(&listed.made.table);
    Calls::of(&listed).expect(without)?;
    Calls::new(&listed.made.table, &[]).expect(without)?;
    write_again(rng, &mut listed.raw);
    rng.shuffle(&mut listed.raw.rules);
    rng.shuffle(&mut listed.pairs);
    Calls::of(&listed).expect(without)
}

pub const ANSWERS: [&str; 3] = [WITHOUT, CHOICE, BY_LIST];

const WITHOUT: &str = "without a choice";
const CHOICE: &str = "a choice, with a list or without";
const BY_LIST: &str = "a choice under the list only";

/// Tables with a choice or two, or none.
pub fn few_choices(rng: &mut Rng, answers: &Tally) -> Outcome {
    let made = outcomes::few_choices(rng);
    let listed = listed(rng, made);
    let calls = Calls::of(&listed);
    let (with, without) = (calls.by_rows(), without_choice(&listed.raw));
    calls.expect(with)?;
    Calls::new(&listed.raw, &[]).expect(without)?;
    ensure!(!with || without, "the list takes a choice away from {:?} under {:?}", listed.raw, listed.pairs);
    answers.came(match (with, without) {
        (true, _) => WITHOUT,
        (false, false) => CHOICE,
        (false, true) => BY_LIST,
    });
    Ok(())
}

/// A table, and the same with one thing changed in one of its rules, for every rule in turn.
pub fn one_rule_changed(rng: &mut Rng) -> Outcome {
    let listed = any_listed(rng);
    for i in (0..listed.raw.rules.len()).step_by(rng.range(1, 8)) {
        let mut calls = Calls::of(&listed);
        let place = one_thing_changed(rng, listed.raw.jobs, &listed.raw.rules[i]).place();
        let at = 512 * (i / 63) + 2 + 8 * (i % 63);
        calls.image[at..at + 8].copy_from_slice(&place);
        calls.image.chunks_mut(512).for_each(outside::table::seal);
        match of_image(&calls.image) {
            0 => calls.expect(calls.by_rows())?,
            refusal => ensure_eq!(calls.answer()?, -i32::from(refusal), "rule {i} of {:?} as {place:?}", listed.raw),
        }
    }
    Ok(())
}

/// Calls over several tables in any order: each is answered as if it were the only one.
pub fn one_after_the_other(rng: &mut Rng) -> Outcome {
    let asked: Vec<Calls> = (0..6).map(|_| Calls::of(&any_listed(rng))).collect();
    for _ in 0..30 {
        let (calls, other) = (rng.pick(&asked), rng.pick(&asked));
        calls.expect(calls.by_rows())?;
        let mixed = Calls { image: calls.image.clone(), alike: other.alike.clone() };
        mixed.expect(mixed.by_rows())?;
    }
    Ok(())
}

/// Any damage to image or list: the refusal, or the answer over what they mean.
pub fn refused_calls(rng: &mut Rng) -> Outcome {
    let mut calls = Calls::of(&any_listed(rng));
    if rng.once_in(2) {
        calls.image = damaged(rng, &calls.image);
    }
    if rng.once_in(2) {
        calls.alike = damaged_list(rng, &calls.alike);
    }
    let refusals = [of_image(&calls.image), of_alike(&calls.alike)];
    match refusals.iter().find(|&&refusal| refusal != 0) {
        None => calls.expect(calls.by_rows()),
        Some(&refusal) => {
            ensure_eq!(calls.answer()?, -i32::from(refusal), "{:?} under {:?}", calls.image, calls.alike);
            Ok(())
        }
    }
}
