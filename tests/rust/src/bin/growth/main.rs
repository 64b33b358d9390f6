//! Whether plans grow, and how many jobs they reach: against the plans that are reached, the classes of bisimilar ones among them, and
//! the jobs that reach each other.
mod calls;
mod fixed;
mod random;

use outside::growth::{kinds, Asked, KINDS, LARGE};
use outside::harness::{often, Suite};
use outside::shapes::{Shape, SHAPES};
use outside::tally::Tally;
use std::process::ExitCode;

fn main() -> ExitCode {
    let (answers, reached) = (Tally::of(&random::ANSWERS), Tally::of(&random::REACHED));
    let mut suite = Suite::new();
    suite.fixed("plans to try", fixed::plans_to_try);
    suite.fixed("chains and rings", fixed::chains_and_rings);
    suite.fixed("areas that coincide", fixed::areas_that_coincide);
    suite.fixed("every place of a full image", fixed::every_place_of_a_full_image);
    suite.fixed("long plans", fixed::long_plans);
    suite.fixed("norms of jobs", fixed::norms_of_jobs);
    suite.fixed("lengths of images", fixed::lengths_of_images);
    suite.fixed("the order of refusals", fixed::order_of_refusals);
    suite.fixed("every kind of table and plan", || often(&KINDS, |rng| kinds(&Asked::new(rng, &LARGE))));
    for shape in SHAPES {
        let count = if shape == Shape::Full { 40 } else { 200 };
        suite.random(&format!("shape {shape:?}"), count, move |rng| random::of_shape(rng, shape));
    }
    suite.random("tables that grow, or nearly so", 6000, answers.counted(random::large));
    suite.random("plans that are reached", 3000, reached.counted(random::plans_that_are_reached));
    suite.random("classes that are reached", 2000, reached.counted(random::classes_that_are_reached));
    suite.random("moves, and plans in a row", 2000, random::moves_and_rows);
    suite.random("one rule changed", 300, random::one_rule_changed);
    suite.random("one call after the other", 100, random::one_after_the_other);
    suite.random("refused calls", 4000, random::refused_calls);
    suite.fixed("how often each answer came", move || answers.all_came());
    suite.fixed("how often plans and classes were all or too many", move || reached.all_came());
    suite.finish()
}
