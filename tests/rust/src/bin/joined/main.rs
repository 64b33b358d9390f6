//! A plan over one table against a plan over another, beside the second comparer on the joined table.
mod calls;
mod fixed;
mod random;

use outside::harness::{often, Suite};
use outside::joined::{kinds, Tables, KINDS};
use outside::rng::Rng;
use outside::shapes::{Shape, SHAPES};
use outside::tally::Tally;
use std::process::ExitCode;

fn main() -> ExitCode {
    let (answers, refused) = (Tally::of(&random::ANSWERS), Tally::of(&random::REFUSED));
    let mut suite = Suite::new();
    suite.fixed("tables to try", fixed::tables_to_try);
    suite.fixed("every two numbers of jobs", fixed::every_two_numbers_of_jobs);
    suite.fixed("every two numbers of rules", fixed::every_two_numbers_of_rules);
    suite.fixed("every place of two tables", fixed::every_place_of_two_tables);
    suite.fixed("areas that coincide", fixed::areas_that_coincide);
    suite.fixed("long plans", fixed::long_plans);
    suite.fixed("norms of jobs", fixed::norms_of_jobs);
    suite.fixed("workspaces", fixed::workspaces);
    suite.fixed("lengths of images", fixed::lengths_of_images);
    suite.fixed("every pair of a list", fixed::every_pair_of_a_list);
    suite.fixed("the order of refusals", fixed::order_of_refusals);
    suite.fixed("every kind of two tables", || often(&KINDS, |rng| kinds(&some_tables(rng))));
    for shape in SHAPES {
        let (count, answers) = (if shape == Shape::Full { 80 } else { 200 }, answers.clone());
        suite.random(&format!("shape {shape:?}"), count, move |rng| random::of_shape(rng, shape, &answers));
    }
    suite.random("tables made one without the other", 500, answers.counted(random::unrelated));
    suite.random("plans of norm 4,096", 300, answers.counted(random::long_plans));
    suite.random("tables joined by a list", 300, answers.counted(random::joined_by_a_list));
    suite.random("two copies of a table", 3000, answers.counted(random::two_copies));
    suite.random("three tables", 1000, answers.counted(random::three_tables));
    suite.random("through the joined table", 500, random::through_the_joined_table);
    suite.random("rules in another order", 300, random::rules_in_another_order);
    suite.random("one call after the other", 100, random::one_after_the_other);
    suite.random("refused calls", 4000, refused.counted(random::refused_calls));
    suite.fixed("how often each answer came", move || answers.all_came());
    suite.fixed("how often each refusal came", move || refused.all_came());
    suite.finish()
}

fn some_tables(rng: &mut Rng) -> Tables {
    Tables::any(*rng.pick(&SHAPES), rng).with_any_list(rng)
}
