//! Tables with a choice of outcome and without, against the rows of each job and move; and what comparing plans says about their
//! complete runs.
mod calls;
mod fixed;
mod random;
mod runs;

use outside::harness::{often, Suite};
use outside::outcomes::{kinds, KINDS};
use outside::shapes::{Shape, SHAPES};
use outside::tally::Tally;
use std::process::ExitCode;

fn main() -> ExitCode {
    let (answers, pairs) = (Tally::of(&random::ANSWERS), Tally::of(&runs::KINDS));
    let mut suite = Suite::new();
    suite.fixed("tables to try", fixed::tables_to_try);
    suite.fixed("S1 and S2", fixed::s1_and_s2);
    suite.fixed("areas that coincide", fixed::areas_that_coincide);
    suite.fixed("moves of two bytes", fixed::moves_of_two_bytes);
    suite.fixed("every place of a full image", fixed::every_place_of_a_full_image);
    suite.fixed("lengths of lists", fixed::lengths_of_lists);
    suite.fixed("the order of refusals", fixed::order_of_refusals);
    suite.fixed("every kind of table", || often(&KINDS, |rng| kinds(&random::any_listed(rng))));
    for shape in SHAPES {
        let count = if shape == Shape::Full { 40 } else { 200 };
        suite.random(&format!("shape {shape:?}"), count, move |rng| random::under_a_list(rng, shape));
    }
    suite.random("few choices", 4000, answers.counted(random::few_choices));
    suite.random("one rule changed", 300, random::one_rule_changed);
    suite.random("one call after the other", 100, random::one_after_the_other);
    suite.random("refused calls", 4000, random::refused_calls);
    suite.random("plans whose runs end", 1500, pairs.counted(runs::plans_whose_runs_end));
    suite.random("plans whose runs may go on", 1500, pairs.counted(runs::plans_whose_runs_may_go_on));
    suite.fixed("how often each answer came", move || answers.all_came());
    suite.fixed("how often each kind of pair came", move || pairs.all_came());
    suite.finish()
}
