//! Logs replayed on plans, against the set of all plans that are reached after each move.
mod calls;
mod fixed;
mod random;

use outside::harness::{often, Suite};
use outside::logs::{ambiguous, kinds, KINDS};
use outside::shapes::{Made, Shape, SHAPES};
use std::process::ExitCode;

fn main() -> ExitCode {
    let mut suite = Suite::new();
    suite.fixed("logs to try", fixed::logs_to_try);
    suite.fixed("areas that coincide", fixed::areas_that_coincide);
    suite.fixed("moves of two bytes", fixed::moves_of_two_bytes);
    suite.fixed("lengths of logs", fixed::lengths_of_logs);
    suite.fixed("a wrong move at every place", fixed::a_wrong_move_at_every_place);
    suite.fixed("jobs that end at every place", fixed::jobs_that_end_at_every_place);
    suite.fixed("rows of every length", fixed::rows_of_every_length);
    suite.fixed("every rule of a full image", fixed::every_rule_of_a_full_image);
    suite.fixed("one right rule of many", fixed::one_right_rule_of_many);
    suite.fixed("the order of refusals", fixed::order_of_refusals);
    suite.fixed("every kind of log", || often(&KINDS, kinds));
    for shape in SHAPES {
        let count = if shape == Shape::Full { 30 } else { 120 };
        suite.random(&format!("shape {shape:?}"), count, move |rng| random::under_a_list(rng, |rng| Made::new(shape, rng)));
    }
    suite.random("several rules for one move", 250, |rng| random::under_a_list(rng, ambiguous));
    suite.random("logs of any kind", 120, random::logs_of_any_kind);
    suite.random("a move changed at every place", 60, random::a_move_changed_at_every_place);
    suite.random("127, 128 and 129 moves", 60, random::most_moves);
    suite.random("one move, many rules", 40, random::one_move_many_rules);
    suite.random("plans in two parts", 150, random::plans_in_two_parts);
    suite.random("plans that are the same", 40, random::same_plans);
    suite.random("matches under the list only", 200, random::matches_under_the_list_only);
    suite.random("shortest runs", 400, random::shortest_runs);
    suite.random("every move of a plan", 300, random::every_move);
    suite.random("walks by the n-th move", 100, random::walks);
    suite.random("rules in another order", 80, random::rules_in_another_order);
    suite.random("one call after the other", 25, random::one_after_the_other);
    suite.random("refused calls", 2500, random::refused_calls);
    suite.finish()
}
