//! Calls that ask whether a table is without a choice of outcome.
use bench::calls::{run, Inputs};
use bench::logs::areas;
use bench::outcomes::{names, outcome_input, OUTCOME};
use outside::refusals::table_of_image;

fn main() -> std::process::ExitCode {
    run(&OUTCOME, Inputs { names: names(), pairs: 1, make: outcome_input, areas: |image| areas(&table_of_image(image)) })
}
