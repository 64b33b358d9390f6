//! Replays of a log, without an alike list and under one.
use bench::calls::{run, Inputs};
use bench::logs::{areas, log_input, LOG, LOG_TABLES};
use outside::refusals::table_of_image;

fn main() -> std::process::ExitCode {
    let names = LOG_TABLES.iter().map(|(name, ..)| *name).collect();
    run(&LOG, Inputs { names, pairs: 1, make: log_input, areas: |image| areas(&table_of_image(image)) })
}
