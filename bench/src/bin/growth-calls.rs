//! Calls that ask whether a plan grows.
use bench::calls::{run, Inputs};
use bench::growth::{growth_input, names, GROWTH};

fn main() -> std::process::ExitCode {
    run(&GROWTH, Inputs { names: names(), pairs: 1, make: growth_input, areas: |image| image.to_vec() })
}
