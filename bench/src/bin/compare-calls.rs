//! Calls of compare.
use bench::calls::{run, Inputs, COMPARE};

fn main() -> std::process::ExitCode {
    run(&COMPARE, Inputs::single_tables())
}
