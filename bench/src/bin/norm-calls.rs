//! Calls of the norm of a plan.
use bench::calls::{run, Inputs, NORM};

fn main() -> std::process::ExitCode {
    run(&NORM, Inputs::single_tables())
}
