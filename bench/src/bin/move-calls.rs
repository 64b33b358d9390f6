//! Calls for a move of a plan.
use bench::calls::{run, Inputs, MOVE};

fn main() -> std::process::ExitCode {
    run(&MOVE, Inputs::single_tables())
}
