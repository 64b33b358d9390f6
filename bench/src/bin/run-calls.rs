//! Calls for the first shortest run of a plan.
use bench::calls::{run, Inputs, RUN};

fn main() -> std::process::ExitCode {
    run(&RUN, Inputs::single_tables())
}
