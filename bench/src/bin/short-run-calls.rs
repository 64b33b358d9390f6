//! Calls for the first shortest run of a short plan: one job of the least norm.
use bench::calls::{run, Inputs, RUN};
use bench::inputs::Input;

fn main() -> std::process::ExitCode {
    run(&RUN, Inputs { make: |index| short_plans((Inputs::single_tables().make)(index)), ..Inputs::single_tables() })
}

fn short_plans(mut input: Input) -> Input {
    let norms = input.table.finite_norms().expect("norms of jobs");
    let least = (0..).zip(norms).min_by_key(|(_, norm)| *norm).map(|(job, _)| job);
    input.pairs.fill((least.into_iter().collect(), Vec::new()));
    input
}
