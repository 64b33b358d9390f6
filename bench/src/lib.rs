//! Tables and plans to time, and the programs that only make calls.
pub mod alike;
pub mod calls;
pub mod growth;
mod hostile;
mod hostile_runs;
pub mod inputs;
pub mod joined;
pub mod logs;
pub mod outcomes;
pub mod pairs;
