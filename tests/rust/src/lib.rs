//! What the tests over the archive are made of: tables by the definitions, a second comparer, a second way to first runs and to
//! replays, complete runs, plans that are reached, pairs of tables, random shapes, alike lists and logs, guarded areas.
pub mod alike;
pub mod area;
pub mod complete_runs;
pub mod damage;
pub mod first_run;
pub mod growth;
pub mod harness;
pub mod joined;
pub mod logs;
pub mod old_format;
pub mod outcomes;
pub mod play;
pub mod refusals;
pub mod refused;
pub mod repeated;
pub mod replay;
pub mod rng;
pub mod second;
pub mod shapes;
pub mod space;
pub mod table;
pub mod tally;
pub mod ties;
