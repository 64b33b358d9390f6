//! Safe calls of libgindrazoma.
//!
//! A [`Table`] holds an accepted image: rules by which jobs make moves, numbers of 16 bits, and become other jobs. A plan is
//! a row of jobs, one byte a job. The table gives norms, moves, shortest runs and prime forms of plans, compares plans, and
//! replays logs of moves on them. An [`Alike`] says which moves tally alike, for comparisons, prime forms and replays under it.
//! [`Table::deterministic`] says whether comparing plans is comparing their complete runs, and [`Table::growth`] whether a plan can
//! become finitely many different plans. [`Table::same_as`] compares a plan of one table with a plan of another.
//! The functions of [`raw`] are the library's own calls on the caller's areas; include/gindrazoma.h describes them.
//!
//! ```no_run
//! use gindrazoma::{Alike, Growth, Replay, Rule, Table, Workspace};
//! let rules = [Rule::new(0, 1000, &[]), Rule::new(1, 1000, &[0]), Rule::new(2, 1001, &[])];
//! let table = Table::from_rules(3, &rules)?;
//! let mut space = Workspace::new();
//! assert!(table.same(&mut space, &[1], &[0, 0])?);
//! assert_eq!(table.shortest_run(&[1])?, [1000, 1000]);
//! assert!(!table.same(&mut space, &[2], &[0])?);
//! assert!(table.same_alike(&mut space, &Alike::new(&[(1001, 1000)]), &[2], &[0])?);
//! assert_eq!(table.replay(&mut space, &[1, 2], &[1000, 1000, 1000])?, Replay::Leaves { place: 2 });
//! assert!(table.deterministic());
//! assert_eq!(table.growth(&[1, 2])?, Growth { jobs: 3, endless: false });
//! let other = Table::from_rules(1, &[Rule::new(0, 1000, &[])])?;
//! assert!(table.same_as(&mut space, &[1], &other, &[0, 0])?);
//! # Ok::<(), gindrazoma::Refusal>(())
//! ```
mod alike;
mod growth;
pub mod raw;
mod refusal;
mod replay;
mod table;

pub use alike::Alike;
pub use growth::Growth;
pub use refusal::Refusal;
pub use replay::Replay;
pub use table::{Move, Rule, Table, Workspace};
