//! Cases, the seed, and how long to run.
//!
//! By default each case has a fixed number of iterations from seed 1. SECONDS=n runs each random case for its share of
//! that time, from a seed of the clock; SEED=s sets the seed; SMALL=1 runs few iterations, as under valgrind;
//! ONLY=case:iteration runs one iteration again.
use crate::rng::Rng;
use std::collections::{BTreeMap, BTreeSet};
use std::env;
use std::panic::{catch_unwind, AssertUnwindSafe};
use std::process::ExitCode;
use std::time::{Duration, Instant, SystemTime};

pub type Outcome = Result<(), String>;

struct Case {
    name: String,
    count: u64,
    run: Box<dyn Fn(&mut Rng) -> Outcome>,
}

#[derive(Default)]
pub struct Suite {
    cases: Vec<Case>,
}

/// An error that says where it is unless the condition holds.
#[macro_export]
macro_rules! ensure {
    ($holds:expr, $($what:tt)*) => {
        if !$holds {
            return Err(format!("{}:{}: {}", file!(), line!(), format!($($what)*)));
        }
    };
}

/// An error that says both values unless they are equal.
#[macro_export]
macro_rules! ensure_eq {
    ($got:expr, $wanted:expr, $($what:tt)*) => {{
        let (got, wanted) = (&$got, &$wanted);
        if got != wanted {
            return Err(format!("{}:{}: {}: {:?} and not {:?}", file!(), line!(), format!($($what)*), got, wanted));
        }
    }};
}

impl Suite {
    pub fn new() -> Suite {
        Suite::default()
    }

    /// A case without random numbers.
    pub fn fixed(&mut self, name: &str, run: impl Fn() -> Outcome + 'static) {
        self.random(name, 1, move |_| run());
    }

    /// A case of so many iterations, each with random numbers of its own.
    pub fn random(&mut self, name: &str, count: u64, run: impl Fn(&mut Rng) -> Outcome + 'static) {
        self.cases.push(Case { name: name.to_string(), count, run: Box::new(run) });
    }

    /// Runs the cases and prints the count.
    pub fn finish(self) -> ExitCode {
        let seconds = number("SECONDS");
        let clock = SystemTime::now().duration_since(SystemTime::UNIX_EPOCH).map_or(1, |d| d.as_nanos() as u64 % 1_000_000_000);
        let seed = number("SEED").unwrap_or(if seconds.is_some() { clock } else { 1 });
        println!("seed {seed}");
        let random = self.cases.iter().filter(|c| c.count > 1).count().max(1);
        let share = seconds.map(|s| Duration::from_secs(s) / random as u32);
        let (mut passed, mut failed) = (0, 0);
        for case in &self.cases {
            match case.perform(seed, share) {
                Ok(done) => {
                    passed += 1;
                    println!("ok {} ({done})", case.name);
                }
                Err((iteration, fault)) => {
                    failed += 1;
                    println!("FAILED {}: {fault}", case.name);
                    println!("replay: SEED={seed} ONLY='{}:{iteration}' {}", case.name, program());
                }
            }
        }
        println!("{passed} passed, {failed} failed");
        ExitCode::from(u8::from(failed > 0))
    }
}

impl Case {
    /// How many iterations were run, or the one that failed and how.
    fn perform(&self, seed: u64, share: Option<Duration>) -> Result<u64, (u64, String)> {
        let only = env::var("ONLY").ok();
        if let Some((name, iteration)) = only.as_deref().and_then(|o| o.rsplit_once(':')) {
            if name != self.name {
                return Ok(0);
            }
            let iteration = iteration.parse().expect("ONLY=case:iteration");
            return self.iteration(seed, iteration).map(|()| 1).map_err(|e| (iteration, e));
        }
        let start = Instant::now();
        let small = env::var_os("SMALL").is_some();
        let mut done = 0;
        loop {
            let more = match share {
                _ if self.count == 1 => done < 1,
                Some(share) => start.elapsed() < share,
                None if small => done < self.count.div_ceil(100).min(5),
                None => done < self.count,
            };
            if !more {
                return Ok(done);
            }
            self.iteration(seed, done).map_err(|e| (done, e))?;
            done += 1;
        }
    }

    fn iteration(&self, seed: u64, iteration: u64) -> Outcome {
        let mut rng = Rng::of_iteration(seed, &self.name, iteration);
        catch_unwind(AssertUnwindSafe(|| (self.run)(&mut rng))).unwrap_or_else(|_| Err("a panic".to_string()))
    }
}

/// Each kind is found in 10 of 100 tables or more.
pub fn often(all: &[&'static str], found: impl Fn(&mut Rng) -> BTreeSet<&'static str>) -> Outcome {
    let mut rng = Rng::new(1);
    let mut often = BTreeMap::new();
    for _ in 0..100 {
        for kind in found(&mut rng) {
            *often.entry(kind).or_insert(0) += 1;
        }
    }
    for kind in all {
        ensure!(often.get(kind).is_some_and(|&tables| tables >= 10), "{kind}: in {:?} of 100 tables", often.get(kind));
    }
    Ok(())
}

fn number(name: &str) -> Option<u64> {
    env::var(name).ok().filter(|v| !v.is_empty()).map(|v| v.parse().unwrap_or_else(|_| panic!("{name} is a number")))
}

fn program() -> String {
    env::args().next().unwrap_or_default()
}
