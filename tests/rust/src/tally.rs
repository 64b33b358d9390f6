//! How often each of several things came in random cases.
use crate::ensure;
use crate::harness::Outcome;
use crate::rng::Rng;
use std::cell::RefCell;
use std::collections::BTreeMap;
use std::rc::Rc;

#[derive(Clone)]
pub struct Tally {
    kinds: &'static [&'static str],
    counts: Rc<RefCell<BTreeMap<&'static str, u64>>>,
}

/// Where fewer things came than that, as in a short run, it says nothing that one of them did not.
const ENOUGH: u64 = 3000;

impl Tally {
    pub fn of(kinds: &'static [&'static str]) -> Tally {
        Tally { kinds, counts: Rc::default() }
    }

    pub fn came(&self, kind: &'static str) {
        assert!(self.kinds.contains(&kind), "{kind} is none of the kinds");
        *self.counts.borrow_mut().entry(kind).or_default() += 1;
    }

    /// A random case that is told what comes in it.
    pub fn counted(&self, run: fn(&mut Rng, &Tally) -> Outcome) -> impl Fn(&mut Rng) -> Outcome + 'static {
        let tally = self.clone();
        move |rng| run(rng, &tally)
    }

    fn count(&self, kind: &str) -> u64 {
        self.counts.borrow().get(kind).copied().unwrap_or(0)
    }

    /// Prints the counts; each thing came, if enough did.
    pub fn all_came(&self) -> Outcome {
        let all: u64 = self.counts.borrow().values().sum();
        for kind in self.kinds {
            println!("    {kind}: {}", self.count(kind));
            ensure!(all < ENOUGH || self.count(kind) > 0, "{kind}: it never came");
        }
        Ok(())
    }
}
