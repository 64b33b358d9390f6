//! Tables and plans by the definitions: moves, images, norms. Written from the documents and not from the library.
use std::cmp::Reverse;
use std::collections::{BTreeSet, BinaryHeap, HashSet};

pub type Plan = Vec<u8>;

#[derive(Clone, Debug, PartialEq, Eq)]
pub struct Rule {
    pub job: u8,
    pub action: u16,
    pub after: Plan,
}

#[derive(Clone, Debug, PartialEq, Eq)]
pub struct Table {
    pub jobs: usize,
    pub rules: Vec<Rule>,
}

pub fn rule(job: u8, action: u16, after: &[u8]) -> Rule {
    Rule { job, action, after: after.to_vec() }
}

impl Rule {
    pub fn place(&self) -> [u8; 8] {
        let mut place = [0; 8];
        place[0] = self.job;
        [place[1], place[7]] = self.action.to_le_bytes();
        place[2] = self.after.len() as u8;
        place[3..3 + self.after.len()].copy_from_slice(&self.after);
        place
    }
}

impl Table {
    pub fn new(jobs: usize, rules: &[(u8, u16, &[u8])]) -> Table {
        Table { jobs, rules: rules.iter().map(|&(j, a, w)| rule(j, a, w)).collect() }
    }

    /// The rules as 8-byte places.
    pub fn places(&self) -> Vec<u8> {
        self.rules.iter().flat_map(|r| r.place()).collect()
    }

    pub fn image(&self) -> Vec<u8> {
        image_of(self.jobs as u8, &self.places())
    }

    /// What the reader writes.
    pub fn read(&self) -> Vec<u8> {
        let mut out = vec![self.jobs as u8];
        out.extend(self.places());
        out
    }

    /// The table in which each from-move of a list of pairs counts as its to-move.
    pub fn replaced(&self, pairs: &[(u16, u16)]) -> Table {
        let counts_as = |action| pairs.iter().find(|pair| pair.0 == action).map_or(action, |pair| pair.1);
        let rules = self.rules.iter().map(|r| rule(r.job, counts_as(r.action), &r.after)).collect();
        Table { jobs: self.jobs, rules }
    }

    /// The joined table: the jobs of the right one are numbered on from those of this one, and its rules stand behind the others.
    pub fn joined(&self, right: &Table) -> Table {
        let behind = right.rules.iter().map(|r| rule(self.numbered_on(&[r.job])[0], r.action, &self.numbered_on(&r.after)));
        Table { jobs: self.jobs + right.jobs, rules: self.rules.iter().cloned().chain(behind).collect() }
    }

    /// A plan over the right table of a joined one whose left one this is, as a plan over the joined one.
    pub fn numbered_on(&self, plan: &[u8]) -> Plan {
        plan.iter().map(|&job| self.jobs as u8 + job).collect()
    }

    pub fn rules_of(&self, job: u8) -> impl Iterator<Item = &Rule> {
        self.rules.iter().filter(move |r| r.job == job)
    }

    /// How many rules there are, those that are written twice counted once.
    pub fn different_rules(&self) -> usize {
        self.rules.iter().map(Rule::place).collect::<BTreeSet<_>>().len()
    }

    /// The moves of a plan: only its first job moves, and the jobs behind it wait. Each move with a remaining plan is there once, at
    /// its first place.
    pub fn moves(&self, plan: &[u8]) -> Vec<(u16, Plan)> {
        let Some((&first, behind)) = plan.split_first() else { return Vec::new() };
        let mut met = HashSet::new();
        let all = self.rules_of(first).map(|r| (r.action, [&r.after, behind].concat()));
        all.filter(|m| met.insert(m.clone())).collect()
    }

    /// Norms by Knuth's way: the cheapest job that can be settled next is settled. None: no run ends.
    pub fn norms(&self) -> Vec<Option<u64>> {
        let mut norms = vec![None; self.jobs];
        let mut open: Vec<usize> = self.rules.iter().map(|r| r.after.len()).collect();
        let mut cost: Vec<u64> = vec![1; self.rules.len()];
        let mut heap: BinaryHeap<Reverse<(u64, u8)>> = BinaryHeap::new();
        for r in self.rules.iter().filter(|r| r.after.is_empty()) {
            heap.push(Reverse((1, r.job)));
        }
        while let Some(Reverse((n, job))) = heap.pop() {
            if norms[job as usize].is_some() {
                continue;
            }
            norms[job as usize] = Some(n);
            for (i, r) in self.rules.iter().enumerate() {
                let times = r.after.iter().filter(|&&j| j == job).count();
                if times == 0 {
                    continue;
                }
                open[i] -= times;
                cost[i] = cost[i].saturating_add(n.saturating_mul(times as u64));
                if open[i] == 0 {
                    heap.push(Reverse((cost[i], r.job)));
                }
            }
        }
        norms
    }

    /// The norms of a table whose jobs all have one.
    pub fn finite_norms(&self) -> Option<Vec<u64>> {
        self.norms().into_iter().collect()
    }
}

pub fn norm(norms: &[u64], plan: &[u8]) -> u64 {
    plan.iter().map(|&j| norms[j as usize]).sum()
}

/// The two bytes 510 and 511 of a block.
pub fn seal(block: &mut [u8]) {
    let sum: u32 = block[..510].iter().map(|&b| u32::from(b)).sum();
    block[510..512].copy_from_slice(&((sum % 65521) as u16).to_le_bytes());
}

/// The image of a job count and 8-byte places, whatever they are.
pub fn image_of(jobs: u8, places: &[u8]) -> Vec<u8> {
    let parts: Vec<&[u8]> = places.chunks(504).collect();
    let mut image = Vec::new();
    for (k, part) in parts.iter().enumerate() {
        let mut block = [0; 512];
        block[0] = jobs;
        block[1] = (part.len() / 8) as u8;
        block[2..2 + part.len()].copy_from_slice(part);
        block[506..508].copy_from_slice(&(k as u16).to_le_bytes());
        block[508..510].copy_from_slice(&(parts.len() as u16).to_le_bytes());
        seal(&mut block);
        image.extend(block);
    }
    image
}

/// A plan as planlook reads it: two bytes of length, and the jobs.
pub fn put_plan(input: &mut Vec<u8>, plan: &[u8]) {
    input.extend((plan.len() as u16).to_le_bytes());
    input.extend(plan);
}
