//! Pairs of plans of norm 4,096 over a table: same though written with other jobs from end to end, or apart at one place.
use crate::inputs::Pair;
use outside::rng::Rng;
use outside::second::Second;
use outside::shapes::Made;
use outside::table::Plan;

pub const PLAN_NORM: usize = 4096;

/// Near which norm from the beginning two plans differ: near the front, in the middle, at the end.
pub const PLACES: [usize; 3] = [0, PLAN_NORM / 2, PLAN_NORM];

/// So near to its place begins the part of the plans that differs.
pub const NEAR: usize = 512;

/// The place near which the plans of a pair differ, None if they are the same: every other pair, the rest taking turns.
pub fn place_of(i: usize) -> Option<usize> {
    (i % 2 == 1).then(|| PLACES[i / 2 % PLACES.len()])
}

/// A part of the left plan, and the same written with other jobs for the right one.
type Part = (Plan, Plan);

/// What pairs over a table are made of.
pub struct Pairs<'m> {
    made: &'m Made,
    second: Second<'m>,
    // the jobs that can be written otherwise
    jobs: Vec<u8>,
    // whether such jobs can make up a norm
    filled: Vec<bool>,
}

impl<'m> Pairs<'m> {
    /// None if no plans of the norm can be written with other jobs from end to end, or none is apart from another.
    pub fn new(rng: &mut Rng, made: &'m Made) -> Option<Pairs<'m>> {
        let jobs: Vec<u8> = (0..made.table.jobs as u8).filter(|&j| made.otherwise(rng, j).is_some()).collect();
        let mut filled = vec![true];
        for n in 1..=PLAN_NORM {
            let fills = |&j: &u8| n.checked_sub(made.norms[j as usize] as usize).is_some_and(|m| filled[m]);
            filled.push(jobs.iter().any(fills));
        }
        let pairs = filled[PLAN_NORM].then(|| Pairs { made, second: Second::new(&made.table), jobs, filled })?;
        PLACES.iter().all(|&place| pairs.pair(rng, Some(place)).is_some()).then_some(pairs)
    }

    /// So many pairs, same and apart in turn.
    pub fn make(&self, rng: &mut Rng, count: usize) -> Vec<Pair> {
        (0..count).map(|i| self.pair(rng, place_of(i)).expect("plans that are apart")).collect()
    }

    /// A pair that is the same, or that differs near a place; None if none was found.
    fn pair(&self, rng: &mut Rng, place: Option<usize>) -> Option<Pair> {
        (0..50).find_map(|_| {
            let mut parts = self.parts(rng);
            if let Some(place) = place {
                self.set_apart(rng, &mut parts, place)?;
            }
            let left = parts.iter().flat_map(|part| part.0.clone()).collect();
            Some((left, parts.into_iter().flat_map(|part| part.1).collect()))
        })
    }

    fn norm(&self, plan: &[u8]) -> usize {
        self.made.norm(plan) as usize
    }

    /// Jobs at random, each beside others that are written for it, on either side.
    fn parts(&self, rng: &mut Rng) -> Vec<Part> {
        let mut parts = Vec::new();
        let mut left = PLAN_NORM;
        while left > 0 {
            let fits = |&&j: &&u8| left.checked_sub(self.norm(&[j])).is_some_and(|m| self.filled[m]);
            let fit: Vec<&u8> = self.jobs.iter().filter(fits).collect();
            let job = **rng.pick(&fit);
            let others = self.made.otherwise(rng, job).expect("a job that can be written otherwise");
            parts.push(if rng.once_in(2) { (vec![job], others) } else { (others, vec![job]) });
            left -= self.norm(&[job]);
        }
        rng.shuffle(&mut parts);
        parts
    }

    /// Writes for the right side of one part jobs of the same norm that are apart from it: the nearest part to a place for
    /// which there are such jobs.
    fn set_apart(&self, rng: &mut Rng, parts: &mut [Part], place: usize) -> Option<()> {
        let mut begin = 0usize;
        let mut near = Vec::new();
        for (i, part) in parts.iter().enumerate() {
            near.push((begin.abs_diff(place), i));
            begin += self.norm(&part.1);
        }
        near.retain(|part| part.0 <= NEAR);
        near.sort_unstable();
        near.into_iter().find_map(|(_, i)| {
            let part = &mut parts[i].1;
            let norm = self.made.norm(part);
            let mut others = (0..20).map(|_| self.made.plan_of_norm(rng, norm));
            *part = others.find(|others| !self.second.same(part, others))?;
            Some(())
        })
    }
}
