//! Rows of jobs that the jobs stand for, 512 bytes a job.
use crate::steps::Meter;
use crate::table::JOBS;
use core::mem::take;

pub const ROW: usize = 512;

/// So many places are written or compared at once.
const MANY: usize = 16;

/// The bytes of the rows of all jobs.
pub type Region = [u8; ROW * JOBS];

/// The first part of an area for rows, and the rest.
pub fn split(area: &mut [u8]) -> (&mut Region, &mut [u8]) {
    area.split_first_chunk_mut().expect("room for rows")
}

pub struct Rows<'a> {
    bytes: &'a mut Region,
    lens: [u16; JOBS],
}

impl<'a> Rows<'a> {
    /// Each job for itself.
    pub fn new(bytes: &'a mut Region) -> Rows<'a> {
        for j in 0..JOBS {
            bytes[ROW * j] = j as u8;
        }
        Rows { bytes, lens: [1; JOBS] }
    }

    pub fn into_area(self) -> &'a mut [u8] {
        self.bytes
    }

    pub fn of(&self, job: u8) -> &[u8] {
        let at = ROW * job as usize;
        &self.bytes[at..at + self.lens[job as usize] as usize]
    }

    pub fn len(&self, job: u8) -> usize {
        self.lens[job as usize] as usize
    }

    /// Whether the job stands for itself.
    pub fn alone(&self, job: u8) -> bool {
        self.lens[job as usize] == 1 && self.bytes[ROW * job as usize] == job
    }

    pub fn set(&mut self, job: u8, row: &[u8]) {
        let at = ROW * job as usize;
        self.bytes[at..at + row.len()].copy_from_slice(row);
        self.lens[job as usize] = row.len() as u16;
    }

    /// A job's row as so many copies of one job.
    pub fn fill(&mut self, job: u8, with: u8, len: u16) {
        let at = ROW * job as usize;
        self.bytes[at..at + len as usize].fill(with);
        self.lens[job as usize] = len;
    }

    pub fn expanded_len(&self, plan: &[u8]) -> usize {
        plan.iter().map(|&j| self.len(j)).sum()
    }

    /// Writes the expansion of a plan from the start of an area; its length. A row of up to 16 places is written as 16 if
    /// there is room, and the next one over what is too much.
    pub fn expand(&self, plan: &[u8], area: &mut [u8]) -> usize {
        let mut at = 0;
        for &j in plan {
            let (from, len) = (ROW * j as usize, self.len(j));
            match area[at..].first_chunk_mut::<MANY>() {
                Some(to) if len <= MANY => to.copy_from_slice(&self.bytes[from..from + MANY]),
                _ => area[at..at + len].copy_from_slice(&self.bytes[from..from + len]),
            }
            at += len;
        }
        at
    }

    /// Whether two plans are the same by the rows. The right one is written into an area, but for what both begin with.
    pub fn same(&self, left: &[u8], right: &[u8], area: &mut [u8]) -> bool {
        let start = common_start(left, right);
        let len = self.expand(&right[start..], area);
        let mut rest = &area[..len];
        for &j in &left[start..] {
            let row = self.of(j);
            let Some((part, behind)) = rest.split_at_checked(row.len()) else { return false };
            if !same(row, part) {
                return false;
            }
            rest = behind;
        }
        rest.is_empty()
    }

    /// Whether two plans are equal by the rows, a row that is already written out behind the right one. The same job at
    /// both sides' boundary is passed over.
    pub fn equal<M: Meter>(&self, p: &[u8], q: &[u8], mut behind: &[u8], meter: &mut M) -> bool {
        let mut q = q.iter();
        let mut right: &[u8] = &[];
        for &j in p {
            if right.is_empty() && q.as_slice().first() == Some(&j) {
                q.next();
                continue;
            }
            let mut left = self.of(j);
            while !left.is_empty() {
                if right.is_empty() {
                    right = q.next().map_or_else(|| take(&mut behind), |&k| self.of(k));
                }
                let n = left.len().min(right.len());
                meter.places(n);
                if n == 0 || !same(&left[..n], &right[..n]) {
                    return false;
                }
                (left, right) = (&left[n..], &right[n..]);
            }
        }
        right.is_empty() && q.as_slice().is_empty() && behind.is_empty()
    }
}

/// How many places two plans have in common from their start.
fn common_start(left: &[u8], right: &[u8]) -> usize {
    let many = left.as_chunks::<MANY>().0.iter().zip(right.as_chunks::<MANY>().0);
    let start = MANY * many.take_while(|(l, r)| l == r).count();
    start + left[start..].iter().zip(&right[start..]).take_while(|(l, r)| l == r).count()
}

/// Whether two rows of one length are equal: short ones place by place, for which a call would cost more.
fn same(left: &[u8], right: &[u8]) -> bool {
    if left.len() < MANY {
        return left.iter().zip(right).all(|(x, y)| x == y);
    }
    left == right
}
