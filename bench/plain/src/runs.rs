//! The first shortest run of a plan in dictionary order of move numbers: a row of moves for each job, jobs by rising norm.
use crate::index::NO_RULE;
use crate::table::{Table, JOBS, RULES};

/// Rows of so few moves in all are kept in a smaller area, which is cleared sooner.
const FEW: usize = 1024;
/// Room for the rows of all jobs.
const ALL: usize = 512 * JOBS;

/// So many moves of a short row are written at once.
const AT_ONCE: usize = 8;
/// So many moves are compared at once.
const MANY: usize = 16;

/// Writes the moves of the run; the output is twice as long as the plan's norm.
pub fn shortest(table: &Table, norms: &[u16; JOBS], plan: &[u8], out: &mut [u8]) {
    let most = out.len() / 2;
    let mut order = [0; JOBS];
    let (mut count, mut total) = (0, 0);
    for (j, &norm) in norms[..table.jobs].iter().enumerate().filter(|(_, &norm)| norm as usize <= most) {
        order[count] = j as u8;
        count += 1;
        total += norm as usize;
    }
    let order = &mut order[..count];
    order.sort_unstable_by_key(|&j| norms[j as usize]);
    let least = LeastMoves::new(table, norms, most);
    if total <= FEW {
        Runs::new(norms, &mut [0; FEW]).work_out(table, &least, order).write(plan, out);
    } else {
        Runs::new(norms, &mut [0; ALL]).work_out(table, &least, order).write(plan, out);
    }
}

/// For each job the rules that lower its norm by one with the least move of such rules: one of them, and from each the next.
struct LeastMoves {
    rule: [u8; JOBS],
    next: [u8; RULES],
}

impl LeastMoves {
    /// For jobs up to a norm.
    fn new(table: &Table, norms: &[u16; JOBS], most: usize) -> LeastMoves {
        let mut least = LeastMoves { rule: [NO_RULE; JOBS], next: [NO_RULE; RULES] };
        let mut moves = [u32::MAX; JOBS];
        for r in 0..table.count {
            let j = table.job(r);
            let action = u32::from(table.action(r));
            if action > moves[j] || norms[j] as usize > most {
                continue;
            }
            let row_norm: u16 = table.after(r).iter().map(|&j| norms[j as usize]).sum();
            if row_norm + 1 == norms[j] {
                least.next[r] = if action == moves[j] { least.rule[j] } else { NO_RULE };
                least.rule[j] = r as u8;
                moves[j] = action;
            }
        }
        least
    }
}

/// The first shortest runs of jobs, one behind the other, each as long as the job's norm.
struct Runs<'a> {
    norms: &'a [u16; JOBS],
    starts: [u16; JOBS],
    moves: &'a mut [u16],
    // of each run the first moves as bytes, in one number
    heads: [u128; JOBS],
}

impl<'a> Runs<'a> {
    fn new(norms: &'a [u16; JOBS], moves: &'a mut [u16]) -> Runs<'a> {
        Runs { norms, starts: [0; JOBS], moves, heads: [0; JOBS] }
    }

    fn start_and_len(&self, job: u8) -> (usize, usize) {
        (self.starts[job as usize] as usize, self.norms[job as usize] as usize)
    }

    fn of(&self, job: u8) -> &[u16] {
        let (start, len) = self.start_and_len(job);
        &self.moves[start..start + len]
    }

    /// The runs of jobs in an order of rising norms.
    fn work_out(mut self, table: &Table, least: &LeastMoves, order: &[u8]) -> Runs<'a> {
        let mut at = 0;
        for &job in order {
            self.starts[job as usize] = at as u16;
            let mut best = least.rule[job as usize] as usize;
            let mut r = least.next[best];
            while r != NO_RULE {
                if self.comes_before(table.after(r as usize), table.after(best)) {
                    best = r as usize;
                }
                r = least.next[r as usize];
            }
            self.moves[at] = table.action(best);
            at += 1;
            for &j in table.after(best) {
                let (start, len) = self.start_and_len(j);
                let (done, rest) = self.moves.split_at_mut(at);
                rest[..len].copy_from_slice(&done[start..start + len]);
                at += len;
            }
            self.heads[job as usize] = head(self.of(job));
        }
        self
    }

    /// Whether the runs of a row of jobs come before those of another row of the same norm. The same job at both sides' boundary
    /// is passed over.
    fn comes_before(&self, p: &[u8], q: &[u8]) -> bool {
        let (mut p, mut q) = (p.iter(), q.iter());
        let (mut left, mut right): (&[u16], &[u16]) = (&[], &[]);
        loop {
            if left.is_empty() && right.is_empty() {
                while p.as_slice().first() == q.as_slice().first() {
                    if p.next().is_none() {
                        return false;
                    }
                    q.next();
                }
            }
            if left.is_empty() {
                left = p.next().map_or(&[], |&j| self.of(j));
            }
            if right.is_empty() {
                right = q.next().map_or(&[], |&j| self.of(j));
            }
            let n = left.len().min(right.len());
            if let Some((l, r)) = first_difference(&left[..n], &right[..n]) {
                return l < r;
            }
            (left, right) = (&left[n..], &right[n..]);
        }
    }

    /// The runs of a plan's jobs as bytes. A run of up to 8 moves is written as 8 if there is room, and the next one over what is
    /// too much.
    fn write(&self, plan: &[u8], mut out: &mut [u8]) {
        for &job in plan {
            let bytes = 2 * self.norms[job as usize] as usize;
            match out.first_chunk_mut() {
                Some(to) if bytes <= 2 * AT_ONCE => *to = self.heads[job as usize].to_le_bytes(),
                _ => put(self.of(job), out),
            }
            out = &mut out[bytes..];
        }
    }
}

fn put(moves: &[u16], out: &mut [u8]) {
    for (to, action) in out.as_chunks_mut().0.iter_mut().zip(moves) {
        *to = action.to_le_bytes();
    }
}

fn head(run: &[u16]) -> u128 {
    let mut bytes = [0; 2 * AT_ONCE];
    put(run, &mut bytes);
    u128::from_le_bytes(bytes)
}

/// The first moves in which two rows of one length differ. That long ones do not differ is found by a call, many moves at once.
fn first_difference<'a>(left: &'a [u16], right: &'a [u16]) -> Option<(&'a u16, &'a u16)> {
    if left.len() >= MANY && left == right {
        return None;
    }
    let many = left.as_chunks::<MANY>().0.iter().zip(right.as_chunks::<MANY>().0);
    let alike = MANY * many.take_while(|(l, r)| l == r).count();
    left[alike..].iter().zip(&right[alike..]).find(|(l, r)| l != r)
}
