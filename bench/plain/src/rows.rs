//! Decompositions: a row of jobs for each job, refined by rounds until no prime is new. The choices of speed are the
//! library's.
use crate::index::{first_written, Index};
use crate::region::{split, Rows, ROW};
use crate::steps::Meter;
use crate::table::{Table, JOBS, RULES};

pub fn compare(image: &[u8], left: &[u8], right: &[u8], space: &mut [u8]) -> i32 {
    compare_counted(image, left, right, space, &mut ())
}

/// The same, with the steps of the method told to a meter.
pub fn compare_counted<M: Meter>(image: &[u8], left: &[u8], right: &[u8], space: &mut [u8], meter: &mut M) -> i32 {
    crate::compare(image, left, right, space, |table, norms, space| prime_rows(table, norms, space, meter))
}

pub fn prime_form(image: &[u8], plan: &[u8], out: &mut [u8], space: &mut [u8]) -> i32 {
    crate::prime_form(image, plan, out, space, |table, norms, space| prime_rows(table, norms, space, &mut ()))
}

/// The prime rows, and an area that is free then.
fn prime_rows<'a, M: Meter>(table: &Table, norms: &[u16; JOBS], space: &'a mut [u8], meter: &mut M) -> (Rows<'a>, &'a mut [u8]) {
    let mut engine = Engine::new(table, norms, space);
    while engine.round(meter) {
        engine.keep();
    }
    (engine.old, engine.new.into_area())
}

/// A fingerprint of a row, as Karp and Rabin's, and the power of the base by which it moves what stands in front.
#[derive(Clone, Copy)]
struct Print {
    value: u32,
    power: u32,
}

const BASE: u32 = 2654435769;
/// A prime, so that few unequal rows have equal fingerprints, however they are made.
const MODULUS: u64 = 4294967291;
const NOTHING: Print = Print { value: 0, power: 1 };

impl Print {
    fn of_job(job: u8) -> Print {
        Print { value: u32::from(job) + 1, power: BASE }
    }

    fn join(self, behind: Print) -> Print {
        let power = u64::from(behind.power);
        Print {
            value: ((u64::from(self.value) * power + u64::from(behind.value)) % MODULUS) as u32,
            power: ((u64::from(self.power) * power) % MODULUS) as u32,
        }
    }
}

/// What a rule leaves has a fingerprint from this norm on, and if its job has so many rules.
const LONG: u16 = 64;
const MANY: usize = 12;

/// A job y, and a job x with a tail of new primes behind it that makes up the norm of y.
struct Pair<'p> {
    y: u8,
    x: u8,
    tail: &'p [u8],
    // of the tail: its norm, and by the old rows its fingerprint and the row that it stands for
    gap: u16,
    print: Print,
    end: &'p [u8],
}

struct Engine<'t, 'a> {
    index: Index<'t>,
    marks: [u64; JOBS],
    old: Rows<'a>,
    new: Rows<'a>,
    // of the old rows, and of what rules leave by them
    prints: [Print; JOBS],
    rule_prints: [Option<Print>; RULES],
    // the jobs whose row is new in the last round
    moved: [bool; JOBS],
}

impl<'t, 'a> Engine<'t, 'a> {
    /// With the first rows: each job as many copies of the first one as its norm.
    fn new(table: &'t Table, norms: &'t [u16; JOBS], space: &'a mut [u8]) -> Engine<'t, 'a> {
        let (old, space) = split(space);
        let (new, _) = split(space);
        let index = Index::new(table, norms, &first_written(table));
        let (mut old, mut new) = (Rows::new(old), Rows::new(new));
        for j in 0..table.jobs {
            old.fill(j as u8, index.order[0], norms[j]);
            new.fill(j as u8, index.order[0], norms[j]);
        }
        let marks = index.marks();
        Engine { index, marks, old, new, prints: [NOTHING; JOBS], rule_prints: [None; RULES], moved: [true; JOBS] }
    }

    /// The new rows become the old ones.
    fn keep(&mut self) {
        for j in (0..self.index.table.jobs).filter(|&j| self.moved[j]) {
            self.old.set(j as u8, self.new.of(j as u8));
        }
    }

    /// New rows from the old ones; whether a prime is new.
    fn round<M: Meter>(&mut self, meter: &mut M) -> bool {
        meter.round();
        let jobs = self.index.table.jobs;
        self.print_rows();
        self.print_rules();
        let mut stale = self.moved;
        self.moved = [false; JOBS];
        let mut row = [0; 1 + ROW];
        for place in 0..jobs {
            let y = self.index.order[place];
            if self.settled(y, &stale) {
                continue;
            }
            let row = self.decompose(place, &mut row, meter);
            if row != self.old.of(y) {
                self.new.set(y, row);
                stale[y as usize] = true;
                self.moved[y as usize] = true;
            }
        }
        (0..jobs as u8).any(|j| self.new.alone(j) && !self.old.alone(j))
    }

    /// The fingerprints of rows that are new.
    fn print_rows(&mut self) {
        for j in (0..self.index.table.jobs).filter(|&j| self.moved[j]) {
            self.prints[j] = self.old.of(j as u8).iter().fold(NOTHING, |print, &k| print.join(Print::of_job(k)));
        }
    }

    fn print_rules(&mut self) {
        for j in 0..self.index.table.jobs {
            let rules = self.index.rules_of(j as u8);
            let many = rules.len() >= MANY;
            for &r in rules.iter().filter(|&&r| many || self.index.row_norms[r as usize] >= LONG) {
                self.rule_prints[r as usize] = Some(self.print_of(self.index.table.after(r as usize)));
            }
        }
    }

    /// Whether a job keeps its row: it is prime, or neither its row nor that of a job in its rules, or in the rules of the
    /// first job of its row, is new.
    fn settled(&self, y: u8, stale: &[bool; JOBS]) -> bool {
        let touched = |job: u8| {
            let mut rules = self.index.rules_of(job).iter();
            rules.any(|&r| self.index.table.after(r as usize).iter().any(|&j| stale[j as usize]))
        };
        self.old.alone(y) || !(stale[y as usize] || touched(y) || touched(self.old.of(y)[0]))
    }

    fn print_of(&self, plan: &[u8]) -> Print {
        plan.iter().fold(NOTHING, |print, &j| print.join(self.prints[j as usize]))
    }

    /// The new row of the job at a place of the order.
    fn decompose<'r, M: Meter>(&self, place: usize, row: &'r mut [u8; 1 + ROW], meter: &mut M) -> &'r [u8] {
        let Index { table, norms, ref order, ref lowering, .. } = self.index;
        let y = order[place];
        // the jobs after y's lowering rule by the new rows, behind one place
        let len = 1 + self.new.expand(table.after(lowering[y as usize] as usize), &mut row[1..]);
        let (mut at, mut norm) = (len, norms[y as usize] - 1);
        for &x in order[..place].iter().rev() {
            let begin_alike = || self.old.of(x)[0] == self.old.of(y)[0];
            if !self.new.alone(x) || !begin_alike() || self.marks[x as usize] != self.marks[y as usize] {
                continue;
            }
            while norm + 1 > norms[x as usize] {
                at -= 1;
                norm -= norms[row[at] as usize];
            }
            if norm + 1 != norms[x as usize] {
                continue;
            }
            meter.job();
            let first = core::mem::replace(&mut row[at - 1], x);
            if self.fits(y, &row[at - 1..len], meter) {
                return &row[at - 1..len];
            }
            row[at - 1] = first;
        }
        row[0] = y;
        &row[..1]
    }

    /// Whether y and a row of new primes are equal by the old rows, and their rules answer each other both ways.
    fn fits<M: Meter>(&self, y: u8, row: &[u8], meter: &mut M) -> bool {
        let (x, tail) = (row[0], &row[1..]);
        let print = self.print_of(tail);
        if self.prints[y as usize].value != self.prints[x as usize].join(print).value || !self.old.equal(&[y], row, &[], meter) {
            return false;
        }
        let gap = self.index.norms[y as usize] - self.index.norms[x as usize];
        let pair = Pair { y, x, tail, gap, print, end: &self.old.of(y)[self.old.len(x)..] };
        self.answer_each_other(&pair, meter)
    }

    /// A rule that answered is not asked. The rule behind the last answer is tried first.
    fn answer_each_other<M: Meter>(&self, pair: &Pair, meter: &mut M) -> bool {
        let (mine, other) = (self.index.rules_of(pair.y), self.index.rules_of(pair.x));
        let mut answered = [0u64; 4];
        let mut hint = 0;
        for &r in mine {
            let Some(k) = found(other, hint, |s| self.agree(pair, r, s, meter)) else { return false };
            answered[k / 64] |= 1 << (k % 64);
            hint = k + 1;
        }
        hint = 0;
        for (k, &s) in other.iter().enumerate() {
            if answered[k / 64] >> (k % 64) & 1 == 0 {
                let Some(k) = found(mine, hint, |r| self.agree(pair, r, s, meter)) else { return false };
                hint = k + 1;
            }
        }
        true
    }

    /// Whether rule r of y and rule s of x have equal moves, and what they leave has equal norms and is equal: by the new
    /// rows if the norm falls, else by the old ones.
    #[inline]
    fn agree<M: Meter>(&self, pair: &Pair, r: u8, s: u8, meter: &mut M) -> bool {
        let Index { table, ref row_norms, norms, .. } = self.index;
        let (r, s) = (r as usize, s as usize);
        if table.action(r) != table.action(s) || row_norms[r] != row_norms[s] + pair.gap {
            return false;
        }
        let (mine, other) = (table.after(r), table.after(s));
        if let (Some(left), Some(right)) = (self.rule_prints[r], self.rule_prints[s]) {
            if left.value != right.join(pair.print).value {
                return false;
            }
        }
        meter.row();
        if row_norms[r] < norms[pair.y as usize] {
            self.new.equal(mine, other, pair.tail, meter)
        } else {
            self.old.equal(mine, other, pair.end, meter)
        }
    }
}

/// The place of a rule that passes a test, the one at the hint tried first.
fn found(rules: &[u8], hint: usize, mut test: impl FnMut(u8) -> bool) -> Option<usize> {
    if rules.get(hint).is_some_and(|&r| test(r)) {
        return Some(hint);
    }
    rules.iter().position(|&r| test(r))
}
