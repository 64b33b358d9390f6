//! Counts of what the rows method does.

/// Told of each step of the method.
pub trait Meter {
    fn round(&mut self) {}
    fn job(&mut self) {}
    fn row(&mut self) {}
    fn places(&mut self, _count: usize) {}
}

impl Meter for () {}

/// Counts of steps: rounds, jobs tried before a greater one, rows of two rules compared, places compared.
#[derive(Default, Clone, Copy, Debug)]
pub struct Steps {
    pub rounds: u64,
    pub jobs: u64,
    pub rows: u64,
    pub places: u64,
}

impl Meter for Steps {
    fn round(&mut self) {
        self.rounds += 1;
    }
    fn job(&mut self) {
        self.jobs += 1;
    }
    fn row(&mut self) {
        self.rows += 1;
    }
    fn places(&mut self, count: usize) {
        self.places += count as u64;
    }
}
