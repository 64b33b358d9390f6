//! A table: a job count and 8-byte rules, and their moves as numbers.

pub const RULE: usize = 8;
pub const RULES: usize = 252;
pub const JOBS: usize = 24;

pub struct Table {
    pub jobs: usize,
    pub count: usize,
    bytes: [u8; RULE * RULES],
    actions: [u16; RULES],
}

impl Table {
    pub fn new(jobs: usize, rules: &[u8]) -> Table {
        let mut table = Table { jobs, count: 0, bytes: [0; RULE * RULES], actions: [0; RULES] };
        table.push(rules);
        table
    }

    pub fn push(&mut self, rules: &[u8]) {
        let at = self.count * RULE;
        self.bytes[at..at + rules.len()].copy_from_slice(rules);
        let places = rules.as_chunks::<RULE>().0;
        for (action, place) in self.actions[self.count..].iter_mut().zip(places) {
            *action = u16::from_le_bytes([place[1], place[7]]);
        }
        self.count += places.len();
    }

    pub fn bytes(&self) -> &[u8] {
        &self.bytes[..self.count * RULE]
    }

    /// The 8 bytes of a rule as one number.
    pub fn place(&self, r: usize) -> u64 {
        u64::from_le_bytes(self.bytes.as_chunks().0[r])
    }

    pub fn job(&self, r: usize) -> usize {
        self.bytes[r * RULE] as usize
    }

    /// The moves of all rules.
    pub fn actions(&mut self) -> &mut [u16] {
        &mut self.actions[..self.count]
    }

    pub fn action(&self, r: usize) -> u16 {
        self.actions[r]
    }

    pub fn after(&self, r: usize) -> &[u8] {
        let at = r * RULE;
        &self.bytes[at + 3..at + 3 + self.bytes[at + 2] as usize]
    }
}
