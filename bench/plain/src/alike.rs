//! Alike lists: refusals 12 and 13, and the moves that others count as.
use crate::Answer;

const PAIRS: usize = 32;
const PAIR: usize = 4;

/// Pairs of a from-move and its to-move, by rising from-moves.
pub struct Alike {
    pairs: [(u16, u16); PAIRS],
    count: usize,
}

impl Alike {
    /// A list that refusals 12 and 13 let pass.
    pub fn load(bytes: &[u8]) -> Answer<Alike> {
        let (places, unfinished) = bytes.as_chunks::<PAIR>();
        if places.len() > PAIRS || !unfinished.is_empty() {
            return Err(12);
        }
        let mut list = Alike { pairs: [(0, 0); PAIRS], count: places.len() };
        for (pair, &[low, high, to_low, to_high]) in list.pairs.iter_mut().zip(places) {
            *pair = (u16::from_le_bytes([low, high]), u16::from_le_bytes([to_low, to_high]));
        }
        let pairs = &mut list.pairs[..list.count];
        pairs.sort_unstable();
        let twice = pairs.windows(2).any(|two| two[0].0 == two[1].0);
        if twice || list.pairs().iter().any(|pair| list.find(pair.1).is_some()) {
            return Err(13);
        }
        Ok(list)
    }

    fn pairs(&self) -> &[(u16, u16)] {
        &self.pairs[..self.count]
    }

    fn find(&self, action: u16) -> Option<usize> {
        self.pairs().binary_search_by_key(&action, |pair| pair.0).ok()
    }

    /// Replaces moves by those that they count as.
    pub fn replace(&self, actions: &mut [u16]) {
        if self.count > 0 {
            for action in actions {
                if let Some(i) = self.find(*action) {
                    *action = self.pairs[i].1;
                }
            }
        }
    }
}
