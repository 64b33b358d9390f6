/// Which moves tally alike: pairs of a from-move and a to-move. A from-move counts as its to-move, and two moves match if they
/// count as the same.
///
/// Any pairs make a list. It is the call that uses the list that says whether it is accepted: it has at most 32 pairs, and no
/// from-move stands twice or stands as a to-move.
#[derive(Clone, Debug, Default, PartialEq, Eq, Hash)]
pub struct Alike(Vec<u8>);

impl Alike {
    /// The list of pairs (from-move, to-move). Their order changes no answer, and no pairs are no list.
    pub fn new(pairs: &[(u16, u16)]) -> Alike {
        Alike(pairs.iter().flat_map(|(from, to)| [from.to_le_bytes(), to.to_le_bytes()]).flatten().collect())
    }

    /// As the library reads it.
    #[inline]
    pub(crate) fn bytes(&self) -> &[u8] {
        &self.0
    }
}
