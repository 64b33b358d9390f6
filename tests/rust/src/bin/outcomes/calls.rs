//! The call on an image and a list, which keep their bytes.
use gindrazoma::raw::deterministic;
use outside::alike::{bytes_of, pairs_of, Listed, Pair};
use outside::harness::Outcome;
use outside::outcomes::without_choice;
use outside::refusals::table_of_image;
use outside::table::Table;
use outside::{ensure, ensure_eq};

#[derive(Clone)]
pub struct Calls {
    pub image: Vec<u8>,
    pub alike: Vec<u8>,
}

impl Calls {
    pub fn new(table: &Table, pairs: &[Pair]) -> Calls {
        Calls { image: table.image(), alike: bytes_of(pairs) }
    }

    pub fn of(listed: &Listed) -> Calls {
        Calls::new(&listed.raw, &listed.pairs)
    }

    /// The answer, given twice. Both areas have blocks of their own of just their lengths.
    pub fn answer(&self) -> Result<i32, String> {
        let [image, alike] = [&self.image[..], &self.alike].map(Box::<[u8]>::from);
        let (answer, again) = (deterministic(&image, &alike), deterministic(&image, &alike));
        ensure!(*image == self.image && *alike == self.alike, "image or list has changed");
        ensure!(answer == again, "{answer} and then {again} for {:?} under {:?}", self.image, self.alike);
        Ok(answer)
    }

    /// The answer is the one that is wanted; image and list are accepted.
    pub fn expect(&self, wanted: bool) -> Outcome {
        let answer = self.answer()?;
        ensure_eq!(answer, i32::from(wanted), "{:?} under {:?}", table_of_image(&self.image), pairs_of(&self.alike));
        Ok(())
    }

    /// The answer by the definition, for an image and a list that are accepted.
    pub fn by_rows(&self) -> bool {
        without_choice(&table_of_image(&self.image).replaced(&pairs_of(&self.alike)))
    }
}
