//! The call on an image and a plan, which keep their bytes.
use gindrazoma::raw::plan_growth;
use outside::ensure_eq;
use outside::growth::Asked;
use outside::harness::Outcome;
use outside::refusals::table_of_image;
use outside::table::{Plan, Table};

#[derive(Clone)]
pub struct Calls {
    pub image: Vec<u8>,
    pub plan: Plan,
}

impl Calls {
    pub fn new(table: &Table, plan: &[u8]) -> Calls {
        Calls { image: table.image(), plan: plan.to_vec() }
    }

    pub fn of(asked: &Asked) -> Calls {
        Calls::new(&asked.made.table, &asked.plan)
    }

    /// The answer, given twice. Both areas have blocks of their own of just their lengths.
    pub fn answer(&self) -> Result<i32, String> {
        let [image, plan] = [&self.image[..], &self.plan].map(Box::<[u8]>::from);
        let answers = [plan_growth(&image, &plan), plan_growth(&image, &plan)];
        ensure_eq!((&*image, &*plan), (&self.image[..], &self.plan[..]), "image and plan after the call");
        ensure_eq!(answers[1], answers[0], "the second answer for {:?} over {:?}", self.plan, self.image);
        Ok(answers[0])
    }

    /// The answer is the one that is wanted; the image is accepted.
    pub fn expect(&self, wanted: i32) -> Outcome {
        ensure_eq!(self.answer()?, wanted, "{:?} over {:?}", self.plan, table_of_image(&self.image));
        Ok(())
    }
}
