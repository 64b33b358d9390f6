//! The call on an image and a list, with what must hold of the workspace after it.
use gindrazoma::raw::replay_log;
use outside::alike::{self, pairs_of, Pair};
use outside::area::Area;
use outside::harness::Outcome;
use outside::logs::{bytes_of, counted, PLANS};
use outside::refusals::table_of_image;
use outside::replay::by_plans;
use outside::rng::Rng;
use outside::space::{cleared, some_length, SPACE};
use outside::table::Table;
use outside::{ensure, ensure_eq};

#[derive(Clone)]
pub struct Calls {
    pub image: Vec<u8>,
    pub alike: Vec<u8>,
}

impl Calls {
    pub fn new(table: &Table, pairs: &[Pair]) -> Calls {
        Calls { image: table.image(), alike: alike::bytes_of(pairs) }
    }

    /// The answer about the bytes of a log. The areas that are read have blocks of their own of just their lengths.
    pub fn replayed(&self, rng: &mut Rng, plan: &[u8], log: &[u8], len: usize) -> Result<i32, String> {
        let mut space = Area::new(rng, len);
        let [image, alike, plan, log] = [&self.image, &self.alike, plan, log].map(Box::<[u8]>::from);
        let answer = replay_log(&image, &alike, &plan, &log, space.bytes());
        cleared(&space, len, answer)?;
        Ok(answer)
    }

    pub fn answer(&self, rng: &mut Rng, plan: &[u8], log: &[u16]) -> Result<i32, String> {
        self.replayed(rng, plan, &bytes_of(log), SPACE)
    }

    /// The answer is the one that is wanted, and so it is in another workspace.
    pub fn expect(&self, rng: &mut Rng, plan: &[u8], log: &[u16], wanted: i32) -> Outcome {
        let answer = self.answer(rng, plan, log)?;
        ensure_eq!(answer, wanted, "{log:?} on {plan:?} over {:?} under {:?}", table_of_image(&self.image), self.alike);
        let len = some_length(rng);
        let again = self.replayed(rng, plan, &bytes_of(log), len)?;
        ensure!(answer == again, "{log:?} on {plan:?}: {answer} and then {again}");
        Ok(())
    }

    /// The answer by the definition, for an image and a list that are accepted; None if too many plans are reached.
    pub fn by_plans(&self, plan: &[u8], log: &[u16]) -> Option<i32> {
        let pairs = pairs_of(&self.alike);
        by_plans(&table_of_image(&self.image).replaced(&pairs), plan, &counted(&pairs, log), PLANS)
    }
}
