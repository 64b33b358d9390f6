//! The call on two images, a list and two plans, which keep their bytes, with what must hold of the workspace after it.
use gindrazoma::raw::compare_tables;
use outside::alike::{bytes_of, pairs_of, Pair};
use outside::area::Area;
use outside::harness::Outcome;
use outside::joined::Tables;
use outside::refusals::{of_image, of_two_tables, table_of_image};
use outside::rng::Rng;
use outside::second::Second;
use outside::space::{cleared, some_length, SPACE};
use outside::table::{Plan, Table};
use outside::{ensure, ensure_eq};
use std::fmt;

#[derive(Clone)]
pub struct Calls {
    pub images: [Vec<u8>; 2],
    pub alike: Vec<u8>,
    pub plans: [Plan; 2],
}

impl fmt::Debug for Calls {
    /// An accepted image as its table.
    fn fmt(&self, f: &mut fmt::Formatter) -> fmt::Result {
        for (image, plan) in self.images.iter().zip(&self.plans) {
            match of_image(image) {
                0 => write!(f, "{plan:?} over {:?}, ", table_of_image(image))?,
                _ => write!(f, "{plan:?} over {image:?}, ")?,
            }
        }
        write!(f, "under {:?}", self.alike)
    }
}

impl Calls {
    pub fn new(tables: [&Table; 2], pairs: &[Pair], plans: [&[u8]; 2]) -> Calls {
        Calls { images: tables.map(Table::image), alike: bytes_of(pairs), plans: plans.map(<[u8]>::to_vec) }
    }

    pub fn of(tables: &Tables, plans: [&[u8]; 2]) -> Calls {
        Calls::new([&tables.left.table, &tables.right.table], &tables.pairs, plans)
    }

    /// The tables exchanged with their plans.
    pub fn exchanged(&self) -> Calls {
        let mut other = self.clone();
        other.images.reverse();
        other.plans.reverse();
        other
    }

    /// The answer in a workspace of a length. The areas that are read have blocks of their own of just their lengths.
    pub fn answer(&self, rng: &mut Rng, len: usize) -> Result<i32, String> {
        let mut space = Area::new(rng, len);
        let before = [&self.images[0], &self.images[1], &self.alike, &self.plans[0], &self.plans[1]];
        let areas = before.map(|bytes| Box::<[u8]>::from(&bytes[..]));
        let [left_image, right_image, alike, left, right] = &areas;
        let answer = compare_tables(left_image, right_image, alike, left, right, space.bytes());
        ensure!(areas.iter().zip(before).all(|(area, bytes)| **area == **bytes), "an area that is only read has changed");
        cleared(&space, len, answer)?;
        Ok(answer)
    }

    /// The answer is the one that is wanted, and so it is in another workspace.
    pub fn expect(&self, rng: &mut Rng, wanted: i32) -> Outcome {
        for len in [SPACE, some_length(rng)] {
            ensure_eq!(self.answer(rng, len)?, wanted, "{self:?} in {len} bytes");
        }
        Ok(())
    }

    /// The same, and with the tables exchanged.
    pub fn expect_both_ways(&self, rng: &mut Rng, wanted: i32) -> Outcome {
        self.expect(rng, wanted)?;
        self.exchanged().expect(rng, wanted)
    }

    /// The answer that is wanted in a workspace of a length, and what is refused: by the checks of the documents and the second comparer.
    pub fn wanted(&self, len: usize) -> (i32, &'static str) {
        if len < SPACE {
            return (-1, "workspace");
        }
        match of_two_tables([&self.images[0], &self.images[1]], &self.alike, [&self.plans[0], &self.plans[1]]) {
            (0, what) => (self.same().into(), what),
            (refusal, what) => (-i32::from(refusal), what),
        }
    }

    /// Whether the plans are the same, where nothing is refused.
    fn same(&self) -> bool {
        let [left, right] = self.images.each_ref().map(|image| table_of_image(image));
        let joined = left.joined(&right).replaced(&pairs_of(&self.alike));
        Second::new(&joined).same(&self.plans[0], &left.numbered_on(&self.plans[1]))
    }
}
