//! Images as they were before version 2.0.0: a move was byte 1 of a place alone, and byte 7 was zero.
use crate::refusals::{of_layout, of_table, places_of_image};
use crate::table::{rule, Table};

/// The refusal of such a reader, or the table.
pub fn read(image: &[u8]) -> Result<Table, u8> {
    let refusal = of_layout(image, good_place);
    if refusal != 0 {
        return Err(refusal);
    }
    let places = places_of_image(image);
    let rules = places.chunks(8).map(|p| rule(p[0], p[1].into(), &p[3..][..p[2].into()])).collect();
    let table = Table { jobs: image[0].into(), rules };
    match of_table(&table) {
        0 => Ok(table),
        refusal => Err(refusal),
    }
}

fn good_place(place: &[u8], jobs: u32) -> bool {
    let below = |&j: &u8| u32::from(j) < jobs;
    let after = usize::from(place[2]);
    after <= 4 && below(&place[0]) && place[3..3 + after].iter().all(below) && place[3 + after..].iter().all(|&b| b == 0)
}
