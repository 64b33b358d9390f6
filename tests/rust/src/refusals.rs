//! The refusals as the documents state them, for any bytes. 0 is none.
use crate::table::{norm, rule, Table};

fn number_at(block: &[u8], at: usize) -> usize {
    usize::from(u16::from_le_bytes([block[at], block[at + 1]]))
}

/// 2 to 4 of an image, each check made over all blocks before the next.
pub fn of_frame(image: &[u8]) -> u8 {
    if ![512, 1024, 1536, 2048].contains(&image.len()) {
        return 2;
    }
    let blocks: Vec<&[u8]> = image.chunks(512).collect();
    let sum = |b: &[u8]| b[..510].iter().fold(0, |s, &x| (s + usize::from(x)) % 65521);
    if !blocks.iter().all(|b| number_at(b, 510) == sum(b)) {
        return 3;
    }
    for (k, b) in blocks.iter().enumerate() {
        let last = k == blocks.len() - 1;
        let jobs = (1..=24).contains(&b[0]) && b[0] == blocks[0][0];
        let rules = if last { (1..=63).contains(&b[1]) } else { b[1] == 63 };
        if !(jobs && rules && number_at(b, 506) == k && number_at(b, 508) == blocks.len()) {
            return 4;
        }
    }
    0
}

/// 2 to 5 of an image, by a test of places in use.
pub fn of_layout(image: &[u8], good_place: impl Fn(&[u8], u32) -> bool) -> u8 {
    let refusal = of_frame(image);
    if refusal != 0 {
        return refusal;
    }
    let good = |b: &[u8]| {
        let (used, unused) = b[2..506].split_at(8 * usize::from(b[1]));
        used.chunks(8).all(|p| good_place(p, b[0].into())) && unused.iter().all(|&x| x == 0)
    };
    if image.chunks(512).all(good) {
        0
    } else {
        5
    }
}

/// Byte 7 is the high byte of the move and may be anything.
pub fn good_place(place: &[u8], jobs: u32) -> bool {
    let named = usize::from(place[2]);
    u32::from(place[0]) < jobs
        && named <= 4
        && (0..4).all(|i| if i < named { u32::from(place[3 + i]) < jobs } else { place[3 + i] == 0 })
}

/// The table of places that passed check 5.
pub fn table_of_places(jobs: usize, places: &[u8]) -> Table {
    let action = |p: &[u8]| u16::from(p[1]) + 256 * u16::from(p[7]);
    let rules = places.chunks(8).map(|p| rule(p[0], action(p), &p[3..3 + usize::from(p[2])])).collect();
    Table { jobs, rules }
}

/// The places in use of an image that passed checks 2 to 4.
pub fn places_of_image(image: &[u8]) -> Vec<u8> {
    image.chunks(512).flat_map(|b| b[2..2 + 8 * usize::from(b[1])].to_vec()).collect()
}

/// The table of an image that passed checks 2 to 5.
pub fn table_of_image(image: &[u8]) -> Table {
    table_of_places(image[0].into(), &places_of_image(image))
}

pub fn of_table(table: &Table) -> u8 {
    match table.finite_norms() {
        None => 6,
        Some(norms) if norms.iter().any(|&n| n > 512) => 7,
        Some(_) => 0,
    }
}

/// 2 to 7 of an image.
pub fn of_image(image: &[u8]) -> u8 {
    match of_layout(image, good_place) {
        0 => of_table(&table_of_image(image)),
        refusal => refusal,
    }
}

/// 2, 4, 5, 6 and 7 of a job count and a rule list.
pub fn of_list(jobs: u32, rules: &[u8]) -> u8 {
    if !rules.len().is_multiple_of(8) || !(1..=252).contains(&(rules.len() / 8)) {
        return 2;
    }
    if !(1..=24).contains(&jobs) {
        return 4;
    }
    if !rules.chunks(8).all(|p| good_place(p, jobs)) {
        return 5;
    }
    of_table(&table_of_places(jobs as usize, rules))
}

/// 12 and 13 of an alike list.
pub fn of_alike(alike: &[u8]) -> u8 {
    if alike.len() > 4 * 32 || !alike.len().is_multiple_of(4) {
        return 12;
    }
    let (from, to): (Vec<usize>, Vec<usize>) = alike.chunks(4).map(|pair| (number_at(pair, 0), number_at(pair, 2))).unzip();
    let clashes = |(i, x): (usize, &usize)| from[..i].contains(x) || to.contains(x);
    if from.iter().enumerate().any(clashes) {
        13
    } else {
        0
    }
}

/// 11 of a log.
pub fn of_log(log: &[u8]) -> u8 {
    if log.len() > 2 * 128 || !log.len().is_multiple_of(2) {
        11
    } else {
        0
    }
}

/// 2 to 9 of an image and plans over it.
pub fn of_plans(image: &[u8], plans: &[&[u8]]) -> u8 {
    of_plans_alike(image, &[], plans)
}

/// 2 to 7 of an image, 12 and 13 of an alike list, 8 and 9 of plans.
pub fn of_plans_alike(image: &[u8], alike: &[u8], plans: &[&[u8]]) -> u8 {
    let refusal = of_image(image);
    if refusal != 0 {
        return refusal;
    }
    let refusal = of_alike(alike);
    if refusal != 0 {
        return refusal;
    }
    let table = table_of_image(image);
    let each = plans.iter().map(|plan| of_plan(&table, plan));
    each.filter(|&refusal| refusal != 0).min().unwrap_or(0)
}

/// 8 and 9 of a plan over a table whose jobs all have norms.
fn of_plan(table: &Table, plan: &[u8]) -> u8 {
    match table.finite_norms() {
        _ if plan.iter().any(|&job| usize::from(job) >= table.jobs) => 8,
        Some(norms) if norm(&norms, plan) <= 4096 => 0,
        _ => 9,
    }
}

/// 2 to 9, 12, 13 and 15 of two images, an alike list and a plan over each image's table; and what is refused, "nothing" for none.
pub fn of_two_tables(images: [&[u8]; 2], alike: &[u8], plans: [&[u8]; 2]) -> (u8, &'static str) {
    let [left, right] = images.map(of_image);
    if left != 0 || right != 0 {
        return if left != 0 { (left, "left image") } else { (right, "right image") };
    }
    let tables = images.map(table_of_image);
    let list = of_alike(alike);
    let [left, right] = [0, 1].map(|side| of_plan(&tables[side], plans[side]));
    [
        (15, "jobs", tables[0].jobs + tables[1].jobs > 24),
        (15, "rules", tables[0].rules.len() + tables[1].rules.len() > 252),
        (list, "list", list != 0),
        (8, "left plan", left == 8),
        (8, "right plan", right == 8),
        (9, "left plan", left == 9),
        (9, "right plan", right == 9),
    ]
    .into_iter()
    .find_map(|(refusal, what, holds)| holds.then_some((refusal, what)))
    .unwrap_or((0, "nothing"))
}
