//! Cases with random numbers.
use crate::calls::Calls;
use gindrazoma::raw::{compare_alike, compare_tables};
use outside::alike::{bytes_of, listed, Listed};
use outside::area::Area;
use outside::damage::{damaged, damaged_list};
use outside::harness::Outcome;
use outside::joined::{three, Tables};
use outside::refused::{any_length, any_plan, images_by_refusal};
use outside::repeated::write_again;
use outside::rng::Rng;
use outside::second::Second;
use outside::shapes::{Made, Shape, RULES_MAX, SHAPES};
use outside::space::SPACE;
use outside::table::{Plan, Table};
use outside::tally::Tally;
use outside::{ensure, ensure_eq};

/// The most positions of a game that are replayed against every answer, and the greatest norm of plans that are told apart by the game.
const POSITIONS: usize = 100;
const GAME_NORM: u64 = 500;

pub const ANSWERS: [&str; 12] =
    [SAME, APART, NORMS, LIST, UNRELATED, UNRELATED_APART, COPIES, COPIES_APART, COPIES_REFUSED, ALL, TWO, NONE];

const SAME: &str = "same";
const APART: &str = "apart, of equal norms";
const NORMS: &str = "apart, of different norms";
const LIST: &str = "same under a list only";
const UNRELATED: &str = "same, over tables made one without the other";
const UNRELATED_APART: &str = "apart, over tables made one without the other";
const COPIES: &str = "same, over two copies of a table";
const COPIES_APART: &str = "apart, over two copies of a table";
const COPIES_REFUSED: &str = "refused, over two copies of a table";
const ALL: &str = "three plans over three tables, all the same";
const TWO: &str = "three plans over three tables, two the same";
const NONE: &str = "three plans over three tables, none the same";

/// Two tables, perhaps with a list, and the second comparer on the joined table.
struct Joined<'t> {
    tables: &'t Tables,
    second: Second<'t>,
}

impl<'t> Joined<'t> {
    fn new(tables: &'t Tables, joined: &'t Table) -> Result<Joined<'t>, String> {
        let second = Second::new(joined);
        second.certify()?;
        Ok(Joined { tables, second })
    }

    fn same(&self, [left, right]: [&[u8]; 2]) -> bool {
        self.second.same(left, &self.tables.left.table.numbered_on(right))
    }

    /// What is answered about a plan over each table, and the same with the tables exchanged; what is apart is told apart by the game, and is apart
    /// without a list, too.
    fn expect(&self, rng: &mut Rng, plans: [&[u8]; 2], answers: &Tally) -> Outcome {
        let Joined { tables, second } = self;
        let calls = Calls::of(tables, plans);
        let norms = [tables.left.norm(plans[0]), tables.right.norm(plans[1])];
        let same = self.same(plans);
        let wanted = if norms.iter().any(|&norm| norm > 4096) { -9 } else { i32::from(same) };
        calls.expect_both_ways(rng, wanted)?;
        if wanted == 0 {
            Calls { alike: Vec::new(), ..calls }.expect(rng, 0)?;
        }
        if wanted == 0 && norms.iter().all(|&norm| norm <= GAME_NORM) {
            second.told_apart(plans[0], &tables.left.table.numbered_on(plans[1]), POSITIONS, rng)?;
        }
        match wanted {
            1 => answers.came(SAME),
            0 => answers.came(if norms[0] == norms[1] { APART } else { NORMS }),
            _ => {}
        }
        Ok(())
    }
}

/// Plans over tables of the same work, or nearly so.
pub fn of_shape(rng: &mut Rng, shape: Shape, answers: &Tally) -> Outcome {
    let nearly = rng.once_in(2);
    let tables = if nearly { Tables::nearly(shape, rng) } else { Tables::new(shape, rng) };
    let tables = tables.with_any_list(rng);
    let joined = tables.joined();
    let both = Joined::new(&tables, &joined)?;
    for _ in 0..3 {
        let most = if rng.once_in(8) { 4096 } else { 150 };
        let [p, q] = tables.plans(rng, most);
        ensure!(nearly || both.same([&p, &q]), "{p:?} and {q:?} are the same by the making of the tables");
        let other = if rng.once_in(4) { tables.right.plan(rng, most) } else { tables.right.perturbed(rng, &q) };
        both.expect(rng, [&p, &q], answers)?;
        both.expect(rng, [&p, &other], answers)?;
    }
    Ok(())
}

/// A job and a plan over a table, beside plans of equal norms over another that was made without it.
pub fn unrelated(rng: &mut Rng, answers: &Tally) -> Outcome {
    let shape = *rng.pick(&SHAPES);
    let other = if rng.once_in(2) { shape } else { *rng.pick(&SHAPES) };
    let tables = Tables::unrelated([shape, other], rng).with_any_list(rng);
    let joined = tables.joined();
    let both = Joined::new(&tables, &joined)?;
    let (job, most) = (rng.below(tables.left.table.jobs) as u8, *rng.pick(&[3, 40, 4096]));
    for p in [vec![job], tables.left.plan(rng, most)] {
        let q = tables.right.plan_of_norm(rng, tables.left.norm(&p));
        both.expect(rng, [&p, &q], answers)?;
        if !p.is_empty() {
            answers.came(if both.same([&p, &q]) { UNRELATED } else { UNRELATED_APART });
        }
    }
    Ok(())
}

/// Plans of norm 4,096 on both sides, and with a job more on either.
pub fn long_plans(rng: &mut Rng, answers: &Tally) -> Outcome {
    let shape = *rng.pick(&[Shape::Light, Shape::Full, Shape::Long, Shape::Equations, Shape::Near]);
    let tables = Tables::any(shape, rng).with_any_list(rng);
    let joined = tables.joined();
    let both = Joined::new(&tables, &joined)?;
    let p = tables.left.plan_of_norm(rng, 4096);
    let q = tables.left.rewritten_over(rng, &tables.right, &p);
    let (perturbed, any) = (tables.right.perturbed(rng, &q), tables.right.plan_of_norm(rng, 4096));
    for q in [&q, &perturbed, &any] {
        both.expect(rng, [&p, q], answers)?;
    }
    let longer = [&p[..], &[rng.below(tables.left.table.jobs) as u8]].concat();
    Calls::of(&tables, [&longer, &any]).expect(rng, -9)?;
    let longer = [&any[..], &[rng.below(tables.right.table.jobs) as u8]].concat();
    Calls::of(&tables, [&p, &longer]).expect(rng, -9)
}

/// Tables that have moves in common by their list alone: the answer under it, whatever the order of its pairs, and without it.
pub fn joined_by_a_list(rng: &mut Rng, answers: &Tally) -> Outcome {
    let mut tables = Tables::new(*rng.pick(&SHAPES), rng).joined_by_list(rng);
    let joined = tables.joined();
    let [p, q] = tables.plans(rng, 4096);
    for _ in 0..2 {
        let both = Joined::new(&tables, &joined)?;
        ensure!(both.same([&p, &q]), "{p:?} and {q:?} are the same by the making of the tables");
        let other = tables.right.perturbed(rng, &q);
        both.expect(rng, [&p, &q], answers)?;
        both.expect(rng, [&p, &other], answers)?;
        rng.shuffle(&mut tables.pairs);
    }
    tables.pairs.clear();
    let joined = tables.joined();
    let both = Joined::new(&tables, &joined)?;
    both.expect(rng, [&p, &q], answers)?;
    if !both.same([&p, &q]) {
        answers.came(LIST);
    }
    Ok(())
}

/// Two copies of a table that fit together, also in one area: the answer is that of the call on one table, refused or not.
pub fn two_copies(rng: &mut Rng, answers: &Tally) -> Outcome {
    let made = Made::within(*rng.pick(&SHAPES), rng, 12);
    let listed = listed(rng, made);
    let p = listed.made.plan(rng, 4096);
    let q = rewritten_or_perturbed(rng, &listed.made, &p);
    let (mut image, mut alike, mut plans, mut len) = (listed.raw.image(), bytes_of(&listed.pairs), [p, q], SPACE);
    match rng.below(8) {
        0 => image = damaged(rng, &image),
        1 => alike = damaged_list(rng, &alike),
        2 => plans = [any_plan(rng, &listed.made), any_plan(rng, &listed.made)],
        3 => len = any_length(rng),
        _ => {}
    }
    let calls = Calls { images: [image.clone(), image.clone()], alike, plans };
    let [p, q] = &calls.plans;
    let (wanted, _) = calls.wanted(len);
    ensure_eq!(calls.answer(rng, len)?, wanted, "two copies: {calls:?}");
    if wanted == -15 {
        return Ok(());
    }
    let answer = compare_alike(&image, &calls.alike, p, q, Area::new(rng, len).bytes());
    ensure_eq!(answer, wanted, "one table: {calls:?}");
    let answer = compare_tables(&image, &image, &calls.alike, p, q, Area::new(rng, len).bytes());
    ensure_eq!(answer, wanted, "one image for both: {calls:?}");
    answers.came(match wanted {
        1 => COPIES,
        0 => COPIES_APART,
        _ => COPIES_REFUSED,
    });
    Ok(())
}

/// A plan over each of three tables: if two of them are the same as the third, they are the same.
pub fn three_tables(rng: &mut Rng, answers: &Tally) -> Outcome {
    let made = three(*rng.pick(&SHAPES), rng);
    let pairs = if rng.once_in(2) { Listed::merged(rng, made[0].replaced(&[])).pairs } else { Vec::new() };
    let [left, middle, right] = [0, 1, 2].map(|i| &made[i].table);
    let two = left.joined(middle);
    let joined = two.joined(right).replaced(&pairs);
    let second = Second::new(&joined);
    second.certify()?;
    let p = made[0].plan(rng, 150);
    let mut q = made[0].rewritten_over(rng, &made[1], &p);
    let mut r = made[1].rewritten_over(rng, &made[2], &q);
    if rng.once_in(3) {
        q = made[1].perturbed(rng, &q);
    }
    if rng.once_in(3) {
        r = made[2].perturbed(rng, &r);
    }
    if made.iter().zip([&p, &q, &r]).any(|(made, plan)| made.norm(plan) > 4096) {
        return Ok(());
    }
    let forms = [&p, &left.numbered_on(&q), &two.numbered_on(&r)].map(|plan| second.form(plan));
    let mut same = 0;
    for (i, k, plans) in [(0, 1, [&p, &q]), (1, 2, [&q, &r]), (0, 2, [&p, &r])] {
        let calls = Calls::new([&made[i].table, &made[k].table], &pairs, plans.map(|plan| &plan[..]));
        calls.expect(rng, i32::from(forms[i] == forms[k]))?;
        same += calls.answer(rng, SPACE)?;
    }
    ensure!(same != 2, "{p:?}, {q:?} and {r:?}: two of them are the same as the third and not the same");
    answers.came(match same {
        3 => ALL,
        1 => TWO,
        _ => NONE,
    });
    Ok(())
}

/// Two plans over either table: they are the same over the joined one exactly if they are over their own; then each plan over the other table is the
/// same as both or as neither; and the answer is that of a comparison over the image of the joined table.
pub fn through_the_joined_table(rng: &mut Rng) -> Outcome {
    let tables = Tables::any(*rng.pick(&SHAPES), rng).with_any_list(rng);
    let Tables { left, right, pairs } = &tables;
    let (joined, alike) = (left.table.joined(&right.table).image(), bytes_of(pairs));
    let [p, q] = tables.plans(rng, 500);
    let lefts = [rewritten_or_perturbed(rng, left, &p), p];
    let rights = [rewritten_or_perturbed(rng, right, &q), q];
    let numbered_on = rights.each_ref().map(|plan| left.table.numbered_on(plan));
    let mut over = |image: &[u8], p: &[u8], q: &[u8]| compare_alike(image, &alike, p, q, Area::new(rng, SPACE).bytes());
    let own = [over(&left.table.image(), &lefts[0], &lefts[1]), over(&right.table.image(), &rights[0], &rights[1])];
    let through = [over(&joined, &lefts[0], &lefts[1]), over(&joined, &numbered_on[0], &numbered_on[1])];
    ensure_eq!(own, through, "{lefts:?} and {rights:?} over their own tables, and over the joined one of {:?}", tables.joined());
    let wanted = lefts.each_ref().map(|p| numbered_on.each_ref().map(|q| over(&joined, p, q)));
    for (i, k) in [(0, 0), (0, 1), (1, 0), (1, 1)] {
        Calls::of(&tables, [&lefts[i], &rights[k]]).expect(rng, wanted[i][k])?;
    }
    let [[_, by_left], [by_right, both]] = wanted;
    ensure!(both != 1 || [by_left, by_right] == own, "{lefts:?} and {rights:?}, of which the last ones are the same: {wanted:?}");
    Ok(())
}

fn rewritten_or_perturbed(rng: &mut Rng, made: &Made, plan: &[u8]) -> Plan {
    if rng.once_in(2) {
        made.rewritten(rng, plan)
    } else {
        made.perturbed(rng, plan)
    }
}

/// The answer is the same whatever the order of the rules of either table, and however often they are written.
pub fn rules_in_another_order(rng: &mut Rng) -> Outcome {
    let tables = Tables::any(*rng.pick(&SHAPES), rng).with_any_list(rng);
    let [p, q] = tables.plans(rng, 1000);
    let calls = Calls::of(&tables, [&p, &q]);
    let (wanted, _) = calls.wanted(SPACE);
    let mut others = [tables.left.table, tables.right.table];
    for _ in 0..2 {
        let room = RULES_MAX - others[0].rules.len() - others[1].rules.len();
        let other = &mut others[rng.below(2)];
        for _ in 0..rng.below(room + 1) {
            other.rules.push(rng.pick(&other.rules).clone());
        }
        rng.shuffle(&mut other.rules);
        Calls { images: others.each_ref().map(Table::image), ..calls.clone() }.expect(rng, wanted)?;
    }
    Ok(())
}

/// Calls over several tables in any order: each is answered as if it were the only one.
pub fn one_after_the_other(rng: &mut Rng) -> Outcome {
    let mut asked = Vec::new();
    for _ in 0..5 {
        let calls = any_calls(rng);
        let (wanted, _) = calls.wanted(SPACE);
        asked.push((calls, wanted));
    }
    for _ in 0..20 {
        let (calls, wanted) = rng.pick(&asked);
        calls.expect(rng, *wanted)?;
    }
    Ok(())
}

pub const REFUSED: [&str; 23] = [
    "1 of the workspace",
    "2 of the left image",
    "3 of the left image",
    "4 of the left image",
    "5 of the left image",
    "6 of the left image",
    "7 of the left image",
    "2 of the right image",
    "3 of the right image",
    "4 of the right image",
    "5 of the right image",
    "6 of the right image",
    "7 of the right image",
    "15 of the jobs",
    "15 of the rules",
    "12 of the list",
    "13 of the list",
    "8 of the left plan",
    "8 of the right plan",
    "9 of the left plan",
    "9 of the right plan",
    "nothing, same",
    "nothing, apart",
];

/// Any damage to any of the areas: the refusal, or the answer over what the areas mean. With the tables exchanged they are refused, too, or answered
/// in the same way.
pub fn refused_calls(rng: &mut Rng, refused: &Tally) -> Outcome {
    let (calls, len) = (any_calls(rng), any_length(rng));
    let (wanted, what) = calls.wanted(len);
    let kind = match wanted {
        1 => "nothing, same".to_string(),
        0 => "nothing, apart".to_string(),
        refusal => format!("{} of the {what}", -refusal),
    };
    ensure_eq!(calls.answer(rng, len)?, wanted, "{kind}: {calls:?} in {len} bytes");
    let exchanged = calls.exchanged().answer(rng, len)?;
    ensure!(exchanged == wanted || exchanged < 0 && wanted < 0, "{exchanged} and not {wanted} once exchanged: {calls:?}");
    refused.came(REFUSED.iter().find(|name| **name == kind).expect("a kind"));
    Ok(())
}

/// Tables that perhaps do not fit together, and up to two areas that are perhaps refused.
fn any_calls(rng: &mut Rng) -> Calls {
    let mut tables = Tables::any(*rng.pick(&SHAPES), rng).with_any_list(rng);
    let plans = tables.plans(rng, 1000);
    match rng.below(12) {
        0 => tables.left = Made::new(*rng.pick(&SHAPES), rng),
        1 => tables.right = Made::new(*rng.pick(&SHAPES), rng),
        2 => {
            write_again(rng, &mut tables.left.table);
            write_again(rng, &mut tables.right.table);
        }
        _ => {}
    }
    let mut calls = Calls::of(&tables, [&plans[0], &plans[1]]);
    for _ in 0..rng.below(3) {
        let side = rng.below(2);
        match rng.below(8) {
            0 | 1 => calls.images[side] = damaged(rng, &calls.images[side]),
            2 => calls.images[side] = rng.pick(&images_by_refusal()).1.clone(),
            3 | 4 => calls.alike = damaged_list(rng, &calls.alike),
            5 | 6 => calls.plans[side] = any_plan(rng, [&tables.left, &tables.right][side]),
            _ => calls.plans.reverse(),
        }
    }
    calls
}
