//! Comparisons and prime forms under alike lists, against the second comparer on tables whose moves are replaced.
use gindrazoma::raw::{compare, compare_alike, prime_form, prime_form_alike};
use outside::alike::{bytes_of, kinds, pairs_of, Listed, Pair, KINDS, PAIRS_MAX};
use outside::area::Area;
use outside::damage::{damaged, damaged_list};
use outside::harness::{often, Outcome, Suite};
use outside::refusals::{of_plans_alike, table_of_image};
use outside::refused::{any_length, any_plan, images_by_refusal, lists_by_refusal, pair_at, plans_by_refusal};
use outside::rng::Rng;
use outside::second::Second;
use outside::shapes::{Made, Shape, SHAPES};
use outside::space::{cleared, some_length, SPACE};
use outside::table::{rule, Plan, Table};
use outside::{ensure, ensure_eq};
use std::process::ExitCode;

/// The most positions of a game that are replayed against every answer.
const POSITIONS: usize = 200;

fn main() -> ExitCode {
    let mut suite = Suite::new();
    suite.fixed("lists to try", lists_to_try);
    suite.fixed("areas that coincide", areas_that_coincide);
    suite.fixed("moves of two bytes", moves_of_two_bytes);
    suite.fixed("lengths of lists", lengths_of_lists);
    suite.fixed("clashes at every place", clashes_at_every_place);
    suite.fixed("the order of refusals", order_of_refusals);
    suite.fixed("every kind of list", || often(&KINDS, |rng| kinds(&any_listed(rng))));
    for shape in SHAPES {
        let count = match shape {
            Shape::Full => 30,
            Shape::Light | Shape::Chains | Shape::OneMove => 120,
            _ => 250,
        };
        suite.random(&format!("shape {shape:?}"), count, move |rng| shape_case(rng, shape));
    }
    suite.random("same under the list only", 200, same_under_the_list_only);
    suite.random("plans of norm 4,096", 60, long_plans);
    suite.random("no list", 1000, no_list);
    suite.random("lists in another order", 200, lists_in_another_order);
    suite.random("refused calls", 2500, refused_calls);
    suite.finish()
}

/// A table of any shape with a list; one with several blocks once in a while.
fn any_listed(rng: &mut Rng) -> Listed {
    let shape = if rng.once_in(6) { Shape::Full } else { *rng.pick(&SHAPES) };
    let made = Made::new(shape, rng);
    Listed::new(rng, made)
}

/// An image and a list, and the calls on them, with what must hold of workspace and output after each.
struct Calls {
    image: Vec<u8>,
    alike: Vec<u8>,
}

impl Calls {
    fn new(table: &Table, pairs: &[Pair]) -> Calls {
        Calls { image: table.image(), alike: bytes_of(pairs) }
    }

    fn compared(&self, rng: &mut Rng, left: &[u8], right: &[u8], len: usize) -> Result<i32, String> {
        let mut space = Area::new(rng, len);
        let answer = compare_alike(&self.image, &self.alike, left, right, space.bytes());
        cleared(&space, len, answer)?;
        Ok(answer)
    }

    fn formed(&self, rng: &mut Rng, plan: &[u8], out: &mut Area, len: usize) -> Result<i32, String> {
        let mut space = Area::new(rng, len);
        let answer = prime_form_alike(&self.image, &self.alike, plan, out.bytes(), space.bytes());
        cleared(&space, len, answer)?;
        ensure!(out.kept_beyond(answer.max(0) as usize), "bytes beyond the output have changed");
        Ok(answer)
    }

    /// The prime form, made twice in other workspaces and outputs, and once with an output that is too short.
    fn form(&self, rng: &mut Rng, plan: &[u8]) -> Result<Plan, String> {
        let len = some_length(rng);
        let mut out = Area::new(rng, 4096);
        let n = self.formed(rng, plan, &mut out, len)?;
        ensure!(n >= 0, "the prime form of {plan:?} is refused {n}");
        let form = out.first(n as usize).to_vec();
        let mut exact = Area::new(rng, form.len());
        ensure_eq!(self.formed(rng, plan, &mut exact, SPACE)?, n, "the form into an area of its length");
        ensure_eq!(exact.first(form.len()), &form[..], "the form made a second time");
        if n > 0 {
            let mut short = Area::new(rng, form.len() - 1);
            ensure_eq!(self.formed(rng, plan, &mut short, SPACE)?, -10, "the form into an area one too short");
        }
        Ok(form)
    }
}

fn shape_case(rng: &mut Rng, shape: Shape) -> Outcome {
    let made = Made::new(shape, rng);
    let listed = Listed::new(rng, made);
    ensure_eq!(listed.raw.replaced(&listed.pairs), listed.made.table, "the table under {:?}", listed.pairs);
    let second = Second::new(&listed.made.table);
    second.certify()?;
    let calls = Calls::new(&listed.raw, &listed.pairs);
    prime_jobs(rng, &listed, &second, &calls)?;
    for _ in 0..4 {
        let most = if rng.once_in(8) { 4096 } else { 150 };
        let p = listed.made.plan(rng, most);
        let rewritten = listed.made.rewritten(rng, &p);
        pair(rng, &listed, &second, &calls, &p, &rewritten)?;
        ensure!(second.same(&p, &rewritten), "{p:?} and {rewritten:?} are the same by the table's making");
        let q = if rng.once_in(4) { listed.made.plan(rng, most) } else { listed.made.perturbed(rng, &rewritten) };
        pair(rng, &listed, &second, &calls, &p, &q)?;
    }
    Ok(())
}

/// A pair in both orders, with both forms; what is apart is told apart by the game, and is apart without a list, too.
fn pair(rng: &mut Rng, listed: &Listed, second: &Second, calls: &Calls, p: &[u8], q: &[u8]) -> Outcome {
    let Listed { raw, pairs, .. } = listed;
    let same = second.same(p, q);
    let len = some_length(rng);
    ensure_eq!(calls.compared(rng, p, q, len)?, i32::from(same), "{p:?} and {q:?} over {raw:?} under {pairs:?}");
    ensure_eq!(calls.compared(rng, q, p, SPACE)?, i32::from(same), "{q:?} and {p:?} over {raw:?} under {pairs:?}");
    if !same {
        second.told_apart(p, q, POSITIONS, rng)?;
        let without = compare(&calls.image, p, q, &mut [0; SPACE]);
        ensure_eq!(without, 0, "{p:?} and {q:?}, apart under {pairs:?}, without a list over {raw:?}");
    }
    let (f, g) = (calls.form(rng, p)?, calls.form(rng, q)?);
    ensure_eq!(f == g, same, "equal forms of {p:?} and {q:?} over {raw:?} under {pairs:?}");
    ensure_eq!(f, second.form(p), "the form of {p:?} over {raw:?} under {pairs:?}");
    ensure_eq!(calls.form(rng, &f)?, f, "the form of a form");
    ensure_eq!(calls.compared(rng, p, &f, SPACE)?, 1, "{p:?} and its form");
    ensure!(f.len() >= p.len(), "the form {f:?} is shorter than its plan {p:?}");
    ensure!(!same || f.len() >= q.len(), "the form {f:?} is shorter than {q:?}, which is the same");
    Ok(())
}

/// Each job has its form of primes, and two have equal forms exactly if they are the same.
fn prime_jobs(rng: &mut Rng, listed: &Listed, second: &Second, calls: &Calls) -> Outcome {
    let jobs = listed.raw.jobs as u8;
    let forms = (0..jobs).map(|j| calls.form(rng, &[j])).collect::<Result<Vec<Plan>, String>>()?;
    for j in 0..jobs {
        let f = &forms[j as usize];
        ensure_eq!(f, &second.form(&[j]), "the form of job {j} over {:?} under {:?}", listed.raw, listed.pairs);
        ensure!(f.iter().all(|&x| forms[x as usize] == [x]), "the form {f:?} of job {j} is not of primes");
        let lowest = (0..jobs).find(|&i| second.same(&[i], &[j]));
        ensure_eq!(forms.iter().position(|g| f == g), lowest.map(usize::from), "the lowest job that is the same as {j}");
    }
    Ok(())
}

/// A list; pairs of plans, and whether they are the same; a plan and its form.
type Case<'a> = (&'a [Pair], &'a [(&'a [u8], &'a [u8], bool)], (&'a [u8], &'a [u8]));

fn lists_to_try() -> Outcome {
    let mut rng = Rng::new(1);
    let t = Table::new(5, &[(0, 97, &[]), (1, 98, &[]), (2, 97, &[]), (2, 98, &[]), (3, 97, &[1]), (4, 99, &[0])]);
    let cases: [Case; 9] = [
        (&[], &[(&[0], &[1], false), (&[0], &[2], false), (&[3], &[0, 1], true)], (&[3, 2], &[0, 1, 2])),
        (&[(5, 6)], &[(&[0], &[1], false), (&[0], &[2], false), (&[3], &[0, 1], true)], (&[3, 2], &[0, 1, 2])),
        (
            &[(98, 97)],
            &[(&[0], &[1], true), (&[0], &[2], true), (&[3], &[0, 0], true), (&[3], &[4], false)],
            (&[3, 4], &[0, 0, 4]),
        ),
        (
            &[(97, 98)],
            &[(&[0], &[1], true), (&[0], &[2], true), (&[3], &[0, 0], true), (&[3], &[4], false)],
            (&[3, 4], &[0, 0, 4]),
        ),
        (&[(97, 99)], &[(&[0], &[1], false), (&[0], &[2], false), (&[4], &[0, 0], true)], (&[4, 3, 2], &[0, 0, 0, 1, 2])),
        (&[(98, 97), (99, 97)], &[(&[3], &[4], true), (&[2, 3], &[4, 1], true)], (&[2, 4], &[0, 0, 0])),
        (&[(97, 7), (98, 7)], &[(&[0], &[1], true), (&[3], &[4], false)], (&[3, 1], &[0, 0, 0])),
        (&[(97, 7), (98, 8)], &[(&[0], &[1], false), (&[3], &[0, 1], true)], (&[3, 2], &[0, 1, 2])),
        (&[(97, 7), (98, 99)], &[(&[1], &[0], false), (&[4], &[1, 0], true)], (&[4, 1], &[1, 0, 1])),
    ];
    for (pairs, compared, (plan, form)) in cases {
        let calls = Calls::new(&t, pairs);
        for &(p, q, same) in compared {
            ensure_eq!(calls.compared(&mut rng, p, q, SPACE)?, i32::from(same), "{p:?} and {q:?} under {pairs:?}");
            ensure_eq!(calls.compared(&mut rng, q, p, SPACE)?, i32::from(same), "{q:?} and {p:?} under {pairs:?}");
        }
        ensure_eq!(calls.form(&mut rng, plan)?, form, "the form of {plan:?} under {pairs:?}");
    }
    Ok(())
}

/// One area as list and plans, and all that is read side by side.
fn areas_that_coincide() -> Outcome {
    let table = Table::new(3, &[(0, 1, &[]), (1, 2, &[]), (2, 1, &[])]);
    let mut space = vec![0; SPACE];
    let both = bytes_of(&[(1, 2)]);
    ensure_eq!(compare_alike(&table.image(), &both, &both, &[0; 4], &mut space), 1, "a list that is a plan");
    ensure_eq!(compare_alike(&table.image(), &both, &both, &both, &mut space), 1, "a list that is both plans");
    let mut out = [9; 5];
    ensure_eq!(prime_form_alike(&table.image(), &both, &both, &mut out, &mut space), 4, "the form of a list");
    ensure_eq!(out, [0, 0, 0, 0, 9], "the form of a list");
    let bytes = [table.image(), both, vec![0, 1, 2]].concat();
    let (image, list, plan) = (&bytes[..512], &bytes[512..516], &bytes[516..]);
    ensure_eq!(compare_alike(image, list, plan, &plan[1..], &mut space), 0, "plans of different norms");
    ensure_eq!(compare_alike(image, list, &plan[..2], &plan[1..], &mut space), 1, "plans that overlap");
    ensure_eq!(compare_alike(image, &bytes[2..6], &plan[..2], &plan[1..], &mut space), 0, "a list within the image");
    Ok(())
}

/// Jobs of one move each, and every list of one pair of these moves: exactly the two jobs of its moves become the same.
fn moves_of_two_bytes() -> Outcome {
    let mut rng = Rng::new(1);
    let moves = [0, 1, 97, 255, 256, 257, 353, 511, 24832, 24929, 65280, 65377, 65535];
    let table = Table { jobs: moves.len(), rules: (0..).zip(moves).map(|(j, a)| rule(j, a, &[])).collect() };
    let plan: Plan = (0..moves.len() as u8).collect();
    for i in 0..moves.len() {
        for k in 0..moves.len() {
            let calls = Calls::new(&table, &[(moves[i], moves[k])]);
            let mut form = plan.clone();
            form[i.max(k)] = i.min(k) as u8;
            if i == k {
                ensure_eq!(calls.compared(&mut rng, &plan, &plan, SPACE)?, -13, "move {} for itself", moves[i]);
            } else {
                ensure_eq!(calls.form(&mut rng, &plan)?, form, "moves {} for {}", moves[k], moves[i]);
            }
        }
    }
    Ok(())
}

/// Every length up to 140 bytes and some more. Each pair of an accepted list replaces, and no pair that is not there does.
fn lengths_of_lists() -> Outcome {
    let mut rng = Rng::new(1);
    let all = bytes_of(&(0..50_000).map(pair_at).collect::<Vec<_>>());
    for len in (0..=140usize).chain([255, 256, 260, 512, 65536, 65540, 131_072, 200_000]) {
        let whole = len / 4;
        for place in [0, whole / 2, whole.saturating_sub(1), whole] {
            let table = Table::new(2, &[(0, 97, &[]), (1, pair_at(place).0, &[])]);
            let calls = Calls { image: table.image(), alike: all[..len].to_vec() };
            let accepted = len % 4 == 0 && len <= 128;
            let wanted = if accepted { i32::from(place < whole) } else { -12 };
            ensure_eq!(calls.compared(&mut rng, &[0], &[1], SPACE)?, wanted, "{len} bytes, the move of pair {place}");
            let mut out = Area::new(&mut rng, 1);
            let wanted = if accepted { 1 } else { -12 };
            ensure_eq!(calls.formed(&mut rng, &[1], &mut out, SPACE)?, wanted, "a form, {len} bytes");
            let prime = u8::from(place >= whole);
            ensure!(!accepted || out.first(1) == [prime], "the form under {len} bytes, the move of pair {place}");
        }
    }
    Ok(())
}

/// The answer for a job against itself under a list, which both calls give for refusals.
fn answer_under(rng: &mut Rng, pairs: &[Pair]) -> Result<i32, String> {
    let calls = Calls::new(&Table::new(1, &[(0, 97, &[])]), pairs);
    let answer = calls.compared(rng, &[0], &[0], SPACE)?;
    let mut out = Area::new(rng, 1);
    ensure_eq!(calls.formed(rng, &[0], &mut out, SPACE)?, answer, "the answer for a form under {pairs:?}");
    Ok(answer)
}

/// Lists whose moves share a byte only; and a from-move in the place of each other from-move, and of each to-move.
fn clashes_at_every_place() -> Outcome {
    let mut rng = Rng::new(1);
    let places = 1..=PAIRS_MAX as u16;
    let clean: [Vec<Pair>; 4] = [
        places.clone().map(|i| (256 * i + 7, 256 * i + 8)).collect(),
        places.clone().map(|i| (256 * i + 7, 256 * (i + 100) + 7)).collect(),
        places.clone().map(|i| (i, 256 * i)).collect(),
        places.map(|i| (512 + i, 1024)).collect(),
    ];
    for pairs in &clean {
        ensure_eq!(answer_under(&mut rng, pairs)?, 1, "a list without a clash: {pairs:?}");
    }
    let pairs = &clean[0];
    for (i, k) in (0..PAIRS_MAX).flat_map(|i| (0..PAIRS_MAX).map(move |k| (i, k))) {
        if i != k {
            let mut twice = pairs.clone();
            twice[k].0 = pairs[i].0;
            ensure_eq!(answer_under(&mut rng, &twice)?, -13, "the from-move of pair {i} in pair {k}, too");
            twice[k] = pairs[i];
            ensure_eq!(answer_under(&mut rng, &twice)?, -13, "pair {i} in the place of pair {k}, too");
        }
        let mut both = pairs.clone();
        both[k].1 = pairs[i].0;
        ensure_eq!(answer_under(&mut rng, &both)?, -13, "the from-move of pair {i} as the to-move of pair {k}");
    }
    Ok(())
}

/// Every way in which several checks fail at once: the answer is the first one by the order that is written here.
fn order_of_refusals() -> Outcome {
    let mut rng = Rng::new(1);
    let first = |refusals: &[i32]| -refusals.iter().copied().find(|&refusal| refusal != 0).unwrap_or(0);
    for (space, len) in [(0, SPACE), (1, SPACE - 1)] {
        for (image, bytes) in images_by_refusal() {
            for (list, alike) in lists_by_refusal() {
                let calls = Calls { image: bytes.clone(), alike };
                for (plan, jobs) in plans_by_refusal() {
                    let wanted = first(&[space, image, list, plan]);
                    let answers = [calls.compared(&mut rng, &jobs, &[0], len)?, calls.compared(&mut rng, &[0], &jobs, len)?];
                    let wrong = answers.iter().any(|&answer| if wanted < 0 { answer != wanted } else { answer < 0 });
                    ensure!(!wrong, "compare answers {answers:?} where {space}, {image}, {list} and {plan} are due");
                    let mut out = Area::new(&mut rng, 0);
                    let wanted = first(&[space, image, list, plan, 10]);
                    ensure_eq!(calls.formed(&mut rng, &jobs, &mut out, len)?, wanted, "the form into no area");
                }
            }
        }
    }
    Ok(())
}

/// Tables and plans that are apart over the table as it is, and the same under the list.
fn same_under_the_list_only(rng: &mut Rng) -> Outcome {
    for _ in 0..1000 {
        let made = Made::new(*rng.pick(&SHAPES), rng);
        let listed = Listed::split(rng, made);
        let raw = Second::new(&listed.raw);
        let p = listed.made.plan(rng, 1000);
        let mut others = (0..10).map(|_| listed.made.rewritten(rng, &p));
        let Some(q) = others.find(|q| !raw.same(&p, q)) else { continue };
        let (with, without) = (Calls::new(&listed.raw, &listed.pairs), Calls::new(&listed.raw, &[]));
        ensure_eq!(with.compared(rng, &p, &q, SPACE)?, 1, "{p:?} and {q:?} over {:?} under {:?}", listed.raw, listed.pairs);
        ensure_eq!(without.compared(rng, &p, &q, SPACE)?, 0, "{p:?} and {q:?} over {:?}", listed.raw);
        ensure_eq!(compare(&with.image, &p, &q, &mut [0; SPACE]), 0, "{p:?} and {q:?} over {:?}", listed.raw);
        ensure_eq!(with.form(rng, &p)?, with.form(rng, &q)?, "the forms of {p:?} and {q:?} under {:?}", listed.pairs);
        ensure!(without.form(rng, &p)? != without.form(rng, &q)?, "equal forms of {p:?} and {q:?} over {:?}", listed.raw);
        return Ok(());
    }
    Err("no such plans were found".to_string())
}

fn long_plans(rng: &mut Rng) -> Outcome {
    let shape = *rng.pick(&[Shape::Light, Shape::Full, Shape::Long, Shape::Equations, Shape::Near]);
    let made = Made::new(shape, rng);
    let listed = Listed::new(rng, made);
    let (calls, second) = (Calls::new(&listed.raw, &listed.pairs), Second::new(&listed.made.table));
    second.certify()?;
    let p = listed.made.plan_of_norm(rng, 4096);
    for q in [listed.made.rewritten(rng, &p), listed.made.perturbed(rng, &p)] {
        let same = i32::from(second.same(&p, &q));
        ensure_eq!(calls.compared(rng, &p, &q, SPACE)?, same, "long plans over {:?} under {:?}", listed.raw, listed.pairs);
        ensure_eq!(calls.compared(rng, &q, &p, SPACE)?, same, "long plans over {:?} under {:?}", listed.raw, listed.pairs);
        ensure_eq!(calls.form(rng, &q)?, second.form(&q), "a long form over {:?} under {:?}", listed.raw, listed.pairs);
    }
    Ok(())
}

/// A call on new areas for an output and a workspace: its answer, and every byte of both areas after it.
fn bytes_after(rng: &Rng, out: usize, len: usize, call: impl Fn(&mut [u8], &mut [u8]) -> i32) -> (i32, Vec<u8>, Vec<u8>) {
    let mut rng = rng.clone();
    let (mut out, mut space) = (Area::new(&mut rng, out), Area::new(&mut rng, len));
    let answer = call(out.bytes(), space.bytes());
    (answer, out.bytes().to_vec(), space.bytes().to_vec())
}

/// With a list of length 0 both calls answer and write what those without a list do, of accepted and of refused input.
fn no_list(rng: &mut Rng) -> Outcome {
    let made = Made::new(*rng.pick(&SHAPES), rng);
    let mut image = made.table.image();
    if rng.once_in(4) {
        image = damaged(rng, &image);
    }
    let (mut p, mut q) = (any_plan(rng, &made), any_plan(rng, &made));
    if rng.once_in(2) {
        p = made.plan(rng, 4096);
        q = made.perturbed(rng, &p);
    }
    let (len, out) = (any_length(rng), if rng.once_in(4) { rng.below(p.len() + 2) } else { 4096 });
    let without = bytes_after(rng, 0, len, |_, space| compare(&image, &p, &q, space));
    let with = bytes_after(rng, 0, len, |_, space| compare_alike(&image, &[], &p, &q, space));
    ensure!(with == without, "{p:?} and {q:?}: {} with a list of length 0 and {} without", with.0, without.0);
    let without = bytes_after(rng, out, len, |out, space| prime_form(&image, &p, out, space));
    let with = bytes_after(rng, out, len, |out, space| prime_form_alike(&image, &[], &p, out, space));
    ensure!(with == without, "the form of {p:?}: {} with a list of length 0 and {} without", with.0, without.0);
    Ok(())
}

fn lists_in_another_order(rng: &mut Rng) -> Outcome {
    let listed = any_listed(rng);
    let p = listed.made.plan(rng, 4096);
    let rewritten = listed.made.rewritten(rng, &p);
    let q = listed.made.perturbed(rng, &rewritten);
    let calls = Calls::new(&listed.raw, &listed.pairs);
    let (answer, form) = (calls.compared(rng, &p, &q, SPACE)?, calls.form(rng, &q)?);
    let mut pairs = listed.pairs.clone();
    for _ in 0..4 {
        rng.shuffle(&mut pairs);
        let calls = Calls::new(&listed.raw, &pairs);
        ensure_eq!(calls.compared(rng, &p, &q, SPACE)?, answer, "{p:?} and {q:?} under {pairs:?}");
        ensure_eq!(calls.form(rng, &q)?, form, "the form of {q:?} under {pairs:?}");
    }
    Ok(())
}

/// Any damage to any of the areas: the refusal, or the answer over what the areas mean.
fn refused_calls(rng: &mut Rng) -> Outcome {
    let listed = any_listed(rng);
    let mut calls = Calls::new(&listed.raw, &listed.pairs);
    if rng.once_in(3) {
        calls.image = damaged(rng, &calls.image);
    }
    if rng.once_in(2) {
        calls.alike = damaged_list(rng, &calls.alike);
    }
    let (p, q, len) = (any_plan(rng, &listed.made), any_plan(rng, &listed.made), any_length(rng));
    let refusal = |plans: &[&[u8]]| if len < SPACE { 1 } else { of_plans_alike(&calls.image, &calls.alike, plans) };
    if refusal(&[&p]) != 0 {
        let wanted = -i32::from(refusal(&[&p, &q]));
        ensure_eq!(calls.compared(rng, &p, &q, len)?, wanted, "{p:?} and {q:?} under {:?}", calls.alike);
        let out_len = rng.below(60);
        let mut out = Area::new(rng, out_len);
        let wanted = -i32::from(refusal(&[&p]));
        ensure_eq!(calls.formed(rng, &p, &mut out, len)?, wanted, "the form of {p:?} under {:?}", calls.alike);
        return Ok(());
    }
    let table = table_of_image(&calls.image).replaced(&pairs_of(&calls.alike));
    let second = Second::new(&table);
    let wanted = match refusal(&[&p, &q]) {
        0 => i32::from(second.same(&p, &q)),
        refusal => -i32::from(refusal),
    };
    ensure_eq!(calls.compared(rng, &p, &q, len)?, wanted, "{p:?} and {q:?} under {:?}", calls.alike);
    let form = second.form(&p);
    let out_len = *rng.pick(&[form.len(), form.len().saturating_sub(1), form.len() + 1, form.len() / 2]);
    let mut out = Area::new(rng, out_len);
    let wanted = if out_len < form.len() { -10 } else { form.len() as i32 };
    ensure_eq!(calls.formed(rng, &p, &mut out, len)?, wanted, "the form of {p:?} into {out_len} bytes");
    ensure!(wanted < 0 || out.first(form.len()) == form, "the form of {p:?} under {:?}", calls.alike);
    Ok(())
}
