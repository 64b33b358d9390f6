//! ages AGE SEED COUNT: what all seven calls answer and write about images as they were before version 2.0.0, some of them
//! damaged. AGE is 1 for an archive from before version 2.0.0, 2 from before 3.0.0, 3 from before 3.1.0, and 4 from 3.1.0 on.
//! Archives of every age print the same:
//!
//! - Moves are printed as numbers. An archive of age 1 writes them in one byte, later ones in two.
//! - The n-th move is that of an index that counts each move with its remaining plan once. Archives before age 3 count each rule;
//!   of these the move is printed that is left at the index once repeated ones are dropped.
//! - Archives before age 4 may write any shortest run, those of age 4 write the first. It is printed if there is no other; if
//!   there are others, only that it is one of several, and at age 4 only if it is the first.
//! - Images with larger moves are among the damaged ones: at age 1 they were refused by 5. Of these the answers of later archives
//!   are not printed, but what one of age 1 should answer.
use gindrazoma::raw;
use outside::damage::damaged;
use outside::first_run::Reached;
use outside::old_format;
use outside::refusals::{good_place, of_frame, of_layout, of_list, places_of_image};
use outside::repeated::write_again;
use outside::rng::Rng;
use outside::shapes::{Made, SHAPES};
use outside::table::{seal, Plan, Table};
use std::collections::HashSet;
use std::io::{BufWriter, Write};
use std::process::ExitCode;

fn main() -> ExitCode {
    let words: Vec<u64> = std::env::args().skip(1).filter_map(|word| word.parse().ok()).collect();
    let &[age @ 1..=4, seed, count] = &words[..] else {
        eprintln!("words: the archive's age (1 to 4), a seed, how many images");
        return ExitCode::from(2);
    };
    match print(age, seed, count) {
        Ok(()) => ExitCode::SUCCESS,
        Err(fault) => {
            eprintln!("{fault}");
            ExitCode::FAILURE
        }
    }
}

fn print(age: u64, seed: u64, count: u64) -> std::io::Result<()> {
    let mut out = BufWriter::new(std::io::stdout().lock());
    let (mut accepted, mut larger, mut repeated, mut several) = (0, 0, 0, 0);
    for i in 0..count {
        let question = Question::new(&mut Rng::of_iteration(seed, "ages", i));
        let answers = question.answers(age);
        for (call, answer) in CALLS.iter().zip(answers) {
            let answer = if age > 1 && question.refused_before(call) { "-5".to_string() } else { answer };
            several += u64::from(answer.contains(SEVERAL));
            writeln!(out, "{i} {call} {answer}")?;
        }
        accepted += u64::from(old_format::read(&question.image).is_ok());
        larger += u64::from(question.larger_moves());
        repeated += u64::from(question.repeated_moves());
    }
    let refused = count - accepted - larger;
    write!(
        out,
        "{count} images: {accepted} accepted, {repeated} of them with repeated moves, {several} with several shortest runs, "
    )?;
    writeln!(out, "{refused} refused, {larger} with larger moves")
}

const CALLS: [&str; 7] = ["read_image", "write_image", "plan_norm", "shortest_run", "nth_move", "compare", "prime_form"];

/// For a shortest run that is not the only one.
const SEVERAL: &str = "one of several";

/// What the calls are made with.
struct Question {
    image: Vec<u8>,
    jobs: u32,
    rules: Vec<u8>,
    left: Plan,
    right: Plan,
    index: u32,
}

impl Question {
    fn new(rng: &mut Rng) -> Question {
        let mut made = Made::new(*rng.pick(&SHAPES), rng);
        made.table.rules.iter_mut().for_each(|r| r.action %= 256);
        if rng.once_in(2) {
            write_again(rng, &mut made.table);
        }
        let mut image = made.table.image();
        match rng.below(4) {
            0 => image = damaged(rng, &image),
            1 => set_last_byte(rng, &mut image),
            _ => {}
        }
        let framed = of_frame(&image) == 0;
        let rules = if framed { places_of_image(&image) } else { made.table.places() };
        let left = if rng.once_in(6) { made.plan_of_norm(rng, 4096) } else { made.plan(rng, 300) };
        let mut right = if rng.once_in(2) { made.rewritten(rng, &left) } else { made.perturbed(rng, &left) };
        if rng.once_in(8) {
            right.push(rng.byte());
        }
        let jobs = if framed { image[0].into() } else { made.table.jobs as u32 };
        Question { image, jobs, rules, left, right, index: rng.below(8) as u32 }
    }

    /// Whether only larger moves are why the image was refused by 5.
    fn larger_moves(&self) -> bool {
        old_format::read(&self.image) == Err(5) && of_layout(&self.image, good_place) == 0
    }

    /// Whether two rules of the left plan's first job are the same.
    fn repeated_moves(&self) -> bool {
        let rules_and_moves =
            |table: Table| (self.left.first().map_or(0, |&j| table.rules_of(j).count()), table.moves(&self.left).len());
        old_format::read(&self.image).map(rules_and_moves).is_ok_and(|(rules, moves)| moves < rules)
    }

    /// Whether a call refused the image, or the rules, by 5 for larger moves only.
    fn refused_before(&self, call: &str) -> bool {
        match call {
            "write_image" => self.rules.chunks(8).any(|p| p[7] != 0) && of_list(self.jobs, &self.rules) != 5,
            _ => self.larger_moves(),
        }
    }

    /// The index at which an archive that counts each rule gives the move that one of now gives at the index asked for; or where it
    /// refuses, or has no such move.
    fn index_among_rules(&self) -> u32 {
        let mut met = HashSet::new();
        let (mut out, mut at) = (vec![0; raw::MOVE_MAX], 0);
        loop {
            let answer = raw::nth_move(&self.image, &self.left, at, &mut out);
            let new = answer > 0 && met.insert(out[..answer as usize].to_vec());
            if answer <= 0 || new && met.len() > self.index as usize {
                return at;
            }
            at += 1;
        }
    }

    /// In the order of the calls.
    fn answers(&self, age: u64) -> [String; 7] {
        let Question { image, jobs, rules, left, right, index } = self;
        let width = if age == 1 { 1 } else { 2 };
        let index = if age < 3 { self.index_among_rules() } else { *index };
        let mut space = vec![0; raw::WORKSPACE];
        [
            written(|out| raw::read_image(image, out), 1, 0, numbers),
            written(|out| raw::write_image(*jobs, rules, out), 1, 0, numbers),
            raw::plan_norm(image, left).to_string(),
            written(|out| raw::shortest_run(image, left, out), width, usize::MAX, |run| self.run_of_any_age(age, run)),
            written(|out| raw::nth_move(image, left, index, out), width, 1, numbers),
            raw::compare(image, left, right, &mut space).to_string(),
            written(|out| raw::prime_form(image, right, out, &mut space), 1, 0, numbers),
        ]
    }

    /// What is printed of a shortest run of the left plan.
    fn run_of_any_age(&self, age: u64, run: &[u32]) -> String {
        let Ok(table) = old_format::read(&self.image) else { return numbers(run) };
        let norms = table.finite_norms().expect("norms of jobs");
        let mut reached = Reached::new(&table, &norms, &self.left);
        let (mut only, mut first) = (true, true);
        for &action in run {
            let moves: Vec<u32> = reached.moves().into_iter().map(u32::from).collect();
            if !moves.contains(&action) {
                return format!("no shortest run: {}", numbers(run));
            }
            only &= moves.len() == 1;
            first &= moves[0] == action;
            reached.make(action as u16);
        }
        match (reached.moves().is_empty(), only, first || age < 4) {
            (false, ..) => format!("no whole run: {}", numbers(run)),
            (_, true, _) => numbers(run),
            (_, _, true) => SEVERAL.to_string(),
            _ => format!("not the first: {}", numbers(run)),
        }
    }
}

/// Byte 7 of a place in use.
fn set_last_byte(rng: &mut Rng, image: &mut [u8]) {
    let k = rng.below(image.len() / 512);
    let block = &mut image[512 * k..][..512];
    block[2 + 8 * rng.below(block[1].into()) + 7] = rng.range(1, 255) as u8;
    seal(block);
}

/// A refusal; or what is printed of the numbers that a call writes, at most so many first ones of `width` bytes each and the others
/// of one, and its answer if the output area is a byte too short for them.
fn written(mut call: impl FnMut(&mut [u8]) -> i32, width: usize, moves: usize, print: impl Fn(&[u32]) -> String) -> String {
    let mut out = vec![0; raw::RUN_MAX];
    let answer = call(&mut out);
    if answer <= 0 {
        return answer.to_string();
    }
    let bytes = &out[..answer as usize];
    let (wide, rest) = bytes.split_at(bytes.len().min(width.saturating_mul(moves)));
    let moves = wide.chunks(width).map(|bytes| bytes.iter().rev().fold(0, |sum, &b| 256 * sum + u32::from(b)));
    let numbers: Vec<u32> = moves.chain(rest.iter().map(|&b| b.into())).collect();
    let short = call(&mut vec![0; bytes.len() - 1]);
    format!("{}: {}; {short}", numbers.len(), print(&numbers))
}

fn numbers(numbers: &[u32]) -> String {
    numbers.iter().map(u32::to_string).collect::<Vec<_>>().join(" ")
}
