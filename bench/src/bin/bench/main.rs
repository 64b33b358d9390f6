//! Times of the library beside the plain programs, all from image and plans, all clearing their workspace.
mod timing;

use bench::alike::{areas, ALIKE, LISTS};
use bench::calls::{runs, Program, COMPARE, NORM, RUN};
use bench::growth::{growth_input, names as growth_names, GROWTH};
use bench::inputs::{by_size, hostile, hostile_runs, light_and_full, single_table, Input, Pair, SINGLE_TABLES};
use bench::joined::{self, joined_input, short_plans, JOINED};
use bench::logs::{self, log_input, LOG, LOG_TABLES};
use bench::outcomes::{names as outcome_names, outcome_input, OUTCOME};
use outside::rng::Rng;
use outside::second::Second;
use plain::Steps;
use std::process::ExitCode;
use timing::{average, slowest};

/// How long the library may take over one table and 1,000 pairs, in times of the fastest plain program.
const BOUND: f64 = 3.0;

/// How long it may take for a run over a table made to be slow, in times of the plain program as it is written at first.
const RUN_BOUND: f64 = 2.0;

/// How long it may take under a list of 32 pairs, whatever they are, in times of the same without a list.
const LIST_BOUND: f64 = 1.1;

/// How long it may take to replay a log, in times of the plain program.
const LOG_BOUND: f64 = 2.0;

/// How long it may take over two tables, in times of the same over the image of the joined one.
const JOINED_BOUND: f64 = 1.1;

fn main() -> ExitCode {
    let Ok(seed) = std::env::var("SEED").unwrap_or("1".to_string()).parse() else {
        eprintln!("SEED is a number");
        return ExitCode::from(2);
    };
    let mut bench = Bench { rng: Rng::new(seed), space: vec![0; plain::WORKSPACE], differ: 0 };
    let most = bench.one_table(seed);
    bench.many_tables();
    bench.hostile_tables();
    bench.by_size();
    let most_of_runs = bench.shortest_runs(seed);
    let most_of_lists = bench.alike_lists(seed);
    let most_of_logs = bench.logs();
    bench.outcomes();
    bench.plan_growth();
    let most_of_two_tables = bench.two_tables(seed);
    let differ = bench.differ;
    let judged = [
        ("1,000 comparisons over one table take", most, "times as long as in the fastest plain program", BOUND),
        ("shortest runs over tables made to be slow", most_of_runs, "times as in the first", RUN_BOUND),
        ("comparisons under alike lists", most_of_lists, "times as without", LIST_BOUND),
        ("replays of logs", most_of_logs, "times as in the plain program", LOG_BOUND),
        ("comparisons over two tables", most_of_two_tables, "times as over the joined one", JOINED_BOUND),
    ];
    let lines = judged.map(|(what, most, than, bound)| {
        let holds = if most <= bound { "holds" } else { "does not hold" };
        format!("{what} at most {most:.2} {than}: the bound of {bound} {holds}; ")
    });
    println!("\n{}answers that differ: {differ}", lines.concat());
    let hold = judged.iter().all(|(_, most, _, bound)| most <= bound);
    ExitCode::from(u8::from(!hold || differ > 0))
}

type Form = fn(&[u8], &[u8], &mut [u8], &mut [u8]) -> i32;

const FORM: [Form; 4] = [gindrazoma::raw::prime_form, plain::first::prime_form, plain::base::prime_form, plain::rows::prime_form];

struct Bench {
    rng: Rng,
    space: Vec<u8>,
    // the pairs on which two programs answer differently
    differ: usize,
}

impl Bench {
    /// All programs on all pairs: compare, and norm and prime form of the left plan.
    fn compare_answers(&mut self, inputs: &[Input]) {
        let space = &mut self.space;
        let mut agree = |image: &[u8], pair: &Pair| {
            let answers = COMPARE.map(|(_, call)| call(image, pair, space));
            let norms = NORM.map(|(_, call)| call(image, pair, space));
            let forms = FORM.map(|call| {
                let mut out = [0; 4096];
                (call(image, &pair.0, &mut out, space), out)
            });
            answers == [answers[0]; 4] && norms == [norms[0]; 2] && forms == [forms[0]; 4]
        };
        for input in inputs {
            self.differ += input.pairs.iter().filter(|pair| !agree(&input.image, pair)).count();
        }
    }

    /// The library's worst ratio to the fastest plain program.
    fn one_table(&mut self, seed: u64) -> f64 {
        println!("compare, one table of 24 jobs and 1,000 pairs of plans of norm 4,096, half of them same though written with");
        println!("other jobs, half apart: how many rules are different, how many primes, milliseconds, the library's ratios");
        println!("{:<28}{:>6}{:>8}{}", "table", "rules", "primes", head(&COMPARE));
        let mut most: f64 = 0.0;
        for i in 0..SINGLE_TABLES.len() {
            let input = single_table(seed, i, 1000);
            self.compare_answers(std::slice::from_ref(&input));
            let times = average(7, &COMPARE, std::slice::from_ref(&input));
            let (rules, primes) = (input.table.different_rules(), Second::new(&input.table).primes());
            println!("{:<28}{rules:>6}{primes:>8}{}", input.name, row(times));
            most = most.max(times[0] / times[1..].iter().copied().fold(f64::MAX, f64::min));
        }
        most
    }

    fn many_tables(&mut self) {
        let groups = light_and_full(&mut self.rng);
        println!("\ncompare, 20 tables of 24 jobs and 50 such pairs each: microseconds a call");
        println!("{:<40}{}", "tables", head(&COMPARE));
        for (name, inputs) in &groups {
            self.compare_answers(inputs);
            println!("{name:<40}{}", row(average(7, &COMPARE, inputs)));
        }
        println!("\nplan norm, the same tables: microseconds a call");
        println!("{:<40}{}", "tables", head(&NORM));
        for (name, inputs) in &groups {
            println!("{name:<40}{}", row(average(50, &NORM, inputs)));
        }
    }

    fn hostile_tables(&mut self) {
        println!("\ncompare, tables made to be slow: microseconds of the slowest pair, and the steps of the rows program");
        println!("{:<40}{}{:>7}{:>7}{:>7}{:>10}", "table", head(&COMPARE), "rounds", "jobs", "rows", "places");
        for input in hostile(&mut self.rng) {
            self.compare_answers(std::slice::from_ref(&input));
            let s = self.steps_of(&input);
            let times = row(slowest(&COMPARE, &input));
            println!("{:<40}{times}{:>7}{:>7}{:>7}{:>10}", input.name, s.rounds, s.jobs, s.rows, s.places);
        }
    }

    fn steps_of(&mut self, input: &Input) -> Steps {
        let mut steps = Steps::default();
        let (p, q) = &input.pairs[0];
        plain::rows::compare_counted(&input.image, p, q, &mut self.space, &mut steps);
        steps
    }

    fn by_size(&mut self) {
        println!("\ncompare by jobs and rules: microseconds a call of the library, and its ratios to base and rows");
        println!("{:<6}{:>23}{:>23}{:>23}{:>23}", "jobs", "24 rules", "63 rules", "126 rules", "252 rules");
        for jobs in [3, 6, 12, 24] {
            let mut line = format!("{jobs:<6}");
            for rules in [24, 63, 126, 252] {
                let inputs = by_size(&mut self.rng, jobs, rules);
                self.compare_answers(&inputs);
                let [library, _, base, rows] = average(7, &COMPARE, &inputs);
                line += &format!(" {library:>10.1}{:>6.2}{:>6.2}", library / base, library / rows);
            }
            println!("{line}");
        }
    }

    /// The library's worst ratio to the plain program over the tables made to be slow.
    fn shortest_runs(&mut self, seed: u64) -> f64 {
        println!("\nshortest run, the tables of the first section and tables made to be slow, each with plans of norm 4,096:");
        println!("microseconds a call, the library's ratio");
        println!("{:<46}{}", "table", head(&RUN));
        for i in 0..SINGLE_TABLES.len() {
            self.times_of_runs(20, single_table(seed, i, 50));
        }
        hostile_runs().into_iter().map(|input| self.times_of_runs(200, input)).fold(0.0, f64::max)
    }

    /// The library's ratio to the plain program as it is written at first.
    fn times_of_runs(&mut self, times: usize, input: Input) -> f64 {
        let differ = |[library, first, fast]: [(i32, Vec<u8>); 3]| library != first || library != fast;
        self.differ += input.pairs.iter().filter(|pair| differ(runs(&input.image, pair))).count();
        let name = input.name.clone();
        let [library, first, fast] = average(times, &RUN, &[input]);
        println!("{name:<46}{}", row([library, first, fast]));
        library / first
    }

    /// The worst ratio to the time without a list.
    fn alike_lists(&mut self, seed: u64) -> f64 {
        println!(
            "\ncompare under alike lists of 32 pairs, the tables and pairs of the first section: milliseconds without a list"
        );
        println!(
            "over the image whose moves are replaced, under each list over the image as it is written for it, and the ratios"
        );
        for ((name, _), (list, _)) in ALIKE[1..].iter().zip(LISTS) {
            println!("  {name}: {list}");
        }
        let ratios: String = ALIKE[1..].iter().map(|(name, _)| format!("{:>8}", format!("{name}/"))).collect();
        println!("{:<28}{}{ratios}", "table", names(&ALIKE));
        let mut most: f64 = 0.0;
        for i in 0..SINGLE_TABLES.len() {
            most = self.times_under_lists(single_table(seed, i, 1000)).into_iter().fold(most, f64::max);
        }
        most
    }

    /// The ratio under each list.
    fn times_under_lists(&mut self, mut input: Input) -> [f64; 4] {
        input.image = areas(&input.table);
        for pair in &input.pairs {
            let answers = ALIKE.map(|(_, call)| call(&input.image, pair, &mut self.space));
            self.differ += usize::from(answers != [answers[0]; 5]);
        }
        let times = average(15, &ALIKE, std::slice::from_ref(&input));
        let [none, under_lists @ ..] = times;
        let ratios = under_lists.map(|time| time / none);
        println!("{:<28}{}{}", input.name, columns(&times, 9), columns(&ratios, 7));
        ratios
    }

    /// The worst ratio to the time of the plain program, without a list and under one.
    fn logs(&mut self) -> f64 {
        println!("\nreplay of a log of 128 moves on a plan of norm 4,096, without an alike list and under one of 32 pairs (+):");
        println!("microseconds a call, the library's ratios");
        println!("{:<28}{}{:>8}{:>8}", "table", names(&LOG), "/plain", "/plain+");
        let mut most: f64 = 0.0;
        for (index, (_, times, _)) in LOG_TABLES.iter().enumerate() {
            most = self.with_and_without_list(*times, &LOG, log_input(index)).into_iter().fold(most, f64::max);
        }
        most
    }

    fn outcomes(&mut self) {
        println!("\nwhether a table is without a choice of outcome, without an alike list and under one of 32 pairs (+):");
        println!("microseconds a call, the library's ratios");
        println!("{:<28}{}{:>8}{:>8}", "table", names(&OUTCOME), "/plain", "/plain+");
        for index in 0..outcome_names().len() {
            self.with_and_without_list(2000, &OUTCOME, outcome_input(index));
        }
    }

    fn plan_growth(&mut self) {
        println!("\nwhether a plan grows; over the tables of the first section a plan of norm 4,096: microseconds a call, the");
        println!("library's ratio");
        println!("{:<28}{}", "table", head(&GROWTH));
        for index in 0..growth_names().len() {
            let input = growth_input(index);
            let answers = GROWTH.map(|(_, call)| call(&input.image, &input.pairs[0], &mut []));
            self.differ += usize::from(answers[0] != answers[1]);
            println!("{:<28}{}", input.name, row(average(2000, &GROWTH, std::slice::from_ref(&input))));
        }
    }

    /// The worst ratio to the time over the image of the joined table.
    fn two_tables(&mut self, seed: u64) -> f64 {
        println!("\ncompare over two tables, each of 12 jobs and half of the rules, the right one a renamed copy of the left one, and such");
        println!("pairs as in the first section, beside compare over the image of the joined table: milliseconds, the ratios");
        println!("{:<28}{}", "tables", head(&JOINED));
        let inputs: Vec<Input> = (0..SINGLE_TABLES.len()).map(|i| joined_input(seed, i, 1000)).collect();
        let short: Vec<Input> = inputs.iter().map(short_plans).collect();
        let most = inputs.into_iter().map(|input| self.times_over_two_tables(input)).fold(0.0, f64::max);
        println!("\nthe same with plans of one job: microseconds a call");
        println!("{:<28}{}", "tables", head(&JOINED));
        for input in short {
            self.times_over_two_tables(input);
        }
        most
    }

    /// The ratio to the time over the image of the joined table.
    fn times_over_two_tables(&mut self, mut input: Input) -> f64 {
        input.image = joined::areas(&input.table);
        for pair in &input.pairs {
            let answers = JOINED.map(|(_, call)| call(&input.image, pair, &mut self.space));
            self.differ += usize::from(answers != [answers[0]; 3]);
        }
        let times = average(15, &JOINED, std::slice::from_ref(&input));
        println!("{:<28}{}", input.name, row(times));
        times[0] / times[1]
    }

    /// The library's ratio to the plain program, without a list and under one.
    fn with_and_without_list(&mut self, times: usize, programs: &[Program; 4], mut input: Input) -> [f64; 2] {
        input.image = logs::areas(&input.table);
        for pair in &input.pairs {
            let answers = programs.map(|(_, call)| call(&input.image, pair, &mut self.space));
            self.differ += usize::from(answers != [answers[0]; 4]);
        }
        let [library, plain, library_listed, plain_listed] = average(times, programs, std::slice::from_ref(&input));
        let ratios = [library / plain, library_listed / plain_listed];
        let times = columns(&[library, plain, library_listed, plain_listed], 9);
        println!("{:<28}{times}{}", input.name, columns(&ratios, 7));
        ratios
    }
}

fn names(programs: &[Program]) -> String {
    programs.iter().map(|(name, _)| format!("{name:>10}")).collect()
}

fn head(programs: &[Program]) -> String {
    let ratios: String = programs[1..].iter().map(|(name, _)| format!("{:>8}", format!("/{name}"))).collect();
    names(programs) + &ratios
}

fn columns(numbers: &[f64], width: usize) -> String {
    numbers.iter().map(|number| format!(" {number:>width$.2}")).collect()
}

/// The times of the library and of each plain program, and the library's ratio to each.
fn row<const N: usize>(times: [f64; N]) -> String {
    let ratios: Vec<f64> = times[1..].iter().map(|time| times[0] / time).collect();
    columns(&times, 9) + &columns(&ratios, 7)
}
