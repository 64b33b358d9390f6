//! Tables that make the method work.
use outside::rng::Rng;
use outside::shapes::Made;
use outside::table::{rule, Plan, Rule, Table};

/// Each with its name.
pub fn tables(rng: &mut Rng) -> Vec<(&'static str, Made)> {
    let two = two_primes();
    let made = vec![
        ("chain of norm 1, 47 rules", Made::of_table(chain(0))),
        ("chain of norm 1, 252 rules", Made::of_table(chain(252))),
        ("words over 2 primes, 252 rules", Made::of_words(rng, &two, words_over(2, 24), 252)),
        ("words over 3 primes, 252 rules", Made::of_words(rng, &three_primes(), words_over(3, 24), 252)),
        ("powers of 1 prime, 252 rules", Made::of_words(rng, &two[..1], powers(24), 252)),
        ("norms up to 512, 24 rules", Made::of_words(rng, &two[..1], long_powers(), 0)),
        ("norms up to 512, 252 rules", Made::of_words(rng, &two[..1], long_powers(), 252)),
        ("long rows, last job differs", Some(long(rng))),
        ("chain backwards beside norms up to 512", chain_beside_powers(rng)),
        ("2 rows apart at their ends, 54 times", Made::of_table(two_rows())),
        ("108 rows apart at their ends", Made::of_table(many_rows())),
        ("17 copies of a job with 194 equal rules", Made::of_table(equal_rules())),
        ("14 copies of a job, a row in 85 writings", Made::of_table(many_writings())),
        ("chain, 2 jobs with 101 equal rules", Made::of_table(chain_of_equal_rules())),
        ("chain, 2 rows in 105 writings each", Made::of_table(chain_of_writings())),
        ("chain, 2 long rows, equal fingerprints", Made::of_table(chain_of_equal_fingerprints())),
    ];
    made.into_iter().map(|(name, made)| (name, made.unwrap_or_else(|| panic!("{name}: no such table")))).collect()
}

/// Job k: a; b, then job k-1. Told apart one a round. Filled up with rules that match, before those that do not.
fn chain(fill: usize) -> Table {
    let mut rules: Vec<Rule> = (0..24).map(|k| rule(k, 97, &[])).collect();
    let spare = fill.saturating_sub(47) / 24;
    for i in 0..spare {
        rules.extend((0..24).map(|k| rule(k, 99 + (i / 2) as u16, &[0, 0, 0, 0][..i % 5])));
    }
    rules.extend((1..24).map(|k| rule(k, 98, &[k - 1])));
    Table { jobs: 24, rules }
}

/// The same with two bisimilar jobs of many equal rules, each rule of one answered by the last of the other; what they leave is told
/// apart anew in each round.
fn chain_of_equal_rules() -> Table {
    let mut rules = chain(0).rules;
    rules.retain(|r| r.job != 2 && r.job != 23 || r.action == 97);
    for (job, often, once) in [(2, 20, 1), (23, 1, 20)] {
        rules.extend(vec![rule(job, 98, &[often]); 101]);
        rules.push(rule(job, 98, &[once]));
    }
    Table { jobs: 24, rules }
}

/// Two bisimilar jobs with 105 writings of one row, by five copies of a job, and then one of another row; the other way round.
fn each_way(jobs: [u8; 2], copy: u8, rows: [fn([u8; 3]) -> [u8; 4]; 2]) -> Vec<Rule> {
    let mut rules = Vec::new();
    for (job, often, once) in [(jobs[0], rows[0], rows[1]), (jobs[1], rows[1], rows[0])] {
        rules.push(rule(job, 101, &[]));
        rules.extend((0..105).map(|n| rule(job, 101, &often([n / 25, n / 5 % 5, n % 5].map(|i| copy + i)))));
        rules.push(rule(job, 101, &once([copy; 3])));
    }
    rules
}

/// Like the chain of equal rules, but no rule twice. The two rows differ at the last of 49 places, and the powers in them lie one
/// place apart, so that each comparison is of seven short runs.
fn chain_of_writings() -> Table {
    let mut rules = chain(0).rules;
    rules.retain(|r| r.job < 16);
    rules.push(rule(16, 97, &[0; 4]));
    rules.extend((17..22).map(|k| rule(k, 97, &[16; 3])));
    rules.extend(each_way([23, 22], 17, [|[i, j, k]| [i, j, k, 15], |[i, j, k]| [0, i, j, k]]));
    Table { jobs: 24, rules }
}

/// The same with rows of 1,036 places that end with one or the other of two words (jobs 5 and 6) with the same fingerprint.
fn chain_of_equal_fingerprints() -> Table {
    let mut rules = vec![rule(0, 97, &[]), rule(1, 97, &[10, 10, 2, 8]), rule(3, 97, &[1; 4]), rule(4, 97, &[3; 4])];
    rules.extend([rule(5, 97, &[1, 1, 8, 8]), rule(6, 97, &[0, 1, 0, 1])]);
    rules.extend((11..16).map(|k| rule(k, 97, &[4; 4])));
    let chain = [0, 2, 8, 10, 16, 17, 18, 19, 20, 21, 22, 23];
    rules.extend(chain.windows(2).flat_map(|w| [rule(w[1], 97, &[]), rule(w[1], 98, &w[..1])]));
    rules.extend([7, 9].map(|k| rule(k, 102, &[23])));
    rules.extend(each_way([9, 7], 11, [|[i, j, k]| [i, j, k, 5], |[i, j, k]| [i, j, k, 6]]));
    Table { jobs: 24, rules }
}

/// Two primes of norm 1 with equal moves, apart by what follows.
fn two_primes() -> Vec<Rule> {
    vec![rule(0, 97, &[]), rule(0, 97, &[0, 0]), rule(1, 97, &[]), rule(1, 97, &[0, 1]), rule(1, 97, &[1])]
}

fn three_primes() -> Vec<Rule> {
    let mut rules = two_primes();
    rules.extend([rule(2, 97, &[]), rule(2, 97, &[0, 2]), rule(2, 97, &[1, 1]), rule(2, 97, &[2])]);
    rules
}

/// The words over so many primes by length, as many as there are jobs.
fn words_over(primes: u8, jobs: usize) -> Vec<Plan> {
    let mut words: Vec<Plan> = (0..primes).map(|p| vec![p]).collect();
    let mut at = 0;
    while words.len() < jobs {
        for p in 0..primes {
            let longer = [&[p], &words[at][..]].concat();
            words.push(longer);
        }
        at += 1;
    }
    words.truncate(jobs);
    words
}

fn powers(jobs: usize) -> Vec<Plan> {
    (1..=jobs).map(|n| vec![0; n]).collect()
}

/// Powers up to 512: twice a length and one more, and one more again.
fn long_powers() -> Vec<Plan> {
    let lens = [1, 3, 7, 15, 31, 63, 127, 255, 511, 512, 2, 6, 14, 30, 62, 126, 254, 510, 8, 16, 32, 64, 128, 256];
    lens.iter().map(|&n| vec![0; n]).collect()
}

/// Six jobs of norm 1, each a or b and then the next: the last is told apart first, so that a pass drops the pairs of one
/// job. Beside them powers up to 512 that fit, and that each pass judges again.
fn chain_beside_powers(rng: &mut Rng) -> Option<Made> {
    let powers = long_powers()[..18].to_vec();
    let made = Made::of_words(rng, &two_primes()[..2], powers, 238)?;
    let mut rules = made.table.rules;
    rules.extend((18..24).map(|k| rule(k, 97, &[])));
    rules.extend((18..23).map(|k| rule(k, 98, &[k + 1])));
    Made::of_table(Table { jobs: 24, rules })
}

/// Powers of the first job: 1, 5, 21, 85, 341, 512.
fn tower() -> Vec<Rule> {
    let mut rules = vec![rule(0, 97, &[])];
    rules.extend((1..5).map(|k| rule(k, 97, &[k - 1; 4])));
    rules.push(rule(5, 97, &[4, 3, 3]));
    rules
}

/// The jobs from one on, of norm 1, each c or d and then the next: told apart one a round, from the last on.
fn told_apart(first: u8) -> Vec<Rule> {
    let ends = (first..24).map(|k| rule(k, 99, &[]));
    ends.chain((first..23).map(|k| rule(k, 100, &[k + 1]))).collect()
}

/// Two jobs with the same long rows, in reverse order and with another job of norm 512, so that each rule of one is compared
/// with all those of the other that are not its own. Jobs 0 and 7 are letters; a job from 8 on for each word over them.
/// Beside them jobs that are told apart, for many rounds.
fn reversed(words: &[Plan], rows: &[[u8; 4]]) -> Table {
    let mut rules = tower();
    rules.extend([rule(6, 97, &[4, 3, 3]), rule(7, 98, &[])]);
    rules.extend((8..).zip(words).map(|(k, word)| rule(k, if word[0] == 0 { 97 } else { 98 }, &word[1..])));
    let x = 8 + words.len() as u8;
    rules.extend([rule(x, 101, &[]), rule(x + 1, 101, &[])]);
    rules.extend(rows.iter().map(|row| rule(x, 101, row)));
    rules.extend(rows.iter().rev().map(|row| rule(x + 1, 101, &row.map(|j| if j == 5 { 6 } else { j }))));
    rules.extend(told_apart(x + 2));
    Table { jobs: 24, rules }
}

fn two_rows() -> Table {
    let words = [vec![0, 7], vec![7, 0]];
    reversed(&words, &[[[5, 5, 5, 8]; 54], [[5, 5, 5, 9]; 54]].concat())
}

/// No rule twice, and all rows of equal weight: made of permutations of one word. Two jobs for each word, so that each row
/// is there in four writings, of which one answers and the others ask.
fn many_rows() -> Table {
    let words = [vec![0, 0, 7, 7], vec![0, 7, 0, 7], vec![0, 7, 7, 0]];
    let rows: Vec<_> = (0..108).map(|n| [5, 8 + n / 36 + n % 2 * 3, 8 + n / 12 % 3 + n / 2 % 2 * 3, 8 + n / 4 % 3]).collect();
    reversed(&[&words[..], &words].concat(), &rows)
}

/// A job with many equal rules, and its copies with one such rule each, written otherwise.
fn equal_rules() -> Table {
    let mut rules = tower();
    rules.extend(told_apart(6));
    rules.extend((7..24).map(|k| rule(k, 101, &[4, 5, 5, 5])));
    rules.resize(252, rule(6, 101, &[5, 5, 5, 4]));
    Table { jobs: 24, rules }
}

/// The same with no rule twice: the powers 341 to 345, and all rows of four of them that are the power 1,372.
fn many_writings() -> Table {
    let mut rules = tower();
    rules.truncate(5);
    rules.extend((5..9).map(|k| rule(k, 97, &[k - 1])));
    rules.extend(told_apart(9));
    let rows = (0..625).map(|n| [4 + n / 125, 4 + n / 25 % 5, 4 + n / 5 % 5, 4 + n % 5].map(|j| j as u8));
    let rows: Vec<_> = rows.filter(|row| row.iter().sum::<u8>() == 24).collect();
    for action in [101, 102] {
        rules.extend((10..24).map(|k| rule(k, action, &[8, 8, 4, 4])));
        rules.extend(rows.iter().map(|row| rule(9, action, row)));
    }
    Table { jobs: 24, rules }
}

/// Rows of the first prime, and such rows with the second prime at the end.
pub fn long(rng: &mut Rng) -> Made {
    Made::of_words(rng, &two_primes(), long_rows(), 252).expect("a table of long rows")
}

/// The same with 12 jobs and 126 rules.
pub fn half_of_long(rng: &mut Rng) -> Made {
    loop {
        let made = Made::of_words(rng, &two_primes(), rows_that_end(&[1, 255, 511]), 126).expect("a table of long rows");
        if made.table.rules.len() == 126 {
            return made;
        }
    }
}

fn long_rows() -> Vec<Plan> {
    rows_that_end(&[1, 3, 7, 15, 31, 63, 127, 255, 511, 2, 4, 8, 16, 32, 64])
}

/// Rows of the first prime up to 255, and so many of it with the second prime at the end.
fn rows_that_end(many: &[usize]) -> Vec<Plan> {
    let mut words = vec![vec![0], vec![1]];
    words.extend([3, 7, 15, 31, 63, 127, 255].map(|n| vec![0; n]));
    words.extend(many.iter().map(|&n| [vec![0; n], vec![1]].concat()));
    words
}
