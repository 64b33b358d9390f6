//! The program planlook: what it prints for any input, worked out by the second comparer.
use outside::damage::damaged;
use outside::harness::{Outcome, Suite};
use outside::refusals::{of_image, of_plans, table_of_image};
use outside::rng::Rng;
use outside::second::Second;
use outside::shapes::{Made, Shape};
use outside::table::{put_plan, Plan};
use outside::{ensure, ensure_eq};
use std::fmt::Write as _;
use std::io::Write as _;
use std::process::{Command, ExitCode, Stdio};

fn main() -> ExitCode {
    let mut suite = Suite::new();
    suite.fixed("the samples in examples/planlook", samples);
    suite.random("tables with pairs", 300, tables_with_pairs);
    suite.random("input cut at any byte", 300, cut_anywhere);
    suite.random("long plans", 100, long_plans);
    suite.random("damaged tables", 300, damaged_tables);
    suite.finish()
}

/// What planlook prints, byte for byte.
fn printed(input: &[u8]) -> String {
    let blocks = if input.len() < 512 { 0 } else { usize::from(u16::from_le_bytes([input[508], input[509]])) };
    if !(1..=4).contains(&blocks) || input.len() < 512 * blocks {
        return "refused 2\n".to_string();
    }
    let (image, mut rest) = input.split_at(512 * blocks);
    let refusal = of_image(image);
    if refusal != 0 {
        return format!("refused {refusal}\n");
    }
    let table = table_of_image(image);
    let second = Second::new(&table);
    let mut text = format!("table {} {}\n", table.jobs, table.rules.len());
    for j in 0..table.jobs as u8 {
        let _ = write!(text, "job {j} {}", second.norms[j as usize]);
        for x in second.form(&[j]) {
            let _ = write!(text, " {x}");
        }
        text.push('\n');
    }
    let mut number = 0;
    while !rest.is_empty() {
        number += 1;
        match take_plan(&mut rest).and_then(|left| Ok((left, take_plan(&mut rest)?))) {
            Err(word) => {
                text += word;
                return text + "\n";
            }
            Ok((left, right)) => {
                let answer = match of_plans(image, &[&left, &right]) {
                    0 if second.same(&left, &right) => "same".to_string(),
                    0 => "apart".to_string(),
                    refusal => format!("refused {refusal}"),
                };
                let _ = writeln!(text, "pair {number} {answer}");
            }
        }
    }
    text
}

/// A plan from the start of the input, or the word for what is wrong with it.
fn take_plan(rest: &mut &[u8]) -> Result<Plan, &'static str> {
    let (len, behind) = rest.split_at_checked(2).ok_or("cut")?;
    let len = usize::from(u16::from_le_bytes([len[0], len[1]]));
    if len > 4096 {
        return Err("long");
    }
    let (plan, behind) = behind.split_at_checked(len).ok_or("cut")?;
    *rest = behind;
    Ok(plan.to_vec())
}

/// Runs planlook on an input that comes in two pieces.
fn runs(rng: &mut Rng, input: &[u8]) -> Outcome {
    let program = std::env::var("PLANLOOK").unwrap_or("target/bin/planlook".to_string());
    let child = Command::new(&program).stdin(Stdio::piped()).stdout(Stdio::piped()).spawn();
    let mut child = child.map_err(|e| format!("{program}: {e}"))?;
    let mut pipe = child.stdin.take().unwrap();
    let (first, second) = input.split_at(rng.below(input.len() + 1));
    // planlook may end before it has read everything
    let _ = pipe.write_all(first).and_then(|()| pipe.flush()).and_then(|()| pipe.write_all(second));
    drop(pipe);
    let output = child.wait_with_output().map_err(|e| e.to_string())?;
    ensure!(output.status.success(), "{program} ends with {}", output.status);
    ensure_eq!(String::from_utf8_lossy(&output.stdout), printed(input), "planlook on {} bytes", input.len());
    Ok(())
}

/// The outputs that stand beside the samples are what the second comparer says.
fn samples() -> Outcome {
    let folder = concat!(env!("CARGO_MANIFEST_DIR"), "/../../examples/planlook");
    let mut count = 0;
    for entry in std::fs::read_dir(folder).map_err(|e| format!("{folder}: {e}"))?.flatten() {
        let path = entry.path();
        if path.extension().is_some_and(|e| e == "in") {
            let read = |path: &std::path::Path| std::fs::read(path).map_err(|e| format!("{path:?}: {e}"));
            let (input, output) = (read(&path)?, read(&path.with_extension("out"))?);
            ensure_eq!(printed(&input).into_bytes(), output, "{path:?}");
            count += 1;
        }
    }
    ensure!(count > 20, "only {count} samples");
    Ok(())
}

fn some_table(rng: &mut Rng) -> Made {
    let shape = *rng.pick(&[Shape::Tiny, Shape::Regular, Shape::Equations, Shape::Light, Shape::Long, Shape::Near, Shape::Wide]);
    Made::new(shape, rng)
}

fn with_pairs(rng: &mut Rng) -> Vec<u8> {
    let made = some_table(rng);
    let mut input = made.table.image();
    for _ in 0..rng.below(6) {
        let p = made.plan(rng, 4096);
        let mut q = if rng.once_in(2) { made.rewritten(rng, &p) } else { made.perturbed(rng, &p) };
        if rng.once_in(6) {
            q.push(rng.byte());
        }
        put_plan(&mut input, &p);
        put_plan(&mut input, &q);
    }
    input
}

fn tables_with_pairs(rng: &mut Rng) -> Outcome {
    let input = with_pairs(rng);
    runs(rng, &input)
}

fn cut_anywhere(rng: &mut Rng) -> Outcome {
    let mut input = with_pairs(rng);
    let least = if rng.once_in(4) { 0 } else { input.len().min(512) };
    input.truncate(rng.range(least, input.len()));
    runs(rng, &input)
}

fn long_plans(rng: &mut Rng) -> Outcome {
    let made = some_table(rng);
    let mut input = made.table.image();
    let p = made.plan_of_norm(rng, 4096);
    put_plan(&mut input, &p);
    put_plan(&mut input, &made.rewritten(rng, &p));
    let short = made.plan(rng, 100);
    if rng.once_in(2) {
        put_plan(&mut input, &short);
    }
    let zeros = rng.range(4090, 4100);
    put_plan(&mut input, &vec![0; zeros]);
    put_plan(&mut input, &short);
    runs(rng, &input)
}

fn damaged_tables(rng: &mut Rng) -> Outcome {
    let image = some_table(rng).table.image();
    let mut input = damaged(rng, &image);
    put_plan(&mut input, &[0]);
    put_plan(&mut input, &[0]);
    runs(rng, &input)
}
