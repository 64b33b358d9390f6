//! Reading and writing images.
use gindrazoma::raw::{read_image, write_image};
use outside::area::Area;
use outside::damage::damaged;
use outside::harness::{Outcome, Suite};
use outside::old_format;
use outside::refusals::{good_place, of_image, of_layout, of_list, places_of_image};
use outside::rng::Rng;
use outside::shapes::{any_move, Made, EDGES, SHAPES};
use outside::table::{image_of, rule, seal, Table};
use outside::{ensure, ensure_eq};
use std::process::ExitCode;

fn main() -> ExitCode {
    let mut suite = Suite::new();
    suite.fixed("plans to try", plans_to_try);
    suite.fixed("moves of two bytes", moves_of_two_bytes);
    suite.fixed("the last byte of places", last_bytes_of_places);
    suite.random("accepted tables go there and back", 1500, there_and_back);
    suite.random("any rules", 4000, any_rules);
    suite.random("damaged images", 20000, damaged_images);
    suite.random("damaged rule lists", 20000, damaged_lists);
    suite.random("both ages of image", 20000, both_ages);
    suite.random("norms of every size", 3000, norms_of_every_size);
    suite.finish()
}

/// Reads an image into areas of all lengths of interest; the answer and every byte.
fn reads(rng: &mut Rng, image: &[u8]) -> Outcome {
    let refusal = i32::from(of_image(image));
    let wanted = if refusal == 0 { outside::refusals::table_of_image(image).read() } else { Vec::new() };
    let need = wanted.len();
    for len in [need, need + rng.range(1, 90), need.saturating_sub(1), rng.below(2018)] {
        let mut out = Area::new(rng, len);
        let answer = read_image(image, out.bytes());
        let expected = if refusal != 0 {
            -refusal
        } else if len < need {
            -10
        } else {
            need as i32
        };
        ensure_eq!(answer, expected, "reading into {len} bytes");
        let used = expected.max(0) as usize;
        ensure_eq!(out.first(used), &wanted[..used], "what is read");
        ensure!(out.kept_beyond(used), "bytes beyond the output of {used} have changed");
    }
    Ok(())
}

fn writes(rng: &mut Rng, jobs: u32, rules: &[u8]) -> Outcome {
    let refusal = i32::from(of_list(jobs, rules));
    let wanted = if refusal == 0 { image_of(jobs as u8, rules) } else { Vec::new() };
    let need = wanted.len();
    for len in [need, need + rng.range(1, 700), need.saturating_sub(1), rng.below(2049)] {
        let mut out = Area::new(rng, len);
        let answer = write_image(jobs, rules, out.bytes());
        let expected = if refusal != 0 {
            -refusal
        } else if len < need {
            -10
        } else {
            need as i32
        };
        ensure_eq!(answer, expected, "writing into {len} bytes");
        let used = expected.max(0) as usize;
        ensure_eq!(out.first(used), &wanted[..used], "what is written");
        ensure!(out.kept_beyond(used), "bytes beyond the output of {used} have changed");
    }
    Ok(())
}

fn plans_to_try() -> Outcome {
    let mut rng = Rng::new(1);
    let t = Table::new(4, &[(0, 97, &[]), (1, 97, &[0]), (2, 97, &[1]), (3, 98, &[0])]);
    ensure_eq!(t.image()[510..], [152, 1], "the sum of table T");
    reads(&mut rng, &t.image())?;
    writes(&mut rng, 4, &t.places())?;
    let itself = Table::new(1, &[(0, 97, &[0])]);
    ensure_eq!(write_image(1, &itself.places(), &mut [0; 512]), -6, "a rule back to itself alone");
    ensure_eq!(read_image(&itself.image(), &mut [0; 512]), -6, "a rule back to itself alone");
    let finite = Table::new(1, &[(0, 97, &[0]), (0, 97, &[])]);
    ensure_eq!(write_image(1, &finite.places(), &mut [0; 512]), 512, "with a second rule to nothing");
    for (jobs, expected) in [(0, -4), (1, 512), (24, 512), (25, -4)] {
        let rules = (0..jobs.max(1)).map(|j| rule(j as u8, 97, &[])).collect();
        let table = Table { jobs, rules };
        ensure_eq!(write_image(jobs as u32, &table.places(), &mut [0; 512]), expected, "{jobs} jobs");
        ensure_eq!(read_image(&table.image(), &mut [0; 2017]).min(0), expected.min(0), "{jobs} jobs");
    }
    let many = Table { jobs: 1, rules: (0..253).map(|i| rule(0, i, &[])).collect() };
    ensure_eq!(write_image(1, &many.places()[..252 * 8], &mut [0; 2048]), 2048, "252 rules");
    ensure_eq!(write_image(1, &many.places(), &mut [0; 4096]), -2, "253 rules");
    ensure_eq!(read_image(&[], &mut [0; 2017]), -2, "length 0");
    ensure_eq!(read_image(&[0; 2049], &mut [0; 2017]), -2, "length 2,049");
    Ok(())
}

/// Byte 1 is the low and byte 7 the high byte of a move, written and read.
fn moves_of_two_bytes() -> Outcome {
    let mut rng = Rng::new(1);
    let table = Table { jobs: 1, rules: EDGES.iter().map(|&a| rule(0, a, &[])).collect() };
    let bytes: Vec<u8> = table.places().chunks(8).flat_map(|p| [p[1], p[7]]).collect();
    ensure_eq!(bytes, [0, 0, 255, 0, 0, 1, 255, 255], "the moves {EDGES:?} in their places");
    writes(&mut rng, 1, &table.places())?;
    reads(&mut rng, &table.image())?;
    // the worked place of docs/FORMAT.md
    let t = Table::new(4, &[(0, 97, &[]), (1, 1000, &[0]), (2, 97, &[1]), (3, 98, &[0])]);
    ensure_eq!(t.places()[8..16], [1, 232, 1, 0, 0, 0, 0, 3], "job 1, move 1,000, then job 0");
    ensure_eq!(t.image()[510..], [34, 2], "the sum with it");
    writes(&mut rng, 4, &t.places())?;
    reads(&mut rng, &t.image())
}

/// It may be set in a place that is in use and in no other.
fn last_bytes_of_places() -> Outcome {
    let table = Table { jobs: 2, rules: (0..70).map(|i| rule(i % 2, 97, &[])).collect() };
    for place in 0..126 {
        for value in [1, 128, 255] {
            let mut image = table.image();
            let block = &mut image[512 * (place / 63)..][..512];
            block[2 + 8 * (place % 63) + 7] = value;
            seal(block);
            let expected = if place < 70 { 561 } else { -5 };
            ensure_eq!(read_image(&image, &mut [0; 2017]), expected, "byte 7 of place {place} set to {value}");
        }
    }
    Ok(())
}

fn there_and_back(rng: &mut Rng) -> Outcome {
    let table = Made::new(*rng.pick(&SHAPES), rng).table;
    let mut image = vec![0; 2048];
    let len = write_image(table.jobs as u32, &table.places(), &mut image);
    ensure!(len > 0, "refused {len}");
    image.truncate(len as usize);
    ensure_eq!(image, table.image(), "the image written");
    let mut read = vec![0; 2017];
    let len = read_image(&image, &mut read);
    ensure!(len > 0, "refused {len}");
    ensure_eq!(&read[..len as usize], &table.read()[..], "what is read back");
    writes(rng, table.jobs as u32, &table.places())?;
    reads(rng, &image)
}

/// Rules at random, without a care for norms.
fn any_rules(rng: &mut Rng) -> Outcome {
    let jobs = rng.range(1, 24);
    let count = if rng.once_in(3) { rng.range(1, 252) } else { rng.range(1, 60) };
    let after = rng.range(0, 4);
    let rules = (0..count).map(|_| {
        let n = rng.below(after + 1);
        let w: Vec<u8> = (0..n).map(|_| rng.below(jobs) as u8).collect();
        rule(rng.below(jobs) as u8, any_move(rng, 97), &w)
    });
    let table = Table { jobs, rules: rules.collect() };
    writes(rng, jobs as u32, &table.places())?;
    reads(rng, &table.image())
}

fn damaged_images(rng: &mut Rng) -> Outcome {
    let image = Made::new(*rng.pick(&SHAPES), rng).table.image();
    let image = damaged(rng, &image);
    reads(rng, &image)
}

fn damaged_lists(rng: &mut Rng) -> Outcome {
    let table = Made::new(*rng.pick(&SHAPES), rng).table;
    let mut places = table.places();
    for _ in 0..rng.below(3) {
        let i = rng.below(places.len());
        places[i] = if rng.once_in(2) { rng.byte() } else { rng.below(26) as u8 };
    }
    if rng.once_in(6) {
        let len = rng.below(places.len() + 1);
        places.truncate(len);
    }
    let jobs = match rng.below(6) {
        0 => rng.below(30) as u32,
        1 => rng.number() as u32,
        2 => (table.jobs + 256) as u32,
        _ => table.jobs as u32,
    };
    writes(rng, jobs, &places)
}

/// An image with byte 7 of each place in use cleared.
fn low_moves_only(image: &[u8]) -> Vec<u8> {
    let mut image = image.to_vec();
    for block in image.chunks_mut(512) {
        (0..usize::from(block[1])).for_each(|i| block[2 + 8 * i + 7] = 0);
        seal(block);
    }
    image
}

/// Whatever a reader of before did not refuse by 5 is read as it read it. What passes check 5 now with a larger move met 5;
/// without the high bytes it would have been refused, or read, as it is now.
fn both_ages(rng: &mut Rng) -> Outcome {
    let mut image = Made::new(*rng.pick(&SHAPES), rng).table.image();
    if rng.once_in(2) {
        image = low_moves_only(&image);
    }
    if !rng.once_in(4) {
        image = damaged(rng, &image);
    }
    let mut read = vec![0; 2017];
    let answer = read_image(&image, &mut read);
    read.truncate(answer.max(0) as usize);
    let as_before = |old: Result<Table, u8>, read: &[u8]| -> Outcome {
        ensure_eq!(answer, old.as_ref().map_or_else(|r| -i32::from(*r), |t| t.read().len() as i32), "an image of both ages");
        ensure_eq!(read, old.map_or(Vec::new(), |t| t.read()), "the table of an image of both ages");
        Ok(())
    };
    if answer > 0 {
        let mut again = vec![0; image.len()];
        ensure_eq!(write_image(read[0].into(), &read[1..], &mut again), image.len() as i32, "what was read is written again");
        ensure_eq!(again, image, "the image of what was read");
    }
    let old = old_format::read(&image);
    let passes = of_layout(&image, good_place) == 0;
    let larger = passes && places_of_image(&image).chunks(8).any(|p| p[7] != 0);
    ensure_eq!(old == Err(5) && passes, larger, "a reader of before refuses larger moves and no others");
    if !larger {
        return as_before(old, &read);
    }
    read.iter_mut().skip(8).step_by(8).for_each(|high| *high = 0);
    as_before(old_format::read(&low_moves_only(&image)), &read)
}

/// Chains whose norms pass 512, and the sizes at which sums of few bytes wrap.
fn norms_of_every_size(rng: &mut Rng) -> Outcome {
    let jobs = rng.range(2, 24);
    let mut rules = vec![rule(0, 97, &[])];
    for j in 1..jobs {
        let n = rng.range(1, 4);
        let w: Vec<u8> = (0..n).map(|_| rng.range(j.saturating_sub(3), j - 1) as u8).collect();
        rules.push(rule(j as u8, 97, &w));
    }
    if rng.once_in(4) {
        let j = rng.range(1, jobs - 1);
        rules[j].after = vec![j as u8];
    }
    rng.shuffle(&mut rules);
    let table = Table { jobs, rules };
    writes(rng, jobs as u32, &table.places())?;
    reads(rng, &table.image())
}
