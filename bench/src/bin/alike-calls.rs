//! Calls of compare under alike lists, and without a list over the image whose moves are replaced.
use bench::alike::{areas, ALIKE};
use bench::calls::{run, Inputs};
use outside::refusals::table_of_image;

fn main() -> std::process::ExitCode {
    run(&ALIKE, Inputs { areas: |image| areas(&table_of_image(image)), ..Inputs::single_tables() })
}
