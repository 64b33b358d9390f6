//! Calls of compare over two tables, and over the image of the joined one.
use bench::calls::{run, Inputs, PAIRS};
use bench::joined::{areas, joined_input, JOINED};
use outside::refusals::table_of_image;

fn main() -> std::process::ExitCode {
    let areas = |image: &[u8]| areas(&table_of_image(image));
    run(&JOINED, Inputs { make: |i| joined_input(1, i, PAIRS), areas, ..Inputs::single_tables() })
}
