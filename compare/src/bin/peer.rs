//! Reads what `pedal` reads, or with `--bench` what `bench` reads, and prints what they should print.

use peer::tally::Tally;
use peer::{bench, pedal};
use std::io::{self, Read, Write};
use std::process::ExitCode;

fn main() -> io::Result<ExitCode> {
    let arguments: Vec<String> = std::env::args().skip(1).collect();
    let run = match arguments.iter().map(String::as_str).collect::<Vec<_>>()[..] {
        [] => pedal::run,
        ["--bench"] => bench::run,
        _ => {
            eprintln!("usage: peer [--bench] < input");
            return Ok(ExitCode::FAILURE);
        }
    };
    let mut input = Vec::new();
    io::stdin().read_to_end(&mut input)?;
    io::stdout().write_all(&run(&input, &mut Tally::default()))?;
    Ok(ExitCode::SUCCESS)
}
