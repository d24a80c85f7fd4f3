//! Gives random inputs to the proved programs and to the peer, and compares what they print.

use peer::draw::{Random, pedal_input, script};
use peer::tally::Tally;
use peer::{bench, pedal};
use std::fs;
use std::io::{self, Write};
use std::path::{Path, PathBuf};
use std::process::{Command, ExitCode, Stdio};
use std::thread;
use std::time::Instant;

const USAGE: &str = "usage: compare [--quick] [--seed N] [--calls N] [--input PLACE] [--bench PATH] [--pedal PATH]

Compares the proved programs with the peer on random inputs of a seed, until so many calls are made.
--quick makes fewer calls. With --input, the input at that place among those drawn, the first at 0, is written to standard output instead.";

/// How many calls are made.
const CALLS: u64 = 5_000_000;
const QUICK_CALLS: u64 = 500_000;

/// The calls of a script, and the requests of an input for `pedal`.
const SCRIPT_CALLS: usize = 400;
const PEDAL_REQUESTS: usize = 300;

/// How many differences are told in full.
const TOLD: u64 = 3;

struct Options {
    seed: u64,
    calls: u64,
    input: Option<u64>,
    bench: PathBuf,
    pedal: PathBuf,
}

impl Options {
    fn read(mut arguments: impl Iterator<Item = String>) -> Option<Options> {
        let crates = Path::new(env!("CARGO_MANIFEST_DIR")).join("../crates");
        let [bench, pedal] = ["bench", "pedal"].map(|name| crates.join(name).join("out").join(name));
        let mut options = Options { seed: 1, calls: CALLS, input: None, bench, pedal };
        while let Some(name) = arguments.next() {
            if name == "--quick" {
                options.calls = QUICK_CALLS;
                continue;
            }
            let value = arguments.next()?;
            match name.as_str() {
                "--seed" => options.seed = value.parse().ok()?,
                "--calls" => options.calls = value.parse().ok()?,
                "--input" => options.input = Some(value.parse().ok()?),
                "--bench" => options.bench = value.into(),
                "--pedal" => options.pedal = value.into(),
                _ => return None,
            }
        }
        Some(options)
    }
}

/// One input, and which program it is for.
struct Input {
    number: u64,
    for_pedal: bool,
    bytes: Vec<u8>,
}

impl Input {
    /// One input of a seed, by its number: every fourth is for `pedal`.
    fn draw(seed: u64, number: u64) -> Input {
        let random = Random::new(seed, number);
        let for_pedal = number % 4 == 3;
        let bytes = if for_pedal { pedal_input(random, PEDAL_REQUESTS) } else { script(random, SCRIPT_CALLS) };
        Input { number, for_pedal, bytes }
    }

    /// What the peer prints.
    fn expected(&self, tally: &mut Tally) -> Vec<u8> {
        let run = if self.for_pedal { pedal::run } else { bench::run };
        run(&self.bytes, tally)
    }

    /// What the proved program prints.
    fn printed(&self, options: &Options) -> io::Result<Vec<u8>> {
        printed_by(if self.for_pedal { &options.pedal } else { &options.bench }, &self.bytes)
    }
}

/// What a program prints for the input, and how it ended if not well.
fn printed_by(program: &Path, input: &[u8]) -> io::Result<Vec<u8>> {
    let named = |error: io::Error| io::Error::new(error.kind(), format!("{}: {error}", program.display()));
    let mut child = Command::new(program).stdin(Stdio::piped()).stdout(Stdio::piped()).spawn().map_err(named)?;
    let mut stdin = child.stdin.take().ok_or(io::ErrorKind::BrokenPipe)?;
    let output = thread::scope(|scope| {
        scope.spawn(move || stdin.write_all(input));
        child.wait_with_output()
    })?;
    let mut printed = output.stdout;
    if !output.status.success() {
        printed.extend_from_slice(format!("ended with {}\n", output.status).as_bytes());
    }
    Ok(printed)
}

/// Writes an input and both outputs to files, and says where they part.
fn tell_difference(options: &Options, input: &Input, printed: &[u8], expected: &[u8]) -> io::Result<()> {
    let program = if input.for_pedal { "pedal" } else { "bench" };
    let name = format!("differing-{}-{}.{program}", options.seed, input.number);
    fs::write(format!("{name}.in"), &input.bytes)?;
    fs::write(format!("{name}.out"), printed)?;
    fs::write(format!("{name}.peer"), expected)?;
    let lines = |text: &[u8]| text.split(|&b| b == b'\n').map(<[u8]>::to_vec).collect::<Vec<_>>();
    let (ours, peers) = (lines(printed), lines(expected));
    let at = (0..).find(|&i| ours.get(i) != peers.get(i)).unwrap_or(0);
    let shown = |lines: &[Vec<u8>]| lines.get(at).map(|line| String::from_utf8_lossy(line).into_owned());
    println!("difference: seed {}, input {}, in {name}.in", options.seed, input.number);
    println!("  line {} of the output: {program} {:?}, peer {:?}", at + 1, shown(&ours), shown(&peers));
    Ok(())
}

/// A number with commas.
fn grouped(n: u64) -> String {
    let digits = n.to_string();
    let groups: Vec<&str> = digits.as_bytes().rchunks(3).rev().map(|g| str::from_utf8(g).unwrap_or("")).collect();
    groups.join(",")
}

/// Compares inputs until there were so many calls; tells how many differ.
fn compare(options: &Options) -> io::Result<u64> {
    let begin = Instant::now();
    let mut tally = Tally::default();
    let mut differences = 0;
    let mut number = 0;
    while tally.calls() < options.calls {
        let input = Input::draw(options.seed, number);
        let expected = input.expected(&mut tally);
        let printed = input.printed(options)?;
        if printed != expected {
            differences += 1;
            if differences <= TOLD {
                tell_difference(options, &input, &printed, &expected)?;
            }
        }
        number += 1;
    }
    print!("{}", tally.summary());
    match tally.missing()[..] {
        [] => println!("every answer that RULES.md leaves possible was met, for every sort of call"),
        ref missing => println!("not met: {}", missing.join(", ")),
    }
    println!("seed {}, {} inputs, {} s", options.seed, grouped(number), begin.elapsed().as_secs());
    println!("compare: {} calls, {} differences", grouped(tally.calls()), grouped(differences));
    Ok(differences)
}

fn main() -> io::Result<ExitCode> {
    let Some(options) = Options::read(std::env::args().skip(1)) else {
        eprintln!("{USAGE}");
        return Ok(ExitCode::FAILURE);
    };
    if let Some(number) = options.input {
        io::stdout().write_all(&Input::draw(options.seed, number).bytes)?;
        return Ok(ExitCode::SUCCESS);
    }
    Ok(if compare(&options)? == 0 { ExitCode::SUCCESS } else { ExitCode::FAILURE })
}
