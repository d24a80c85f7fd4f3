//! Times the proved monitor and the peer, call by call.

mod alike;
mod blocks;
mod cases;
mod measure;
#[cfg(ours)]
#[path = "../../ours.rs"]
mod ours;

use measure::{Case, Peer, measure};
use std::fs;
use std::process::ExitCode;

const USAGE: &str = "usage: speed [--markdown] [WORDS]
       speed --check

Times each case, or those whose name has the words, on the proved monitor and on the peer.
--check makes random calls on both instead, and compares what they tell.";

/// The first side: the proved monitor, blank.
#[cfg(ours)]
fn proved() -> ours::Block {
    ours::Block::blank()
}

/// Where the proved monitor was not built, the first side is the peer too.
#[cfg(not(ours))]
fn proved() -> Peer {
    Peer::default()
}

fn shown(nanoseconds: f64) -> String {
    match nanoseconds {
        0.0..1e3 => format!("{nanoseconds:.0} ns"),
        1e3..1e6 => format!("{:.1} µs", nanoseconds / 1e3),
        _ => format!("{:.2} ms", nanoseconds / 1e6),
    }
}

fn model() -> Option<String> {
    let info = fs::read_to_string("/proc/cpuinfo").ok()?;
    let line = info.lines().find(|line| line.starts_with("model name"))?;
    Some(line.split_once(": ")?.1.to_string())
}

/// What the times were taken on.
fn machine() -> String {
    let model = model().unwrap_or("unknown processor".into());
    let kernel = fs::read_to_string("/proc/sys/kernel/osrelease").unwrap_or_default();
    let sides = if cfg!(ours) { "" } else { "; WITHOUT the proved monitor: the peer on both sides" };
    format!("{model}, Linux {}, {}{sides}", kernel.trim(), env!("RUSTC_VERSION"))
}

const HEAD: [&str; 6] = ["case", "proved", "least", "peer", "least", "proved / peer"];

fn row(case: &Case) -> [String; 6] {
    let (proved, peer) = measure(case, (&proved(), &Peer::default()));
    let ratio = format!("{:.2}", proved.median / peer.median);
    let [a, b, c, d] = [proved.median, proved.least, peer.median, peer.least].map(shown);
    [case.name.clone(), a, b, c, d, ratio]
}

fn print_markdown(cases: &[Case]) {
    println!("{}\n\n| {} |\n|---|---:|---:|---:|---:|---:|", machine(), HEAD.join(" | "));
    for case in cases {
        println!("| {} |", row(case).join(" | "));
    }
}

fn print_plain(cases: &[Case]) {
    let print = |row: [&str; 6]| {
        let [name, times @ ..] = row;
        println!("{name:<48}{}", times.map(|time| format!("{time:>14}")).concat());
    };
    println!("{}\n", machine());
    print(HEAD);
    for case in cases {
        print(row(case).each_ref().map(String::as_str));
    }
}

fn check() -> ExitCode {
    let (calls, differences) = alike::check((&proved(), &Peer::default()));
    println!("check: {calls} calls, {differences} differences");
    if differences == 0 { ExitCode::SUCCESS } else { ExitCode::FAILURE }
}

fn main() -> ExitCode {
    let mut arguments: Vec<String> = std::env::args().skip(1).collect();
    let markdown = arguments.first().is_some_and(|argument| argument == "--markdown");
    if markdown {
        arguments.remove(0);
    }
    if arguments == ["--check"] {
        return check();
    }
    if arguments.iter().any(|argument| argument.starts_with('-')) {
        eprintln!("{USAGE}");
        return ExitCode::FAILURE;
    }
    let mut cases = cases::cases();
    cases.retain(|case| case.name.contains(&arguments.join(" ")));
    if markdown {
        print_markdown(&cases)
    } else {
        print_plain(&cases)
    }
    ExitCode::SUCCESS
}
