//! The peer prints what is stored for the proved programs.

use peer::tally::Tally;
use peer::{bench, pedal};
use std::fs;
use std::path::{Path, PathBuf};

fn crates() -> PathBuf {
    Path::new(env!("CARGO_MANIFEST_DIR")).join("../crates")
}

fn check(run: fn(&[u8], &mut Tally) -> Vec<u8>, input: &Path, output: &Path) {
    let input_bytes = fs::read(input).expect("the input is there");
    let expected = fs::read(output).expect("the output is there");
    let printed = run(&input_bytes, &mut Tally::default());
    assert_eq!(String::from_utf8_lossy(&printed), String::from_utf8_lossy(&expected), "{}", input.display());
}

#[test]
fn pedal_and_bench() {
    let stored = |program: &str, name: &str| crates().join(program).join(name);
    check(pedal::run, &stored("pedal", "stdin"), &stored("pedal", "stdout"));
    check(bench::run, &stored("bench", "stdin"), &stored("bench", "stdout"));
}

#[test]
fn cases() {
    let files = fs::read_dir(crates().join("cases/data")).expect("the cases are there");
    let inputs: Vec<PathBuf> = files
        .filter_map(|file| Some(file.ok()?.path()))
        .filter(|path| path.extension().is_some_and(|e| e == "in"))
        .collect();
    assert!(!inputs.is_empty());
    for input in inputs {
        check(pedal::run, &input, &input.with_extension("out"));
    }
}
