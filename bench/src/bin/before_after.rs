//! Two of the host's `judge`, of two commits, on the claims of a folder: `before_after FOLDER OLD NEW [NAME..]`, with names of claims or
//! what they begin with, all claims without. Whole processes in turn, the least of 5 to 200 runs of each. Both must answer alike.

use std::fs::File;
use std::path::{Path, PathBuf};
use std::process::Command;

use ceivuron_bench::figures::{median, milliseconds, ratio};
use ceivuron_bench::samples::{Stored, stored};
use ceivuron_bench::usage::{Program, least_times};

/// Work memory, in MiB: a claim of twelve sets asked for more before than it does now.
const MEMORY: [&str; 2] = ["--memory", "16384"];

fn main() {
    let mut args = std::env::args().skip(1);
    let mut path = || PathBuf::from(args.next().expect("usage: before_after FOLDER OLD NEW [NAME..]"));
    let (folder, old, new) = (path(), path(), path());
    let names: Vec<String> = args.collect();
    let is_asked = |sample: &Stored| names.is_empty() || names.iter().any(|name| sample.name.starts_with(name));
    println!("| claim | k | w | n | before, process | after, process | after / before |");
    println!("|---|---|---|---|---|---|---|");
    let mut all = Vec::new();
    for sample in stored(&folder).expect("a folder of claims").iter().filter(|sample| is_asked(sample)) {
        let ratio = compare(sample, &old, &new);
        all.push((ratio, sample.name.clone()));
    }
    all.sort_by(|a, b| a.0.total_cmp(&b.0));
    let (Some((least, fastest)), Some((most, slowest))) = (all.first(), all.last()) else {
        println!("\nNo claim has such a name.");
        return;
    };
    let middle = median(all.iter().map(|(ratio, _)| *ratio).collect());
    println!(
        "\nThe median of after / before is {middle:.2} over {} claims, from {least:.2} ({fastest}) to {most:.2} ({slowest}).",
        all.len()
    );
}

/// Prints what the two take for one claim; the ratio.
fn compare(sample: &Stored, old: &Path, new: &Path) -> f64 {
    assert_eq!(answer(sample, old), answer(sample, new), "{}", sample.name);
    let program =
        |path: &Path| Program { path: path.into(), args: MEMORY.map(Into::into).into(), input: sample.line.clone() };
    let times = least_times(&[program(old), program(new)]).unwrap_or_else(|error| panic!("{}: {error}", sample.name));
    let ratio = ratio(times[1], times[0]);
    println!(
        "| {} | {} | {} | {} | {} | {} | {ratio:.2} |",
        sample.name,
        sample.sets(),
        sample.widest(),
        sample.question.most,
        milliseconds(times[0]),
        milliseconds(times[1]),
    );
    ratio
}

/// What a program says of the claim.
fn answer(sample: &Stored, program: &Path) -> String {
    let line = File::open(&sample.line).expect("the claim's line");
    let output = Command::new(program).args(MEMORY).stdin(line).output().expect("a program that runs");
    assert!(output.status.success(), "{} on {}: {}", program.display(), sample.name, output.status);
    String::from_utf8(output.stdout).expect("text")
}
