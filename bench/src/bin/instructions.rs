//! Counts instructions of the call with callgrind: `instructions FOLDER ONCE`, where ONCE makes one call. They are the same in every run,
//! whatever else the machine does, but say nothing of memory.

use std::path::Path;
use std::process::Command;

use ceivuron_bench::samples::stored;

fn main() {
    let args: Vec<String> = std::env::args().skip(1).collect();
    let [folder, once] = &args[..] else { panic!("usage: instructions FOLDER ONCE") };
    println!(
        "| claim | k | n | call, proved, millions | call, plain Rust, millions | proved / plain | proved, thousands a class |"
    );
    println!("|---|---|---|---|---|---|---|");
    for sample in stored(Path::new(folder)).expect("a folder of claims") {
        let [proved, plain] = ["proved", "plain"].map(|who| counted(once, &sample.line, who));
        println!(
            "| {} | {} | {} | {} | {} | {:.2} | {:.1} |",
            sample.name,
            sample.sets(),
            sample.question.most,
            millions(proved),
            millions(plain),
            proved as f64 / plain as f64,
            proved as f64 / 1e3 / f64::from(sample.question.most)
        );
    }
}

/// The instructions of the functions `counted`.
fn counted(once: &str, line: &Path, who: &str) -> u64 {
    let output = Command::new("valgrind")
        .args(["--tool=callgrind", "--callgrind-out-file=/dev/null", "--toggle-collect=*counted_*"])
        .arg(once)
        .arg(line)
        .arg(who)
        .output()
        .expect("valgrind runs");
    let said = String::from_utf8_lossy(&output.stderr);
    let figure = said.lines().find_map(|line| line.split_once("Collected : ")?.1.trim().parse().ok());
    figure.unwrap_or_else(|| panic!("{}: {said}", line.display()))
}

fn millions(count: u64) -> String {
    let millions = count as f64 / 1e6;
    match millions {
        _ if millions < 0.1 => format!("{millions:.4}"),
        _ if millions < 10.0 => format!("{millions:.2}"),
        _ => format!("{millions:.0}"),
    }
}
