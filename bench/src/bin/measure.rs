//! Measures whole processes and the call: `measure FOLDER PROGRAMS`. FOLDER has the claims; PROGRAMS is a folder with `mona`, the host's
//! `judge`, two C programs that do nothing, `empty` and `empty-static`, and the proved programs `judge_lines` and `settle`, if they are
//! built. Prints the tables of docs/BENCHMARK.md.

use std::fs;
use std::path::Path;
use std::process::Command;
use std::time::Duration;

use ceivuron::line::Question;
use ceivuron::{Verdict, call, floor};
use ceivuron_bench::figures::{median, milliseconds, ratio};
use ceivuron_bench::plain::Plain;
use ceivuron_bench::samples::{Stored, stored};
use ceivuron_bench::usage::{Program, least_averages, least_averages_of, least_times};

fn main() {
    let args: Vec<String> = std::env::args().skip(1).collect();
    let [folder, programs] = &args[..] else { panic!("usage: measure FOLDER PROGRAMS") };
    let samples = stored(Path::new(folder)).expect("a folder of claims");
    let programs = Path::new(programs);
    machine();
    starts(&samples[0], programs);
    medians(&claims(&samples, programs));
    more_sets(&samples, programs);
}

/// The machine, and what was measured with.
fn machine() {
    let file = |path| fs::read_to_string(path).unwrap_or_default();
    let cpu = file("/proc/cpuinfo");
    let cpu = cpu.lines().find(|line| line.starts_with("model name")).and_then(|line| line.split_once(": "));
    let first_line = |program: &str, arg: &str| {
        let output = Command::new(program).arg(arg).output().map(|output| output.stdout).unwrap_or_default();
        String::from_utf8_lossy(&output).lines().next().unwrap_or_default().to_string()
    };
    println!(
        "{}, {} cores; Linux {}; {}; {}. Times in milliseconds of CPU time, user and system.\n",
        cpu.map_or("unknown CPU", |(_, name)| name),
        std::thread::available_parallelism().map_or(1, |cores| cores.get()),
        file("/proc/sys/kernel/osrelease").trim_end(),
        first_line("mona", "-h"),
        first_line("rustc", "--version"),
    );
}

/// What a process takes that has nothing to do.
fn starts(start: &Stored, folder: &Path) {
    let mut names = vec![];
    let mut programs = vec![];
    for (name, file) in [
        ("MONA", "mona"),
        ("an empty C program", "empty"),
        ("an empty C program, linked statically", "empty-static"),
        ("host, `judge`", "judge"),
        ("proved, `judge_lines`", "judge_lines"),
        ("proved, `settle`", "settle"),
    ] {
        let path = folder.join(file);
        // the proved programs need not be built
        if path.exists() {
            names.push(name);
            programs.push(match file {
                "mona" => mona(start, folder),
                "settle" => Program { path, args: vec![], input: start.mona.clone() },
                _ => Program { path, args: vec![], input: start.line.clone() },
            });
        }
    }
    let times = times(start, &programs);
    println!("| a process with nothing to do | ms | / MONA |");
    println!("|---|---|---|");
    for (name, time) in names.iter().zip(&times) {
        println!("| {name} | {} | {:.2} |", milliseconds(*time), ratio(*time, times[0]));
    }
    println!();
}

fn mona(sample: &Stored, folder: &Path) -> Program {
    Program {
        path: folder.join("mona"),
        args: vec!["-q".into(), sample.mona.clone().into()],
        input: sample.line.clone(),
    }
}

fn times(sample: &Stored, programs: &[Program]) -> Vec<Duration> {
    least_times(programs).unwrap_or_else(|error| panic!("{}: {error}", sample.name))
}

/// What was measured of a claim.
struct Measured<'a> {
    sample: &'a Stored,
    mona: Duration,
    host: Duration,
    proved: Duration,
    plain: Duration,
    /// The cells of its largest part's table, counted by plain Rust.
    cells: usize,
}

impl Measured<'_> {
    fn processes(&self) -> f64 {
        ratio(self.host, self.mona)
    }

    fn calls(&self) -> f64 {
        ratio(self.proved, self.plain)
    }
}

fn measured<'a>(sample: &'a Stored, folder: &Path) -> Measured<'a> {
    sample.agreed();
    let times = times(sample, &[mona(sample, folder), host(sample, folder)]);
    let mut plain = Plain::default();
    let [proved_time, plain_time] = least_averages([&mut proved(&sample.question), &mut || judged(&mut plain, sample)]);
    Measured { sample, mona: times[0], host: times[1], proved: proved_time, plain: plain_time, cells: plain.cells() }
}

/// The host's program on a claim's line.
fn host(sample: &Stored, folder: &Path) -> Program {
    let memory = vec!["--memory".into(), "16384".into()];
    Program { path: folder.join("judge"), args: memory, input: sample.line.clone() }
}

/// The proved call, with its memory.
fn proved(question: &Question) -> impl FnMut() {
    let (bytes, most) = (question.claim.bytes(), question.most);
    let mut work = vec![0; floor(bytes, most) as usize];
    let mut out = vec![0; 2 * most as usize];
    move || assert_ne!(call(bytes, most, &mut out, &mut work), Verdict::Many)
}

/// The call in plain Rust.
fn judged(plain: &mut Plain, sample: &Stored) {
    let Question { claim, most, .. } = &sample.question;
    assert!(!plain.judge(claim.bytes(), *most).to_string().is_empty());
}

fn claims<'a>(samples: &'a [Stored], folder: &Path) -> Vec<Measured<'a>> {
    println!(
        "| claim | k | w | n | MONA, process | host, process | host / MONA | call, proved | call, plain Rust | proved / plain |"
    );
    println!("|---|---|---|---|---|---|---|---|---|---|");
    let mut all = Vec::new();
    for sample in samples {
        let claim = measured(sample, folder);
        println!(
            "| {} | {} | {} | {} | {} | {} | {:.2} | {} | {} | {:.2} |",
            sample.name,
            sample.sets(),
            sample.widest(),
            sample.question.most,
            milliseconds(claim.mona),
            milliseconds(claim.host),
            claim.processes(),
            milliseconds(claim.proved),
            milliseconds(claim.plain),
            claim.calls()
        );
        all.push(claim);
    }
    println!();
    all
}

/// What MONA takes for a claim that is more than its start.
const LONG: Duration = Duration::from_millis(5);

/// The medians, and the claims for which the host takes longer than MONA.
fn medians(claims: &[Measured]) {
    let all = claims.iter().map(Measured::processes).collect();
    let calls = claims.iter().map(Measured::calls).collect();
    println!(
        "The median of host / MONA is {:.2}, that of proved / plain {:.2}, over {} claims.",
        median(all),
        median(calls),
        claims.len()
    );
    let long: Vec<f64> = claims.iter().filter(|claim| claim.mona > LONG).map(Measured::processes).collect();
    match long.len() {
        0 => println!("MONA takes over 5 ms for none."),
        count => println!("For the {count} of which MONA takes over 5 ms that of host / MONA is {:.2}.", median(long)),
    }
    let slower: Vec<_> = claims.iter().filter(|claim| claim.processes() > 1.0).collect();
    if slower.is_empty() {
        println!("The host takes longer than MONA for none.\n");
        return;
    }
    println!("\n| the host takes longer than MONA | k | w | host / MONA | cells of the largest part's table |");
    println!("|---|---|---|---|---|");
    for claim in slower {
        let Stored { name, .. } = claim.sample;
        let (sets, widest) = (claim.sample.sets(), claim.sample.widest());
        println!("| {name} | {sets} | {widest} | {:.2} | {} |", claim.processes(), claim.cells);
    }
    println!();
}

/// Families of one claim, which speaks of a few of more and more sets.
const FAMILIES: [&str; 2] = ["few-of-", "four-of-"];

/// What it costs that there are more sets, of which the claim does not speak. Those of a family take turns.
fn more_sets(samples: &[Stored], folder: &Path) {
    println!("| one claim, of more sets | k | w | n | host, process | / first | call, proved | / first |");
    println!("|---|---|---|---|---|---|---|---|");
    for family in FAMILIES {
        let family: Vec<_> = samples.iter().filter(|sample| sample.name.starts_with(family)).collect();
        let Some(first) = family.first() else { continue };
        let programs: Vec<_> = family.iter().map(|sample| host(sample, folder)).collect();
        let processes = times(first, &programs);
        let mut calls: Vec<_> = family.iter().map(|sample| proved(&sample.question)).collect();
        let calls = least_averages_of(calls.iter_mut().map(|call| call as &mut dyn FnMut()).collect());
        for (sample, (process, call)) in family.iter().zip(processes.iter().zip(&calls)) {
            println!(
                "| {} | {} | {} | {} | {} | {:.2} | {} | {:.2} |",
                sample.name,
                sample.sets(),
                sample.widest(),
                sample.question.most,
                milliseconds(*process),
                ratio(*process, processes[0]),
                milliseconds(*call),
                ratio(*call, calls[0])
            );
        }
    }
}
