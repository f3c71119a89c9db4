//! Writes the claims of the benchmark: `make_claims FOLDER` writes NAME.line, a line `most hexbytes` with the least number of classes that
//! suffices, and NAME.mona, the same claim for MONA.

use std::fs;
use std::path::Path;

use ceivuron::part::{Part, within};
use ceivuron_bench::claims::{self, Sample};
use ceivuron_bench::mona;

fn main() {
    let folder = std::env::args().nth(1).expect("usage: make_claims FOLDER");
    let folder = Path::new(&folder);
    for (name, sample) in samples() {
        let claim = sample.claim();
        let least = claims::least(&claim);
        let hex: String = claim.bytes().iter().map(|byte| format!("{byte:02x}")).collect();
        fs::write(folder.join(format!("{name}.line")), format!("{least} {hex}\n")).expect("the folder is there");
        fs::write(folder.join(format!("{name}.mona")), mona::text(&name, sample.sets, &sample.part))
            .expect("the folder is there");
        println!("{name}: {} sets, {} bytes, {least} classes", sample.sets, claim.bytes().len());
    }
}

fn samples() -> Vec<(String, Sample)> {
    let mut samples = vec![
        ("start".to_string(), Sample { sets: 1, part: within(0, 0) }),
        ("lanes".to_string(), claims::lanes()),
        ("adder".to_string(), claims::adder()),
        ("adders".to_string(), claims::adders()),
        ("order".to_string(), claims::order()),
    ];
    let mut family = |name: &str, number: usize, sample: Sample| samples.push((format!("{name}-{number:02}"), sample));
    for count in [4, 24, 80] {
        family("trays", count, claims::trays(count));
    }
    for distance in [3, 6, 9, 12] {
        family("apart", distance, claims::apart(distance));
    }
    for (degree, tap) in [(5, 2), (7, 1), (10, 3)] {
        family("marks", degree, claims::marks(degree, tap));
    }
    for sets in [2, 4, 6, 8, 10, 12] {
        family("row", sets, claims::row(sets as u8));
    }
    for sets in [2, 6, 10, 11, 12] {
        family("singles", sets, claims::singles(sets as u8));
    }
    for sets in [6, 9, 12] {
        family("few-of", sets, claims::few_of(sets as u8));
    }
    for sets in [4, 8, 12] {
        family("four-of", sets, claims::four_of(sets as u8));
    }
    for sets in [4, 8] {
        family("one-of", sets, claims::one_of(sets as u8));
    }
    for sets in [4, 6] {
        family("orders", sets, claims::orders(sets as u8));
    }
    for line in RULES.lines() {
        let (name, hex) = line.split_once(' ').expect("a name and bytes");
        samples.push((name.to_string(), from_hex(hex)));
    }
    samples
}

/// The claim that bytes say.
fn from_hex(hex: &str) -> Sample {
    let byte = |i| u8::from_str_radix(&hex[i..i + 2], 16).expect("hex");
    let bytes: Vec<u8> = (0..hex.len()).step_by(2).map(byte).collect();
    let (sets, part) = Part::read(&bytes).expect("a claim");
    Sample { sets, part }
}

/// Claims about rules, a name and bytes a line. `modules`: a row of modules is allowed and nothing can move in it, the first with 27 columns;
/// `rule`: a rule about four sets is kept by a step. Those behind them are what `bench/rule_claims` prints, of examples/rules.
const RULES: &str = include_str!("../rules.txt");
