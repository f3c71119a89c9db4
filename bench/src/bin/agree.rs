//! Claims made at random, judged by the call and by MONA: `agree [CLAIMS [SEED]]`, 1,000 without a number, and as many row claims. The
//! lengths of the first words, or rows, must be the same. One claim in three is made one of up to twelve sets. MONA must be installed.

use std::fs;
use std::path::PathBuf;
use std::process::ExitCode;

use ceivuron::second::random::Random;
use ceivuron::second::{reach, row_form};
use ceivuron::{Claim, Judge, RowClaim};
use ceivuron_bench::mona::{Shortest, text};
use ceivuron_bench::mona_rows;

/// Claims that were compared, as far as there are enough of their sort.
struct Agree {
    file: PathBuf,
    count: u64,
    always: u64,
    never: u64,
    both: u64,
    /// Claims by how deep `some` is nested.
    depths: [u64; 6],
    differences: u64,
}

impl Agree {
    fn new(count: u64) -> Agree {
        let file = std::env::temp_dir().join(format!("agree-{}.mona", std::process::id()));
        Agree { file, count, always: 0, never: 0, both: 0, depths: [0; 6], differences: 0 }
    }

    fn is_done(&self) -> bool {
        self.always + self.never + self.both >= self.count
    }

    /// Claims that hold always or never are easily made; of each sort there are at most a third.
    fn compare(&mut self, judged: Shortest, depth: u32, bytes: &[u8], text: impl FnOnce() -> String) {
        let sort = match judged {
            Shortest { fails: None, .. } => &mut self.always,
            Shortest { holds: None, .. } => &mut self.never,
            _ => &mut self.both,
        };
        if *sort * 3 > self.count {
            return;
        }
        *sort += 1;
        self.depths[depth as usize] += 1;
        fs::write(&self.file, text()).expect("a file in the folder for such files");
        let mona = Shortest::by_mona(&self.file).expect("mona runs");
        if mona != judged {
            self.differences += 1;
            let hex: String = bytes.iter().map(|byte| format!("{byte:02x}")).collect();
            println!("DIFFERENCE {hex}: {mona:?} by MONA, {judged:?} judged");
        }
    }

    /// Prints what was compared; how many differ.
    fn end(self, what: &str) -> u64 {
        let Agree { count, always, never, both, depths, differences, .. } = self;
        let _ = fs::remove_file(&self.file);
        println!("{count} {what}: {always} always, {never} never, {both} both; some nested 0 to 5 deep: {depths:?}");
        differences
    }
}

fn main() -> ExitCode {
    let mut numbers = std::env::args().skip(1).map(|word| word.parse::<u64>().expect("a number"));
    let count = numbers.next().unwrap_or(1000);
    let mut random = Random::new(numbers.next().unwrap_or(1));
    let mut judge = Judge::new();

    let mut agree = Agree::new(count);
    while !agree.is_done() {
        let sets = 1 + random.below(5) as u8;
        let signs = 4 + random.below(40);
        let part = random.claim(sets, signs, 5);
        let (sets, part) = if random.one_in(3) { random.among_more(sets, &part) } else { (sets, part) };
        let claim = Claim::new(sets, &part);
        let Some(judged) = Shortest::judged(&judge.judge(&claim, 2000).expect("small claims")) else { continue };
        agree.compare(judged, reach::depth(&part), claim.bytes(), || text("made at random", sets, &part));
    }
    let mut differences = agree.end("claims");

    let mut agree = Agree::new(count);
    while !agree.is_done() {
        let sets = 1 + random.below(5) as u8;
        let signs = 4 + random.below(30);
        let part = random.row_claim(sets, signs, 5);
        let claim = RowClaim::new(sets, &part);
        let answer = judge.judge_row(&claim, 2000).expect("small claims");
        let Some(judged) = Shortest::row_judged(&answer) else { continue };
        let text = || mona_rows::text("made at random", sets, &part);
        agree.compare(judged, row_form::depth(&part), claim.bytes(), text);
    }
    differences += agree.end("row claims");
    println!("{differences} differences");
    if differences == 0 { ExitCode::SUCCESS } else { ExitCode::FAILURE }
}
