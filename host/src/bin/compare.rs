//! Compares the proved calls with the second program: `compare [CLAIMS [SEED [ROWCLAIMS [RINGCLAIMS]]]]`, 600 claims, 500 row claims
//! and 500 ring claims without a number, and the worked claims.

use std::process::ExitCode;
use std::time::Instant;

use ceivuron::line::read_line;
use ceivuron::part::Part;
use ceivuron::second::compared::{Comparison, Effort};
use ceivuron::second::random::Random;
use ceivuron::second::reach::depth;
use ceivuron::second::ring_compared;
use ceivuron::second::ring_tally::RingTally;
use ceivuron::second::row_compared;
use ceivuron::second::row_tally::RowTally;
use ceivuron::second::tally::Tally;
use ceivuron::{Answer, Claim, Judge, RingClaim, RowClaim};

/// Claims that were worked out by hand, and claims that older tools had wrong, with their answers: `n hexbytes => answer`.
const WORKED: &str = include_str!("../../tests/worked.txt");

fn main() -> ExitCode {
    let mut numbers = std::env::args().skip(1).map(|word| word.parse::<u64>().expect("a number"));
    let count = numbers.next().unwrap_or(600) as usize;
    let seed = numbers.next().unwrap_or(1);
    let row_count = numbers.next().unwrap_or(500) as usize;
    let ring_count = numbers.next().unwrap_or(500) as usize;
    let begin = Instant::now();
    let mut comparison = Comparison::new(Effort { columns: 6, budget: 1_000_000 });
    let mut differences = 0;

    let mut tally = Tally::default();
    let mut answers = 0;
    for line in WORKED.lines().filter(|line| !line.starts_with('#')) {
        let (line, answer) = line.split_once(" => ").expect("an answer");
        let question = read_line(line.as_bytes()).expect("a line");
        let said = comparison.judge.judge(&question.claim, question.most).expect("small claims");
        answers += 1;
        if said.to_string() != answer {
            differences += 1;
            println!("DIFFERENCE {line}: {said} judged, {answer} stored");
        }
        // each claim stands there at its least n and one below; it is compared once
        if let (Some((sets, part)), true) = (question.claim.read(), said != Answer::Many) {
            differences += report(question.claim.bytes(), comparison.compare(sets, &part, &mut tally));
        }
    }
    println!("worked claims: {answers} answers as stored");
    println!("{tally}");

    let mut tally = Tally::default();
    let mut random = Random::new(seed);
    while tally.claims < count {
        let (sets, part) = draw(&mut random, &mut comparison.judge, &tally, count);
        differences += report(Claim::new(sets, &part).bytes(), comparison.compare(sets, &part, &mut tally));
    }
    println!("claims made at random, from seed {seed}:");
    println!("{tally}");

    let mut tally = RowTally::default();
    let mut random = Random::new(seed);
    while tally.claims < row_count {
        let (sets, claim) = row_compared::draw(&mut random, &tally, row_count);
        let result = row_compared::compare(&mut comparison.judge, &mut random, sets, &claim, &mut tally);
        differences += report(RowClaim::new(sets, &claim).bytes(), result);
    }
    println!("row claims made at random, from seed {seed}:");
    println!("{tally}");

    let mut tally = RingTally::default();
    let mut random = Random::new(seed);
    while tally.claims < ring_count {
        let (sets, claim) = ring_compared::draw(&mut random, &tally, ring_count);
        let result = ring_compared::compare(&mut comparison.judge, &mut random, sets, &claim, &mut tally);
        differences += report(RingClaim::new(sets, &claim).bytes(), result);
    }
    println!("ring claims made at random, from seed {seed}:");
    println!("{tally}");
    println!("{:.1} s, {differences} differences", begin.elapsed().as_secs_f64());
    if differences == 0 { ExitCode::SUCCESS } else { ExitCode::FAILURE }
}

/// A claim of a sort of which there are not enough yet: at most three in ten hold always, three in ten never; most claims without
/// `some`, or with a single sign, are passed over. One in three is made one of up to twelve sets, any of which it may be about.
fn draw(random: &mut Random, judge: &mut Judge, tally: &Tally, count: usize) -> (u8, Part) {
    loop {
        let sets = 1 + [0, 1, 1, 1, 2, 2, 2, 2, 3][random.below(9)];
        let signs = 2 + random.below(16);
        let nested = [0, 1, 1, 2, 2, 3, 3, 4][random.below(8)];
        let part = random.counting_claim(sets, signs, nested);
        if depth(&part) == 0 && !random.one_in(4) {
            continue;
        }
        let fair = match judge.judge(&Claim::new(sets, &part), 256).expect("small claims") {
            Answer::Always => tally.always * 10 < count * 3,
            Answer::Never => tally.never * 10 < count * 3,
            _ => tally.both * 10 < count * 6,
        };
        if fair {
            return if random.one_in(3) { random.among_more(sets, &part) } else { (sets, part) };
        }
    }
}

/// Prints a difference; how many there are.
fn report(claim: &[u8], result: Result<(), String>) -> usize {
    let Err(difference) = result else { return 0 };
    let hex: String = claim.iter().map(|byte| format!("{byte:02x}")).collect();
    println!("DIFFERENCE {hex}: {difference}");
    1
}
