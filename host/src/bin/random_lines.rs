//! Prints lines for the line tool, with claims made at random: `random_lines COUNT [SEED]`.

use std::io::{self, BufWriter, Write, stdout};

use ceivuron::Claim;
use ceivuron::second::random::Random;

fn main() -> io::Result<()> {
    let mut numbers = std::env::args().skip(1).map(|word| word.parse::<u64>().expect("a number"));
    let count = numbers.next().expect("usage: random_lines COUNT [SEED]");
    let mut random = Random::new(numbers.next().unwrap_or(1));
    let mut output = BufWriter::new(stdout());
    for _ in 0..count {
        let sets = 4 + random.below(4) as u8;
        let signs = 40 + random.below(80);
        let claim = Claim::new(sets, &random.counting_claim(sets, signs, 4));
        write!(output, "{} ", 50 + random.below(200))?;
        for byte in claim.bytes() {
            write!(output, "{byte:02x}")?;
        }
        writeln!(output)?;
    }
    output.flush()
}
