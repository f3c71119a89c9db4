//! Gives the calls bytes of all sorts, and holds them to their promise about memory: `bad_input [INPUTS [SEED]]`, a million without a
//! number, and a quarter as many for the call on row claims and for that on ring claims.

use std::process::ExitCode;
use std::time::Instant;

use ceivuron::part::Part;
use ceivuron::ring_part::RingPart;
use ceivuron::row_part::RowPart;
use ceivuron::second::guarded::Guarded;
use ceivuron::second::random::Random;
use ceivuron::second::widths::widest;
use ceivuron::{Claim, RingClaim, RingVerdict, RowClaim, RowVerdict, Verdict};

fn main() -> ExitCode {
    let mut numbers = std::env::args().skip(1).map(|word| word.parse::<u64>().expect("a number"));
    let inputs = numbers.next().unwrap_or(1_000_000);
    let mut random = Random::new(numbers.next().unwrap_or(1));
    let mut guarded = Guarded::default();
    let begin = Instant::now();
    let mut faults = 0;

    let mut counts = [0u64; 5];
    for _ in 0..inputs {
        let bytes = input(&mut random, claim);
        let most = allowed(&mut random, Part::read(&bytes).map_or(0, |(_, part)| widest(&part)));
        match guarded.check(&bytes, most, 1 + random.below(100)) {
            Ok(Verdict::Always) => counts[0] += 1,
            Ok(Verdict::Never) => counts[1] += 1,
            Ok(Verdict::Both(..)) => counts[2] += 1,
            Ok(Verdict::Many) => counts[3] += 1,
            Ok(_) => counts[4] += 1,
            Err(fault) => faults += report("FAULT", &bytes, most, &fault),
        }
    }
    let [always, never, both, many, none] = counts;
    println!("{inputs} inputs: {always} always, {never} never, {both} both, {many} many, {none} no claim");

    let inputs = inputs / 4;
    let mut counts = [0u64; 7];
    for _ in 0..inputs {
        let bytes = input(&mut random, row_claim);
        let sets = RowPart::read(&bytes).map_or(0, |(sets, _)| u32::from(sets) + 1);
        let most = allowed(&mut random, sets);
        match guarded.check_row(&bytes, most, 1 + random.below(100)) {
            Ok(RowVerdict::Always) => counts[0] += 1,
            Ok(RowVerdict::Never) => counts[1] += 1,
            Ok(RowVerdict::Both(..)) => counts[2] += 1,
            Ok(RowVerdict::Many) => counts[3] += 1,
            Ok(RowVerdict::TooLong) => counts[4] += 1,
            Ok(RowVerdict::TooManySets) => counts[5] += 1,
            Ok(_) => counts[6] += 1,
            Err(fault) => faults += report("FAULT of a row claim", &bytes, most, &fault),
        }
    }
    let [always, never, both, many, long, sets, none] = counts;
    print!("{inputs} inputs for rows: {always} always, {never} never, {both} both, {many} many, ");
    println!("{long} too long, {sets} too many sets, {none} no row claim");

    let mut counts = [0u64; 7];
    for _ in 0..inputs {
        let bytes = input(&mut random, ring_claim);
        let sets = RingPart::read(&bytes).map_or(0, |(sets, _)| u32::from(sets) + 1);
        let most = allowed(&mut random, sets);
        match guarded.check_ring(&bytes, most, 1 + random.below(100)) {
            Ok(RingVerdict::Always) => counts[0] += 1,
            Ok(RingVerdict::Never) => counts[1] += 1,
            Ok(RingVerdict::Both(..)) => counts[2] += 1,
            Ok(RingVerdict::Many) => counts[3] += 1,
            Ok(RingVerdict::TooLong) => counts[4] += 1,
            Ok(RingVerdict::TooManySets) => counts[5] += 1,
            Ok(_) => counts[6] += 1,
            Err(fault) => faults += report("FAULT of a ring claim", &bytes, most, &fault),
        }
    }
    let [always, never, both, many, long, sets, none] = counts;
    print!("{inputs} inputs for rings: {always} always, {never} never, {both} both, {many} many, ");
    println!("{long} too long, {sets} too many sets, {none} no ring claim");
    println!("{} calls, {:.1} s, {faults} faults", guarded.calls, begin.elapsed().as_secs_f64());
    if faults == 0 { ExitCode::SUCCESS } else { ExitCode::FAILURE }
}

/// Prints a fault; how many there are.
fn report(what: &str, bytes: &[u8], most: u32, fault: &str) -> u64 {
    let hex: String = bytes.iter().map(|byte| format!("{byte:02x}")).collect();
    println!("{what} {most} {hex}: {fault}");
    1
}

/// Bytes: a claim of those that `claim` makes, one with some bytes changed, a count that may well be none, bytes that may well be a claim, or any bytes; seldom
/// more than a claim may have.
fn input(random: &mut Random, claim: fn(&mut Random) -> Vec<u8>) -> Vec<u8> {
    match random.below(20) {
        0..=3 => claim(random),
        4 | 5 => count(random),
        6..=10 => {
            let mut bytes = claim(random);
            for _ in 0..1 + random.below(3) {
                mutate(random, &mut bytes);
            }
            bytes
        }
        11..=15 => {
            let mut bytes: Vec<u8> = (0..random.below(16)).map(|_| random.below(9) as u8).collect();
            if let (Some(first), false) = (bytes.first_mut(), random.one_in(8)) {
                *first = 1 + *first % 3;
            }
            bytes
        }
        16..=18 => (0..random.below(40)).map(|_| random.word() as u8).collect(),
        _ if random.one_in(50) => {
            // around the largest number of bytes that a claim may have, or a row claim that is to be read as a claim
            let about = if random.one_in(2) { 1015 } else { 980 };
            let mut bytes = vec![4; about + random.below(30)];
            bytes[0] = 1 + random.below(3) as u8;
            bytes.extend([1, 0]);
            bytes
        }
        _ => (0..random.below(4)).map(|_| random.word() as u8).collect(),
    }
}

/// The bytes of a claim of few sets, which may be some of up to twelve.
fn claim(random: &mut Random) -> Vec<u8> {
    let sets = 1 + random.below(3) as u8;
    let (signs, depth) = (1 + random.below(6), random.below(3));
    let part = random.counting_claim(sets, signs, depth);
    let (sets, part) = if random.one_in(3) { random.among_more(sets, &part) } else { (sets, part) };
    Claim::new(sets, &part).bytes().to_vec()
}

/// The same of a row claim, of up to eleven sets, seldom of twelve.
fn row_claim(random: &mut Random) -> Vec<u8> {
    let sets = 1 + random.below(3) as u8;
    let (signs, depth) = (1 + random.below(6), random.below(3));
    let part = random.counting_row_claim(sets, signs, depth);
    let sets = if random.one_in(10) { 12 - random.below(10) as u8 } else { sets };
    RowClaim::new(sets, &part).bytes().to_vec()
}

/// The same of a ring claim; seldom with many signs of next, that it is read as too long a row claim, or nearly so.
fn ring_claim(random: &mut Random) -> Vec<u8> {
    let sets = 1 + random.below(3) as u8;
    let (signs, depth) =
        if random.one_in(50) { (60 + random.below(60), 1) } else { (1 + random.below(6), random.below(3)) };
    let part = random.ring_claim(sets, signs, depth);
    let sets = if random.one_in(10) { 12 - random.below(10) as u8 } else { sets };
    RingClaim::new(sets, &part).bytes().to_vec()
}

/// A claim that counts, alone or as a part: its number, its rest and its set at the edge of what may be, or its end cut off.
fn count(random: &mut Random) -> Vec<u8> {
    let sets = 1 + random.below(12) as u8;
    let modulus = [0, 1, 2, 3, 15, 16, 17, 255][random.below(8)];
    let rest = match random.below(8) {
        0 => random.word() as u8,
        1 => modulus,
        2 => modulus.wrapping_add(1),
        3 => 0,
        _ => modulus.wrapping_sub(1),
    };
    let x = if random.one_in(6) { sets } else { random.below(usize::from(sets)) as u8 };
    let mut bytes = vec![sets];
    bytes.extend([&[][..], &[4], &[5, 1, 0], &[6, 0]][random.below(4)]);
    bytes.extend([7, modulus, rest, x]);
    if random.one_in(6) {
        bytes.truncate(bytes.len() - 1 - random.below(4));
    }
    bytes
}

/// One change: a byte put in, taken out, changed or exchanged, or the end cut off.
fn mutate(random: &mut Random, bytes: &mut Vec<u8>) {
    let at = random.below(bytes.len() + 1);
    let byte = if random.one_in(4) { random.word() as u8 } else { random.below(9) as u8 };
    if at == bytes.len() || random.one_in(4) {
        bytes.insert(at, byte);
        return;
    }
    match random.below(4) {
        0 => drop(bytes.remove(at)),
        1 => bytes[at] = byte,
        2 => {
            let other = random.below(bytes.len());
            bytes.swap(at, other);
        }
        _ => bytes.truncate(at),
    }
}

/// How many classes are allowed: few, and fewer where a part may mention so many sets that each class is large.
fn allowed(random: &mut Random, sets: u32) -> u32 {
    let most = match sets {
        0..=4 => 20,
        5..=7 => 6,
        _ => 2,
    };
    random.below(most + 1) as u32
}
