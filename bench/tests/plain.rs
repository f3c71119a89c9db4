//! Plain Rust answers as the proved call does: on the benchmark's claims whose parts mention up to six sets, on the proved program's test
//! lines, and on claims made at random.

use std::fs;
use std::path::Path;

use ceivuron::line::read_line;
use ceivuron::part::{and, single};
use ceivuron::second::random::Random;
use ceivuron::second::widths::widest;
use ceivuron::{Claim, Judge};
use ceivuron_bench::claims::{Sample, few_of, four_of};
use ceivuron_bench::plain::Plain;

#[test]
fn answers_alike() {
    let here = Path::new(env!("CARGO_MANIFEST_DIR"));
    let mut lines = fs::read(here.join("../crates/judge_lines/stdin")).unwrap();
    for entry in fs::read_dir(here.join("claims")).unwrap() {
        let path = entry.unwrap().path();
        if path.extension().is_some_and(|end| end == "line") {
            lines.push(b'\n');
            lines.extend(fs::read(path).unwrap());
        }
    }
    let (mut judge, mut plain) = (Judge::with_limit(1 << 27), Plain::default());
    let mut compared = 0;
    for line in lines.split(|byte| *byte == b'\n') {
        let Ok(question) = read_line(line) else { continue };
        if question.most > 100 && question.claim.read().is_some_and(|(_, part)| widest(&part) > 6) {
            continue;
        }
        let Ok(answer) = judge.judge(&question.claim, question.most) else { continue };
        assert_eq!(plain.judge(question.claim.bytes(), question.most), answer, "{question:?}");
        compared += 1;
    }
    assert!(compared > 200, "{compared}");
}

#[test]
fn answers_alike_at_random() {
    let (mut random, mut judge, mut plain) = (Random::new(1), Judge::new(), Plain::default());
    for _ in 0..1000 {
        let sets = 1 + random.below(5) as u8;
        let signs = 4 + random.below(60);
        let part = random.counting_claim(sets, signs, 4);
        // some are claims of more sets, any of which they mention
        let (sets, part) = if random.one_in(3) { random.among_more(sets, &part) } else { (sets, part) };
        let claim = Claim::new(sets, &part);
        let most = 1 + random.below(300) as u32;
        assert_eq!(plain.judge(claim.bytes(), most), judge.judge(&claim, most).unwrap(), "{most} {claim:?}");
    }
}

/// Two sets of one place each: three classes of either, nine of both, with two columns and four. And families of one claim, of more and
/// more sets of which it does not speak.
#[test]
fn sets_that_are_not_mentioned_add_no_cells() {
    let work = |Sample { sets, part }: Sample| {
        let mut plain = Plain::default();
        assert!(!plain.judge(Claim::new(sets, &part).bytes(), 600).to_string().is_empty());
        (plain.found(), plain.cells())
    };
    let (few, four) = (work(few_of(3)), work(four_of(4)));
    for sets in 4..=12 {
        assert_eq!(work(Sample { sets, part: and(single(0), single(sets - 1)) }), (15, 36));
        assert_eq!(work(few_of(sets)), few);
        assert_eq!(work(four_of(sets)), four);
    }
}
