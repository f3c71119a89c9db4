//! What a step keeps, asked of the call and searched row by row from the rule file alone: the two must agree. No claim, no automaton
//! and no proved code takes part in the search.

mod asking;
mod formula;
mod keeping;
mod random_rules;
mod rule_files;

use std::fs;
use std::path::Path;
use std::thread;

use asking::{MORE_WORDS, MOST, asked};
use ceivuron::second::random::Random;
use ceivuron::{Kept, LEAST_WORDS, Large, Moment, NotJudged, judge_kept};
use keeping::{Break, Keeping, rows};
use random_rules::{NAME, claim, rule_file};
use rule_files::{Rule, examples};

/// Checks what the call says against what was found in all rows of up to that many modules: the same row, where one is found; where none
/// is, a longer one may be said, at which the claim fails as is said.
fn check(keeping: &Keeping, longest: usize, found: Option<&Break>, said: Option<&Break>, text: &str) {
    match said {
        Some(at) if at.row.len() > longest => {
            assert_eq!(found, None, "{text}");
            assert_eq!(keeping.broken_at(&at.row).as_ref(), said, "{text}");
        }
        _ => assert_eq!(found, said, "{text}"),
    }
}

/// How many rows of one length are tried for a claim of an example: all of up to 20 modules of one bit, 10 of two, 7 of three, 5 of
/// four and 4 of five, and fewer where a formula tries sets of places. A build that is not optimized tries fewer.
const TRIES: usize = if cfg!(debug_assertions) { 40_000 } else { 2_100_000 };

/// Searches all kept claims of an example; of each whether the call says that it is kept.
fn search_example(text: &str) -> Vec<bool> {
    let rule = Rule::of(text);
    let is_kept = |(name, claim): &(String, String)| {
        let keeping = Keeping::of(&rule, claim);
        let longest = keeping.searchable(20, TRIES);
        let said = asked(text, name).unwrap_or_else(|large| panic!("{name}: {large}"));
        check(&keeping, longest, keeping.first(longest).as_ref(), said.as_ref(), text);
        said.is_none()
    };
    rule.kept.iter().map(is_kept).collect()
}

#[test]
fn examples_are_kept_as_they_are_searched() {
    let answers: Vec<bool> = thread::scope(|scope| {
        let searches: Vec<_> = examples().into_iter().map(|text| scope.spawn(move || search_example(&text))).collect();
        searches.into_iter().flat_map(|search| search.join().unwrap()).collect()
    });
    // some are kept, and some are not
    assert!(answers.contains(&true) && answers.contains(&false), "{answers:?}");
}

/// A rule made at random, with what the search says of it.
struct Sample {
    text: String,
    rule: Rule,
    longest: usize,
    found: Option<Break>,
}

impl Sample {
    fn new(random: &mut Random) -> Sample {
        // rows of up to 10 modules of one bit, 6 of two, 4 of three; some fewer where sets of places are tried too
        let (bits, most) = [(1, 10), (1, 10), (2, 6), (2, 6), (2, 6), (3, 4)][random.below(6)];
        let ring = random.one_in(3);
        let text = rule_file(random, bits, ring);
        let rule = Rule::of(&text);
        let keeping = Keeping::of(&rule, claim(&rule));
        let longest = keeping.searchable(most, 300_000);
        let found = keeping.first(longest);
        Sample { text, rule, longest, found }
    }

    fn keeping(&self) -> Keeping<'_> {
        Keeping::of(&self.rule, claim(&self.rule))
    }

    /// Whether something is said: some short rows have the claim and some have not, a run may begin with one, and of one that has the
    /// claim the row after it is another.
    fn says_something(&self) -> bool {
        let keeping = self.keeping();
        let any = |is_so: &dyn Fn(&[usize]) -> bool| {
            (1..=self.longest.min(4)).any(|length| rows(self.rule.columns(), length).any(|row| is_so(&row)))
        };
        any(&|row| !keeping.has(row))
            && any(&|row| keeping.starts(row))
            && any(&|row| keeping.has(row) && keeping.after(row) != row)
    }
}

/// Rules made at random, a hundred for each that a search may find: nothing, a row at the start, a row in a step. Of the hundred where
/// nothing is found each says something; of those where a row is found at most 30 have one of fewer than two modules.
fn samples() -> Vec<Sample> {
    let mut random = Random::new(2022);
    let mut samples = Vec::new();
    let mut wanted = [[0, 100], [30, 70], [30, 70]];
    while wanted != [[0; 2]; 3] {
        let sample = Sample::new(&mut random);
        let (kind, long) = match &sample.found {
            None => (0, sample.says_something()),
            Some(Break { moment: Moment::Start, row, .. }) => (1, row.len() >= 2),
            Some(Break { moment: Moment::Step, row, .. }) => (2, row.len() >= 2),
        };
        let wanted = &mut wanted[kind][usize::from(long)];
        if *wanted > 0 {
            *wanted -= 1;
            samples.push(sample);
        }
    }
    samples
}

/// How many random rules keep their claim, of how many a row is said that is longer than was searched, and how many are too large.
#[derive(Debug, Default, PartialEq)]
struct Tally {
    kept: usize,
    longer: usize,
    large: usize,
}

impl Tally {
    /// Asks the call of one more rule, and checks what it says. Where no row was found rows of up to 10 modules of one bit or two are
    /// searched, and of up to 6 of three.
    fn count(&mut self, sample: &Sample) {
        let keeping = sample.keeping();
        let said = match asked(&sample.text, NAME) {
            Ok(said) => said,
            Err(Large::Bytes(1025..)) => return self.large += 1,
            Err(other) => panic!("{other} in\n{}", sample.text),
        };
        if sample.found.is_some() {
            return check(&keeping, sample.longest, sample.found.as_ref(), said.as_ref(), &sample.text);
        }
        let longest = keeping.searchable(10, 1_100_000);
        check(&keeping, longest, keeping.first(longest).as_ref(), said.as_ref(), &sample.text);
        self.kept += usize::from(said.is_none());
        self.longer += usize::from(said.is_some());
    }
}

#[test]
fn random_rules_are_kept_as_they_are_searched() {
    let samples = samples();
    let tally_of = |samples: &[Sample]| {
        let mut tally = Tally::default();
        samples.iter().for_each(|sample| tally.count(sample));
        tally
    };
    let Tally { kept, longer, large } = thread::scope(|scope| {
        let counted: Vec<_> = samples.chunks(25).map(|some| scope.spawn(move || tally_of(some))).collect();
        counted.into_iter().map(|tally| tally.join().unwrap()).fold(Tally::default(), |all, some| Tally {
            kept: all.kept + some.kept,
            longer: all.longer + some.longer,
            large: all.large + some.large,
        })
    });
    // where a row is found at all the search mostly finds it, and few are too large: all of these for their bytes
    assert!(kept >= 60 && longer <= 20 && large <= 30, "{kept} kept, {longer} with a longer row, {large} too large");
}

/// A rule of which no module ever changes, with such a start and such a claim.
fn still(start: &str, claim: &str) -> String {
    format!("bits: tray\nallowed:\n  * | * | *\ntable:\n  * | * | * -> waits\nstart: {start}\nkept {NAME}: {claim}\n")
}

#[test]
fn a_first_row_may_be_long() {
    // 79 modules are the fewest of which both hold
    let text = still("|row| mod 16 = 15 & |row| mod 5 = 4", "false");
    let row = vec![0; 79];
    assert_eq!(asked(&text, NAME).unwrap(), Some(Break { moment: Moment::Start, row: row.clone(), after: row }));
}

#[test]
fn more_memory_judges_more() {
    // the counter of the example with a bit more: 16 trays are taken for none, first where 15 of them are joined by another
    let folder = Path::new(env!("CARGO_MANIFEST_DIR")).join("../examples/rules");
    let text = fs::read_to_string(folder.join("counter.txt")).unwrap().replace("mod 8", "mod 16");
    let few = judge_kept(&text, "zero_is_empty", MOST, LEAST_WORDS).unwrap();
    assert!(matches!(few, Kept::TooLarge { part: 2, moment: Moment::Step, large: Large::Classes(_) }), "{few:?}");
    let row = |first: u32| (0..31).map(|place| (place + first) % 2).collect();
    let first = Kept::NotKept { moment: Moment::Step, row: row(0), after: row(1) };
    assert_eq!(judge_kept(&text, "zero_is_empty", MOST, MORE_WORDS), Ok(first));
}

#[test]
fn what_is_not_judged() {
    let text = still("true", "true");
    let judged = |text: &str, name: &str| judge_kept(text, name, MOST, LEAST_WORDS);
    assert_eq!(judged(&text, NAME), Ok(Kept::Kept));
    assert_eq!(judged(&text, "other"), Err(NotJudged::NoSuchClaim));
    assert_eq!(judged(&text, ""), Err(NotJudged::NoSuchClaim));
    assert_eq!(judged("", NAME), Err(NotJudged::NotRead));
    assert_eq!(judged(&still("true", "p in tray"), NAME), Err(NotJudged::NotRead));
    let words = LEAST_WORDS - 1;
    assert_eq!(judge_kept(&text, NAME, MOST, words), Err(NotJudged::TooFewWords { words }));
    assert_eq!(NotJudged::NoSuchClaim.to_string(), "the rule file has no kept claim of that name");
}

#[test]
fn what_is_too_large() {
    let large = |claim: &str, most: u32| match judge_kept(&still("true", claim), NAME, most, LEAST_WORDS) {
        Ok(Kept::TooLarge { large, .. }) => large,
        other => panic!("{other:?}"),
    };
    assert_eq!(large("|tray| mod 16 = 3", 4), Large::Classes(4));
    let names: Vec<String> = (0..12).map(|number| format!("p{number}")).collect();
    let apart: Vec<String> = names[1..].iter().map(|name| format!("p0 < {name}")).collect();
    let many = format!("ex1 {}: {}", names.join(", "), apart.join(" & "));
    assert!(matches!(large(&many, MOST), Large::Sets(13..)));
    let long = vec!["(ex1 p: p + 3 in tray)"; 40].join(" | ");
    assert!(matches!(large(&long, MOST), Large::Bytes(1025..)));
}
