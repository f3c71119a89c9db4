//! With which helpers a step keeps a claim, asked of the call and searched through all choices and all short rows from the rule file
//! alone: the two must agree. No claim, no automaton and no proved code takes part in the search.

mod asking;
mod formula;
mod helping;
mod keeping;
mod random_helpers;
mod random_rules;
mod rule_files;

use std::thread;

use asking::{MOST, asked, strengthened};
use ceivuron::second::random::Random;
use ceivuron::{LEAST_WORDS, Large, NotJudged, Stronger, strengthen};
use helping::{Helping, choices};
use random_helpers::helped_file;
use random_rules::{NAME, claim};
use rule_files::{Rule, examples};

/// A claim of a rule file, with the helpers of the file and what was seen of rows.
struct Case<'r> {
    text: &'r str,
    rule: &'r Rule,
    name: &'r str,
    claim: &'r str,
    helping: Helping<'r>,
    /// How many choices no row that was searched breaks, and a longer one does.
    longer: usize,
}

impl<'r> Case<'r> {
    /// The claim, of which no row was looked at.
    fn of(text: &'r str, rule: &'r Rule, name: &'r str, claim: &'r str) -> Case<'r> {
        let helping = Helping::of(rule, claim, rule.helpers.iter().map(|(_, helper)| helper));
        Case { text, rule, name, claim, helping, longer: 0 }
    }

    /// All choices of helpers, in their order.
    fn choices(&self) -> Vec<Vec<usize>> {
        choices(self.rule.helpers.len()).collect()
    }

    /// The rule file in which all that a choice says, with the claim, is one claim.
    fn together(&self, choice: &[usize]) -> String {
        let helpers = choice.iter().map(|helper| self.rule.helpers[helper - 1].1.as_str());
        let parts: Vec<&str> = [self.claim].into_iter().chain(helpers).collect();
        self.rule.claiming("together", &format!("({})", parts.join(") & (")))
    }

    /// Whether a row breaks a choice: one that was looked at; or one that is said to be the first, and is looked at then.
    fn is_broken(&mut self, choice: &[usize]) -> bool {
        if !self.helping.is_broken(choice)
            && let Ok(Some(first)) = asked(&self.together(choice), "together")
        {
            self.longer += 1;
            self.helping.look_at(&first.row);
        }
        self.helping.is_broken(choice)
    }

    /// Checks what the call says: no row breaks the choice with which the claim is kept, and some row breaks each that comes before; each
    /// of all, where none is kept.
    fn check(&mut self, said: &Stronger) {
        let choices = self.choices();
        let number_of = |choice| choices.iter().position(|other| other == choice).expect("it is a choice of helpers");
        let before = match said {
            Stronger::With(choice) | Stronger::TooLarge { choice, .. } => number_of(choice),
            Stronger::NoneAmong => choices.len(),
        };
        for choice in &choices[..before] {
            assert!(self.is_broken(choice), "{choice:?}, not {said:?}, in\n{}", self.text);
        }
        if let Stronger::With(choice) = said {
            assert!(!self.is_broken(choice), "{said:?} in\n{}", self.text);
        }
    }

    /// What the call says, which is checked.
    fn asked(&mut self) -> Stronger {
        let said = strengthened(self.text, self.name);
        self.check(&said);
        said
    }
}

/// How many rows of one length are tried for each formula of an example. A build that is not optimized tries fewer.
const TRIES: usize = if cfg!(debug_assertions) { 5_000 } else { 300_000 };

/// What the call says of all kept claims of a rule file, which is searched.
fn searched(text: &str) -> Vec<Stronger> {
    let rule = Rule::of(text);
    let said = |(name, claim): &(String, String)| {
        let mut case = Case::of(text, &rule, name, claim);
        case.helping.look_up_to(case.helping.searchable(16, TRIES));
        case.asked()
    };
    rule.kept.iter().map(said).collect()
}

#[test]
fn examples_are_helped_as_they_are_searched() {
    let with_helpers = examples().into_iter().filter(|text| !Rule::of(text).helpers.is_empty());
    let answers: Vec<Stronger> = thread::scope(|scope| {
        let searches: Vec<_> = with_helpers.map(|text| scope.spawn(move || searched(&text))).collect();
        searches.into_iter().flat_map(|search| search.join().unwrap()).collect()
    });
    // of some claim helpers are found, and of some there are none
    let is_helped = |answer: &Stronger| matches!(answer, Stronger::With(choice) if !choice.is_empty());
    assert!(answers.iter().any(is_helped) && answers.contains(&Stronger::NoneAmong), "{answers:?}");
}

/// What is found of a rule in short rows: that it has no list of helpers; or of how many the first choice is that no row breaks; or that
/// there is none, where the claim fails at the start or not.
#[derive(Clone, Copy, Debug, PartialEq)]
enum Found {
    NoList,
    Alone,
    One,
    More,
    NoneAtTheStart,
    None,
}

impl Found {
    fn of(case: &Case) -> Found {
        match case.helping.first() {
            _ if case.rule.helpers.is_empty() => Found::NoList,
            Some(choice) => [Found::Alone, Found::One, Found::More][choice.len().min(2)],
            None if case.helping.fails_at_the_start() => Found::NoneAtTheStart,
            None => Found::None,
        }
    }
}

/// How many rules are made at random at a time of each that may be found, and how often.
const WANTED: [(Found, usize); 6] = [
    (Found::NoList, 2),
    (Found::Alone, 4),
    (Found::One, 5),
    (Found::More, 5),
    (Found::NoneAtTheStart, 2),
    (Found::None, 7),
];
const TIMES: u64 = 8;

/// How long a claim and its helpers are together, so that few choices make claims of too many bytes.
const MOST_TEXT: usize = 320;

/// Rules made at random, each with as many modules as rows have that are searched.
fn samples(seed: u64) -> Vec<(String, usize)> {
    let mut random = Random::new(seed);
    let mut samples = Vec::new();
    let mut wanted = WANTED;
    while wanted.iter().any(|(_, wanted)| *wanted > 0) {
        // rows of up to 10 modules of one bit, 6 of two, 4 of three; some fewer where sets of places are tried too
        let (bits, most) = [(1, 10), (1, 10), (2, 6), (2, 6), (2, 6), (3, 4)][random.below(6)];
        let ring = random.one_in(3);
        let text = helped_file(&mut random, bits, ring);
        let rule = Rule::of(&text);
        let helpers = rule.helpers.iter().map(|(_, helper)| helper.len());
        if claim(&rule).len() + helpers.sum::<usize>() > MOST_TEXT {
            continue;
        }
        let mut case = Case::of(&text, &rule, NAME, claim(&rule));
        let longest = case.helping.searchable(most, 300_000);
        // of most rules the rows of few modules say already that such a rule is not wanted
        let is_wanted = [longest.min(3), longest].into_iter().all(|longest| {
            case.helping.look_up_to(longest);
            case.helping.says_something() && !wanted.contains(&(Found::of(&case), 0))
        });
        if is_wanted {
            let found = Found::of(&case);
            wanted.iter_mut().filter(|(of, _)| *of == found).for_each(|(_, wanted)| *wanted -= 1);
            samples.push((text, longest));
        }
    }
    samples
}

/// What the call says of random rules: how many claims are kept alone, with one helper, and with more; of how many no choice is, though
/// there is a list; how many are too large. And how many choices are broken by rows alone that are longer than was searched.
#[derive(Debug, Default, PartialEq)]
struct Tally {
    alone: usize,
    one: usize,
    more: usize,
    none: usize,
    no_list: usize,
    large: usize,
    longer: usize,
}

impl Tally {
    /// Asks the call of one more rule, and checks what it says.
    fn count(&mut self, text: &str, longest: usize) {
        let rule = Rule::of(text);
        let mut case = Case::of(text, &rule, NAME, claim(&rule));
        case.helping.look_up_to(longest);
        match case.asked() {
            Stronger::TooLarge { .. } => self.large += 1,
            _ if rule.helpers.is_empty() => self.no_list += 1,
            Stronger::NoneAmong => self.none += 1,
            Stronger::With(choice) => match choice.len() {
                0 => self.alone += 1,
                1 => self.one += 1,
                _ => self.more += 1,
            },
        }
        self.longer += case.longer;
    }

    fn and(self, other: Tally) -> Tally {
        Tally {
            alone: self.alone + other.alone,
            one: self.one + other.one,
            more: self.more + other.more,
            none: self.none + other.none,
            no_list: self.no_list + other.no_list,
            large: self.large + other.large,
            longer: self.longer + other.longer,
        }
    }
}

#[test]
fn random_rules_are_helped_as_they_are_searched() {
    let tally_of = |seed: u64| {
        let mut tally = Tally::default();
        samples(seed).iter().for_each(|(text, longest)| tally.count(text, *longest));
        tally
    };
    let tally = thread::scope(|scope| {
        let counted: Vec<_> = (0..TIMES).map(|seed| scope.spawn(move || tally_of(seed))).collect();
        counted.into_iter().map(|tally| tally.join().unwrap()).fold(Tally::default(), Tally::and)
    });
    let Tally { alone, one, more, none, no_list, large, .. } = tally;
    assert!(alone >= 20 && one + more >= 50 && more >= 20 && none >= 60 && no_list >= 10 && large <= 30, "{tally:?}");
}

/// A line on which all trays go on at each step, and none comes: its first modules stay free. With such claims and such helpers.
fn line(kept: &[&str], helpers: &[&str]) -> String {
    let kept: String = kept.iter().enumerate().map(|(at, claim)| format!("kept claim_{at}: {claim}\n")).collect();
    let helpers: String = helpers.iter().enumerate().map(|(at, helper)| format!("  helper_{at}: {helper}\n")).collect();
    format!(
        "bits: tray\ntable:\n  tray | * | * -> tray moves\n  * | tray | * -> !tray moves\nstart: empty(tray)\n\
        {kept}helpers:\n{helpers}"
    )
}

/// What the call says of the claim of a line with such helpers, which is searched.
fn of_line(claim: &str, helpers: &[&str]) -> Stronger {
    searched(&line(&[claim], helpers)).remove(0)
}

const FIRST: &str = "0 notin tray";
const SECOND: &str = "1 notin tray";
const THIRD: &str = "2 notin tray";
const LAST: &str = "last notin tray";

#[test]
fn lists_that_are_empty() {
    assert_eq!(of_line(FIRST, &[]), Stronger::With(vec![]));
    assert_eq!(of_line(SECOND, &[]), Stronger::NoneAmong);
    // and there may be no line `helpers:`
    let without = |claim: &str| line(&[claim], &[]).replace("helpers:\n", "");
    assert_eq!(searched(&without(FIRST)), [Stronger::With(vec![])]);
    assert_eq!(searched(&without(SECOND)), [Stronger::NoneAmong]);
}

#[test]
fn helpers_that_are_the_same() {
    // that the second module is free helps itself no more than once
    assert_eq!(of_line(SECOND, &[SECOND]), Stronger::NoneAmong);
    assert_eq!(of_line(SECOND, &[SECOND, SECOND, LAST]), Stronger::NoneAmong);
    assert_eq!(of_line(SECOND, &[SECOND, FIRST]), Stronger::With(vec![2]));
    assert_eq!(of_line(SECOND, &[LAST, FIRST, FIRST]), Stronger::With(vec![2]));
    assert_eq!(of_line(FIRST, &[FIRST]), Stronger::With(vec![]));
    assert_eq!(of_line(THIRD, &[FIRST, FIRST, SECOND, SECOND]), Stronger::With(vec![1, 3]));
    // each claim of a file has an answer of its own, and no claim is a helper
    let text = line(&[FIRST, SECOND, SECOND, THIRD], &[SECOND, FIRST]);
    let answers = [vec![], vec![2], vec![2], vec![1, 2]].map(Stronger::With);
    assert_eq!(searched(&text), answers);
    assert_eq!(searched(&line(&[FIRST, SECOND], &[])), [Stronger::With(vec![]), Stronger::NoneAmong]);
}

#[test]
fn helpers_of_a_long_list() {
    let others =
        ["|tray| mod 2 = 0", "3 notin tray", "4 notin tray", "|row| mod 3 = 1", "|tray| mod 3 = 0", "~empty(row)"];
    let apart = "all1 p: p in tray => p + 1 notin tray";
    let list = [&others[..], &[apart, LAST, "5 notin tray", SECOND, "max tray = last", FIRST]].concat();
    assert_eq!(of_line(SECOND, &list), Stronger::With(vec![12]));
    assert_eq!(of_line(THIRD, &list), Stronger::With(vec![10, 12]));
}

#[test]
fn at_most_eight_helpers() {
    // each bit becomes the next one of the same module, and the last one the first of the module to the right: a chain
    let text = "bits: a b c
        table:
          * | * | * -> a=b b=c c=right.a moves
        start: empty(a union b union c) & 3 notin row
        kept needs_nine: 0 notin a
        kept needs_eight: 0 notin b
        helpers:
          h1: 0 notin b
          h2: 0 notin c
          h3: 1 notin a
          h4: 1 notin b
          h5: 1 notin c
          h6: 2 notin a
          h7: 2 notin b
          h8: 2 notin c
          h9: 3 notin row";
    assert_eq!(searched(text), [Stronger::NoneAmong, Stronger::With((2..=9).collect())]);
}

#[test]
fn choices_that_are_too_large() {
    // a helper with which the claim would be kept, but that takes too many bytes: each part of it holds of every row
    let long = vec!["(ex1 p: p + 3 in tray) | ~(ex1 p: p + 3 in tray)"; 20].join(" | ");
    let long = format!("{FIRST} & ({long})");
    let said = |helpers: &[&str]| strengthened(&line(&[SECOND], helpers), "claim_0");
    let large = |helpers: &[&str]| match said(helpers) {
        Stronger::TooLarge { choice, part: 1, large: Large::Bytes(1025..), .. } => choice,
        other => panic!("{other:?}"),
    };
    assert_eq!(large(&[&long]), [1]);
    assert_eq!(large(&[LAST, &long, FIRST]), [2]);
    assert_eq!(said(&[FIRST, &long]), Stronger::With(vec![1]));
}

#[test]
fn what_is_not_judged() {
    let text = line(&[SECOND], &[FIRST]);
    let asked = |text: &str, name: &str| strengthen(text, name, MOST, LEAST_WORDS);
    assert_eq!(asked(&text, "claim_0"), Ok(Stronger::With(vec![1])));
    assert_eq!(asked(&text, "claim_1"), Err(NotJudged::NoSuchClaim));
    assert_eq!(asked(&text, ""), Err(NotJudged::NoSuchClaim));
    // a helper is no claim
    assert_eq!(asked(&text, "helper_0"), Err(NotJudged::NoSuchClaim));
    assert_eq!(asked("", "claim_0"), Err(NotJudged::NotRead));
    for helper in ["p in tray", "0 in tray'", ""] {
        assert_eq!(asked(&line(&[SECOND], &[helper]), "claim_0"), Err(NotJudged::NotRead));
    }
    let words = LEAST_WORDS - 1;
    assert_eq!(strengthen(&text, "claim_0", MOST, words), Err(NotJudged::TooFewWords { words }));
}
