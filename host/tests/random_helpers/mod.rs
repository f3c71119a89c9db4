//! Rule files made at random with lists of helpers, the same ones for the same seed. Few formulas help to keep a claim, so more are tried than stand in a list, and those are preferred
//! that rows of few modules do not rule out.

use ceivuron::second::random::Random;

use crate::helping::Helping;
use crate::random_rules::formulas::Formulas;
use crate::random_rules::{BITS, claim, rule_file};
use crate::rule_files::Rule;

/// A rule file of so many bits with a list of none to five helpers.
pub fn helped_file(random: &mut Random, bits: usize, ring: bool) -> String {
    let text = rule_file(random, bits, ring);
    let helpers = helpers(random, bits, ring, &text);
    listed(random, &text, &helpers)
}

/// How many formulas are tried, and how many stand in a list at most.
const TRIED: usize = 16;
const LISTED: usize = 5;

/// Of such helpers for the claim of a rule those that are kept with it, and the first choice with which it is, as far as rows of few
/// modules say. None, where they say that the claim needs no helper, or that it fails at the start.
fn promising(rule: &Rule, tried: &[String]) -> (Vec<usize>, Vec<usize>) {
    let looked = |helpers: &[String]| {
        let mut helping = Helping::of(rule, claim(rule), helpers);
        helping.look_up_to(helping.searchable([5, 3, 2][rule.bits.len() - 1], 10_000));
        helping
    };
    let alone = looked(&[]);
    if !alone.is_broken(&[]) || alone.fails_at_the_start() {
        return (Vec::new(), Vec::new());
    }
    let helping = looked(tried);
    let kept = helping.kept_with_the_claim();
    let first = if helping.is_broken(&kept) { None } else { helping.first() };
    (kept, first.filter(|first| first.len() <= LISTED).unwrap_or_default())
}

/// Helpers for the claim of a rule. Some are the claim, or stand in the list before.
fn helpers(random: &mut Random, bits: usize, ring: bool, text: &str) -> Vec<String> {
    let rule = Rule::of(text);
    let mut formulas = Formulas::new(random, &BITS[..bits], ring);
    let tried: Vec<String> = (0..TRIED).map(|_| formulas.helper()).collect();
    let (kept, first) = promising(&rule, &tried);
    let needed = if random.one_in(4) { Vec::new() } else { first };
    let mut list: Vec<String> = needed.iter().map(|helper| tried[helper - 1].clone()).collect();
    for _ in 0..random.below(LISTED + 1).saturating_sub(list.len()) {
        let other = match random.below(12) {
            0 => claim(&rule).to_string(),
            1 if !list.is_empty() => list[random.below(list.len())].clone(),
            2..=7 if !kept.is_empty() => tried[kept[random.below(kept.len())] - 1].clone(),
            _ => tried[random.below(TRIED)].clone(),
        };
        list.insert(random.below(list.len() + 1), other);
    }
    list
}

/// The file with its list of helpers, of which some stand before the starts and the others at the end.
fn listed(random: &mut Random, text: &str, helpers: &[String]) -> String {
    let numbered = helpers.iter().enumerate();
    let lines: Vec<String> = numbered.map(|(at, helper)| format!("  helper_{}: {helper}\n", at + 1)).collect();
    let (first, others) = lines.split_at(random.below(lines.len() + 1));
    // a list may as well be empty
    let mut list = |lines: &[String]| match lines {
        [] if random.one_in(2) => String::new(),
        lines => format!("helpers:\n{}", lines.concat()),
    };
    let (before, behind) = text.split_at(text.find("start:").unwrap());
    format!("{before}{}{behind}{}", list(first), list(others))
}
