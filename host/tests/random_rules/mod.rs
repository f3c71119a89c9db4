//! Rule files made at random, the same ones for the same seed: a few bits, in a row or in a ring, a table of a few lines, starts, and
//! something that is claimed to be kept, which may or may not be so.

#![allow(dead_code)] // each search takes a part of it

pub mod formulas;

use ceivuron::second::random::Random;

use crate::keeping::all_seen;
use crate::rule_files::Rule;
use formulas::Formulas;

/// The names of bits, of which a rule has the first ones.
pub const BITS: [&str; 3] = ["tray", "drive", "brake"];

/// The name of what is claimed to be kept.
pub const NAME: &str = "is_so";

/// A rule file of so many bits.
pub fn rule_file(random: &mut Random, bits: usize, ring: bool) -> String {
    let bits = &BITS[..bits];
    let places = if ring { "ring:\n" } else { "" };
    let head = format!("bits: {}\n{places}", bits.join(" "));
    let table = table(random, bits, ring, &head);
    let mut text = format!("{head}{}{table}", allowed(random, bits, ring));
    let mut formulas = Formulas::new(random, bits, ring);
    let claim = formulas.claim();
    for start in formulas.starts(&claim) {
        text += &format!("start: {start}\n");
    }
    // what else is claimed to be kept plays no part
    if formulas.random.one_in(3) {
        text += &format!("kept other: {}\n", formulas.claim());
    }
    text + &format!("kept {NAME}: {claim}\n")
}

/// The claim of a rule made at random.
pub fn claim(rule: &Rule) -> &str {
    let (_, claim) = rule.kept.iter().find(|(name, _)| name == NAME).unwrap();
    claim
}

/// Which rows are allowed plays no part either.
fn allowed(random: &mut Random, bits: &[&str], ring: bool) -> String {
    match random.below(3) {
        0 => String::new(),
        1 => format!("allowed:\n  {}\n", pattern(random, bits, ring)),
        _ => format!("allowed:\n  * | * | *\nallowed: {}\n", Formulas::new(random, bits, ring).claim()),
    }
}

/// A table of one to five lines, each of which counts somewhere.
fn table(random: &mut Random, bits: &[&str], ring: bool, head: &str) -> String {
    let mut table = "table:\n".to_string();
    let lines = 1 + random.below(5);
    let mut done = 0;
    // where the lines before fit everywhere none counts any more, so that there may be fewer
    for _ in 0..4 * lines {
        let line = format!("  {} -> {}\n", pattern(random, bits, ring), effects(random, bits));
        let rule = Rule::of(&format!("{head}{table}{line}"));
        let mut all = all_seen(rule.columns()).filter(|seen| !ring || seen.iter().all(Option::is_some));
        if done < lines && all.any(|seen| rule.line_number(seen) == Some(done)) {
            table += &line;
            done += 1;
        }
    }
    table
}

/// What is asked of a module and of its two neighbours. In a ring none asks for no neighbour.
fn pattern(random: &mut Random, bits: &[&str], ring: bool) -> String {
    let mut part = |is_own: bool| {
        let mut words = Vec::new();
        match random.below(8) {
            0 if !is_own && !ring => return "none".to_string(),
            0 | 1 => words.push("module".to_string()),
            2 | 3 if !is_own => return "*".to_string(),
            _ => {}
        }
        for bit in bits {
            match random.below(if is_own { 3 } else { 4 }) {
                0 => words.push(bit.to_string()),
                1 => words.push(format!("!{bit}")),
                _ => {}
            }
        }
        if words.is_empty() { "*".to_string() } else { words.join(" ") }
    };
    format!("{} | {} | {}", part(false), part(true), part(false))
}

/// What a line of the table does: mostly to one bit.
fn effects(random: &mut Random, bits: &[&str]) -> String {
    let mut words = vec![["moves", "waits"][random.below(2)].to_string()];
    for bit in bits {
        let other = bits[random.below(bits.len())];
        let change = match random.below(4 + 2 * bits.len()) {
            0 | 1 => bit.to_string(),
            2 | 3 => format!("!{bit}"),
            4 => format!("{bit}={}{other}", ["left.", "right."][random.below(2)]),
            5 if bits.len() > 1 => format!("{bit}={other}"),
            _ => continue,
        };
        let at = random.below(words.len() + 1);
        words.insert(at, change);
    }
    words.join(" ")
}
