//! The rule of 2022 searched module by module, from its file alone: no allowed row of up to 26 modules is stuck, and the
//! first of 27 is the one that the program `conveyor` prints. No claim, no automaton and no proved code takes part.

mod rule_files;

use rule_files::{Rule, marks, read};

/// The first row of that many modules that is allowed and in which every module waits, if there is one: rows are built from
/// the left, modules in rising order, and a row is left as soon as one of its modules is not allowed or moves.
fn first_stuck(rule: &Rule, length: usize, row: &mut Vec<usize>) -> bool {
    let waits = |seen| rule.allows(seen) && !rule.moves(seen);
    let module = |at: usize| row.get(at).copied();
    let done = row.len();
    if done >= 2 && !waits([done.checked_sub(3).and_then(module), module(done - 2), module(done - 1)]) {
        return false;
    }
    if done == length {
        return waits([done.checked_sub(2).and_then(module), module(done - 1), None]);
    }
    for next in 0..rule.columns() {
        row.push(next);
        if first_stuck(rule, length, row) {
            return true;
        }
        row.pop();
    }
    false
}

#[test]
fn the_first_stuck_row_has_27_modules() {
    let rule = Rule::read("examples/rules/rule-2022.txt");
    for length in 1..27 {
        assert!(!first_stuck(&rule, length, &mut Vec::new()), "{length} modules");
    }
    let mut row = Vec::new();
    assert!(first_stuck(&rule, 27, &mut row));

    let printed = read("crates/conveyor/stdout");
    let (_, behind) = printed.split_once("no allowed row is stuck: fails, first at length 27\n").unwrap();
    // two lines of ruler stand above the bits
    let lines: Vec<&str> = behind.lines().skip(2).take(rule.bits.len()).collect();
    assert_eq!(lines.len(), rule.bits.len());
    for (line, (bit, marks)) in lines.iter().zip(rule.bits.iter().zip(marks(&rule, &row))) {
        assert_eq!(line.split_whitespace().collect::<Vec<_>>(), [bit.as_str(), marks.as_str()]);
    }
}

#[test]
fn no_short_row_of_the_mended_rule_is_stuck() {
    let rule = Rule::read("examples/rules/rule-mended.txt");
    for length in 1..40 {
        assert!(!first_stuck(&rule, length, &mut Vec::new()), "{length} modules");
    }
}
