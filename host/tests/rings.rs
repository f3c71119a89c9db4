//! The carousels searched module by module, from their files alone: no allowed ring of up to 13 modules is stuck, and the
//! first of 14 is the one that the program `conveyor` prints; of the mended one no short ring is stuck; and of both short
//! rings stay allowed. No claim, no automaton and no proved code takes part.

mod rule_files;

use rule_files::{Rule, Seen, marks, read};

/// Module `at` of a ring with its neighbours: before the first stands the last, behind the last the first.
fn seen(ring: &[usize], at: usize) -> Seen {
    let length = ring.len();
    [ring[(at + length - 1) % length], ring[at], ring[(at + 1) % length]].map(Some)
}

/// The limit of the mended carousel that does not count: two free modules are neighbours.
const ROOM: &str = "ex1 p: p notin bag & p + 1 notin bag";

/// Whether the limits of a rule hold of a ring: those that count, and room if it is asked for.
fn limits_hold(rule: &Rule, ring: &[usize]) -> bool {
    let bag = rule.bits.iter().position(|bit| bit == "bag").unwrap();
    let is_free = |at: usize| ring[at % ring.len()] >> bag & 1 == 0;
    let has_room = || (0..ring.len()).any(|at| is_free(at) && is_free(at + 1));
    rule.counted(ring)
        && rule.formulas.iter().all(|formula| {
            assert_eq!(formula, ROOM);
            has_room()
        })
}

/// Goes through the rings of that many modules whose modules are all as `fits` says, of the same length in order, and of
/// these through those of which the limits hold, until one is found: rings are built from the first module on,
/// modules in rising order, and one is left as soon as one of its modules with both its neighbours is not as it should be.
fn search(
    rule: &Rule,
    length: usize,
    fits: &impl Fn(Seen) -> bool,
    ring: &mut Vec<usize>,
    found: &mut impl FnMut(&[usize]) -> bool,
) -> bool {
    let done = ring.len();
    if done >= 3 && !fits(seen(ring, done - 2)) {
        return false;
    }
    if done == length {
        let seam = [0, length - 1];
        return seam.iter().all(|at| fits(seen(ring, *at))) && limits_hold(rule, ring) && found(ring);
    }
    for next in 0..rule.columns() {
        ring.push(next);
        if search(rule, length, fits, ring, found) {
            return true;
        }
        ring.pop();
    }
    false
}

/// The first ring of that many modules that is allowed and stuck, if there is one.
fn first_stuck(rule: &Rule, length: usize) -> Option<Vec<usize>> {
    let mut first = None;
    let waits = |seen| rule.allows(seen) && !rule.moves(seen);
    search(rule, length, &waits, &mut Vec::new(), &mut |ring| {
        first = Some(ring.to_vec());
        true
    });
    first
}

/// How many allowed rings of that many modules there are, each of which is as `is_so` says.
fn allowed(rule: &Rule, length: usize, is_so: impl Fn(&[usize]) -> bool) -> usize {
    let mut count = 0;
    search(rule, length, &|seen| rule.allows(seen), &mut Vec::new(), &mut |ring| {
        assert!(is_so(ring), "{}", marks(rule, ring).join(" "));
        count += 1;
        false
    });
    count
}

/// Whether the ring after one step is allowed.
fn is_kept(rule: &Rule, ring: &[usize]) -> bool {
    let after: Vec<usize> = (0..ring.len()).map(|at| rule.after(seen(ring, at))).collect();
    limits_hold(rule, &after) && (0..after.len()).all(|at| rule.allows(seen(&after, at)))
}

#[test]
fn the_first_stuck_ring_has_14_modules() {
    let rule = Rule::read("examples/rules/carousel.txt");
    assert!(rule.ring);
    for length in 1..14 {
        assert_eq!(first_stuck(&rule, length), None, "{length} modules");
    }
    let ring = first_stuck(&rule, 14).unwrap();

    let printed = read("crates/conveyor/stdout");
    let (_, behind) = printed.split_once("no allowed ring is stuck: fails, first at length 14\n").unwrap();
    // two lines of ruler stand above the bits
    let lines: Vec<&str> = behind.lines().skip(2).take(rule.bits.len()).collect();
    assert_eq!(lines.len(), rule.bits.len());
    for (line, (bit, marks)) in lines.iter().zip(rule.bits.iter().zip(marks(&rule, &ring))) {
        assert_eq!(line.split_whitespace().collect::<Vec<_>>(), [bit.as_str(), &format!(":{marks}:")]);
    }
}

#[test]
fn no_short_ring_of_the_mended_carousel_is_stuck() {
    let rule = Rule::read("examples/rules/carousel-mended.txt");
    assert!(rule.ring);
    for length in 1..30 {
        assert_eq!(first_stuck(&rule, length), None, "{length} modules");
    }
}

#[test]
fn short_rings_stay_allowed() {
    let rule = Rule::read("examples/rules/carousel.txt");
    let counts: Vec<usize> = (1..=7).map(|length| allowed(&rule, length, |ring| is_kept(&rule, ring))).collect();
    assert_eq!(counts, [0, 0, 0, 0, 0, 0, 478]);
    let mended = Rule::read("examples/rules/carousel-mended.txt");
    let counts: Vec<usize> = (1..=9).map(|length| allowed(&mended, length, |ring| is_kept(&mended, ring))).collect();
    assert_eq!(counts, [2, 4, 14, 32, 82, 196, 478, 1152, 2786]);
}
