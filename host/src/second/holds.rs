//! Whether a claim holds of given finite sets, from its definition.

use std::collections::HashMap;
use std::hash::{BuildHasherDefault, Hasher};

use super::reach::{Reach, free_sets, reach, tails, tails_end};
use crate::part::Part;

/// Twelve sets of places below 128, as bits.
pub type Sets = [u128; 12];

/// The sets of a word.
pub fn sets(word: &[u32]) -> Sets {
    let mut sets = [0; 12];
    for (place, column) in word.iter().enumerate() {
        for (x, set) in sets.iter_mut().enumerate() {
            *set |= u128::from(column >> x & 1) << place;
        }
    }
    sets
}

/// A place that no set may reach: places are kept below 128, and what would go further is left open.
const FAR: u32 = 120;

/// No more than this many places are tried in every combination.
const WIDE: u32 = 14;

/// A claim, its parts numbered, with how each `some` is looked for.
enum Node {
    Within(u8, u8),
    Single(u8),
    Next(u8, u8),
    Before(u8, u8),
    Multiple(u8, u8, u8),
    Not(usize),
    And(usize, usize),
    Some { x: u8, part: usize, reach: Reach, free: Vec<u8> },
}

/// What a `some` was found to be: which part, and the sets of which it speaks.
type Known = HashMap<(usize, [u128; 3]), Option<bool>, BuildHasherDefault<Mixer>>;

/// Decides one claim on many words.
pub struct Decider {
    nodes: Vec<Node>,
    root: usize,
    known: Known,
    /// Steps that may still be taken; once there are none, nothing is decided any more.
    budget: u64,
}

impl Decider {
    /// `budget` is the number of parts that may be looked at, over all words.
    pub fn new(claim: &Part, budget: u64) -> Decider {
        let mut nodes = Vec::new();
        let root = number(claim, &mut nodes);
        Decider { nodes, root, known: Known::default(), budget }
    }

    /// Whether the claim holds of the sets; `None` where that is not known, since sets further out might decide it or the
    /// budget is spent.
    ///
    /// The sets are as they were afterwards.
    pub fn holds(&mut self, sets: &mut Sets) -> Option<bool> {
        self.part(self.root, sets)
    }

    /// Whether all steps are taken.
    pub fn is_spent(&self) -> bool {
        self.budget == 0
    }

    fn part(&mut self, node: usize, sets: &mut Sets) -> Option<bool> {
        self.budget = self.budget.checked_sub(1)?;
        let set = |x: u8| sets[usize::from(x)];
        let one = |x: u8| set(x).count_ones() == 1;
        match &self.nodes[node] {
            Node::Within(x, y) => Some(set(*x) & !set(*y) == 0),
            Node::Single(x) => Some(one(*x)),
            Node::Next(x, y) => Some(one(*x) && one(*y) && set(*x) << 1 == set(*y)),
            Node::Before(x, y) => Some(one(*x) && one(*y) && set(*x) < set(*y)),
            Node::Multiple(modulus, rest, x) => Some(set(*x).count_ones() % u32::from(*modulus) == u32::from(*rest)),
            Node::Not(c) => Some(!self.part(*c, sets)?),
            Node::And(c, d) => {
                let (c, d) = (*c, *d);
                match self.part(c, sets) {
                    Some(false) => Some(false),
                    Some(true) => self.part(d, sets),
                    None if self.part(d, sets) == Some(false) => Some(false),
                    None => None,
                }
            }
            Node::Some { free, .. } => {
                let mut key = [0; 3];
                if free.len() > key.len() {
                    return self.some(node, sets);
                }
                for (word, x) in key.iter_mut().zip(free) {
                    *word = set(*x);
                }
                if let Some(found) = self.known.get(&(node, key)) {
                    return *found;
                }
                let found = self.some(node, sets);
                if !self.is_spent() && self.known.len() < 1 << 20 {
                    self.known.insert((node, key), found);
                }
                found
            }
        }
    }

    /// Tries sets for a `some`. The set that x was is put back.
    fn some(&mut self, node: usize, sets: &mut Sets) -> Option<bool> {
        let Node::Some { x, part, reach, free } = &self.nodes[node] else { unreachable!() };
        let (x, part, reach) = (usize::from(*x), *part, reach.clone());
        let others: Vec<u128> = free.iter().map(|y| sets[usize::from(*y)]).collect();
        let last = others.iter().map(|set| 128 - set.leading_zeros()).max().unwrap_or(0);
        let old = sets[x];
        let found = match reach {
            Reach::Any => self.part(part, sets),
            Reach::Within(around) => {
                let room = around.iter().fold(u128::MAX, |room, y| room & sets[usize::from(*y)]);
                self.try_within(x, part, room, [0], sets)
            }
            Reach::Places(distance) => self.try_places(x, part, last + distance, sets),
            Reach::Plain(period) => self.try_numbers(x, part, &others, period, sets),
            Reach::Once(period) => self.try_tails(x, part, last, period, sets),
            // none found decides nothing
            Reach::Open(period) => self.try_tails(x, part, last, period, sets).filter(|found| *found),
        };
        sets[x] = old;
        found
    }

    /// Every set of places below `last`, with each of the tails behind it.
    fn try_tails(&mut self, x: usize, part: usize, last: u32, period: u32, sets: &mut Sets) -> Option<bool> {
        if last + tails_end(period) > FAR {
            return None;
        }
        self.try_within(x, part, below(last), tails(period).map(|tail| tail << last), sets)
    }

    /// Every set within `room`, with each of the tails.
    fn try_within(
        &mut self,
        x: usize,
        part: usize,
        room: u128,
        tails: impl IntoIterator<Item = u128>,
        sets: &mut Sets,
    ) -> Option<bool> {
        if room.count_ones() > WIDE || room >> (FAR - 8) != 0 {
            return None;
        }
        let mut all_known = true;
        for tail in tails {
            // the sets within `room`, the largest first, each from the one before
            let mut inner = room;
            loop {
                sets[x] = inner | tail;
                match self.part(part, sets) {
                    Some(true) => return Some(true),
                    Some(false) => {}
                    None => all_known = false,
                }
                if inner == 0 {
                    break;
                }
                inner = (inner - 1) & room;
            }
        }
        all_known.then_some(false)
    }

    /// Every single place up to the second one behind the other sets, and a set for each way to say how many of its places are at
    /// each of the others' columns, with up to `period + 1` in none of them.
    fn try_numbers(&mut self, x: usize, part: usize, others: &[u128], period: u32, sets: &mut Sets) -> Option<bool> {
        let used = others.iter().fold(0, |used, set| used | set);
        let last = 128 - used.leading_zeros();
        if last + period + 1 > FAR {
            return None;
        }
        let single = self.try_places(x, part, last + 2, sets);
        if single == Some(true) {
            return single;
        }
        let free = (0..=last + period).map(|place| 1 << place).filter(|place| used & place == 0);
        let mut columns = vec![used];
        for set in others {
            columns = columns.iter().flat_map(|column| [column & set, column & !set]).filter(|c| *c != 0).collect();
        }
        columns.push(free.take(period as usize + 1).fold(0, |free, place| free | place));
        sets[x] = 0;
        let larger = self.try_columns(x, part, &columns, sets);
        if larger == Some(true) { larger } else { single.and(larger) }
    }

    /// The set as it is, with none to all of the places of each column.
    fn try_columns(&mut self, x: usize, part: usize, columns: &[u128], sets: &mut Sets) -> Option<bool> {
        let Some((column, columns)) = columns.split_first() else { return self.part(part, sets) };
        let old = sets[x];
        let mut left = *column;
        let mut all_known = true;
        loop {
            match self.try_columns(x, part, columns, sets) {
                Some(true) => return Some(true),
                Some(false) => {}
                None => all_known = false,
            }
            if left == 0 {
                break;
            }
            // one more, the first that is left
            sets[x] |= left & left.wrapping_neg();
            left &= left - 1;
        }
        sets[x] = old;
        all_known.then_some(false)
    }

    /// Every single place below `end`.
    fn try_places(&mut self, x: usize, part: usize, end: u32, sets: &mut Sets) -> Option<bool> {
        if end > FAR {
            return None;
        }
        let mut all_known = true;
        for place in 0..end {
            sets[x] = 1 << place;
            match self.part(part, sets) {
                Some(true) => return Some(true),
                Some(false) => {}
                None => all_known = false,
            }
        }
        all_known.then_some(false)
    }
}

/// All places below `end`.
fn below(end: u32) -> u128 {
    1u128.checked_shl(end).map_or(u128::MAX, |bit| bit - 1)
}

/// Numbers the parts of a claim, and returns the number of the whole.
fn number(c: &Part, nodes: &mut Vec<Node>) -> usize {
    let node = match c {
        Part::Within(x, y) => Node::Within(*x, *y),
        Part::Single(x) => Node::Single(*x),
        Part::Next(x, y) => Node::Next(*x, *y),
        Part::Before(x, y) => Node::Before(*x, *y),
        Part::Multiple(modulus, rest, x) => Node::Multiple(*modulus, *rest, *x),
        Part::Not(c) => Node::Not(number(c, nodes)),
        Part::And(c, d) => Node::And(number(c, nodes), number(d, nodes)),
        Part::Some(x, c) => {
            let free = free_sets(c) & !(1 << x);
            Node::Some {
                x: *x,
                part: number(c, nodes),
                reach: reach(*x, c),
                free: (0..12).filter(|y| free >> y & 1 == 1).collect(),
            }
        }
    };
    nodes.push(node);
    nodes.len() - 1
}

/// A quick hash for the keys above, which nobody chooses in order to slow it down.
#[derive(Default)]
struct Mixer(u64);

impl Hasher for Mixer {
    fn finish(&self) -> u64 {
        self.0 ^ self.0 >> 32
    }

    fn write(&mut self, bytes: &[u8]) {
        for chunk in bytes.chunks(8) {
            let mut word = [0; 8];
            word[..chunk.len()].copy_from_slice(chunk);
            self.0 = (self.0.rotate_left(23) ^ u64::from_le_bytes(word)).wrapping_mul(0x9e37_79b9_7f4a_7c15);
        }
    }
}

#[cfg(test)]
mod tests {
    use super::*;
    use crate::part::{and, before, multiple, next, not, or, single, some, within};

    use crate::second::random::Random;
    use crate::second::reach::{ALL_SETS, depth, period};

    fn decide(claim: &Part, word: &[u32]) -> Option<bool> {
        Decider::new(claim, 1 << 30).holds(&mut sets(word))
    }

    #[test]
    fn signs_without_parts() {
        assert_eq!(decide(&within(0, 1), &[3, 2]), Some(true));
        assert_eq!(decide(&within(0, 1), &[3, 1]), Some(false));
        assert_eq!(decide(&single(0), &[0, 1, 0]), Some(true));
        assert_eq!(decide(&single(0), &[]), Some(false));
        assert_eq!(decide(&next(0, 1), &[1, 2]), Some(true));
        assert_eq!(decide(&next(0, 1), &[1, 0, 2]), Some(false));
        assert_eq!(decide(&before(0, 1), &[1, 0, 2]), Some(true));
        assert_eq!(decide(&before(0, 1), &[3]), Some(false));
        // of sets with two places nothing is next or before
        assert_eq!(decide(&next(0, 1), &[1, 3, 2]), Some(false));
        assert_eq!(decide(&before(0, 0), &[1]), Some(false));
        // the empty set has a multiple of every number of places
        assert_eq!(decide(&multiple(3, 0, 0), &[]), Some(true));
        assert_eq!(decide(&multiple(3, 2, 0), &[1, 0, 3, 2]), Some(true));
        assert_eq!(decide(&multiple(3, 2, 0), &[1, 1, 1]), Some(false));
        assert_eq!(decide(&multiple(16, 15, 1), &[2; 31]), Some(true));
    }

    #[test]
    fn sets_reach_beyond_the_word() {
        // there is a place behind the last one
        assert_eq!(decide(&some(1, next(0, 1)), &[0, 0, 1]), Some(true));
        // some set has every set within it: none has
        let claim = some(1, not(some(0, not(within(0, 1)))));
        assert_eq!(decide(&claim, &[]), Some(false));
        // no set is the largest, said with one more not
        let claim = not(some(0, not(some(1, and(within(0, 1), not(within(1, 0)))))));
        assert_eq!(decide(&claim, &[]), Some(true));
        // three places, one behind the other, the last not the third behind the word
        let claim = some(1, and(before(0, 1), some(2, and(before(1, 2), not(next(1, 2))))));
        assert_eq!(decide(&claim, &[1]), Some(true));
    }

    #[test]
    fn what_is_not_known_is_not_said() {
        // three sets, one for another, each larger: found among those that are tried
        let larger = |x, y| and(within(x, y), not(within(y, x)));
        let claim = some(0, some(1, and(larger(0, 1), some(2, larger(1, 2)))));
        assert_eq!(decide(&claim, &[]), Some(true));
        // that none is found says nothing
        let claim = some(0, some(1, and(not(within(0, 0)), some(2, larger(1, 2)))));
        assert_eq!(decide(&claim, &[]), None);
        assert_eq!(Decider::new(&single(0), 0).holds(&mut sets(&[1])), None);
    }

    #[test]
    fn sets_that_count_reach_beyond_the_word() {
        // some set around this one has 11 places more than a multiple of 12
        assert_eq!(decide(&some(1, and(within(0, 1), multiple(12, 11, 1))), &[1]), Some(true));
        // two counts at once: 13 places and so on, but no number is odd and even
        assert_eq!(decide(&some(1, and(multiple(4, 1, 1), multiple(6, 1, 1))), &[1]), Some(true));
        assert_eq!(decide(&some(1, and(multiple(4, 1, 1), multiple(6, 2, 1))), &[1]), Some(false));
        // a set with 3 places, 6 and so on has a smaller one within it that has 2, 5 and so on; one with a single place has not
        let part = some(2, and(within(2, 1), and(multiple(3, 2, 2), not(within(1, 2)))));
        assert_eq!(
            decide(&some(1, and(multiple(3, 0, 1), and(not(within(1, 0)), not(part.clone())))), &[]),
            Some(false)
        );
        assert_eq!(decide(&some(1, and(multiple(3, 1, 1), not(part))), &[]), Some(true));
        // least common multiples for which the sets would reach too far are left open
        let far = some(1, and(multiple(16, 15, 1), and(multiple(15, 14, 1), multiple(7, 0, 1))));
        assert_eq!(decide(&far, &[]), None);
    }

    /// For each of these only the furthest of the sets that are tried will do.
    #[test]
    fn no_fewer_sets_suffice() {
        let inside = |x, y| and(within(x, y), not(within(y, x)));
        for n in 2..=8 {
            // n + 1 places
            let claim = some(1, and(multiple(n, 1, 1), not(single(1))));
            assert_eq!(decide(&claim, &[]), Some(true), "{n}");
            // 2n + 1 places, with n + 1 of them inside
            let part = some(2, and(inside(2, 1), and(multiple(n, 1, 2), not(single(2)))));
            assert_eq!(decide(&some(1, and(multiple(n, 1, 1), part)), &[]), Some(true), "{n}");
            // what is counted is the set inside alone
            let part = some(2, and(inside(2, 1), multiple(n, n - 1, 2)));
            assert_eq!(decide(&some(1, part), &[]), Some(true), "{n}");
        }
        // 13 places, by the least common multiple
        let claim = some(1, and(and(multiple(4, 1, 1), multiple(6, 1, 1)), not(single(1))));
        assert_eq!(decide(&claim, &[1]), Some(true));
        // two places that are not that of set 0, one of them or none of them just behind it
        let others = and(not(single(1)), and(not(within(1, 0)), not(within(0, 1))));
        let behind = some(2, and(next(0, 2), within(2, 1)));
        assert_eq!(decide(&some(1, and(others.clone(), behind.clone())), &[1]), Some(true));
        assert_eq!(decide(&some(1, and(others, not(behind))), &[1]), Some(true));
        // around set 1 and not around set 0: the place that both have, not the one that set 0 alone has
        let claim = some(2, and(within(1, 2), and(not(within(0, 2)), multiple(2, 0, 2))));
        assert_eq!(decide(&claim, &[1, 3]), Some(true));
        // a place behind the next one, where the claim does not show that it is a single one
        let claim = some(1, or(and(before(0, 1), not(next(0, 1))), next(0, 0)));
        assert_eq!(decide(&claim, &[0, 1]), Some(true));
    }

    /// A claim with every set of places below the first end tried for an outer `some`, and so on.
    fn by_all_sets(c: &Part, sets: &mut Sets, ends: &[u32]) -> bool {
        match c {
            Part::Not(c) => !by_all_sets(c, sets, ends),
            Part::And(c, d) => by_all_sets(c, sets, ends) && by_all_sets(d, sets, ends),
            Part::Some(x, c) if free_sets(c) >> x & 1 == 1 => {
                let (x, old) = (usize::from(*x), sets[usize::from(*x)]);
                let found = (0..1 << ends[0]).any(|set| {
                    sets[x] = set;
                    by_all_sets(c, sets, &ends[1..])
                });
                sets[x] = old;
                found
            }
            Part::Some(_, c) => by_all_sets(c, sets, ends),
            sign => Decider::new(sign, 1).holds(sets).expect("one step"),
        }
    }

    /// Compares claims about three sets made at random, with `some` so deep and counted by at most so much, on all words of so many
    /// columns.
    fn compare_with_all_sets(claims: usize, nested: u32, largest: u32, columns: usize, ends: &[u32]) {
        let mut random = Random::new(1);
        let (mut counting, mut held, mut compared) = (0, 0, 0);
        while counting < claims {
            let signs = 3 + random.below(8);
            let claim = random.counting_claim(3, signs, nested as usize);
            let period = period(&claim, ALL_SETS);
            if depth(&claim) != nested || period == 1 || period > largest {
                continue;
            }
            counting += 1;
            let mut decider = Decider::new(&claim, 1 << 30);
            for number in 0..8usize.pow(columns as u32) {
                let word: Vec<u32> = (0..columns).map(|i| (number >> (3 * i) & 7) as u32).collect();
                let Some(value) = decider.holds(&mut sets(&word)) else { continue };
                assert_eq!(value, by_all_sets(&claim, &mut sets(&word), ends), "{claim:?} {word:?}");
                compared += 1;
                held += usize::from(value);
            }
        }
        println!("{claims} claims, {compared} values, {held} true");
    }

    /// A single `some`, counted by up to 4: with 2 columns, sets of more than 7 places or further on than that decide nothing.
    #[test]
    fn the_sets_for_a_some_suffice() {
        compare_with_all_sets(1000, 1, 4, 2, &[8]);
    }

    /// One `some` within another, counted by 2: sets for the outer one reach to place 6 at most, and those for the inner one to 9.
    #[test]
    fn the_sets_for_a_some_around_a_some_suffice() {
        compare_with_all_sets(100, 2, 2, 1, &[7, 10]);
    }
}
