//! Row claims: claims about rows that have ends, judged for rows of every length.

use ceivuron::row_part::{RowPart, and, before, every, last, multiple, next, not, or, single, some, within};
use ceivuron::{Judge, Refused, RowAnswer, RowClaim, RowVerdict, call_row, row_floor};

fn ask(sets: u8, part: RowPart, most: u32) -> RowAnswer {
    Judge::new().judge_row(&RowClaim::new(sets, &part), most).unwrap()
}

fn both(holds: &[u32], fails: &[u32]) -> RowAnswer {
    RowAnswer::Both { holds: holds.to_vec(), fails: fails.to_vec() }
}

/// Some place is last.
fn some_last() -> RowPart {
    some(0, and(single(0), last(0)))
}

/// The set has every second place, from the first one on, and the last place is one of them.
fn odd() -> RowPart {
    // a place next to one of set 0 is none of it; of two places next to one another set 0 has one; the first place is one of set 0
    let apart = not(some(1, some(2, and(next(1, 2), and(within(1, 0), within(2, 0))))));
    let near = not(some(1, some(2, and(next(1, 2), and(not(within(1, 0)), not(within(2, 0)))))));
    let begins = some(1, and(single(1), and(within(1, 0), not(some(2, next(2, 1))))));
    let ends = some(1, and(single(1), and(last(1), within(1, 0))));
    and(and(apart, near), and(begins, ends))
}

#[test]
fn the_last_place() {
    // the row of one place has one, the empty row has not
    assert_eq!(ask(1, some_last(), 30), both(&[0], &[]));
    // set 0 has it: the first row is of one place, and the empty row's set without places has none
    assert_eq!(ask(1, and(single(0), last(0)), 30), both(&[1], &[]));
    // so last alone holds of the empty row
    assert_eq!(ask(1, last(0), 30), both(&[], &[0]));
    // two sets that have the last place alone are one set
    assert_eq!(ask(2, or(not(and(last(0), last(1))), and(within(0, 1), within(1, 0))), 60), RowAnswer::Always);
    // set 1 has the place just behind that of set 0, which is the last
    assert_eq!(ask(2, and(next(0, 1), and(single(0), last(0))), 60), RowAnswer::Never);
    assert_eq!(ask(2, and(next(0, 1), last(1)), 60), both(&[1, 2], &[]));
}

#[test]
fn no_place_stands_behind_the_last() {
    let beyond = |place: RowPart| some(0, some(1, and(and(last(0), single(0)), place)));
    assert_eq!(ask(2, not(beyond(next(0, 1))), 60), RowAnswer::Always);
    assert_eq!(ask(2, beyond(before(0, 1)), 60), RowAnswer::Never);
    assert_eq!(ask(2, beyond(next(1, 0)), 60), both(&[0, 0], &[]));
    // a set under some has no place behind the row: not every set has a place beyond it
    let further = every(0, or(not(single(0)), some(1, before(0, 1))));
    assert_eq!(ask(2, further, 60), both(&[], &[0]));
}

#[test]
fn every_second_place() {
    assert_eq!(ask(3, odd(), 200), both(&[1], &[]));
    let three = some(3, some(4, before(3, 4)));
    assert_eq!(ask(5, and(odd(), three), 300), both(&[1, 0, 1], &[]));
    // and such a row has an odd number of places
    let all = every(4, or(not(single(4)), within(4, 3)));
    assert_eq!(ask(5, some(3, and(all, and(odd(), multiple(2, 0, 3)))), 300), RowAnswer::Never);
}

#[test]
fn every_answer() {
    assert_eq!(ask(1, some_last(), 3), RowAnswer::Many);
    assert_eq!(ask(1, some_last(), 0), RowAnswer::Many);
    assert_eq!(ask(1, single(1), 30), RowAnswer::NoRowClaim);
    assert_eq!(ask(13, single(0), 30), RowAnswer::NoRowClaim);
    assert_eq!(ask(1, multiple(17, 0, 0), 30), RowAnswer::NoRowClaim);
    assert_eq!(Judge::new().judge_row(&RowClaim::from(Vec::new()), 30).unwrap(), RowAnswer::NoRowClaim);
    assert_eq!(ask(12, last(0), 30), RowAnswer::TooManySets);
    assert_eq!(ask(12, last(12), 30), RowAnswer::NoRowClaim);
    assert_ne!(ask(11, last(0), 1), RowAnswer::TooManySets);
    assert_eq!(both(&[0], &[]).to_string(), "both 1 0 | 0 | ");
    assert_eq!(RowAnswer::NoRowClaim.to_string(), "no row claim");
}

#[test]
fn out_may_be_bounded() {
    let mut judge = Judge::new();
    let claim = RowClaim::new(2, &and(next(0, 1), last(1)));
    for words in [0, 1] {
        let full = RowAnswer::OutFull { holds: 2, fails: 0 };
        assert_eq!(judge.judge_row_within(&claim, 60, words).unwrap(), full);
    }
    assert_eq!(judge.judge_row_within(&claim, 60, 2).unwrap(), both(&[1, 2], &[]));
}

/// How many bytes the claim about sets takes that is made for the rows of which a row claim does not hold.
fn made(sets: usize, part: &RowPart) -> usize {
    fn in_row(part: &RowPart) -> usize {
        match part {
            RowPart::Single(_) => 2,
            RowPart::Within(..) | RowPart::Next(..) | RowPart::Before(..) => 3,
            RowPart::Multiple(..) => 4,
            RowPart::Last(_) => 25,
            RowPart::Not(c) => 1 + in_row(c),
            RowPart::And(c, d) => 1 + in_row(c) + in_row(d),
            RowPart::Some(_, c) => 6 + in_row(c),
        }
    }
    1 + 1 + (4 * sets + 17) + 1 + in_row(part)
}

/// The words that are promised: the floor of the longer claim, about one set more but at least 3, and three for each class.
fn words(sets: u8, part: &RowPart, most: u32) -> u128 {
    let n = u128::from(most);
    let bytes = made(sets.into(), part) as u128;
    8192 + 64 * bytes + (n + 1) * ((16 << (sets + 1).max(3)) + 256 + n) + 3 * n
}

#[test]
fn too_long_exactly_at_the_border() {
    let nested = |nots: usize, part: RowPart| (0..nots).fold(part, |part, _| not(part));
    for sets in 1..=11 {
        for part in [single(0), last(0), some_last(), and(multiple(2, 0, 0), within(0, 0)), some(0, next(0, 0))] {
            let room = 1024 - made(sets.into(), &part);
            for (nots, fits) in [(room - 1, true), (room, true), (room + 1, false)] {
                let part = nested(nots, part.clone());
                assert_eq!(made(sets.into(), &part) <= 1024, fits);
                let claim = RowClaim::new(sets, &part);
                let answer = Judge::new().judge_row(&claim, 0).unwrap();
                assert_eq!(answer, if fits { RowAnswer::Many } else { RowAnswer::TooLong });
                let floor = if fits { words(sets, &part, 3) } else { 0 };
                assert_eq!(row_floor(claim.bytes(), 3), floor);
            }
        }
    }
    // 1,024 bytes are a row claim, and one more are none
    let deep = |nots: usize| RowClaim::new(1, &nested(nots, single(0)));
    assert_eq!(Judge::new().judge_row(&deep(1021), 3).unwrap(), RowAnswer::TooLong);
    assert_eq!(Judge::new().judge_row(&deep(1022), 3).unwrap(), RowAnswer::NoRowClaim);
}

#[test]
fn the_floor_is_the_number_that_is_promised() {
    for (sets, part) in [(1, some_last()), (3, odd()), (11, last(10)), (2, next(0, 1))] {
        let claim = RowClaim::new(sets, &part);
        for most in [0, 1, 40, 70_000, 1 << 31, u32::MAX - 1, u32::MAX] {
            assert_eq!(row_floor(claim.bytes(), most), words(sets, &part, most), "{part:?} {most}");
        }
    }
    for bytes in [&[][..], &[12, 8, 0], &[1, 8, 1], &[13, 1, 0], &[1, 9]] {
        assert_eq!(row_floor(bytes, 40), 0);
    }
    let claim = RowClaim::new(1, &some_last());
    let refused = Refused::TooLarge { words: words(1, &some_last(), u32::MAX), limit: 1 << 30 };
    assert_eq!(Judge::new().judge_row(&claim, u32::MAX), Err(refused));
}

/// A word on either side of what is lent.
struct Guarded(Vec<u32>);

const GUARD: u32 = 0xdead_beef;

impl Guarded {
    fn new(words: usize, of: u32) -> Guarded {
        let mut all = vec![of; words + 2];
        all[0] = GUARD;
        all[words + 1] = GUARD;
        Guarded(all)
    }

    fn lent(&mut self) -> &mut [u32] {
        let end = self.0.len() - 1;
        &mut self.0[1..end]
    }

    fn is_whole(&self) -> bool {
        self.0.first() == Some(&GUARD) && self.0.last() == Some(&GUARD)
    }
}

#[test]
fn the_call_over_lent_memory() {
    for (sets, part, most, verdict, rows) in [
        (2, and(next(0, 1), last(1)), 60, RowVerdict::Both(2, 0), &[1, 2][..]),
        (1, some_last(), 30, RowVerdict::Both(1, 0), &[0]),
        (3, and(odd(), some(1, and(single(1), not(within(1, 0))))), 300, RowVerdict::Both(3, 0), &[1, 0, 1]),
        (1, not(last(0)), 30, RowVerdict::Both(1, 0), &[0]),
        (2, or(not(and(last(0), last(1))), within(0, 1)), 60, RowVerdict::Always, &[]),
        (2, and(next(0, 1), last(0)), 60, RowVerdict::Never, &[]),
        (1, some_last(), 2, RowVerdict::Many, &[]),
        (1, last(1), 2, RowVerdict::NoRowClaim, &[]),
        (12, last(1), 2, RowVerdict::TooManySets, &[]),
    ] {
        let claim = RowClaim::new(sets, &part);
        let floor = row_floor(claim.bytes(), most) as usize;
        for room in [0, rows.len(), rows.len() + 3] {
            let (mut out, mut work) = (Guarded::new(room, 9), Guarded::new(floor, 7));
            let told = call_row(claim.bytes(), most, out.lent(), work.lent());
            let full = room < rows.len();
            let wanted = match verdict {
                RowVerdict::Both(a, b) if full => RowVerdict::OutFull(a, b),
                verdict => verdict,
            };
            assert_eq!(told, wanted, "{part:?}");
            let written = if full { 0 } else { rows.len() };
            assert_eq!(out.lent()[..written], rows[..written]);
            assert!(out.lent()[written..].iter().all(|word| *word == 9));
            assert!(out.is_whole() && work.is_whole());
            if let Some(less) = floor.checked_sub(1) {
                let (mut out, mut work) = (Guarded::new(room, 9), Guarded::new(less, 7));
                assert_eq!(call_row(claim.bytes(), most, out.lent(), work.lent()), RowVerdict::Few);
                assert!(out.lent().iter().all(|word| *word == 9));
                assert!(out.is_whole() && work.is_whole() && work.lent().iter().all(|word| *word == 7));
            }
        }
    }
}
