//! Ring claims: claims about rows that go round, judged for rings of every length.

use ceivuron::ring_part::{RingPart, and, every, multiple, next, not, or, single, some, within};
use ceivuron::{
    Judge, Refused, RingAnswer, RingClaim, RingVerdict, RowAnswer, RowClaim, call_ring, ring_floor, row_floor, row_part,
};

fn ask(sets: u8, part: RingPart, most: u32) -> RingAnswer {
    Judge::new().judge_ring(&RingClaim::new(sets, &part), most).unwrap()
}

fn both(holds: &[u32], fails: &[u32]) -> RingAnswer {
    RingAnswer::Both { holds: holds.to_vec(), fails: fails.to_vec() }
}

/// Every place has a next one, as set 0 and set 1.
fn goes_on() -> RingPart {
    every(0, or(not(single(0)), some(1, next(0, 1))))
}

/// Every second place is one of set 0: of two places next to one another set 0 has one.
fn by_turns() -> RingPart {
    let has = |place: u8| within(place, 0);
    let apart = not(some(1, some(2, and(next(1, 2), and(has(1), has(2))))));
    let near = not(some(1, some(2, and(next(1, 2), and(not(has(1)), not(has(2)))))));
    and(apart, near)
}

#[test]
fn the_next_place_goes_round() {
    assert_eq!(ask(2, goes_on(), 100), RingAnswer::Always);
    // which is not so of rows: the last place has none behind it
    let of_row = RowClaim::new(2, &row_part::RowPart::from(&goes_on()));
    let last = RowAnswer::Both { holds: vec![], fails: vec![0] };
    assert_eq!(Judge::new().judge_row(&of_row, 100).unwrap(), last);
    // and each place is the next of one
    assert_eq!(ask(2, every(1, or(not(single(1)), some(0, next(0, 1)))), 100), RingAnswer::Always);
    // in a ring of two each is next to the other; two that are next to each other, and no third
    let each_other = and(and(next(0, 1), next(1, 0)), not(within(0, 1)));
    assert_eq!(ask(2, each_other.clone(), 100), both(&[1, 2], &[]));
    assert_eq!(
        ask(3, and(each_other, some(2, and(single(2), not(or(within(2, 0), within(2, 1)))))), 200),
        RingAnswer::Never
    );
}

#[test]
fn a_ring_of_one_and_the_empty_ring() {
    // the place of a ring of one is next to itself
    assert_eq!(ask(1, next(0, 0), 100), both(&[1], &[]));
    assert_eq!(ask(1, some(0, next(0, 0)), 100), both(&[0], &[]));
    assert_eq!(ask(2, and(next(0, 1), within(0, 1)), 100), both(&[3], &[]));
    // and there is no other
    assert_eq!(ask(2, and(next(0, 0), some(1, and(single(1), not(within(1, 0))))), 100), RingAnswer::Never);
    // the empty ring has no place that is next to one
    assert_eq!(ask(2, some(0, some(1, next(0, 1))), 100), both(&[0], &[]));
}

#[test]
fn a_ring_by_turns_is_even() {
    // the empty ring is one, and a ring of one is none, since its place is next to itself
    assert_eq!(ask(3, by_turns(), 300), both(&[], &[0]));
    assert_eq!(ask(3, and(by_turns(), some(1, single(1))), 300), both(&[0, 1], &[]));
    let all = every(4, or(not(single(4)), within(4, 3)));
    assert_eq!(ask(5, some(3, and(all, and(by_turns(), multiple(2, 1, 3)))), 600), RingAnswer::Never);
}

#[test]
fn every_answer() {
    assert_eq!(ask(2, next(0, 1), 3), RingAnswer::Many);
    assert_eq!(ask(1, next(0, 0), 0), RingAnswer::Many);
    assert_eq!(ask(1, single(1), 30), RingAnswer::NoRingClaim);
    assert_eq!(ask(13, single(0), 30), RingAnswer::NoRingClaim);
    assert_eq!(ask(1, multiple(17, 0, 0), 30), RingAnswer::NoRingClaim);
    assert_eq!(ask(12, next(0, 1), 30), RingAnswer::TooManySets);
    assert_eq!(ask(12, next(0, 12), 30), RingAnswer::NoRingClaim);
    assert_ne!(ask(11, single(0), 1), RingAnswer::TooManySets);
    // before and last say nothing of a ring, where they stand as a part too
    for bytes in [&[][..], &[2, 3, 0, 1], &[1, 8, 0], &[2, 5, 1, 0, 4, 3, 0, 1], &[1, 6, 0, 8, 0], &[12, 8, 0]] {
        let claim = RingClaim::from(bytes);
        assert_eq!(Judge::new().judge_ring(&claim, 30).unwrap(), RingAnswer::NoRingClaim, "{bytes:?}");
    }
    assert_eq!(both(&[0], &[]).to_string(), "both 1 0 | 0 | ");
    assert_eq!(RingAnswer::NoRingClaim.to_string(), "no ring claim");
}

#[test]
fn out_may_be_bounded() {
    let mut judge = Judge::new();
    let claim = RingClaim::new(2, &and(next(0, 1), not(within(0, 1))));
    for words in [0, 1] {
        let full = RingAnswer::OutFull { holds: 2, fails: 0 };
        assert_eq!(judge.judge_ring_within(&claim, 60, words).unwrap(), full);
    }
    assert_eq!(judge.judge_ring_within(&claim, 60, 2).unwrap(), both(&[1, 2], &[]));
}

/// The bytes of the row claim as which a ring claim is read, without the number of sets.
fn as_row(part: &RingPart) -> row_part::RowPart {
    use ceivuron::row_part::{and, last, next, not, single, some};
    match part {
        RingPart::Next(x, y) if x == y => and(single(*x), not(some(*x, and(single(*x), not(last(*x)))))),
        RingPart::Next(x, y) => {
            let near = next(*x, *y);
            let seam = and(not(some(*y, near.clone())), not(some(*x, near.clone())));
            and(single(*x), and(single(*y), not(and(not(near), not(seam)))))
        }
        RingPart::Not(c) => not(as_row(c)),
        RingPart::And(c, d) => and(as_row(c), as_row(d)),
        RingPart::Some(x, c) => some(*x, as_row(c)),
        part => row_part::RowPart::from(part),
    }
}

/// Judged as that row claim, said of rows: the same answer, the same floor.
#[test]
fn a_ring_claim_is_read_as_a_row_claim() {
    let mut judge = Judge::new();
    for (sets, part) in [
        (2, goes_on()),
        (3, by_turns()),
        (1, next(0, 0)),
        (11, and(next(10, 3), not(next(3, 10)))),
        (4, multiple(3, 2, 3)),
    ] {
        let (ring, row) = (RingClaim::new(sets, &part), RowClaim::new(sets, &as_row(&part)));
        let (of_ring, of_row) = (judge.judge_ring(&ring, 60).unwrap(), judge.judge_row(&row, 60).unwrap());
        assert_eq!(of_ring.to_string(), of_row.to_string(), "{part:?}");
        for most in [0, 3, 40, 70_000, u32::MAX] {
            assert_eq!(ring_floor(ring.bytes(), most), row_floor(row.bytes(), most), "{part:?} {most}");
        }
    }
}

/// How many bytes the claim about sets takes that is made for the rings of which a ring claim does not hold.
fn made(sets: usize, part: &RingPart) -> usize {
    fn in_row(part: &RingPart) -> usize {
        match part {
            RingPart::Single(_) => 2,
            RingPart::Within(..) => 3,
            RingPart::Multiple(..) => 4,
            RingPart::Next(x, y) => {
                if x == y {
                    39
                } else {
                    34
                }
            }
            RingPart::Not(c) => 1 + in_row(c),
            RingPart::And(c, d) => 1 + in_row(c) + in_row(d),
            RingPart::Some(_, c) => 6 + in_row(c),
        }
    }
    1 + 1 + (4 * sets + 17) + 1 + in_row(part)
}

/// The words that are promised: the floor of the longer claim, about one set more but at least 3, and three for each class.
fn words(sets: u8, part: &RingPart, most: u32) -> u128 {
    let n = u128::from(most);
    let bytes = made(sets.into(), part) as u128;
    8192 + 64 * bytes + (n + 1) * ((16 << (sets + 1).max(3)) + 256 + n) + 3 * n
}

#[test]
fn too_long_exactly_at_the_border() {
    let nested = |nots: usize, part: RingPart| (0..nots).fold(part, |part, _| not(part));
    let far = |sets: u8| next(0, sets - 1);
    for sets in 1..=11 {
        for part in [single(0), far(sets), some(0, next(0, 0)), and(multiple(2, 0, 0), within(0, 0))] {
            let room = 1024 - made(sets.into(), &part);
            for (nots, fits) in [(room - 1, true), (room, true), (room + 1, false)] {
                let part = nested(nots, part.clone());
                assert_eq!(made(sets.into(), &part) <= 1024, fits);
                let claim = RingClaim::new(sets, &part);
                let answer = Judge::new().judge_ring(&claim, 0).unwrap();
                assert_eq!(answer, if fits { RingAnswer::Many } else { RingAnswer::TooLong });
                let floor = if fits { words(sets, &part, 3) } else { 0 };
                assert_eq!(ring_floor(claim.bytes(), 3), floor);
            }
        }
    }
    // also where the row claim itself takes more than 1,024 bytes: the ring claim does not
    for (nexts, fits) in [(28, true), (29, false), (37, false), (38, false), (200, false)] {
        let part = (1..nexts).fold(next(0, 1), |part, _| and(part, next(0, 1)));
        assert_eq!(made(2, &part) <= 1024, fits);
        let claim = RingClaim::new(2, &part);
        assert!(claim.read().is_some());
        let answer = Judge::new().judge_ring(&claim, 0).unwrap();
        assert_eq!(answer, if fits { RingAnswer::Many } else { RingAnswer::TooLong }, "{nexts}");
    }
    // of twelve sets there is one too many, however long
    let many = (1..200).fold(next(0, 1), |part, _| and(part, next(0, 1)));
    assert_eq!(ask(12, many, 3), RingAnswer::TooManySets);
    // 1,024 bytes are a ring claim, and one more are none
    let deep = |nots: usize| RingClaim::new(1, &nested(nots, single(0)));
    assert_eq!(Judge::new().judge_ring(&deep(1021), 3).unwrap(), RingAnswer::TooLong);
    assert_eq!(Judge::new().judge_ring(&deep(1022), 3).unwrap(), RingAnswer::NoRingClaim);
}

#[test]
fn the_floor_is_the_number_that_is_promised() {
    for (sets, part) in [(2, goes_on()), (3, by_turns()), (11, next(10, 10)), (2, next(0, 1))] {
        let claim = RingClaim::new(sets, &part);
        for most in [0, 1, 40, 70_000, 1 << 31, u32::MAX - 1, u32::MAX] {
            assert_eq!(ring_floor(claim.bytes(), most), words(sets, &part, most), "{part:?} {most}");
        }
    }
    for bytes in [&[][..], &[12, 1, 0], &[1, 1, 1], &[13, 1, 0], &[1, 9], &[2, 3, 0, 1], &[1, 8, 0]] {
        assert_eq!(ring_floor(bytes, 40), 0);
    }
    let claim = RingClaim::new(2, &goes_on());
    let refused = Refused::TooLarge { words: words(2, &goes_on(), u32::MAX), limit: 1 << 30 };
    assert_eq!(Judge::new().judge_ring(&claim, u32::MAX), Err(refused));
}

/// A word on either side of what is lent.
struct Guarded(Vec<u32>);

const GUARD: u32 = 0xdead_beef;

impl Guarded {
    fn new(words: usize, of: u32) -> Guarded {
        let mut all = vec![of; words + 2];
        all[0] = GUARD;
        all[words + 1] = GUARD;
        Guarded(all)
    }

    fn lent(&mut self) -> &mut [u32] {
        let end = self.0.len() - 1;
        &mut self.0[1..end]
    }

    fn is_whole(&self) -> bool {
        self.0.first() == Some(&GUARD) && self.0.last() == Some(&GUARD)
    }
}

#[test]
fn the_call_over_lent_memory() {
    for (sets, part, most, verdict, rings) in [
        (2, and(next(0, 1), not(within(0, 1))), 60, RingVerdict::Both(2, 0), &[1, 2][..]),
        (1, next(0, 0), 30, RingVerdict::Both(1, 0), &[1]),
        (3, and(by_turns(), some(1, single(1))), 300, RingVerdict::Both(2, 0), &[0, 1]),
        (3, by_turns(), 300, RingVerdict::Both(0, 1), &[0]),
        (2, goes_on(), 100, RingVerdict::Always, &[]),
        (2, and(next(0, 0), and(next(1, 1), not(within(0, 1)))), 100, RingVerdict::Never, &[]),
        (2, next(0, 1), 2, RingVerdict::Many, &[]),
        (2, next(0, 2), 2, RingVerdict::NoRingClaim, &[]),
        (12, next(0, 1), 2, RingVerdict::TooManySets, &[]),
    ] {
        let claim = RingClaim::new(sets, &part);
        let floor = ring_floor(claim.bytes(), most) as usize;
        for room in [0, rings.len(), rings.len() + 3] {
            let (mut out, mut work) = (Guarded::new(room, 9), Guarded::new(floor, 7));
            let told = call_ring(claim.bytes(), most, out.lent(), work.lent());
            let full = room < rings.len();
            let wanted = match verdict {
                RingVerdict::Both(a, b) if full => RingVerdict::OutFull(a, b),
                verdict => verdict,
            };
            assert_eq!(told, wanted, "{part:?}");
            let written = if full { 0 } else { rings.len() };
            assert_eq!(out.lent()[..written], rings[..written]);
            assert!(out.lent()[written..].iter().all(|word| *word == 9));
            assert!(out.is_whole() && work.is_whole());
            if let Some(less) = floor.checked_sub(1) {
                let (mut out, mut work) = (Guarded::new(room, 9), Guarded::new(less, 7));
                assert_eq!(call_ring(claim.bytes(), most, out.lent(), work.lent()), RingVerdict::Few);
                assert!(out.lent().iter().all(|word| *word == 9));
                assert!(out.is_whole() && work.is_whole() && work.lent().iter().all(|word| *word == 7));
            }
        }
    }
}
