//! The wrapper: every answer, memory that is kept, and what is refused before anything is allocated.

use ceivuron::part::{Part, and, before, every, multiple, next, not, or, single, some, within};
use ceivuron::{Answer, Claim, Judge, Refused, Verdict, call, floor, judge};

fn both(holds: &[u32], fails: &[u32]) -> Answer {
    Answer::Both { holds: holds.to_vec(), fails: fails.to_vec() }
}

/// There is a place between that of set 0 and that of set 1.
fn between() -> Claim {
    Claim::new(3, &some(2, and(before(0, 2), before(2, 1))))
}

#[test]
fn every_answer() {
    let ask = |sets: u8, part: Part, most| judge(&Claim::new(sets, &part), most).unwrap();
    assert_eq!(ask(2, some(1, within(1, 0)), 2), Answer::Always);
    assert_eq!(ask(1, next(0, 0), 1), Answer::Never);
    assert_eq!(ask(1, single(0), 3), both(&[1], &[]));
    assert_eq!(ask(1, single(0), 2), Answer::Many);
    assert_eq!(ask(1, single(0), 0), Answer::Many);
    assert_eq!(ask(1, single(1), 3), Answer::NoClaim);
    assert_eq!(ask(13, single(0), 3), Answer::NoClaim);
    assert_eq!(judge(&Claim::from(Vec::new()), 3).unwrap(), Answer::NoClaim);
    // one place, or none
    assert_eq!(ask(2, or(single(0), every(1, within(0, 1))), 9), both(&[], &[1, 1]));
    assert_eq!(ask(2, not(within(0, 1)), 2), both(&[1], &[]));
}

#[test]
fn counting_by_a_number() {
    let ask = |sets: u8, part: Part, most| judge(&Claim::new(sets, &part), most).unwrap();
    // even, or odd
    let part = not(and(not(multiple(2, 0, 0)), not(multiple(2, 1, 0))));
    assert_eq!(ask(1, part.clone(), 2), Answer::Always);
    assert_eq!(ask(1, part, 1), Answer::Many);
    // no number is one more than a multiple of 4 and two more than one of 6
    assert_eq!(ask(1, and(multiple(4, 1, 0), multiple(6, 2, 0)), 12), Answer::Never);
    assert_eq!(ask(1, multiple(12, 11, 0), 12), both(&[1; 11], &[]));
    // a part of set 0 has two places, or five, and so on
    assert_eq!(ask(2, some(1, and(within(1, 0), multiple(3, 2, 1))), 6), both(&[1, 1], &[]));
    // around every set there is one with an odd number of places, which may have to reach beyond it
    assert_eq!(ask(2, some(1, and(within(0, 1), multiple(2, 1, 1))), 4), Answer::Always);
}

/// Counting by a number takes as many classes.
#[test]
fn counting_takes_so_many_classes() {
    for modulus in 2..=16 {
        for rest in 0..modulus {
            let claim = Claim::new(1, &multiple(modulus, rest, 0));
            let word = vec![1; usize::from(rest)];
            let answer = if rest == 0 { both(&[], &[1]) } else { both(&word, &[]) };
            assert_eq!(judge(&claim, u32::from(modulus)).unwrap(), answer);
            assert_eq!(judge(&claim, u32::from(modulus) - 1).unwrap(), Answer::Many);
        }
    }
}

/// By 1, by 17, with a rest that is not below, of a set that there is not.
#[test]
fn counts_that_are_refused() {
    for part in [multiple(1, 0, 0), multiple(17, 0, 0), multiple(2, 2, 0), multiple(16, 16, 0), multiple(2, 0, 1)] {
        for most in [0, 17] {
            assert_eq!(judge(&Claim::new(1, &part), most).unwrap(), Answer::NoClaim, "{part:?}");
        }
    }
}

#[test]
fn out_may_be_bounded() {
    let mut judge = Judge::new();
    let full = Answer::OutFull { holds: 3, fails: 0 };
    assert_eq!(judge.judge_within(&between(), 11, 0).unwrap(), full);
    assert_eq!(judge.judge_within(&between(), 11, 2).unwrap(), full);
    assert_eq!(judge.judge_within(&between(), 11, 3).unwrap(), both(&[1, 0, 2], &[]));
    assert_eq!(judge.judge_within(&between(), 11, usize::MAX).unwrap(), both(&[1, 0, 2], &[]));
    assert_eq!(full.to_string(), "out full 3 0");
}

/// Large claims and small ones in turn: what a call leaves in the memory changes no answer.
#[test]
fn memory_is_kept() {
    let mut kept = Judge::new();
    let claims = [(between(), 11), (Claim::new(1, &single(0)), 3), (Claim::new(9, &before(8, 0)), 40)];
    for round in 0..3 {
        for (claim, most) in &claims {
            let more = most + 100 * round;
            assert_eq!(kept.judge(claim, more), judge(claim, more));
            assert_eq!(kept.judge(claim, 1), judge(claim, 1));
        }
    }
}

/// Memory for these would not be there: that they are refused shows that none was asked for.
#[test]
fn too_large_is_refused_before_anything_is_allocated() {
    let claim = between();
    let words = floor(claim.bytes(), u32::MAX);
    assert!(words > u128::from(u64::MAX));
    let refused = |limit| Err(Refused::TooLarge { words, limit });
    assert_eq!(Judge::new().judge(&claim, u32::MAX), refused(1 << 30));
    assert_eq!(Judge::with_limit(u64::MAX).judge(&claim, u32::MAX), refused(u64::MAX));
    let exact = floor(claim.bytes(), 11) as u64;
    assert!(Judge::with_limit(exact).judge(&claim, 11).is_ok());
    assert!(Judge::with_limit(exact - 1).judge(&claim, 11).is_err());
}

/// The limit allows it, and the system has no memory for it; afterwards the judge still judges.
#[test]
fn no_memory_is_no_crash() {
    let mut judge = Judge::with_limit(u64::MAX);
    assert!(matches!(judge.judge(&between(), 1 << 31), Err(Refused::NoMemory { .. })));
    assert_eq!(judge.judge(&between(), 11).unwrap(), both(&[1, 0, 2], &[]));
}

#[test]
fn the_call_over_lent_memory() {
    let claim = between();
    let mut work = vec![7; floor(claim.bytes(), 11) as usize];
    let mut out = [9; 5];
    assert_eq!(call(claim.bytes(), 11, &mut out, &mut work), Verdict::Both(3, 0));
    assert_eq!(out, [1, 0, 2, 9, 9]);
    let less = work.len() - 1;
    assert_eq!(call(claim.bytes(), 11, &mut out, &mut work[..less]), Verdict::Few);
    assert_eq!(call(claim.bytes(), 11, &mut [], &mut work), Verdict::OutFull(3, 0));
    assert_eq!(call(&[], u32::MAX, &mut [], &mut []), Verdict::Few);
}
