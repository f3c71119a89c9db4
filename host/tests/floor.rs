//! Memory by how many sets the parts of a claim mention: with the floor every claim is judged, with a word less it is *few*, and
//! nothing is written but what is lent.

use ceivuron::part::{Part, and, before, every, multiple, next, not, or, single, some, within};
use ceivuron::second::guarded::Guarded;
use ceivuron::second::random::Random;
use ceivuron::{Answer, Claim, Verdict, floor, judge};

/// The number that is promised, for so many bytes, sets and classes.
fn words(bytes: usize, widest: u32, most: u32) -> u128 {
    let n = u128::from(most);
    8192 + 64 * bytes as u128 + (n + 1) * ((16 << widest) + 256 + n)
}

/// Looks at everything that is promised of memory, with the widest part as it is known to be.
fn check(guarded: &mut Guarded, bytes: &[u8], widest: u32, most: u32) -> Verdict {
    assert_eq!(floor(bytes, most), words(bytes.len(), widest, most), "{bytes:?}");
    guarded.check(bytes, most, 1).unwrap_or_else(|fault| panic!("{most} {bytes:?}: {fault}"))
}

/// Claims about the first so many sets, all of which a part mentions; the whole claim of some of them mentions fewer, or none.
fn of_width(sets: u8) -> Vec<Part> {
    let rising = |to: u8| (1..to).map(|x| within(x - 1, x)).fold(multiple(3, 1, 0), and);
    let last = sets - 1;
    let mut claims = vec![
        rising(sets),
        not(rising(sets)),
        some(last, rising(sets)),
        and(single(0), every(last, not(rising(sets)))),
        (0..sets).fold(rising(sets), |claim, x| some(x, claim)),
    ];
    if sets > 1 {
        let before = some(last, or(next(0, last), before(last, 0)));
        claims.push(and(before, rising(sets)));
    }
    claims
}

#[test]
fn claims_of_one_to_twelve_sets() {
    let (mut guarded, mut random) = (Guarded::default(), Random::new(1));
    let (mut many, mut others) = (0, 0);
    for sets in 1..=12 {
        for mentioned in 1..=sets {
            for part in of_width(mentioned) {
                let claim = Claim::new(sets, &random.among(sets, mentioned, &part));
                for most in [0, 1, 9] {
                    match check(&mut guarded, claim.bytes(), u32::from(mentioned), most) {
                        Verdict::Many => many += 1,
                        _ => others += 1,
                    }
                }
            }
        }
    }
    // with nine classes nearly all are judged
    assert!(many >= 2 * others && others > 400, "{many} many, {others} others");
}

/// Of twelve sets it takes what it takes of those that are mentioned, and says the same of them.
#[test]
fn sets_that_are_not_mentioned_cost_nothing() {
    let (mut guarded, mut random) = (Guarded::default(), Random::new(2));
    for _ in 0..200 {
        let part = random.counting_claim(3, 8, 2);
        let few = Claim::new(3, &part);
        let many = Claim::new(12, &part.renamed(&[1, 6, 10]));
        assert_eq!(floor(many.bytes(), 30), floor(few.bytes(), 30));
        let answer = |claim: &Claim| judge(claim, 30).unwrap();
        match (answer(&few), answer(&many)) {
            (Answer::Both { holds, fails }, other) => {
                let column = |column: &u32| (column & 1) << 1 | (column >> 1 & 1) << 6 | (column >> 2) << 10;
                let spelled = |word: &[u32]| word.iter().map(column).collect();
                assert_eq!(other, Answer::Both { holds: spelled(&holds), fails: spelled(&fails) }, "{part:?}");
            }
            (answer, other) => assert_eq!(answer, other, "{part:?}"),
        }
        guarded.check(many.bytes(), 30, 7).unwrap();
    }
}

/// For each reason for which bytes are none: they mention no set.
#[test]
fn bytes_that_are_no_claim() {
    let mut guarded = Guarded::default();
    let mut none = |bytes: &[u8]| {
        for most in [0, 1, 20] {
            assert_eq!(check(&mut guarded, bytes, 0, most), Verdict::NoClaim, "{bytes:?}");
        }
    };
    none(&[]);
    for k in 0..=255 {
        let claim = [k, 5, 0, 0, 0, 7, 16, 15, 0];
        if !(1..=12).contains(&k) {
            none(&claim);
            continue;
        }
        // a set that is not below k, in each place
        for bytes in [[0, k, 0], [0, 0, k], [2, k, 0], [2, 0, k], [3, k, 0], [3, 0, k], [6, k, 4]] {
            none(&[&[k], &bytes[..], &[1, 0]].concat());
            none(&[&[k], &bytes[..]].concat());
        }
        none(&[k, 1, k]);
        none(&[k, 7, 2, 0, k]);
        none(&[k, 8, 0]);
        // an end that is missing, bytes left over
        for end in 0..claim.len() {
            none(&claim[..end]);
        }
        none(&[&claim[..], &[0]].concat());
        none(&[&claim[..], &claim[1..]].concat());
        // counted by a number that is too small or too large, with a rest that is not below
        for (modulus, rest) in [(0, 0), (1, 0), (17, 0), (255, 3), (2, 2), (9, 255), (16, 16)] {
            none(&[k, 7, modulus, rest, 0]);
        }
        // more than 1,024 bytes
        let nested = |nots: usize| [&[k][..], &vec![4; nots], &[1, 0]].concat();
        none(&nested(1022));
        none(&nested(3000));
        assert_eq!(floor(&nested(1021), 3), words(1024, 1, 3));
    }
}
