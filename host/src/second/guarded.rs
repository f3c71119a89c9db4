//! The calls with guard words around everything that they are lent.

use std::fmt::Debug;

use super::{ring_widths, row_widths, widths};
use crate::call::{RingVerdict, RowVerdict, Verdict, call, call_ring, call_row};
use crate::memory::{floor, ring_floor, row_floor};
use crate::part::Part;
use crate::ring_part::RingPart;
use crate::row_part::RowPart;

/// How many guard words stand before and behind a lent slice, and what they hold.
const GUARDS: usize = 8;
const GUARD: u32 = 0xdead_beef;

/// What `out` holds before a call.
const JUNK: u32 = 0x5a5a_5a5a;

/// Words that are lent with guards around them.
#[derive(Default)]
struct Lent {
    words: Vec<u32>,
}

impl Lent {
    /// `count` words with guards around them, whatever they hold.
    fn lend(&mut self, count: usize) -> &mut [u32] {
        let end = GUARDS + count;
        if self.words.len() < end + GUARDS {
            self.words.resize(end + GUARDS, JUNK);
        }
        self.words[..GUARDS].fill(GUARD);
        self.words[end..end + GUARDS].fill(GUARD);
        &mut self.words[GUARDS..end]
    }

    /// Whether the guards around `count` words are as they were.
    fn is_whole(&self, count: usize) -> bool {
        let end = GUARDS + count;
        let guards = self.words[..GUARDS].iter().chain(&self.words[end..end + GUARDS]);
        guards.into_iter().all(|word| *word == GUARD)
    }
}

/// A call that is lent out and work words, and its answers.
trait Lending {
    type Told: Copy + PartialEq + Debug;
    const FEW: Self::Told;

    fn call(claim: &[u8], most: u32, out: &mut [u32], work: &mut [u32]) -> Self::Told;
    fn floor(claim: &[u8], most: u32) -> u128;

    /// The lengths of the two first words, where they are the answer.
    fn both(told: Self::Told) -> Option<(usize, usize)>;
    fn out_full(a: usize, b: usize) -> Self::Told;
}

/// The call on claims.
struct OnClaims;

impl Lending for OnClaims {
    type Told = Verdict;
    const FEW: Verdict = Verdict::Few;

    fn call(claim: &[u8], most: u32, out: &mut [u32], work: &mut [u32]) -> Verdict {
        call(claim, most, out, work)
    }

    fn floor(claim: &[u8], most: u32) -> u128 {
        floor(claim, most)
    }

    fn both(told: Verdict) -> Option<(usize, usize)> {
        if let Verdict::Both(a, b) = told { Some((a, b)) } else { None }
    }

    fn out_full(a: usize, b: usize) -> Verdict {
        Verdict::OutFull(a, b)
    }
}

/// The call on row claims.
struct OnRows;

impl Lending for OnRows {
    type Told = RowVerdict;
    const FEW: RowVerdict = RowVerdict::Few;

    fn call(claim: &[u8], most: u32, out: &mut [u32], work: &mut [u32]) -> RowVerdict {
        call_row(claim, most, out, work)
    }

    fn floor(claim: &[u8], most: u32) -> u128 {
        row_floor(claim, most)
    }

    fn both(told: RowVerdict) -> Option<(usize, usize)> {
        if let RowVerdict::Both(a, b) = told { Some((a, b)) } else { None }
    }

    fn out_full(a: usize, b: usize) -> RowVerdict {
        RowVerdict::OutFull(a, b)
    }
}

/// The call on ring claims.
struct OnRings;

impl Lending for OnRings {
    type Told = RingVerdict;
    const FEW: RingVerdict = RingVerdict::Few;

    fn call(claim: &[u8], most: u32, out: &mut [u32], work: &mut [u32]) -> RingVerdict {
        call_ring(claim, most, out, work)
    }

    fn floor(claim: &[u8], most: u32) -> u128 {
        ring_floor(claim, most)
    }

    fn both(told: RingVerdict) -> Option<(usize, usize)> {
        if let RingVerdict::Both(a, b) = told { Some((a, b)) } else { None }
    }

    fn out_full(a: usize, b: usize) -> RingVerdict {
        RingVerdict::OutFull(a, b)
    }
}

/// Holds the calls to their promise about memory, on any bytes.
#[derive(Default)]
pub struct Guarded {
    out: Lent,
    work: Lent,
    pub calls: u64,
}

impl Guarded {
    /// The call on a claim, or on what is none: the floor is that of the claim's parts, *no claim* exactly of what is none, and
    /// everything that is said about memory (`promised`). Returns the answer.
    pub fn check(&mut self, claim: &[u8], most: u32, more: usize) -> Result<Verdict, String> {
        widths::compare(claim, most)?;
        widths::compare(claim, u32::MAX)?;
        let verdict = self.promised::<OnClaims>(claim, most, more)?;
        let is_claim = Part::read(claim).is_some();
        if is_claim == (verdict == Verdict::NoClaim) || (is_claim && most == 0 && verdict != Verdict::Many) {
            return Err(format!("{verdict:?}, and it is a claim: {is_claim}"));
        }
        Ok(verdict)
    }

    /// The same of the call on a row claim: of twelve sets there is one too many, and one that is read as too long a claim is too long.
    pub fn check_row(&mut self, claim: &[u8], most: u32, more: usize) -> Result<RowVerdict, String> {
        row_widths::compare(claim, most)?;
        row_widths::compare(claim, u32::MAX)?;
        let verdict = self.promised::<OnRows>(claim, most, more)?;
        let expected = match RowPart::read(claim) {
            None => Some(RowVerdict::NoRowClaim),
            Some((12, _)) => Some(RowVerdict::TooManySets),
            Some((sets, part)) if row_widths::bytes_read(&part, sets) > row_widths::LIMIT => Some(RowVerdict::TooLong),
            Some(_) if most == 0 => Some(RowVerdict::Many),
            Some(_) => None,
        };
        let refusals = [RowVerdict::NoRowClaim, RowVerdict::TooManySets, RowVerdict::TooLong];
        match expected {
            Some(expected) if expected != verdict => Err(format!("{verdict:?}, expected {expected:?}")),
            None if refusals.contains(&verdict) => Err(format!("{verdict:?} of a row claim")),
            _ => Ok(verdict),
        }
    }

    /// The same of the call on a ring claim, which is read as a row claim.
    pub fn check_ring(&mut self, claim: &[u8], most: u32, more: usize) -> Result<RingVerdict, String> {
        ring_widths::compare(claim, most)?;
        ring_widths::compare(claim, u32::MAX)?;
        let verdict = self.promised::<OnRings>(claim, most, more)?;
        let expected = match RingPart::read(claim) {
            None => Some(RingVerdict::NoRingClaim),
            Some((12, _)) => Some(RingVerdict::TooManySets),
            Some((sets, part)) if ring_widths::bytes_read(&part, sets) > row_widths::LIMIT => {
                Some(RingVerdict::TooLong)
            }
            Some(_) if most == 0 => Some(RingVerdict::Many),
            Some(_) => None,
        };
        let refusals = [RingVerdict::NoRingClaim, RingVerdict::TooManySets, RingVerdict::TooLong];
        match expected {
            Some(expected) if expected != verdict => Err(format!("{verdict:?}, expected {expected:?}")),
            None if refusals.contains(&verdict) => Err(format!("{verdict:?} of a ring claim")),
            _ => Ok(verdict),
        }
    }

    /// Everything that a contract says about memory: with work of the floor and with more the same answer, with one word less *few*;
    /// with out of every length around the needed one the two words or their lengths; nothing else written.
    fn promised<C: Lending>(&mut self, claim: &[u8], most: u32, more: usize) -> Result<C::Told, String> {
        let words = C::floor(claim, most) as usize;
        let room = 2 * most as usize;
        let (told, written) = self.call::<C>(claim, most, room, words)?;
        let used = C::both(told).map_or(0, |(a, b)| a + b);
        if told == C::FEW || used > room {
            return Err(format!("{told:?} with all that is asked for"));
        }
        if written[used..].iter().any(|word| *word != JUNK) {
            return Err("out was changed where no word is".to_string());
        }
        if let Some(less) = words.checked_sub(1) {
            self.expect::<C>(claim, most, (room, less), C::FEW, &[])?;
        }
        self.expect::<C>(claim, most, (room, words + more), told, &written[..used])?;
        if let Some((a, b)) = C::both(told) {
            for out in used.saturating_sub(2)..used {
                self.expect::<C>(claim, most, (out, words), C::out_full(a, b), &[])?;
            }
            for out in used..used + 2 {
                self.expect::<C>(claim, most, (out, words), told, &written[..used])?;
            }
        } else {
            self.expect::<C>(claim, most, (0, words), told, &[])?;
        }
        Ok(told)
    }

    /// One call. What it wrote into `out`, with the guards looked at.
    fn call<C: Lending>(
        &mut self,
        claim: &[u8],
        most: u32,
        out: usize,
        work: usize,
    ) -> Result<(C::Told, Vec<u32>), String> {
        self.calls += 1;
        let lent = self.out.lend(out);
        lent.fill(JUNK);
        let before = claim.to_vec();
        let told = C::call(claim, most, lent, self.work.lend(work));
        let written = self.out.words[GUARDS..GUARDS + out].to_vec();
        if before != claim {
            return Err("the claim's bytes were changed".to_string());
        }
        if !self.out.is_whole(out) || !self.work.is_whole(work) {
            return Err(format!("a guard word was changed, with {out} out and {work} work words"));
        }
        Ok((told, written))
    }

    /// One call, lent so many out and work words, that must say this, and write exactly this.
    fn expect<C: Lending>(
        &mut self,
        claim: &[u8],
        most: u32,
        (out, work): (usize, usize),
        said: C::Told,
        words: &[u32],
    ) -> Result<(), String> {
        let (told, written) = self.call::<C>(claim, most, out, work)?;
        let (front, rest) = written.split_at(words.len());
        if told != said || front != words || rest.iter().any(|word| *word != JUNK) {
            return Err(format!(
                "{told:?} {written:?} with {out} out and {work} work words, expected {said:?} {words:?}"
            ));
        }
        Ok(())
    }
}
