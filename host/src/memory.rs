//! Work memory: how much the call asks for, and a buffer that grows.

use std::alloc::{Layout, alloc_zeroed};

use crate::call::{floor_words, ring_floor_words, row_floor_words};

/// The work words that the call asks for: 8,192 + 64s + (n + 1)(16 · 2^w + 256 + n), for s bytes, n = `most` and w the most
/// sets that any part of the claim mentions; w is 0 where the bytes are no claim. A part mentions the sets of its signs
/// without parts, but for those that a `some` in it takes out.
///
/// The library says this number, up to 2^64 - 1. For the largest `most` it passes that, and is reckoned from those for 0
/// and 1: it is a polynomial in n whose second differences are all 2.
pub fn floor(claim: &[u8], most: u32) -> u128 {
    reckoned(|most| floor_words(claim, most), most)
}

/// The work words that the call on a row claim asks for: the floor of the claim about sets that is made of it for the rows of which it
/// does not hold, and 3n besides. That claim is the longer of two, with one set more than the row claim, but at least 3. No words are
/// asked for where the bytes are no row claim, or what is made of them would be too long or about too many sets.
pub fn row_floor(claim: &[u8], most: u32) -> u128 {
    reckoned(|most| row_floor_words(claim, most), most)
}

/// The work words that the call on a ring claim asks for: the row floor of the row claim as which it is read, which takes more bytes
/// and is about the same sets. No words are asked for where the bytes are no ring claim, or what is made of them would be too long
/// or about too many sets.
pub fn ring_floor(claim: &[u8], most: u32) -> u128 {
    reckoned(|most| ring_floor_words(claim, most), most)
}

/// A number of words that is told up to 2^64 - 1, and is a polynomial in `most` whose second differences are all 2 where it is more.
fn reckoned(told: impl Fn(u32) -> u64, most: u32) -> u128 {
    let words = told(most);
    if words < u64::MAX {
        return words.into();
    }
    let (n, of_none, of_one) = (u128::from(most), u128::from(told(0)), u128::from(told(1)));
    of_none + n * (of_one - of_none) + n * (n - 1)
}

/// The fewest words that a buffer takes: 256 KiB. So much the allocator takes from the system for us alone, 0 already and in no page
/// until it is touched; what is smaller it takes from memory that it has, and fills it with 0.
const LEAST: usize = 1 << 16;

/// Words that are kept from call to call and replaced by more when more are asked for.
#[derive(Default)]
pub(crate) struct Buffer {
    words: Vec<u32>,
}

impl Buffer {
    /// The first `count` words, whatever they hold; `None` where the system has no memory for so many.
    pub(crate) fn lend(&mut self, count: usize) -> Option<&mut [u32]> {
        if self.words.len() < count {
            // What the old words held does not matter, so they are given back first.
            self.words = Vec::new();
            self.words = zeroed(count.max(LEAST))?;
        }
        Some(&mut self.words[..count])
    }
}

/// `count` words 0. Fresh memory from the system is 0 already and takes room only once it is touched, so that a large
/// floor costs no more than what the call uses of it; `vec!` does the same, but ends the program where there is no memory.
fn zeroed(count: usize) -> Option<Vec<u32>> {
    if count == 0 {
        return Some(Vec::new());
    }
    let layout = Layout::array::<u32>(count).ok()?;
    // Sound: the layout is not empty; the memory is an array of `count` words that are all 0, from the allocator
    // that `Vec` uses, with the layout that a `Vec` of this capacity has.
    unsafe {
        let words = alloc_zeroed(layout).cast::<u32>();
        if words.is_null() {
            return None;
        }
        ask_for_large_pages(words, count);
        Some(Vec::from_raw_parts(words, count, count))
    }
}

/// From so many words on, 2 MiB, memory is taken from the system in pages of 2 MiB where it has them: the call uses much of it, and
/// each page that is touched first costs a fault.
const LARGE: usize = 1 << 19;

/// Advice only: the words are what they were. Where it is not taken, nothing is lost.
#[cfg(target_os = "linux")]
fn ask_for_large_pages(words: *mut u32, count: usize) {
    use std::ffi::{c_int, c_void};
    const PAGE: usize = 4096;
    const HUGE_PAGES: c_int = 14;
    unsafe extern "C" {
        fn madvise(begin: *mut c_void, bytes: usize, advice: c_int) -> c_int;
    }
    if count >= LARGE {
        let skipped = words.cast::<u8>().align_offset(PAGE);
        let bytes = (4 * count - skipped) / PAGE * PAGE;
        // Sound: the pages are all within these words, and this advice changes nothing that they hold.
        unsafe {
            madvise(words.cast::<u8>().add(skipped).cast(), bytes, HUGE_PAGES);
        }
    }
}

#[cfg(not(target_os = "linux"))]
fn ask_for_large_pages(_words: *mut u32, _count: usize) {}

#[cfg(test)]
mod tests {
    use super::*;

    #[test]
    fn the_floor_is_the_number_that_is_promised() {
        assert_eq!(floor(&[3, 6, 2, 5, 3, 0, 2, 3, 2, 1], 11), 8192 + 640 + 12 * (16 * 8 + 256 + 11));
        assert_eq!(floor(&[1, 1, 0], u32::MAX), 8192 + 192 + (1 << 32) * (32 + 256 + (1 << 32) - 1));
        assert_eq!(floor(&[12, 1, 7], u32::MAX), floor(&[1, 1, 0], u32::MAX));
    }

    /// Where a claim mentions fewer sets than it is about, and where it mentions fewer than one of its parts.
    #[test]
    fn the_floor_goes_by_the_widest_part() {
        let words = |bytes: &[u8], sets: u32, most: u128| {
            8192 + 64 * bytes.len() as u128 + (most + 1) * ((16 << sets) + 256 + most)
        };
        for (bytes, sets) in [
            // set 11 is single
            (&[12, 1, 11][..], 1),
            // sets 3 and 9, and one set with itself
            (&[12, 0, 3, 9], 2),
            (&[12, 0, 3, 3], 1),
            (&[12, 7, 5, 4, 10], 1),
            // not, and, some: the outermost sign mentions two, three, none
            (&[12, 4, 4, 2, 0, 1], 2),
            (&[12, 5, 0, 3, 9, 2, 9, 11], 3),
            (&[12, 6, 4, 1, 4], 1),
            // some 2 (0 before 2 and 2 before 1), of twelve sets
            (&[12, 6, 2, 5, 3, 0, 2, 3, 2, 1], 3),
            // some of a set that is not mentioned
            (&[12, 6, 5, 0, 3, 9], 2),
            // of two parts of an and the one mentions three sets inside, the other two; together they mention four
            (&[12, 5, 6, 2, 5, 3, 0, 2, 3, 2, 1, 0, 8, 9], 4),
            // and here one
            (&[12, 5, 6, 2, 6, 1, 5, 3, 0, 2, 3, 2, 1, 1, 0], 3),
        ] {
            for most in [0, 1, 40, 70_000, 1 << 31, u32::MAX - 200, u32::MAX - 100, u32::MAX] {
                assert_eq!(floor(bytes, most), words(bytes, sets, most.into()), "{bytes:?}");
            }
        }
    }

    #[test]
    fn the_floor_of_bytes_that_are_no_claim() {
        assert_eq!(floor(&[], 0), 8192 + 16 + 256);
        assert_eq!(floor(&[], 9), 8192 + 10 * (16 + 256 + 9));
        assert_eq!(floor(&[200], 1), 8192 + 64 + 2 * (16 + 257));
        // no set, more than twelve, a set that is not below, an end that is missing, bytes left over, by 1 and by 17, a rest that
        // is not below
        for bytes in [
            &[0, 1, 0][..],
            &[13, 1, 0],
            &[12, 1, 12],
            &[12, 5, 1, 0],
            &[12, 0, 3, 9, 4],
            &[12, 7, 1, 0, 0],
            &[12, 7, 17, 0, 0],
            &[12, 7, 4, 4, 0],
        ] {
            assert_eq!(floor(bytes, 20), 8192 + 64 * bytes.len() as u128 + 21 * (16 + 256 + 20), "{bytes:?}");
        }
        // 1,024 bytes and one more
        let nested = |nots: usize| [&[12][..], &vec![4; nots], &[1, 11]].concat();
        assert_eq!(floor(&nested(1021), 3), 8192 + 65536 + 4 * (32 + 256 + 3));
        assert_eq!(floor(&nested(1022), 3), 8192 + 65600 + 4 * (16 + 256 + 3));
    }

    #[test]
    fn a_buffer_grows_and_stays() {
        let mut buffer = Buffer::default();
        assert_eq!(buffer.lend(0).unwrap().len(), 0);
        buffer.lend(10).unwrap()[9] = 7;
        assert_eq!(buffer.lend(5).unwrap().len(), 5);
        assert_eq!(buffer.lend(10).unwrap()[9], 7);
        assert_eq!(buffer.lend(20).unwrap().len(), 20);
        assert!(buffer.lend(usize::MAX).is_none());
        assert_eq!(buffer.lend(3).unwrap().len(), 3);
    }
}
