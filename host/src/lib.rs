//! Claims about rows of any length, settled by a proved call.
//!
//! A [`Claim`] says something about sets of places along a row; [`Judge::judge`] says whether it holds of all finite
//! sets, of none, or of which first. The code that answers is proved and linked from a static library; this crate lends
//! it memory and makes its answers an enum.
//!
//! ```
//! use ceivuron::part::{and, before, multiple, or, some};
//! use ceivuron::{Answer, Claim, Judge, Refused};
//!
//! // There is a place between that of set 0 and that of set 1.
//! let claim = Claim::new(3, &some(2, and(before(0, 2), before(2, 1))));
//!
//! let mut judge = Judge::new();
//! let answer = judge.judge(&claim, 11)?;
//!
//! // It first holds of three columns: set 0 at place 0, nothing at place 1, set 1 at place 2. It does not hold where
//! // no set has any place.
//! assert_eq!(answer, Answer::Both { holds: vec![1, 0, 2], fails: vec![] });
//! assert_eq!(answer.to_string(), "both 3 0 | 1 0 2 | ");
//!
//! // Eleven classes must be told apart to work it out.
//! assert_eq!(judge.judge(&claim, 10)?, Answer::Many);
//!
//! // Of every set the number of places is even or odd, and two classes are told apart.
//! let claim = Claim::new(1, &or(multiple(2, 0, 0), multiple(2, 1, 0)));
//! assert_eq!(judge.judge(&claim, 2)?, Answer::Always);
//!
//! // With so many classes it would not fit into memory, and nothing is allocated.
//! assert!(matches!(judge.judge(&claim, u32::MAX), Err(Refused::TooLarge { .. })));
//! # Ok::<(), Refused>(())
//! ```
//!
//! A [`RowClaim`] is about a row that has ends: no set has a place behind its last one. [`Judge::judge_row`] says whether it holds of
//! every row, of none, or of which first.
//!
//! ```
//! use ceivuron::row_part::{and, last, single, some};
//! use ceivuron::{Judge, Refused, RowAnswer, RowClaim};
//!
//! // Some place is the last one: so it is in every row but the empty one.
//! let claim = RowClaim::new(1, &some(0, and(single(0), last(0))));
//! let answer = Judge::new().judge_row(&claim, 30)?;
//! assert_eq!(answer, RowAnswer::Both { holds: vec![0], fails: vec![] });
//! # Ok::<(), Refused>(())
//! ```
//!
//! A [`RingClaim`] is about a row that goes round: behind its last place comes its first. [`Judge::judge_ring`] says whether it holds of
//! every ring, of none, or of which first.
//!
//! ```
//! use ceivuron::ring_part::{and, next, not, single, some};
//! use ceivuron::{Judge, Refused, RingAnswer, RingClaim};
//!
//! // Every place has a next one.
//! let claim = RingClaim::new(2, &not(some(0, and(single(0), not(some(1, next(0, 1)))))));
//! assert_eq!(Judge::new().judge_ring(&claim, 100)?, RingAnswer::Always);
//! # Ok::<(), Refused>(())
//! ```
//!
//! [`judge_kept`] says of a rule file whether a step keeps what it claims: whether every row with which a run may begin has the claim,
//! and every row after a row that has it; else which row is the first where it fails.
//!
//! ```
//! use ceivuron::{Kept, LEAST_WORDS, Moment, NotJudged, judge_kept};
//!
//! // A tray goes on to a free module. Behind the last module it stays where it is.
//! let rule = "bits: tray
//! table:
//!   * | tray | module !tray -> !tray moves
//!   tray | !tray | * -> tray moves
//! start: 0 in tray
//! kept some_tray: ~empty(tray)
//! kept apart: all1 p: p in tray => p + 1 notin tray
//! ";
//! assert_eq!(judge_kept(rule, "some_tray", 1000, LEAST_WORDS)?, Kept::Kept);
//!
//! // Two trays may touch at the start.
//! let first = Kept::NotKept { moment: Moment::Start, row: vec![1, 1], after: vec![1, 1] };
//! assert_eq!(judge_kept(rule, "apart", 1000, LEAST_WORDS)?, first);
//! # Ok::<(), NotJudged>(())
//! ```
//!
//! [`strengthen`](strengthen()) says with which of the `helpers:` of the file a claim is kept that is not kept by itself: the fewest, by
//! their numbers in the list.
//!
//! ```
//! use ceivuron::{LEAST_WORDS, NotJudged, Stronger, strengthen};
//!
//! // All trays go on at each step, and none comes onto the line.
//! let rule = "bits: tray
//! table:
//!   tray | * | * -> tray moves
//!   * | tray | * -> !tray moves
//! start: empty(tray)
//! kept second_is_free: 1 notin tray
//! helpers:
//!   last_is_free: last notin tray
//!   first_is_free: 0 notin tray
//! ";
//! // The second module is free after a step if the first one is, and that one stays so.
//! assert_eq!(strengthen(rule, "second_is_free", 1000, LEAST_WORDS)?, Stronger::With(vec![2]));
//! # Ok::<(), NotJudged>(())
//! ```

mod answer;
mod call;
mod claim;
mod judge;
mod kept;
pub mod line;
mod memory;
pub mod part;
pub mod progress;
mod ring_claim;
pub mod ring_part;
mod row_claim;
pub mod row_part;
pub mod second;
pub mod start;
mod strengthen;

pub use answer::{Answer, RingAnswer, RowAnswer};
pub use call::{RingVerdict, RowVerdict, Verdict, call, call_ring, call_row};
pub use claim::Claim;
pub use judge::{Judge, Refused, WORK_LIMIT, judge};
pub use kept::{Kept, LEAST_WORDS, Large, Moment, NotJudged, judge_kept};
pub use memory::{floor, ring_floor, row_floor};
pub use ring_claim::RingClaim;
pub use row_claim::RowClaim;
pub use strengthen::{MOST_HELPERS, Stronger, strengthen};
