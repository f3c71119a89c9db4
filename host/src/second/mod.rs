//! A second opinion: claims decided on a word straight from their definition, with no automaton.
//!
//! Nothing here knows how the proved code works. [`holds`] says whether a claim holds of given sets by trying sets for each
//! `some`; [`table`] does so for all short words; [`classes`] counts what must be told apart, by its definition, over short
//! words; [`pinned`] builds claims that are judged in order to ask the call about short words; [`widths`] reckons how many work
//! words the call must ask for; [`random`] makes claims.

pub mod classes;
pub mod compared;
pub mod guarded;
pub mod holds;
pub mod pinned;
mod pins;
pub mod random;
pub mod random_rings;
pub mod random_rows;
pub mod reach;
pub mod ring_automata;
pub mod ring_compared;
pub mod ring_holds;
pub mod ring_tally;
pub mod ring_widths;
pub mod row_automata;
pub mod row_compared;
pub mod row_form;
pub mod row_holds;
pub mod row_tally;
pub mod row_widths;
pub mod table;
pub mod tally;
pub mod widths;
