//! LXTR images as document 01 defines them, with requests 1 (romaji typing), 2
//! (frequencies), 3 (typing positions), 5 (why a word is missing), 6 (one lookup)
//! and 7 (goods entries) of document 02: a second implementation, which shares
//! nothing with the proved one and is compared with it.
//!
//! It parses an image into owned vectors and works on those. It often takes
//! another way to an answer than the sentences of the documents: lists are rebuilt
//! and compared, depths are memoised, walks are recorded as trails, typing looks
//! keys up in a sorted map, a typing position is a list of labels that is walked
//! again after each move, the place at which a walk stops is found by walking front
//! parts of the query, and an entry table is cut into vectors.
//!
//! Every function takes a [`rules::Rules`]. [`rules::Rules::DOCUMENT`] is what the
//! documents say; any other value breaks exactly one of their rules, which the
//! comparison must notice.

pub mod answers;
pub mod builder;
pub mod check;
pub mod common;
pub mod completion;
pub mod entries;
pub mod fault;
pub mod highest;
pub mod image;
pub mod keylist;
pub mod listing;
pub mod oracle;
pub mod position;
pub mod random;
pub mod romaji;
pub mod rules;
pub mod search;
pub mod why;

#[cfg(test)]
mod entry_examples;
#[cfg(test)]
mod examples;
#[cfg(test)]
mod position_examples;
#[cfg(test)]
mod romaji_examples;
#[cfg(test)]
mod why_examples;
