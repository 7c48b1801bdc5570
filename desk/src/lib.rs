//! The desk tool: parts as text and as records, checked, joined, compared and drawn, and shelves of them. Verdicts, joined
//! records, closures and shelves come from the proved library (`proved`); all else is outside the proved core.

pub mod closure;
pub mod diff;
pub mod draw;
pub mod joining;
pub mod json;
pub mod kinds;
pub mod level;
pub mod numbering;
pub mod observers;
pub mod part;
pub mod proved;
pub mod reach;
pub mod reader;
pub mod record;
pub mod refusals;
pub mod shelf;
pub mod source;
pub mod text;
pub mod tokens;
pub mod verdict;
pub mod writer;

#[cfg(test)]
mod random;
