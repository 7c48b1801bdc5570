//! The answers of the shelf's and the plain bench's calls.
//! Document 01, "The shelf", "Refusals out of the state".

use crate::check::Break;

#[derive(Clone, Copy, PartialEq, Eq, Debug)]
pub enum Answer {
    /// Clear's 0.
    Cleared,
    /// The number of the part that was appended.
    Part(usize),
    /// A refusal other than 10.
    Refused(u32),
    /// Refusal 10 with its identifier.
    Clash(u16),
    /// The loaded record breaks a rule.
    Breaks(Break),
}
