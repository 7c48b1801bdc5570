//! The kinds of record. Document 01, "The part record", and document 02, k and l.

/// A part with one observer.
pub const ONE_OBSERVER: u16 = 1;

/// A part with a list of two to four observers.
pub const SEVERAL_OBSERVERS: u16 = 2;

/// A limited part: one observer, and fine classes inside its classes.
pub const LIMITED: u16 = 3;

/// The kinds that are described; a record of another kind is refused with 3.
pub const KINDS: &[u16] = &[ONE_OBSERVER, SEVERAL_OBSERVERS, LIMITED];
