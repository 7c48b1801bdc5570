//! Why a call is refused, with what is known of the shelf.

use crate::record::counted;
use crate::shelf::END;

/// Refusal 12 on a shelf of so many bytes.
pub fn no_end(capacity: usize) -> String {
    match capacity < END {
        true => format!("It needs {END} bytes, and the shelf has {capacity}."),
        false => "No clear was done on it.".to_string(),
    }
}

/// Refusal 13: the first of these numbers that no part has, of so many.
pub fn no_part(numbers: &[u32], count: u64) -> String {
    let missing = numbers.iter().find(|&&number| u64::from(number) >= count);
    let missing = missing.map(|number| format!("There is no part {number}: ")).unwrap_or_default();
    format!("{missing}the shelf has {}.", counted(count as usize, "part"))
}

/// Refusal 15: a record of so many bytes where only so many fit.
pub fn no_room(length: usize, room: usize) -> String {
    format!("The record has {}, and there is room for {room}.", counted(length, "byte"))
}
