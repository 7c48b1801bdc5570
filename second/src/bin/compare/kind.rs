//! Categories of the kinds of records, for each call that takes one: lists of observers, and limited parts.

use crate::{Comparison, LEAST};
use second::category::Tally;
use second::category_limited;
use second::category_list;
use second::check::Verdict;

/// The least number of cases of a category of kinds, of which there are many; and of one for A, and for B.
pub const LEAST_OF_KINDS: usize = LEAST / 2;
pub const LEAST_OF_SIDES: usize = LEAST / 4;

/// `call` begins the name of each category.
pub fn need(tally: &mut Tally, call: &str, least: usize) {
    for name in category_list::names() {
        tally.need(&format!("{} {}", call, name), category_list::least_of(&name, least));
    }
    for name in category_limited::names() {
        tally.need(&format!("{} {}", call, name), category_limited::least_of(&name, least));
    }
}

impl Comparison {
    /// Counts the categories of a record that a call looked at, given Check's verdict on it.
    pub fn count_kinds(&mut self, call: &str, bytes: &[u8], verdict: Verdict) {
        self.count_names(call, category_list::of_record(bytes, verdict));
        self.count_names(call, category_limited::of_record(bytes, verdict));
    }

    /// Counts the categories of one call alone.
    pub fn count_names(&mut self, call: &str, names: Vec<String>) {
        for name in names {
            self.tally.count(&format!("{} {}", call, name));
        }
    }
}
