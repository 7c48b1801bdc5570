//! Categories of levels, for each call that takes a record.

use crate::Comparison;
use second::category::Tally;
use second::category_label::{self, BAD_LEVELS, EACH_BAD_LEVEL};

/// `call` begins the name of each category.
pub fn need(tally: &mut Tally, call: &str, least: usize) {
    for name in category_label::names() {
        tally.need(&format!("{} {}", call, name), least);
    }
    for name in EACH_BAD_LEVEL {
        tally.need(&format!("{} {}", call, name), BAD_LEVELS.count());
    }
}

impl Comparison {
    /// Counts the categories of a record that a call looked at.
    pub fn count_labels(&mut self, call: &str, bytes: &[u8]) {
        for name in category_label::of_record(bytes) {
            self.tally.count(&format!("{} {}", call, name));
        }
        if let Some((name, level)) = category_label::each_bad_level(bytes) {
            self.tally.count_value(&format!("{} {}", call, name), level);
        }
    }
}
