//! Categories of the records that are loaded: of levels, of internal events and of kinds.

use crate::internal;
use crate::kind::{self, LEAST_OF_KINDS};
use crate::label;
use crate::{Comparison, LEAST};
use second::answer::Answer;
use second::category::Tally;
use second::category_replay::verdict_of_load;

/// `call` begins the name of each category.
pub fn need(tally: &mut Tally, call: &str) {
    label::need(tally, call, LEAST);
    internal::need(tally, call, LEAST);
    kind::need(tally, call, LEAST_OF_KINDS);
}

impl Comparison {
    /// Counts the categories of a record by the answer of its load, unless the shelf was refused before it.
    pub fn count_loaded(&mut self, call: &str, record: &[u8], answer: Answer) {
        if let Some(verdict) = verdict_of_load(answer) {
            self.count_labels(call, record);
            self.count_internal(call, record, verdict);
            self.count_kinds(call, record, verdict);
        }
    }
}
