//! Categories of internal events, for each call that judges a record; and that a record which passes with each internal
//! event made an output passes as it is.

use crate::product::{self, Lent};
use crate::report::differ;
use crate::Comparison;
use second::category::Tally;
use second::category_internal::{self, Judged};
use second::check::{self, Verdict};
use second::record;
use second::wrong_internal::as_outputs;

/// `call` begins the name of each category.
pub fn need(tally: &mut Tally, call: &str, least: usize) {
    for name in category_internal::names() {
        tally.need(&format!("{} {}", call, name), least);
    }
}

impl Comparison {
    /// Counts the categories of a record that a call judged, given Check's verdict on it.
    pub fn count_internal(&mut self, call: &str, bytes: &[u8], verdict: Verdict) {
        if let Some(judged) = category_internal::judged(bytes, verdict) {
            self.still_passes(bytes, &judged);
            for name in judged.names() {
                self.tally.count(&format!("{} {}", call, name));
            }
        }
    }

    /// Request i takes no pass away, by the second checker and by the product.
    pub fn still_passes(&mut self, bytes: &[u8], judged: &Judged) {
        let with_outputs = record::write(&as_outputs(&judged.part));
        let inputs: [(&str, &[u8]); 2] = [("record", bytes), ("with internal events made outputs", &with_outputs)];
        let expected = [judged.found, judged.found_as_outputs].map(check::number_of_break);
        let got = [bytes, &with_outputs].map(|record| product::check(&Lent::new(&mut self.rng, record)));
        if got != expected {
            let what = "hookup_check of a record and of the same with internal events made outputs";
            differ(what, &inputs, &format!("{:?}", expected), &format!("{:?}", got));
        }
        if !judged.still_passes() {
            let what = "a record passes with internal events made outputs alone";
            differ(what, &inputs, &format!("{:?}", expected), &format!("{:?}", got));
        }
    }
}
