//! Compares the program `verdict`: its whole output, a process for each record.

use crate::internal;
use crate::kind;
use crate::label;
use crate::product::run_program;
use crate::report::differ;
use crate::{all_examples, Comparison, LEAST, MOST_TRIES};
use second::cases;
use second::category::{self, Tally};
use second::check;
use second::make;
use second::record;

/// The least number of cases of a category of levels or of internal events; each case is a process.
const LEAST_OF_EVENTS: usize = LEAST / 4;

pub fn need(tally: &mut Tally) {
    for name in category::refused_names().iter().chain(&category::break_names()).chain(&category::pass_names()) {
        tally.need(&format!("verdict: {}", name), LEAST);
    }
    tally.need(&format!("verdict: {}", category::QUIET_IGNORED), LEAST);
    tally.need(&format!("verdict: {}", category::QUIET_REMOVED), LEAST);
    label::need(tally, "verdict:", LEAST_OF_EVENTS);
    internal::need(tally, "verdict:", LEAST_OF_EVENTS);
    kind::need(tally, "verdict:", LEAST_OF_EVENTS);
    tally.need("verdict: empty input", LEAST);
    tally.need("verdict: 65536 bytes", LEAST);
    tally.need("verdict: longer, 65536 bytes judged", LEAST);
    tally.need("verdict: longer, length field fits the first 65536 bytes", LEAST);
}

impl Comparison {
    fn verdict_of(&mut self, path: &str, input: &[u8]) {
        let verdict = check::verdict_on(input);
        let expected = format!("{}\n", check::line_of(verdict));
        self.count_call("verdict");
        match run_program(path, input) {
            Err(error) => differ("verdict", &[("input", input)], expected.trim_end(), &error),
            Ok(output) => {
                if output != expected.as_bytes() {
                    let shown = String::from_utf8_lossy(&output).into_owned();
                    differ("verdict", &[("input", input)], &format!("{:?}", expected), &format!("{:?}", shown));
                }
            }
        }
        if input.is_empty() {
            self.tally.count("verdict: empty input");
        }
        if input.len() == check::VERDICT_LIMIT {
            self.tally.count("verdict: 65536 bytes");
        }
        if input.len() > check::VERDICT_LIMIT {
            self.tally.count("verdict: longer, 65536 bytes judged");
            if record::u32_at(input, 0) as usize == check::VERDICT_LIMIT - record::HEADER {
                self.tally.count("verdict: longer, length field fits the first 65536 bytes");
            }
        } else {
            for name in category::of_verdict(input, verdict) {
                self.tally.count_if_known(&format!("verdict: {}", name));
            }
            self.count_labels("verdict:", input);
            self.count_internal("verdict:", input, verdict);
            self.count_kinds("verdict:", input, verdict);
        }
    }

    pub fn all_verdicts(&mut self, path: &str) {
        let mut inputs = all_examples();
        inputs.extend(cases::refused(&mut self.rng, LEAST));
        inputs.extend(cases::mislabelled(&mut self.rng, LEAST_OF_EVENTS));
        inputs.extend(cases::internal(&mut self.rng, LEAST_OF_EVENTS));
        inputs.extend(cases::lists(&mut self.rng, LEAST_OF_EVENTS));
        inputs.extend(cases::limited(&mut self.rng, LEAST_OF_EVENTS));
        inputs.extend(cases::breaking(&mut self.rng, LEAST));
        inputs.extend(cases::passing(&mut self.rng, LEAST));
        inputs.extend(cases::quiet(&mut self.rng, LEAST));
        for _ in 0..500 {
            inputs.push(make::bad_record(&mut self.rng));
        }
        for input in &inputs {
            self.verdict_of(path, input);
        }
        for round in 0..LEAST {
            self.verdict_of(path, &[]);
            let part = make::any_passing(&mut self.rng);
            let mut long = record::write(&part);
            long.resize(check::VERDICT_LIMIT + self.rng.range(1, 200), 0);
            self.verdict_of(path, &long);
            long[..4].copy_from_slice(&(check::VERDICT_LIMIT as u32 - 6).to_le_bytes());
            if round % 2 == 0 {
                make::damage(&mut self.rng, &mut long, 4);
            }
            if long.len() > check::VERDICT_LIMIT {
                self.verdict_of(path, &long);
                self.verdict_of(path, &long[..check::VERDICT_LIMIT]);
            }
            // The length fits the whole input, but not the part of it that is judged.
            let whole = check::VERDICT_LIMIT + 1 + self.rng.below(50);
            long.resize(whole, 0);
            long[..4].copy_from_slice(&(whole as u32 - 6).to_le_bytes());
            self.verdict_of(path, &long);
        }
        // Until the exact categories are full.
        for _ in 0..MOST_TRIES {
            let name = "verdict: longer, length field fits the first 65536 bytes";
            if !self.tally.lacks(name) && !self.tally.lacks("verdict: 65536 bytes") {
                break;
            }
            let part = make::any_passing(&mut self.rng);
            let mut long = record::write(&part);
            long.resize(check::VERDICT_LIMIT + 1, 0);
            long[..4].copy_from_slice(&(check::VERDICT_LIMIT as u32 - 6).to_le_bytes());
            self.verdict_of(path, &long);
            self.verdict_of(path, &long[..check::VERDICT_LIMIT]);
        }
    }
}
