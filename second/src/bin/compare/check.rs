//! Compares hookup_check: the number, and that nothing is written.

use crate::internal;
use crate::kind::{self, LEAST_OF_KINDS};
use crate::label;
use crate::product::{self, Lent};
use crate::report::differ;
use crate::{all_examples, Comparison, LEAST, LEAST_OF_MAIN, MOST_TRIES};
use second::cases::{self, Reasons};
use second::category::{self, Tally};
use second::check::{self, Verdict};
use second::make;
use second::record;
use second::replay::hex;

pub fn need(tally: &mut Tally) {
    for name in category::refused_names().iter().chain(&category::break_names()).chain(&category::pass_names()) {
        tally.need(&format!("check: {}", name), LEAST);
    }
    tally.need(&format!("check: {}", category::QUIET_IGNORED), LEAST_OF_MAIN);
    tally.need(&format!("check: {}", category::QUIET_REMOVED), LEAST_OF_MAIN);
    for name in category::WRONG_READINGS {
        tally.need(&format!("check: {}", name), LEAST);
    }
    for reasons in cases::each_two_reasons() {
        tally.need(&twice_damaged_name("record", reasons), LEAST);
    }
    for kind in [2, 3] {
        for reasons in cases::each_two_reasons_of(kind) {
            tally.need(&twice_damaged_name(&format!("record of kind {}", kind), reasons), LEAST / 4);
        }
    }
    label::need(tally, "check:", LEAST);
    internal::need(tally, "check:", LEAST);
    kind::need(tally, "check:", LEAST_OF_KINDS);
    tally.need("check: mangled record", LEAST_OF_MAIN);
    tally.need("check: random bytes", LEAST_OF_MAIN);
    tally.need("check: more than 65536 bytes", LEAST);
    tally.need("check: null pointer", LEAST);
    tally.need("check: record cut at each length", LEAST);
    tally.need("check: record with each bit changed", LEAST_OF_MAIN);
}

fn twice_damaged_name(what: &str, (earlier, later): Reasons) -> String {
    let later = match later {
        Some(number) => number.to_string(),
        None => "a break".to_string(),
    };
    format!("check: {} damaged for {} and {}, refused {}", what, earlier, later, earlier)
}

impl Comparison {
    /// One call of hookup_check: its number, and that it wrote nothing.
    fn check_number(&mut self, bytes: &[u8], verdict: Verdict) {
        let expected = check::number(verdict);
        let lent = Lent::new(&mut self.rng, bytes);
        self.count_call("hookup_check");
        let got = product::check(&lent);
        if got != expected {
            differ("hookup_check", &[("record", bytes)], &expected.to_string(), &got.to_string());
        }
        if !lent.is_unchanged() {
            differ("hookup_check wrote", &[("record", bytes)], "record unchanged", &hex(lent.whole()));
        }
        if lent.is_null() {
            self.tally.count("check: null pointer");
        }
    }

    fn check_record(&mut self, bytes: &[u8]) {
        let verdict = check::check(bytes);
        self.check_number(bytes, verdict);
        for name in category::of_verdict(bytes, verdict) {
            self.tally.count_if_known(&format!("check: {}", name));
        }
        self.count_labels("check:", bytes);
        self.count_internal("check:", bytes, verdict);
        self.count_kinds("check:", bytes, verdict);
    }

    pub fn all_checks(&mut self) {
        for bytes in all_examples() {
            self.check_record(&bytes);
            self.cut_and_changed(&bytes);
        }
        for bytes in cases::refused(&mut self.rng, LEAST) {
            self.check_record(&bytes);
        }
        for bytes in cases::mislabelled(&mut self.rng, LEAST) {
            self.check_record(&bytes);
        }
        for bytes in cases::internal(&mut self.rng, LEAST) {
            self.check_record(&bytes);
        }
        for bytes in cases::breaking(&mut self.rng, LEAST) {
            self.check_record(&bytes);
        }
        for bytes in cases::passing(&mut self.rng, LEAST) {
            self.check_record(&bytes);
        }
        for bytes in cases::quiet(&mut self.rng, LEAST_OF_MAIN) {
            self.check_record(&bytes);
        }
        for bytes in cases::misread(&mut self.rng, LEAST) {
            self.check_record(&bytes);
            for name in category::wrong_readings_of(&bytes) {
                self.tally.count(&format!("check: {}", name));
            }
        }
        for _ in 0..MOST_TRIES {
            let (bytes, reasons) = cases::twice_damaged(&mut self.rng);
            self.check_record(&bytes);
            if check::check(&bytes) == Verdict::Refused(reasons.0) {
                self.tally.count(&twice_damaged_name("record", reasons));
            }
        }
        for _ in 0..2000 {
            let part = make::any_of_kinds(&mut self.rng);
            let bytes = make::mangled(&mut self.rng, &record::write(&part));
            self.check_record(&bytes);
            self.tally.count("check: mangled record");
            let bytes = make::random_bytes(&mut self.rng);
            self.check_record(&bytes);
            self.tally.count("check: random bytes");
            let part = make::any_passing(&mut self.rng);
            let changed = make::changed_steps(&mut self.rng, &part);
            self.check_record(&record::write(&changed));
        }
        for round in 0..LEAST {
            let mut long = record::write(&make::any_passing(&mut self.rng));
            long.resize(self.rng.range(65_537, 70_000), 0);
            if round % 2 == 0 {
                let length = long.len() as u32 - 6;
                long[..4].copy_from_slice(&length.to_le_bytes());
            }
            self.check_record(&long);
            self.tally.count("check: more than 65536 bytes");
        }
        for _ in 0..2 * LEAST {
            self.check_number(&[], Verdict::Refused(1));
        }
        for bytes in cases::lists(&mut self.rng, LEAST_OF_KINDS) {
            self.check_record(&bytes);
        }
        for bytes in cases::limited(&mut self.rng, LEAST_OF_KINDS) {
            self.check_record(&bytes);
        }
        self.damaged_twice(2);
        self.damaged_twice(3);
    }

    /// Records of this kind, damaged in two ways.
    fn damaged_twice(&mut self, kind: u16) {
        for _ in 0..MOST_TRIES / 3 {
            let (bytes, reasons) = cases::twice_damaged_of(&mut self.rng, kind);
            self.check_record(&bytes);
            if check::check(&bytes) == Verdict::Refused(reasons.0) {
                self.tally.count(&twice_damaged_name(&format!("record of kind {}", kind), reasons));
            }
        }
    }

    /// A record cut at each length, and with each single bit changed.
    fn cut_and_changed(&mut self, bytes: &[u8]) {
        for length in 0..bytes.len() {
            self.check_record(&bytes[..length]);
            self.tally.count("check: record cut at each length");
        }
        for at in 0..bytes.len() {
            for bit in 0..8 {
                let mut changed = bytes.to_vec();
                changed[at] ^= 1 << bit;
                self.check_record(&changed);
                self.tally.count("check: record with each bit changed");
            }
        }
    }
}
