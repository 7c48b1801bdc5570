//! Compares hookup_join: the number, every byte of the output buffer, and that nothing else is written.

use crate::internal;
use crate::kind::{self, LEAST_OF_KINDS, LEAST_OF_SIDES};
use crate::label;
use crate::product::{self, Lent};
use crate::report::differ;
use crate::{all_examples, Comparison, LEAST, LEAST_OF_MAIN};
use second::cases;
use second::category::Tally;
use second::category_join;
use second::category_limited_calls;
use second::category_list_calls;
use second::check::{self, Verdict};
use second::examples;
use second::explain::EXPLANATION;
use second::join::{self, JoinAnswer, Side};
use second::make::{self, Clash, PairPlan};
use second::record::{self, longest, Part};
use second::replay::hex;

const LIMITS: &str = "join: joined, its limit held against those of A and B";

pub fn need(tally: &mut Tally) {
    for name in category_join::names() {
        let least = if category_join::is_main(&name) { LEAST_OF_MAIN } else { LEAST };
        tally.need(&format!("join: {}", name), least);
    }
    tally.need("join: joined, A and B at one address", LEAST);
    tally.need(LIMITS, LEAST_OF_MAIN);
    label::need(tally, "join: A", LEAST);
    label::need(tally, "join: B", LEAST);
    internal::need(tally, "join: A", LEAST);
    internal::need(tally, "join: B", LEAST);
    kind::need(tally, "join: A", LEAST_OF_SIDES);
    kind::need(tally, "join: B", LEAST_OF_SIDES);
    for name in category_list_calls::join_names().into_iter().chain(category_limited_calls::join_names()) {
        tally.need(&format!("join: {}", name), LEAST_OF_KINDS);
    }
}

/// Check's verdicts on A and B, by the answer; none on B where A stopped the join.
fn verdicts_of(answer: JoinAnswer) -> (Verdict, Option<Verdict>) {
    match answer {
        JoinAnswer::Stopped(Side::A, verdict) => (verdict, None),
        JoinAnswer::Stopped(Side::B, verdict) => (Verdict::Pass, Some(verdict)),
        _ => (Verdict::Pass, Some(Verdict::Pass)),
    }
}

impl Comparison {
    /// One call of hookup_join with an output buffer of that length: its number, every byte of the buffer, nothing
    /// written elsewhere.
    pub fn join_pair(&mut self, a: &[u8], b: &[u8], room: usize) {
        let before = self.pattern(room);
        let mut expected_out = before.clone();
        let answer = join::join(a, b, &mut expected_out);
        let expected = join::number(answer);

        let lent_a = Lent::new(&mut self.rng, a);
        let lent_b = Lent::new(&mut self.rng, b);
        let one_address = a == b && self.rng.chance(1, 2);
        let given_b = if one_address { &lent_a } else { &lent_b };
        let mut out = Lent::new(&mut self.rng, &before);
        self.count_call("hookup_join");
        let got = product::join(&lent_a, given_b, &mut out);

        let room_bytes = (room as u32).to_le_bytes();
        let inputs: [(&str, &[u8]); 3] = [("A", a), ("B", b), ("length of the buffer, little-endian", &room_bytes)];
        if got != expected {
            differ("hookup_join", &inputs, &expected.to_string(), &got.to_string());
        }
        if out.content() != &expected_out[..] {
            differ("hookup_join, output buffer", &inputs, &hex(&expected_out), &hex(out.content()));
        }
        if !out.guards_are_unchanged() {
            differ("hookup_join wrote outside the output buffer", &inputs, "unchanged", &hex(out.whole()));
        }
        if !lent_a.is_unchanged() || !lent_b.is_unchanged() {
            differ("hookup_join wrote to a record", &inputs, "unchanged", "changed");
        }

        for name in category_join::of_join(a, b, room, answer) {
            self.tally.count(&format!("join: {}", name));
        }
        let (verdict_a, verdict_b) = verdicts_of(answer);
        self.count_labels("join: A", a);
        self.count_internal("join: A", a, verdict_a);
        self.count_kinds("join: A", a, verdict_a);
        if let Some(verdict) = verdict_b {
            self.count_labels("join: B", b);
            self.count_internal("join: B", b, verdict);
            self.count_kinds("join: B", b, verdict);
        }
        self.count_names("join:", category_list_calls::of_join(a, b, room, answer));
        self.count_names("join:", category_limited_calls::of_join(a, b, room, answer));
        if let JoinAnswer::Length(length) = answer {
            self.joined_passes(&inputs, &expected_out[..length]);
            self.limits_multiply(&inputs, [a, b, &expected_out[..length]]);
        }
        if one_address && expected == 0 {
            self.tally.count("join: joined, A and B at one address");
        }
    }

    /// The joined record passes, by the second checker and by the product.
    fn joined_passes(&mut self, inputs: &[(&str, &[u8])], joined: &[u8]) {
        let expected = check::number(check::check(joined));
        let got = product::check(&Lent::new(&mut self.rng, joined));
        if expected != 0 || got != 0 {
            differ("hookup_check of the joined record", inputs, &expected.to_string(), &got.to_string());
        }
    }

    /// The limits of A and B, multiplied, are the limit of the joined record, by the second checker and by the product.
    fn limits_multiply(&mut self, inputs: &[(&str, &[u8])], records: [&[u8]; 3]) {
        let expected = records.map(|bytes| record::read(bytes).unwrap().limit() as u64);
        let got = records.map(|bytes| self.limit_of(bytes));
        if expected != got || expected[0] * expected[1] != expected[2] {
            let what = "hookup_explain's limits of A, of B and of the joined record";
            differ(what, inputs, &format!("{:?}", expected), &format!("{:?}", got));
        }
        self.tally.count(LIMITS);
    }

    /// The limit that the product tells of a passing record.
    fn limit_of(&mut self, bytes: &[u8]) -> u64 {
        let lent = Lent::new(&mut self.rng, bytes);
        let mut out = Lent::new(&mut self.rng, &[0; EXPLANATION]);
        product::explain(&lent, &mut out);
        u64::from_le_bytes(out.content()[EXPLANATION - 8..].try_into().unwrap())
    }

    pub fn join_parts(&mut self, a: &Part, b: &Part) {
        let record_a = record::write(a);
        let record_b = record::write(b);
        let room = self.room_for(&record_a, &record_b);
        self.join_pair(&record_a, &record_b, room);
    }

    /// A buffer length: just enough, one short, none, some bytes more, or the longest record's.
    fn room_for(&mut self, a: &[u8], b: &[u8]) -> usize {
        let mut out = vec![0; longest()];
        let needed = match join::join(a, b, &mut out) {
            JoinAnswer::Length(length) => length,
            _ => 40,
        };
        match self.rng.below(8) {
            0 => 0,
            1 => needed - 1,
            2 => self.rng.below(needed),
            3 | 4 => needed,
            5 => needed + 1,
            6 => needed + self.rng.below(300),
            _ => longest(),
        }
    }

    pub fn plan(&mut self, na: usize, nb: usize) -> PairPlan {
        PairPlan {
            na,
            nb,
            only_a: self.rng.range(0, 3),
            only_b: self.rng.range(0, 3),
            shared: self.rng.range(1, 4),
            clash: Clash::None,
            observers_differ: false,
        }
    }

    pub fn all_joins(&mut self) {
        let examples = all_examples();
        for a in &examples {
            for b in &examples {
                for room in [0, 10, 11, 14, 51, 52, 55, 56, longest()] {
                    self.join_pair(a, b, room);
                }
            }
        }
        self.join_examples_of_size();

        // Pairs that join, of many shapes.
        for _ in 0..2500 {
            let (a, b) = make::joinable_pair(&mut self.rng);
            self.join_parts(&a, &b);
        }
        for round in 0..12 * LEAST {
            let (na, nb) = [(64, 1), (1, 64), (8, 8), (1, 1)][round % 4];
            let mut plan = self.plan(na, nb);
            if na == 1 && nb == 1 && self.rng.chance(1, 2) {
                plan.only_a = 0;
                plan.only_b = 0;
                plan.shared = 0;
            }
            let (a, b) = make::pair(&mut self.rng, plan);
            self.join_parts(&a, &b);
        }
        // 32 and 33 merged entries.
        for round in 0..5 * LEAST {
            let total = if round % 2 == 0 { 32 } else { 33 };
            let shared = self.rng.range(0, 8);
            let only_a = self.rng.range(total - 32, 32 - shared);
            let only_a = only_a.min(total - shared);
            let only_b = total - shared - only_a;
            let (na, nb) = if round % 4 == 0 { (8, 8) } else { (self.rng.range(1, 4), self.rng.range(1, 4)) };
            if only_a + shared > 32 || only_b + shared > 32 {
                continue;
            }
            let plan = PairPlan { na, nb, only_a, only_b, shared, clash: Clash::None, observers_differ: false };
            let (a, b) = make::pair(&mut self.rng, plan);
            if round % 4 == 0 {
                // The longest joined record of kind 1.
                self.join_pair(&record::write(&a), &record::write(&b), longest() + round % 3);
            } else {
                self.join_parts(&a, &b);
            }
        }
        // A part without events, joined with itself.
        for _ in 0..4 * LEAST {
            let n = self.rng.range(1, 8);
            let k = self.rng.range(1, n);
            let classes = make::grouping(&mut self.rng, n, k);
            let start = self.rng.below(n);
            let observer = make::any_level(&mut self.rng);
            let bytes = record::write(&Part::without_steps(observer, start, classes, Vec::new()));
            self.join_pair(&bytes, &bytes, 4 + n * n + 6);
        }

        // Refusals 9, 10 and 11, alone and together.
        for round in 0..30 * LEAST {
            let (na, nb) = match round % 4 {
                0 => (64, 2),
                1 => (self.rng.range(9, 13), self.rng.range(8, 12)),
                _ => (self.rng.range(1, 5), self.rng.range(1, 5)),
            };
            let mut plan = self.plan(na, nb);
            plan.observers_differ = round % 3 == 0;
            plan.clash = [Clash::Kind, Clash::Level, Clash::None][self.rng.below(3)];
            if round % 4 < 2 && self.rng.chance(1, 2) {
                // Few events keep the large ones quick.
                plan.only_a = 0;
                plan.only_b = 0;
            }
            let (a, b) = make::pair(&mut self.rng, plan);
            self.join_parts(&a, &b);
        }

        // One clash of each pair of kinds.
        for _ in 0..10 * LEAST {
            let na = self.rng.range(1, 3);
            let nb = self.rng.range(1, 3);
            let mut plan = self.plan(na, nb);
            plan.shared = 1;
            plan.clash = Clash::Kind;
            let (a, b) = make::pair(&mut self.rng, plan);
            self.join_parts(&a, &b);
        }
        // 11 with and without room.
        for round in 0..3 * LEAST {
            let (na, nb) = if round % 3 == 0 { (64, 2) } else { (self.rng.range(5, 9), self.rng.range(13, 20)) };
            let mut plan = self.plan(na, nb);
            plan.only_a = 1;
            plan.shared = 1;
            let (a, b) = make::pair(&mut self.rng, plan);
            let room = if round % 2 == 0 { 0 } else { longest() };
            self.join_pair(&record::write(&a), &record::write(&b), room);
        }
        // 64 classes.
        for round in 0..2 * LEAST {
            let (na, nb) = [(8, 8), (64, 1), (1, 64), (16, 4)][round % 4];
            let plan = self.plan(na, nb);
            let (mut a, mut b) = make::pair(&mut self.rng, plan);
            a = make::regrouped(&mut self.rng, &a);
            b = make::regrouped(&mut self.rng, &b);
            let room = longest() - self.rng.below(2) * 50;
            self.join_pair(&record::write(&a), &record::write(&b), room);
        }

        // A or B refused or broken.
        let mut bad = cases::refused(&mut self.rng, LEAST);
        bad.extend(cases::breaking(&mut self.rng, LEAST / 3));
        for bytes in &bad {
            let part = make::any_passing(&mut self.rng);
            let good = record::write(&part);
            let room = self.rng.pick(&[0, 100, longest()]);
            self.join_pair(bytes, &good, room);
            self.join_pair(&good, bytes, room);
            let other = bad[self.rng.below(bad.len())].clone();
            self.join_pair(bytes, &other, room);
        }
        // A or B with bad levels or with internal events, the other passing.
        let mut records = cases::mislabelled(&mut self.rng, LEAST);
        records.extend(cases::internal(&mut self.rng, LEAST));
        for bytes in records {
            let good = record::write(&make::any_passing(&mut self.rng));
            let room = self.rng.pick(&[0, 100, longest()]);
            self.join_pair(&bytes, &good, room);
            self.join_pair(&good, &bytes, room);
        }
        for _ in 0..1000 {
            let a = make::bad_record(&mut self.rng);
            let b = make::bad_record(&mut self.rng);
            let room = self.rng.below(200);
            self.join_pair(&a, &b, room);
        }
        self.joins_of_lists();
        self.joins_of_limited();
    }

    /// Document 01's examples of size.
    fn join_examples_of_size(&mut self) {
        let z = examples::z();
        let with_64 = examples::without_events(64);
        self.join_pair(&with_64, &z, longest());
        self.join_pair(&z, &with_64, longest());
        self.join_pair(&with_64, &examples::without_events(2), longest());
        self.join_pair(&examples::without_events(8), &examples::without_events(8), longest());
        self.join_pair(&examples::outputs(0, 16), &examples::outputs(16, 16), longest());
        self.join_pair(&examples::outputs(0, 16), &examples::outputs(16, 17), longest());
        self.join_pair(&examples::outputs(0, 32), &examples::outputs(32, 1), longest());
    }
}
