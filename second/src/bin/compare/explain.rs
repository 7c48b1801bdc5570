//! Compares hookup_explain: the number, every byte of the output buffer, and that nothing else is written. Its number is
//! also held against hookup_check's.

use crate::internal;
use crate::kind::{self, LEAST_OF_KINDS};
use crate::label;
use crate::product::{self, Lent};
use crate::report::differ;
use crate::{all_examples, Comparison, LEAST, LEAST_OF_MAIN, MOST_TRIES};
use second::cases;
use second::category::Tally;
use second::category_explain::{self, break_of};
use second::category_limited_calls;
use second::category_list_calls;
use second::check::{self, Verdict};
use second::examples;
use second::explain::{self, ExplainAnswer, EXPLANATION};
use second::make::{self, Role, Shape, Wanted, QUIET_ROLES, ROLES, SHAPES};
use second::record::{self, Part};
use second::replay::hex;

const WITH_EACH_GROUPING: &str =
    "explain: each table of quiet steps of up to 3 states, with each grouping, by each quiet event";
const PAIRS_OF_TABLES: &str =
    "explain: each two tables of 2 states, with each grouping, by each quiet event and each event";

/// The groupings of one, two and three states.
const GROUPINGS: [&[&[u8]]; 3] =
    [&[&[0]], &[&[0, 0], &[0, 1]], &[&[0, 0, 0], &[0, 0, 1], &[0, 1, 0], &[0, 1, 1], &[0, 1, 2]]];

pub fn need(tally: &mut Tally) {
    for name in category_explain::names() {
        let least = if category_explain::is_main(&name) { LEAST_OF_MAIN } else { LEAST };
        tally.need(&format!("explain: {}", name), least);
    }
    for earlier in cases::earlier_refusals() {
        tally.need(&twice_damaged_name(earlier), LEAST);
    }
    label::need(tally, "explain:", LEAST);
    internal::need(tally, "explain:", LEAST);
    kind::need(tally, "explain:", LEAST_OF_KINDS);
    for name in category_list_calls::explain_names().into_iter().chain(category_limited_calls::explain_names()) {
        tally.need(&format!("explain: {}", name), LEAST_OF_KINDS);
    }
    tally.need(WITH_EACH_GROUPING, 3 * (2 + 2 * 16 + 5 * 512));
    tally.need(PAIRS_OF_TABLES, 3 * 6 * 16 * 16 * 2);
    tally.need("explain: record cut at each length", LEAST);
    tally.need("explain: record with each bit changed", LEAST_OF_MAIN);
    tally.need("explain: record at a null pointer", LEAST);
    tally.need("explain: buffer at a null pointer", LEAST);
}

fn twice_damaged_name(earlier: u32) -> String {
    format!("explain: refused {}, damaged for a later refusal too", earlier)
}

impl Comparison {
    /// One call of hookup_explain with an output buffer of that length: its number, every byte of the buffer, nothing
    /// written elsewhere; then one of hookup_check with the same record.
    pub fn explain(&mut self, bytes: &[u8], room: usize) {
        let before = self.pattern(room);
        let mut expected_out = before.clone();
        let answer = explain::explain(bytes, &mut expected_out);
        let expected = explain::number(answer);

        let lent = Lent::new(&mut self.rng, bytes);
        let mut out = Lent::new(&mut self.rng, &before);
        self.count_call("hookup_explain");
        let got = product::explain(&lent, &mut out);

        let room_bytes = (room as u32).to_le_bytes();
        let inputs: [(&str, &[u8]); 2] = [("record", bytes), ("length of the buffer, little-endian", &room_bytes)];
        if got != expected {
            differ("hookup_explain", &inputs, &expected.to_string(), &got.to_string());
        }
        if out.content() != &expected_out[..] {
            differ("hookup_explain, output buffer", &inputs, &hex(&expected_out), &hex(out.content()));
        }
        if !out.guards_are_unchanged() {
            differ("hookup_explain wrote outside the output buffer", &inputs, "unchanged", &hex(out.whole()));
        }
        if !lent.is_unchanged() {
            differ("hookup_explain wrote to the record", &inputs, "unchanged", "changed");
        }
        let checked = product::check(&lent);
        if !answers_agree(got, checked, room) {
            let answers = format!("hookup_explain {}, hookup_check {}", got, checked);
            differ("hookup_explain and hookup_check", &inputs, "one answer", &answers);
        }

        for name in category_explain::of_explain(bytes, room, answer) {
            self.tally.count(&format!("explain: {}", name));
        }
        self.count_labels("explain:", bytes);
        let verdict = verdict_of(bytes, answer);
        self.count_internal("explain:", bytes, verdict);
        self.count_kinds("explain:", bytes, verdict);
        self.count_names("explain:", category_list_calls::of_explain(bytes, answer));
        self.count_names("explain:", category_limited_calls::of_explain(bytes, answer));
        if lent.is_null() {
            self.tally.count("explain: record at a null pointer");
        }
        if out.is_null() {
            self.tally.count("explain: buffer at a null pointer");
        }
    }

    fn explain_record(&mut self, bytes: &[u8]) {
        let room = self.room_for_explanation();
        self.explain(bytes, room);
    }

    fn explain_part(&mut self, part: &Part) {
        self.explain_record(&record::write(part));
    }

    /// A buffer length: just enough, one short, none, one more, or some bytes more.
    fn room_for_explanation(&mut self) -> usize {
        match self.rng.below(16) {
            0 => 0,
            1 => EXPLANATION - 1,
            2 => self.rng.below(EXPLANATION),
            3..=7 => EXPLANATION,
            8..=10 => EXPLANATION + 1,
            _ => EXPLANATION + self.rng.below(300),
        }
    }

    pub fn all_explanations(&mut self) {
        for bytes in all_examples() {
            for room in [0, 1, 8, 63, 64, 65, 72, 128, 1000] {
                self.explain(&bytes, room);
            }
            self.explanations_cut_and_changed(&bytes);
        }
        for n in [1, 2, 63, 64] {
            self.explain(&examples::without_events(n), EXPLANATION);
        }
        self.each_small_grouped_table();
        self.each_two_small_tables();
        self.explanations_of_passing_parts();
        self.explanations_of_broken_parts();
        self.explanations_of_refused_records();
        self.explanations_of_lists();
        self.explanations_of_limited();
    }

    /// Every table of quiet steps of up to three states with every grouping, as the steps of one quiet event: a high
    /// output, a low internal event and a high one.
    fn each_small_grouped_table(&mut self) {
        for role in QUIET_ROLES {
            for n in 1..=3 {
                for chosen in 0..1usize << (n * n) {
                    for classes in GROUPINGS[n - 1] {
                        let part = self.part_of_tables(classes, &[(role, chosen)]);
                        self.explain_with_room(&part);
                        self.tally.count(WITH_EACH_GROUPING);
                    }
                }
            }
        }
    }

    /// Every two tables of two states, one of each quiet event and one of each event, with both groupings.
    fn each_two_small_tables(&mut self) {
        for quiet in QUIET_ROLES {
            for other in ROLES {
                for chosen in 0..256 {
                    for classes in GROUPINGS[1] {
                        let part = self.part_of_tables(classes, &[(quiet, chosen % 16), (other, chosen / 16)]);
                        self.explain_with_room(&part);
                        self.tally.count(PAIRS_OF_TABLES);
                    }
                }
            }
        }
    }

    /// A part with an event for each table; bit s x n + t of a table is set where it leads from s to t.
    fn part_of_tables(&mut self, classes: &[u8], tables: &[(Role, usize)]) -> Part {
        let n = classes.len();
        let observer = make::observer(&mut self.rng);
        let identifiers = make::identifiers(&mut self.rng, tables.len());
        let mut events = Vec::new();
        for (i, &(role, _)) in tables.iter().enumerate() {
            events.push(make::event(&mut self.rng, observer, identifiers[i], role));
        }
        let mut part = Part::without_steps(observer, self.rng.below(n), classes.to_vec(), events);
        for (e, &(_, chosen)) in tables.iter().enumerate() {
            for i in 0..n * n {
                part.steps[e][i / n][i % n] = (chosen >> i) & 1 == 1;
            }
        }
        part
    }

    fn explain_with_room(&mut self, part: &Part) {
        let room = EXPLANATION + self.rng.below(3);
        self.explain(&record::write(part), room);
    }

    /// Parts that pass, with quiet steps of each shape, and of each size.
    fn explanations_of_passing_parts(&mut self) {
        for round in 0..6000 {
            let n = if round % 9 == 0 { 1 } else { self.rng.range(2, 10) };
            let m = self.rng.range(0, 5);
            let shape = SHAPES[round % SHAPES.len()];
            let part = make::passing_shaped(&mut self.rng, shape, n, m, round % 2 == 0);
            self.explain_part(&part);
        }
        for _ in 0..1500 {
            let part = make::any_passing(&mut self.rng);
            self.explain_part(&part);
            let part = make::passing_with_quiet_steps(&mut self.rng);
            self.explain_part(&part);
        }
        for round in 0..LEAST {
            let part = self.stays_alone();
            self.explain_with_room(&part);
            let shape = SHAPES[round % SHAPES.len()];
            let part = make::passing_shaped(&mut self.rng, shape, 64, 32, round % 2 == 0);
            self.explain_with_room(&part);
            let part = make::passing_shaped(&mut self.rng, Shape::Circle, 64, 1, round % 2 == 0);
            self.explain_with_room(&part);
            let part = make::passing_shaped(&mut self.rng, Shape::Empty, 64, 1, round % 2 == 0);
            self.explain_with_room(&part);
        }
    }

    /// A passing part of two states or more whose quiet steps all stay, with a step in one state at least.
    fn stays_alone(&mut self) -> Part {
        let n = self.rng.range(2, 9);
        let one_class = self.rng.chance(1, 2);
        let m = self.rng.range(1, 3);
        let mut part = make::passing_shaped(&mut self.rng, Shape::Empty, n, m, one_class);
        let quiet = (0..m).find(|&e| part.view(0).is_quiet(e)).unwrap();
        for _ in 0..self.rng.range(1, n) {
            let s = self.rng.below(n);
            part.steps[quiet][s][s] = true;
        }
        part
    }

    /// Parts that break each rule, in rooms of each length, and rules 4 and 5 with quiet steps of each shape.
    fn explanations_of_broken_parts(&mut self) {
        for round in 0..120 * LEAST {
            let n = if round % 60 == 0 { 64 } else { self.rng.range(3, 9) };
            let m = self.rng.range(3, 6);
            if let Some(part) = self.breaking(round as u32 % 5 + 1, n, m) {
                self.explain_part(&part);
            }
        }
        for rule in 1..=5 {
            for _ in 0..3 * LEAST {
                if let Some(part) = self.breaking(rule, 5, 4) {
                    let bytes = record::write(&part);
                    self.explain(&bytes, 0);
                    self.explain(&bytes, EXPLANATION - 1);
                }
            }
        }
        for round in 0..6000 {
            let n = self.rng.range(2, 9);
            let m = self.rng.range(1, 4);
            let shape = SHAPES[round % SHAPES.len()];
            let part = make::shaped_without_inputs(&mut self.rng, shape, n, m);
            self.explain_part(&part);
            let part = make::shaped(&mut self.rng, shape, n, m);
            self.explain_part(&part);
            if round % 3 == 0 {
                let other = make::with_near_levels(&mut self.rng, &part);
                self.explain_part(&other);
            }
        }
        for _ in 0..6 * LEAST {
            let part = cases::one_state_without_a_step(&mut self.rng);
            self.explain_part(&part);
        }
        for round in 0..3 * LEAST {
            let n = self.rng.range(34, 50);
            let part = make::cut_line(&mut self.rng, n);
            self.explain_with_room(&part);
            let n = self.rng.range(20, 40);
            let part = make::shaped_without_inputs(&mut self.rng, SHAPES[round % SHAPES.len()], n, 2);
            self.explain_with_room(&part);
        }
        for round in 0..LEAST * 3 / 2 {
            let shape = self.rng.pick(&SHAPES);
            let maker = if round % 2 == 0 { make::shaped } else { make::shaped_without_inputs };
            let part = maker(&mut self.rng, shape, 64, 32);
            self.explain_with_room(&part);
        }
    }

    /// A part that is meant to break this rule first, at any places.
    fn breaking(&mut self, rule: u32, n: usize, m: usize) -> Option<Part> {
        let wanted = Wanted::anywhere(&mut self.rng, rule);
        make::breaking(&mut self.rng, wanted, n, m)
    }

    /// Refused records, with no room, with some, and with more than enough.
    fn explanations_of_refused_records(&mut self) {
        for bytes in cases::refused(&mut self.rng, LEAST) {
            for room in [0, EXPLANATION - 1, EXPLANATION, EXPLANATION + 1] {
                self.explain(&bytes, room);
            }
        }
        for bytes in cases::mislabelled(&mut self.rng, LEAST) {
            self.explain_record(&bytes);
        }
        for bytes in cases::internal(&mut self.rng, LEAST / 4) {
            self.explain(&bytes, EXPLANATION);
        }
        for _ in 0..MOST_TRIES {
            if !cases::earlier_refusals().into_iter().any(|earlier| self.tally.lacks(&twice_damaged_name(earlier))) {
                break;
            }
            let (bytes, (earlier, later)) = cases::twice_damaged(&mut self.rng);
            self.explain_record(&bytes);
            if later.is_some() && record::first_refusal(&bytes) == Some(earlier) {
                self.tally.count(&twice_damaged_name(earlier));
            }
        }
        for _ in 0..1000 {
            let bytes = make::bad_record(&mut self.rng);
            self.explain_record(&bytes);
        }
        for _ in 0..4 * LEAST {
            self.explain_record(&[]);
        }
    }

    /// A record cut at each length, and with each single bit changed.
    fn explanations_cut_and_changed(&mut self, bytes: &[u8]) {
        for length in 0..bytes.len() {
            self.explain_record(&bytes[..length]);
            self.tally.count("explain: record cut at each length");
        }
        for at in 0..bytes.len() {
            for bit in 0..8 {
                let mut changed = bytes.to_vec();
                changed[at] ^= 1 << bit;
                self.explain_record(&changed);
                self.tally.count("explain: record with each bit changed");
            }
        }
    }
}

/// Check's verdict on the record, by the answer where it tells.
fn verdict_of(bytes: &[u8], answer: ExplainAnswer) -> Verdict {
    match answer {
        ExplainAnswer::Refused(15) => check::check(bytes),
        ExplainAnswer::Refused(number) => Verdict::Refused(number),
        ExplainAnswer::Explained(explanation) => match break_of(&explanation) {
            None => Verdict::Pass,
            Some(found) => Verdict::Breaks(found),
        },
    }
}

/// The C header: hookup_explain answers what hookup_check answers, but 15 for a pass or a break without room.
fn answers_agree(explained: u32, checked: u32, room: usize) -> bool {
    if (checked == 0 || checked > 100) && room < EXPLANATION {
        return explained == 15;
    }
    explained == checked
}
