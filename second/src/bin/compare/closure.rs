//! Compares hookup_closure: the number, every byte of the output buffer, and that nothing else is written. On all small
//! tables, and on joined parts, hookup_explain is compared too.

use crate::kind::{self, LEAST_OF_KINDS};
use crate::label;
use crate::product::{self, Lent};
use crate::report::differ;
use crate::{all_examples, Comparison, LEAST, LEAST_OF_MAIN, MOST_TRIES};
use second::cases;
use second::category::Tally;
use second::category_closure;
use second::category_internal;
use second::category_join::shared_low_event_adds;
use second::category_limited_calls;
use second::category_list_calls;
use second::check;
use second::closure::{self, LONGEST, PIECE};
use second::examples;
use second::explain::EXPLANATION;
use second::join;
use second::make::{self, Shape, SHAPES};
use second::record::{self, Part};
use second::replay::hex;

const UP_TO_3_STATES: &str = "closure and explain: each table of quiet steps of up to 3 states";
const OF_4_STATES: &str = "closure and explain: each table of quiet steps of 4 states, none that stays";
const JOINED: &str = "closure and explain: joined part, a shared low event adds to a quiet reach";

pub fn need(tally: &mut Tally) {
    for name in category_closure::names() {
        let least = if category_closure::is_main(&name) { LEAST_OF_MAIN } else { LEAST };
        tally.need(&format!("closure: {}", name), least);
    }
    for earlier in cases::earlier_refusals() {
        tally.need(&twice_damaged_name(earlier), LEAST);
    }
    label::need(tally, "closure:", LEAST);
    kind::need(tally, "closure:", LEAST_OF_KINDS);
    for name in category_list_calls::closure_names().into_iter().chain(category_limited_calls::closure_names()) {
        tally.need(&format!("closure: {}", name), LEAST_OF_KINDS);
    }
    tally.need(UP_TO_3_STATES, 2 + 16 + 512);
    tally.need(OF_4_STATES, 4096);
    tally.need(JOINED, LEAST);
    tally.need("closure: record cut at each length", LEAST);
    tally.need("closure: record with each bit changed", LEAST_OF_MAIN);
    tally.need("closure: record at a null pointer", LEAST);
    tally.need("closure: buffer at a null pointer", LEAST);
}

fn twice_damaged_name(earlier: u32) -> String {
    format!("closure: refused {}, damaged for a later refusal too", earlier)
}

impl Comparison {
    /// One call of hookup_closure with an output buffer of that length: its number, every byte of the buffer, nothing
    /// written elsewhere.
    pub fn close(&mut self, bytes: &[u8], room: usize) {
        let before = self.pattern(room);
        let mut expected_out = before.clone();
        let answer = closure::closure(bytes, &mut expected_out);
        let expected = closure::number(answer);

        let lent = Lent::new(&mut self.rng, bytes);
        let mut out = Lent::new(&mut self.rng, &before);
        self.count_call("hookup_closure");
        let got = product::closure(&lent, &mut out);

        let room_bytes = (room as u32).to_le_bytes();
        let inputs: [(&str, &[u8]); 2] = [("record", bytes), ("length of the buffer, little-endian", &room_bytes)];
        if got != expected {
            differ("hookup_closure", &inputs, &expected.to_string(), &got.to_string());
        }
        if out.content() != &expected_out[..] {
            differ("hookup_closure, output buffer", &inputs, &hex(&expected_out), &hex(out.content()));
        }
        if !out.guards_are_unchanged() {
            differ("hookup_closure wrote outside the output buffer", &inputs, "unchanged", &hex(out.whole()));
        }
        if !lent.is_unchanged() {
            differ("hookup_closure wrote to the record", &inputs, "unchanged", "changed");
        }

        let verdict = check::check(bytes);
        for name in category_closure::of_closure(bytes, room, answer, verdict) {
            self.tally.count(&format!("closure: {}", name));
        }
        self.count_labels("closure:", bytes);
        self.count_kinds("closure:", bytes, verdict);
        self.count_names("closure:", category_list_calls::of_closure(bytes, room, answer));
        self.count_names("closure:", category_limited_calls::of_closure(bytes, room, answer));
        if let Some(judged) = category_internal::judged(bytes, verdict) {
            self.still_passes(bytes, &judged);
        }
        if lent.is_null() {
            self.tally.count("closure: record at a null pointer");
        }
        if out.is_null() {
            self.tally.count("closure: buffer at a null pointer");
        }
    }

    pub fn close_record(&mut self, bytes: &[u8]) {
        let room = self.room_for_closures(bytes);
        self.close(bytes, room);
    }

    fn close_part(&mut self, part: &Part) {
        self.close_record(&record::write(part));
    }

    /// A buffer length: just enough, one short, none, one more, some bytes more, or that of the longest closures.
    fn room_for_closures(&mut self, bytes: &[u8]) -> usize {
        let needed = match record::read(bytes) {
            Ok(part) => closure::length(&part),
            Err(_) => PIECE,
        };
        match self.rng.below(16) {
            0 => 0,
            1 => needed - 1,
            2 => self.rng.below(needed),
            3..=6 => needed,
            7..=9 => needed + 1,
            10..=13 => needed + self.rng.below(300),
            _ => LONGEST + self.rng.below(2),
        }
    }

    pub fn all_closures(&mut self) {
        for bytes in all_examples() {
            for pieces in 1..=5 {
                for room in [PIECE * pieces - 1, PIECE * pieces, PIECE * pieces + 1] {
                    self.close(&bytes, room);
                }
            }
            self.close(&bytes, 0);
            self.close(&bytes, LONGEST);
            self.closures_cut_and_changed(&bytes);
        }
        for n in [1, 2, 63, 64] {
            let bytes = examples::without_events(n);
            for room in [PIECE * n - 1, PIECE * n, PIECE * n + 1] {
                self.close(&bytes, room);
            }
        }
        self.each_small_table();
        self.closures_by_shape();
        self.closures_by_rule();
        self.closures_of_joined_parts();
        self.closures_of_refused_records();
        self.closures_of_lists();
        self.closures_of_limited();
    }

    /// Quiet steps of each shape, in parts of each size; some again for another observer.
    fn closures_by_shape(&mut self) {
        for round in 0..15_000 {
            let n = self.rng.range(1, 12);
            let m = self.rng.range(0, 7);
            let part = make::shaped(&mut self.rng, SHAPES[round % SHAPES.len()], n, m);
            self.close_part(&part);
            if round % 3 == 0 {
                let other = make::with_near_levels(&mut self.rng, &part);
                self.close_part(&other);
            }
        }
        for round in 0..1500 {
            let n = self.rng.range(13, 63);
            let m = self.rng.range(1, 5);
            let part = make::shaped(&mut self.rng, SHAPES[round % SHAPES.len()], n, m);
            self.close_part(&part);
        }
        for round in 0..8 * LEAST {
            let m = self.rng.range(1, 4);
            let shapes = [Shape::LineDown, Shape::LineUp, Shape::Line, Shape::Some, Shape::StarOut];
            let shape = if round % 6 == 5 { self.rng.pick(&SHAPES) } else { shapes[round % 6] };
            let part = make::shaped(&mut self.rng, shape, 64, m);
            self.close_part(&part);
        }
        for round in 0..3 * LEAST {
            let n = if round % 2 == 0 { self.rng.range(1, 8) } else { 64 };
            let part = make::shaped(&mut self.rng, SHAPES[round % SHAPES.len()], n, 32);
            self.close_part(&part);
        }
    }

    /// Parts that pass, and parts made to break a rule.
    fn closures_by_rule(&mut self) {
        for _ in 0..1000 {
            let part = make::any_passing(&mut self.rng);
            self.close_part(&part);
            let part = make::passing_with_quiet_steps(&mut self.rng);
            self.close_part(&part);
        }
        for bytes in cases::breaking(&mut self.rng, LEAST / 3) {
            self.close_record(&bytes);
        }
    }

    /// Joined parts, in which shared events are quiet; their explanations are compared too.
    fn closures_of_joined_parts(&mut self) {
        for _ in 0..4 * LEAST {
            let (a, b) = make::joinable_pair(&mut self.rng);
            let bytes = join::joined_record(&a, &b);
            let joined = record::read(&bytes).unwrap();
            self.close(&bytes, closure::length(&joined));
            self.explain(&bytes, EXPLANATION);
            if shared_low_event_adds(&a, &b, joined.view(0)) {
                self.tally.count(JOINED);
            }
        }
    }

    /// Refused records, with no room, with some, and with more than enough.
    fn closures_of_refused_records(&mut self) {
        for bytes in cases::refused(&mut self.rng, 2 * LEAST) {
            for room in [0, PIECE - 1, LONGEST, LONGEST + 1] {
                self.close(&bytes, room);
            }
            self.close_record(&bytes);
        }
        for bytes in cases::mislabelled(&mut self.rng, LEAST) {
            self.close_record(&bytes);
        }
        for _ in 0..MOST_TRIES {
            if !cases::earlier_refusals().into_iter().any(|earlier| self.tally.lacks(&twice_damaged_name(earlier))) {
                break;
            }
            let (bytes, (earlier, later)) = cases::twice_damaged(&mut self.rng);
            self.close_record(&bytes);
            if later.is_some() && record::first_refusal(&bytes) == Some(earlier) {
                self.tally.count(&twice_damaged_name(earlier));
            }
        }
        for _ in 0..1000 {
            let bytes = make::bad_record(&mut self.rng);
            self.close_record(&bytes);
        }
        for _ in 0..4 * LEAST {
            self.close_record(&[]);
        }
    }

    /// Every table of quiet steps of up to three states, and of four where no step stays in its state.
    fn each_small_table(&mut self) {
        for n in 1..=3 {
            let places: Vec<(usize, usize)> = (0..n * n).map(|i| (i / n, i % n)).collect();
            self.each_table(n, &places, UP_TO_3_STATES);
        }
        let places: Vec<(usize, usize)> = (0..16).map(|i| (i / 4, i % 4)).filter(|(s, t)| s != t).collect();
        self.each_table(4, &places, OF_4_STATES);
    }

    /// Every table of n states with steps at some of these places and nowhere else.
    fn each_table(&mut self, n: usize, places: &[(usize, usize)], name: &str) {
        for chosen in 0..1usize << places.len() {
            let mut table = vec![vec![false; n]; n];
            for (i, &(s, t)) in places.iter().enumerate() {
                table[s][t] = (chosen >> i) & 1 == 1;
            }
            let m = self.rng.range(1, 3);
            let part = make::with_quiet_steps(&mut self.rng, &table, m);
            let bytes = record::write(&part);
            self.close(&bytes, PIECE * n);
            self.explain(&bytes, EXPLANATION);
            self.tally.count(name);
        }
    }

    /// A record cut at each length, and with each single bit changed.
    fn closures_cut_and_changed(&mut self, bytes: &[u8]) {
        for length in 0..bytes.len() {
            self.close_record(&bytes[..length]);
            self.tally.count("closure: record cut at each length");
        }
        for at in 0..bytes.len() {
            for bit in 0..8 {
                let mut changed = bytes.to_vec();
                changed[at] ^= 1 << bit;
                self.close_record(&changed);
                self.tally.count("closure: record with each bit changed");
            }
        }
    }
}
