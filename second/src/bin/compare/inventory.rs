//! Compares hookup_count and hookup_part: the number, every byte of the output buffer, and that nothing else is written.

use crate::product::{self, Lent};
use crate::report::differ;
use crate::{Comparison, LEAST};
use second::category::Tally;
use second::category_inventory::{self, count_names, part_names};
use second::category_shelf::{met, wrong_name, wrong_walk_name};
use second::inventory::{self, COUNT, PLACE};
use second::judge::Judge;
use second::make::{self, NO_ENDS};
use second::record::{self, FORMS};
use second::replay::hex;
use second::wrong_inventory::{count_walks, counts, counts_that_differ, part_walks, parts, parts_that_differ, Asked};

const PLACES: &str = "part: the place tells the bytes of Part";

pub fn need(tally: &mut Tally) {
    for name in count_names() {
        tally.need(&format!("count: {}", name), LEAST);
    }
    for name in part_names() {
        tally.need(&format!("part: {}", name), LEAST);
    }
    for call in ["count", "part"] {
        tally.need(&null_name(call, "shelf"), LEAST);
        tally.need(&null_name(call, "buffer"), LEAST);
    }
    tally.need(PLACES, LEAST);
}

fn null_name(call: &str, what: &str) -> String {
    format!("{}: {} at a null pointer", call, what)
}

/// One of the two calls: its name as an entry and in categories.
#[derive(Clone, Copy)]
struct Entry {
    entry: &'static str,
    call: &'static str,
}

const COUNT_ENTRY: Entry = Entry { entry: "hookup_count", call: "count" };
const PART_ENTRY: Entry = Entry { entry: "hookup_part", call: "part" };

impl Comparison {
    /// A call with a shelf and a buffer, of which the product and the second checker have one each: the number, every byte
    /// of the buffer, nothing written elsewhere. Gives the right number and buffer.
    fn ask(
        &mut self,
        entry: Entry,
        asked: Asked,
        product: impl Fn(&Lent, &mut Lent) -> u32,
        second: impl Fn(&mut [u8]) -> u32,
    ) -> (u32, Vec<u8>) {
        let mut expected_out = asked.before.to_vec();
        let expected = second(&mut expected_out);
        let lent = Lent::new(&mut self.rng, asked.shelf);
        let mut out = Lent::new(&mut self.rng, asked.before);
        self.count_call(entry.entry);
        let got = product(&lent, &mut out);
        let i = asked.i.to_le_bytes();
        let room = (asked.before.len() as u32).to_le_bytes();
        let inputs: [(&str, &[u8]); 3] =
            [("shelf", asked.shelf), ("i, little-endian", &i), ("length of the buffer, little-endian", &room)];
        if got != expected {
            differ(entry.entry, &inputs, &expected.to_string(), &got.to_string());
        }
        if out.content() != &expected_out[..] {
            let what = format!("{}, output buffer", entry.entry);
            differ(&what, &inputs, &hex(&expected_out), &hex(out.content()));
        }
        if !out.guards_are_unchanged() || !lent.is_unchanged() {
            let what = format!("{} wrote outside the output buffer", entry.entry);
            differ(&what, &inputs, "unchanged", "changed");
        }
        for (lent, what) in [(&lent, "shelf"), (&out, "buffer")] {
            if lent.is_null() {
                self.tally.count(&null_name(entry.call, what));
            }
        }
        (expected, expected_out)
    }

    /// One call of hookup_count with a buffer of that length.
    fn count_shelf(&mut self, judge: &mut Judge, shelf: &[u8], room: usize) {
        let before = self.pattern(room);
        let asked = Asked { shelf, i: 0, before: &before };
        let right = self.ask(COUNT_ENTRY, asked, product::count, |out| inventory::count(shelf, out));
        let mut names = category_inventory::of_count(judge, shelf, room, right.0);
        names.extend(counts_that_differ(judge, &counts(), asked, &right).into_iter().map(wrong_name));
        names.extend(counts_that_differ(judge, &count_walks(), asked, &right).into_iter().map(wrong_walk_name));
        self.count_names("count:", names);
    }

    /// One call of hookup_part with a buffer of that length.
    fn place_part(&mut self, judge: &mut Judge, shelf: &[u8], i: usize, room: usize) {
        let before = self.pattern(room);
        let asked = Asked { shelf, i, before: &before };
        let product = |lent: &Lent, out: &mut Lent| product::part(lent, i, out);
        let right = self.ask(PART_ENTRY, asked, product, |out| inventory::part(shelf, i, out));
        let mut names = category_inventory::of_part(judge, shelf, i, room, right.0);
        names.extend(parts_that_differ(judge, &parts(), asked, &right).into_iter().map(wrong_name));
        names.extend(parts_that_differ(judge, &part_walks(), asked, &right).into_iter().map(wrong_walk_name));
        self.count_names("part:", names);
        if right.0 == inventory::DONE {
            self.tells_bytes(shelf, i, &right.1);
        }
    }

    /// The place and the length, which are also the product's, tell the bytes that Part gives back.
    fn tells_bytes(&mut self, shelf: &[u8], i: usize, out: &[u8]) {
        let number = |at: usize| u64::from_le_bytes(out[at..at + 8].try_into().unwrap()) as usize;
        let (place, length) = (number(0), number(8));
        if &shelf[place..place + length] != second::shelf::part(shelf, i) {
            differ("a part's place and its bytes", &[("shelf", shelf)], "the bytes of Part", "others");
        }
        self.tally.count(PLACES);
    }

    /// A buffer's length: just enough, one byte short, none, some bytes less or more.
    fn buffer_for(&mut self, needed: usize) -> usize {
        match self.rng.below(12) {
            0 => 0,
            1 => needed - 1,
            2 => self.rng.below(needed),
            3 => COUNT,
            4 => needed + 1,
            5 => needed + self.rng.below(40),
            _ => needed,
        }
    }

    pub fn all_counts(&mut self) {
        self.each_shelf(|run, shelf| {
            let room = run.buffer_for(COUNT);
            run.count_shelf(&mut Judge::default(), shelf, room);
        });
    }

    pub fn all_parts(&mut self) {
        self.each_shelf(|run, shelf| {
            let mut judge = Judge::default();
            for i in run.numbers_for(shelf) {
                let room = run.buffer_for(PLACE);
                run.place_part(&mut judge, shelf, i, room);
            }
        });
    }

    /// Numbers for a shelf: those of its records, where there are few, just out of range, and far out of range.
    fn numbers_for(&mut self, shelf: &[u8]) -> Vec<usize> {
        let count = met(shelf).walk.records.len();
        let near = self.rng.below(count.max(1));
        let mut numbers: Vec<usize> = match count {
            0..=20 => (0..count).collect(),
            _ => vec![0, near, count - 2, count - 1],
        };
        numbers.push(count + self.rng.below(3));
        numbers.push(self.rng.pick(&[usize::MAX, u32::MAX as usize, (1 << 32) + near, (1 << 8) + near, 1 << 63]));
        numbers
    }

    /// Shelves of any bytes.
    fn each_shelf(&mut self, look: impl Fn(&mut Comparison, &[u8])) {
        for round in 0..4 * LEAST {
            for form in FORMS {
                let shelf = self.shelf_of_failures(form.kind);
                look(self, &shelf);
            }
            for no_end in NO_ENDS {
                let count = self.rng.range(1, 3);
                let records = make::any_records(&mut self.rng, count);
                let shelf = make::without_end(&mut self.rng, &records, no_end);
                look(self, &shelf);
            }
            // None, one and two records, and any bytes.
            for count in 0..3 {
                let records = make::any_records(&mut self.rng, count);
                let behind = make::behind_the_end(&mut self.rng);
                look(self, &make::shelf_of(&records, &behind));
            }
            look(self, &[]);
            let shelf = make::any_bytes(&mut self.rng);
            look(self, &shelf);
            let shelf = self.long_shelf(if round % 2 == 0 { 100 } else { 1000 });
            look(self, &shelf);
        }
    }

    /// A record that passes and one of each failure, for a kind, with others.
    fn shelf_of_failures(&mut self, kind: u16) -> Vec<u8> {
        let mut records = vec![make::undescribed(&mut self.rng), make::foreign(&mut self.rng, 0)];
        records.push(record::write(&make::passing_of_kind(&mut self.rng, kind, 2, 2)));
        for failure in make::failures_of(kind) {
            records.push(make::failing(&mut self.rng, kind, failure));
        }
        self.rng.shuffle(&mut records);
        let behind = make::behind_the_end(&mut self.rng);
        make::shelf_of(&records, &behind)
    }

    /// So many records and some more, then one of 65,536 bytes or more, then another.
    fn long_shelf(&mut self, count: usize) -> Vec<u8> {
        let count = count + self.rng.below(20);
        let mut records = make::many_records(&mut self.rng, count);
        records.push(make::long(&mut self.rng));
        records.push(make::any_on_shelf(&mut self.rng));
        make::shelf_of(&records, &[])
    }
}
