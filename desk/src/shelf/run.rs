//! The calls of a script, made with the proved entries on a shelf, and what each answers: `replay`'s line, and words.

use crate::joining;
use crate::part::{Table, Titled};
use crate::proved::{self, Answer, Obstacle, Verdict};
use crate::shelf::words;
use crate::shelf::{Call, Loaded, END};
use crate::source::Source;
use crate::verdict;

/// Every byte of a shelf before the first call, as of `replay`.
const UNUSED: u8 = 0xAA;

/// The bytes of a shelf, and its parts with the names that are known.
pub struct Shelf {
    bytes: Vec<u8>,
    tables: Vec<Table>,
}

/// What a call answers.
#[derive(Clone, PartialEq, Eq, Debug)]
pub struct Told {
    /// The line of `replay`; the bytes of a part are left out.
    pub line: String,
    /// What belongs to the line in words, where the call is done.
    pub note: Option<String>,
    /// Why it is not done.
    pub sentences: Vec<String>,
}

impl Told {
    pub fn is_done(&self) -> bool {
        self.sentences.is_empty()
    }

    fn done(line: String, note: Option<String>) -> Told {
        Told { line, note, sentences: Vec::new() }
    }
}

/// The line of an answer; a word stands before the number that it gives.
fn line(word: &str, answer: &Answer) -> String {
    match answer {
        Answer::Gives(number) => format!("{word}{number}"),
        Answer::Refused(refusal) => verdict::line(&Verdict::Refused(*refusal)),
        Answer::Clashes(identifier) => joining::line(Obstacle::Clash(*identifier)),
        Answer::Breaks(broken) => verdict::line(&Verdict::Broken(*broken)),
    }
}

impl Shelf {
    pub fn new(capacity: usize) -> Shelf {
        Shelf { bytes: vec![UNUSED; capacity], tables: Vec::new() }
    }

    /// Makes a call. The file of a part is not written here.
    pub fn make(&mut self, call: &Call<Loaded>) -> Told {
        match call {
            Call::Clear => self.clear(),
            Call::Load(loaded) => self.load(&loaded.source),
            Call::Hookup(i, j) => self.hookup(*i, *j),
            Call::Count => self.count(),
            Call::Part(i, _) => self.part(*i),
        }
    }

    /// The record of a part.
    pub fn record(&self, i: u32) -> Option<&[u8]> {
        proved::part(&self.bytes, i as usize).ok().map(|range| &self.bytes[range])
    }

    fn clear(&mut self) -> Told {
        let answer = proved::call(proved::Call::Clear, &mut self.bytes);
        let line = line("", &answer);
        match answer {
            Answer::Refused(refusal) => Told { line, note: None, sentences: self.refused(refusal, &[], || 0) },
            _ => {
                self.tables.clear();
                Told::done(line, Some("the shelf is empty".to_string()))
            }
        }
    }

    fn load(&mut self, source: &Source) -> Told {
        let answer = proved::call(proved::Call::Load(&source.record), &mut self.bytes);
        let sentences = match answer {
            Answer::Gives(_) => {
                self.tables.push(source.table.clone().expect("a record that is no part is refused"));
                Vec::new()
            }
            Answer::Breaks(broken) => verdict::words(source, &Verdict::Broken(broken)),
            Answer::Refused(refusal @ (12 | 15)) => self.refused(refusal, &[], || source.record.len()),
            Answer::Refused(refusal) => verdict::words(source, &Verdict::Refused(refusal)),
            Answer::Clashes(_) => unreachable!("a load has no second part"),
        };
        Told { line: line("part ", &answer), note: None, sentences }
    }

    fn hookup(&mut self, i: u32, j: u32) -> Told {
        let answer = proved::call(proved::Call::Hookup(i, j), &mut self.bytes);
        let sentences = match answer {
            Answer::Gives(number) => {
                self.keep_joined(number as u32, i, j);
                Vec::new()
            }
            Answer::Clashes(identifier) => self.obstacle(Obstacle::Clash(identifier), i, j),
            Answer::Refused(refusal @ (9 | 11)) => self.obstacle(Obstacle::Refused(refusal), i, j),
            Answer::Refused(refusal) => self.refused(refusal, &[i, j], || self.joined_length(i, j)),
            Answer::Breaks(_) => unreachable!("a hookup has no record of its own"),
        };
        Told { line: line("part ", &answer), note: None, sentences }
    }

    fn count(&self) -> Told {
        match proved::count(&self.bytes) {
            Ok(number) => Told::done(line("count ", &Answer::Gives(number)), None),
            Err(refusal) => {
                let line = line("", &Answer::Refused(refusal));
                Told { line, note: None, sentences: self.refused(refusal, &[], || 0) }
            }
        }
    }

    fn part(&self, i: u32) -> Told {
        match proved::part(&self.bytes, i as usize) {
            Ok(range) => {
                let note = format!("from byte {} of the shelf on", range.start);
                Told::done(format!("part bytes {}", range.len()), Some(note))
            }
            Err(refusal) => {
                let sentences = self.refused(refusal, &[i], || 0);
                Told { line: "part bytes 0".to_string(), note: None, sentences }
            }
        }
    }

    fn keep_joined(&mut self, number: u32, i: u32, j: u32) {
        let record = self.record(number).expect("the new part is on the shelf");
        self.tables.push(joining::table(&self.tables[i as usize], &self.tables[j as usize], record));
    }

    /// The length of a joined record for which there is no room.
    fn joined_length(&self, i: u32, j: u32) -> usize {
        let [a, b] = [i, j].map(|number| self.record(number).unwrap_or_default());
        proved::join(a, b).map_or(0, |joined| joined.len())
    }

    /// What stands in the way of two parts of the shelf.
    fn obstacle(&self, obstacle: Obstacle, i: u32, j: u32) -> Vec<String> {
        let titles = [i, j].map(|number| format!("part {number}"));
        let tables = [i, j].map(|number| &self.tables[number as usize]);
        joining::sentences(obstacle, [0, 1].map(|k| Titled { title: &titles[k], table: tables[k] }))
    }

    /// How many bytes a further record may have.
    fn room(&self) -> usize {
        let last = self.tables.len().checked_sub(1);
        let end = last.and_then(|last| proved::part(&self.bytes, last).ok()).map_or(0, |range| range.end);
        self.bytes.len().saturating_sub(end + END)
    }

    /// A refusal of the shelf: of a call that names these parts, or has a record of that length.
    fn refused(&self, refusal: u32, numbers: &[u32], length: impl Fn() -> usize) -> Vec<String> {
        let mut sentences = verdict::refusal(refusal, None);
        sentences.extend(match refusal {
            12 => Some(words::no_end(self.bytes.len())),
            13 => Some(words::no_part(numbers, self.tables.len() as u64)),
            15 => Some(words::no_room(length(), self.room())),
            _ => None,
        });
        sentences
    }
}

#[cfg(test)]
mod tests {
    use super::*;
    use crate::source::MOST_OF_A_RECORD;
    use std::rc::Rc;

    /// A part of one state with event 7.
    fn wire(name: &str, kind: &str, rank: u8) -> Call<Loaded> {
        let observer = "part\nobserver rank 1 compartments none\nstates only\nstart only\nclasses {only}\n";
        let event = format!("event 7 \"{name}\" {kind} rank {rank} compartments none\n  only -> only\n");
        let source = Source::read((observer.to_string() + &event).as_bytes()).unwrap();
        Call::Load(Loaded { words: name.to_string(), source: Rc::new(source) })
    }

    fn lone(kind: u8) -> Call<Loaded> {
        Call::Load(Loaded::bytes(vec![5, 0, 0, 0, kind, 0, 0, 1, 0, 0, 0]))
    }

    fn lines(capacity: usize, calls: &[Call<Loaded>]) -> Vec<String> {
        let mut shelf = Shelf::new(capacity);
        calls.iter().map(|call| shelf.make(call).line).collect()
    }

    /// The sentences of the last call, without the one that says what the refusal is.
    fn why(capacity: usize, calls: &[Call<Loaded>]) -> Vec<String> {
        let mut shelf = Shelf::new(capacity);
        let told = calls.iter().map(|call| shelf.make(call)).last().unwrap();
        assert!(!told.is_done() && told.sentences[0].starts_with("Refused: "), "{told:?}");
        told.sentences[1..].to_vec()
    }

    #[test]
    fn the_lines_of_replay() {
        let calls = [Call::Count, Call::Clear, lone(1), lone(1), lone(4), Call::Hookup(0, 1), Call::Count];
        let expected = ["refused 12", "0", "part 0", "part 1", "refused 3", "part 2", "count 3"];
        assert_eq!(lines(64, &calls), expected);
        let calls = [Call::Part(0, None), Call::Clear, Call::Part(0, None), lone(1), Call::Part(0, None)];
        assert_eq!(lines(64, &calls), ["part bytes 0", "0", "part bytes 0", "part 0", "part bytes 11"]);
        assert_eq!(lines(5, &[Call::Clear]), ["refused 12"]);
    }

    #[test]
    fn a_part_by_its_place_and_its_bytes() {
        let mut shelf = Shelf::new(64);
        for call in [Call::Clear, wire("send", "output", 1), lone(1)] {
            assert!(shelf.make(&call).is_done());
        }
        let told = shelf.make(&Call::Part(1, None));
        assert_eq!(told.note.as_deref(), Some("from byte 23 of the shelf on"));
        assert_eq!(shelf.record(1), Some(&[5, 0, 0, 0, 1, 0, 0, 1, 0, 0, 0][..]));
        assert_eq!(shelf.record(2), None);
    }

    /// A joined part, where the shared event is internal, has both its names.
    #[test]
    fn an_event_that_clashes() {
        let (send, take) = (wire("send", "output", 1), wire("take", "input", 1));
        let calls = [Call::Clear, send, take, Call::Hookup(0, 1), wire("hear", "input", 2), Call::Hookup(2, 3)];
        assert_eq!(lines(512, &calls)[5], "refused 10 identifier 7");
        let expected = [
            "In part 2 event 7 \"send/take\" is internal, rank 1 compartments none (0x40).",
            "In part 3 event 7 \"hear\" is an input, rank 2 compartments none (0x80).",
        ];
        assert_eq!(why(512, &calls), expected);
        let itself = [Call::Clear, wire("x", "internal", 0), Call::Hookup(0, 0)];
        assert_eq!(why(512, &itself), ["In part 0 event 7 \"x\" is internal, rank 0 compartments none (0x00)."]);
    }

    #[test]
    fn refusals_of_the_shelf() {
        assert_eq!(why(5, &[Call::Clear]), ["It needs 6 bytes, and the shelf has 5."]);
        assert_eq!(why(6, &[Call::Hookup(0, 0)]), ["No clear was done on it."]);
        let one = [Call::Clear, lone(1)];
        let then = |call: Call<Loaded>| [&one[..], &[call]].concat();
        assert_eq!(why(64, &then(Call::Hookup(0, 1))), ["There is no part 1: the shelf has 1 part."]);
        assert_eq!(why(64, &then(Call::Hookup(3, 2))), ["There is no part 3: the shelf has 1 part."]);
        assert_eq!(why(64, &then(Call::Part(1, None))), ["There is no part 1: the shelf has 1 part."]);
        assert_eq!(why(27, &then(lone(1))), ["The record has 11 bytes, and there is room for 10."]);
        assert_eq!(why(17, &then(Call::Hookup(0, 0))), ["The record has 11 bytes, and there is room for 0."]);
    }

    #[test]
    fn a_clear_forgets_the_parts() {
        let calls = [Call::Clear, lone(1), lone(1), Call::Clear, wire("x", "input", 2), Call::Hookup(0, 0)];
        assert_eq!(why(64, &calls), ["In part 0 event 7 \"x\" is an input, rank 2 compartments none (0x80)."]);
    }

    #[test]
    fn parts_that_do_not_fit_each_other() {
        let calls = [Call::Clear, lone(1), wire("x", "input", 0), Call::Hookup(1, 0)];
        let observers = [
            "The observers of part 1: rank 1 compartments none (0x40).",
            "The observers of part 0: rank 0 compartments none (0x00).",
        ];
        assert_eq!(why(64, &calls), observers);
        let states = |n: u8| {
            let record = [&[4 + n, 0, 0, 0, 1, 0, 0, n, 0, 0][..], &vec![0; n as usize]].concat();
            Call::Load(Loaded::bytes(record))
        };
        let calls = [Call::Clear, states(5), states(13), Call::Hookup(0, 1)];
        let sizes = "The states of part 0 and part 1 make 5 × 13 = 65, and their events together are 0.";
        assert_eq!(why(99, &calls), [sizes]);
    }

    #[test]
    fn a_long_record() {
        let source = Rc::new(Source::read(&vec![0; MOST_OF_A_RECORD + 1]).unwrap());
        let load = Call::Load(Loaded { words: "x".to_string(), source });
        let said = why(64, &[Call::Clear, load]);
        assert_eq!(said[1], "Only the first 65536 bytes are judged.");
    }
}
