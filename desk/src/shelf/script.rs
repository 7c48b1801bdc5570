//! A script as text. Reading stops at the first fault, which names its line and column and what was expected there.
//! There is one function for each rule of the grammar; a line without words, and a comment behind `#`, mean nothing:
//!
//! ```text
//! script = "capacity" number NL { call NL }
//! call   = "clear" | "load" record | "hookup" number number | "count" | "part" number [ "-o" file ]
//! record = file | "bytes" [ hexadecimal digits ]
//! ```
//!
//! A file is a word up to the next blank or, in quotes, any text without quotes that is not blank. In quotes `bytes` is a file.

use crate::reader::number_up_to;
use crate::shelf::{Call, Given, Loaded, Name, Script, MAX_CAPACITY};
use crate::text::{end_of, fault, is_blank, not_text, Fault, Line, Place};

/// The file that is standard input.
const STANDARD_INPUT: &str = "-";

enum What {
    Bare(String),
    Quoted(String),
    LineEnd,
}

struct Word {
    what: What,
    place: Place,
}

impl Word {
    /// Is it this word, without quotes?
    fn is(&self, word: &str) -> bool {
        matches!(&self.what, What::Bare(here) if here == word)
    }

    /// A word that is not what was expected.
    fn unexpected(&self, expected: &str) -> Fault {
        let found = match &self.what {
            What::Bare(word) => format!("'{word}'"),
            What::Quoted(name) => format!("the quoted name \"{name}\""),
            What::LineEnd => "the end of the line".to_string(),
        };
        Fault { place: self.place, message: format!("expected {expected}, found {found}") }
    }

    fn name(&self, expected: &str) -> Result<Name, Fault> {
        let (written, path) = match &self.what {
            What::Bare(word) => (word.clone(), word),
            What::Quoted(name) => (format!("\"{name}\""), name),
            What::LineEnd => return Err(self.unexpected(expected)),
        };
        Ok(Name { written, path: path.clone(), place: self.place })
    }
}

/// The words of a line.
struct Words(Line);

impl Words {
    fn word(&mut self) -> Result<Word, Fault> {
        let Words(line) = self;
        let over = line.is_over();
        let place = line.place();
        let what = match line.here() {
            _ if over => What::LineEnd,
            Some('"') => What::Quoted(line.quoted().or_else(|message| fault(place, message))?),
            _ => return Ok(Word { what: What::Bare(line.take(|c| !is_blank(c))), place }),
        };
        match line.here().filter(|&c| !over && !is_blank(c)) {
            Some(c) => fault(line.place(), format!("expected a blank behind the quotes, found '{c}'")),
            None => Ok(Word { what, place }),
        }
    }

    /// A number from 0 to `most`; `thing` is what it stands for.
    fn number(&mut self, thing: &str, most: usize) -> Result<usize, Fault> {
        let word = self.word()?;
        let number = match &word.what {
            What::Bare(digits) => number_up_to(digits, most),
            _ => None,
        };
        number.ok_or_else(|| word.unexpected(&format!("{thing} from 0 to {most}")))
    }

    fn part_number(&mut self) -> Result<u32, Fault> {
        self.number("the number of a part", u32::MAX as usize).map(|number| number as u32)
    }

    fn end(&mut self) -> Result<(), Fault> {
        match self.word()? {
            Word { what: What::LineEnd, .. } => Ok(()),
            word => Err(word.unexpected("the end of the line")),
        }
    }

    fn capacity(&mut self) -> Result<usize, Fault> {
        let word = self.word()?;
        if !word.is("capacity") {
            return Err(word.unexpected("'capacity'"));
        }
        let capacity = self.number("a number of bytes", MAX_CAPACITY)?;
        self.end()?;
        Ok(capacity)
    }

    fn call(&mut self) -> Result<Call<Given>, Fault> {
        let word = self.word()?;
        let call = match &word.what {
            What::Bare(name) if name == "clear" => Call::Clear,
            What::Bare(name) if name == "load" => Call::Load(self.record()?),
            What::Bare(name) if name == "hookup" => Call::Hookup(self.part_number()?, self.part_number()?),
            What::Bare(name) if name == "count" => Call::Count,
            What::Bare(name) if name == "part" => Call::Part(self.part_number()?, self.out()?),
            _ => return Err(word.unexpected("'clear', 'load', 'hookup', 'count' or 'part'")),
        };
        self.end()?;
        Ok(call)
    }

    fn record(&mut self) -> Result<Given, Fault> {
        let word = self.word()?;
        match word.is("bytes") {
            true => self.hexadecimal().map(Given::Bytes),
            false => word.name("a file or 'bytes'").map(Given::File),
        }
    }

    /// Bytes, two digits each; none where the line ends.
    fn hexadecimal(&mut self) -> Result<Vec<u8>, Fault> {
        let word = self.word()?;
        let digits: Vec<char> = match &word.what {
            What::Bare(digits) => digits.chars().collect(),
            What::LineEnd => Vec::new(),
            What::Quoted(_) => return Err(word.unexpected("hexadecimal digits")),
        };
        if let Some(at) = digits.iter().position(|c| !c.is_ascii_hexdigit()) {
            let place = Place { column: word.place.column + at, ..word.place };
            return fault(place, format!("expected a hexadecimal digit, found '{}'", digits[at]));
        }
        if digits.len() % 2 == 1 {
            let message = format!("expected an even number of hexadecimal digits, found {}", digits.len());
            return fault(word.place, message);
        }
        let value = |c: char| c.to_digit(16).unwrap_or(0) as u8;
        Ok(digits.chunks(2).map(|pair| value(pair[0]) << 4 | value(pair[1])).collect())
    }

    /// [ "-o" file ]; standard output has the answers.
    fn out(&mut self) -> Result<Option<Name>, Fault> {
        if self.0.is_over() {
            return Ok(None);
        }
        let option = self.word()?;
        if !option.is("-o") {
            return Err(option.unexpected("'-o' or the end of the line"));
        }
        let word = self.word()?;
        match word.name("a file")? {
            name if name.path == STANDARD_INPUT => Err(word.unexpected("a file")),
            name => Ok(Some(name)),
        }
    }
}

/// What is read so far.
struct Reader {
    capacity: Option<usize>,
    calls: Vec<Call<Given>>,
    /// Why standard input is no file to load any more.
    taken: Option<String>,
}

impl Reader {
    fn line(&mut self, number: usize, text: &str) -> Result<(), Fault> {
        let mut words = Words(Line::new(number, text)?);
        if words.0.is_over() {
            return Ok(());
        }
        if self.capacity.is_none() {
            self.capacity = Some(words.capacity()?);
            return Ok(());
        }
        let call = words.call()?;
        self.take_standard_input(&call)?;
        self.calls.push(call);
        Ok(())
    }

    /// Standard input can be read once.
    fn take_standard_input(&mut self, call: &Call<Given>) -> Result<(), Fault> {
        let Call::Load(Given::File(name)) = call else { return Ok(()) };
        if name.path != STANDARD_INPUT {
            return Ok(());
        }
        match &self.taken {
            Some(why) => fault(name.place, format!("expected a file, as standard input {why}, found '-'")),
            None => {
                self.taken = Some(format!("is loaded by line {}", name.place.line));
                Ok(())
            }
        }
    }
}

/// Reads a script. Where that is standard input, no call can load it.
pub fn read(bytes: &[u8], is_standard_input: bool) -> Result<Script<Given>, Fault> {
    if let Some(fault) = not_text(bytes) {
        return Err(fault);
    }
    let text = String::from_utf8_lossy(bytes);
    let text = text.strip_prefix('\u{FEFF}').unwrap_or(&text);
    let taken = is_standard_input.then(|| "is the script".to_string());
    let mut reader = Reader { capacity: None, calls: Vec::new(), taken };
    for (i, line) in text.lines().enumerate() {
        reader.line(i + 1, line)?;
    }
    match reader.capacity {
        Some(capacity) => Ok(Script { capacity, calls: reader.calls }),
        None => fault(end_of(text), "expected 'capacity', found the end of the text".to_string()),
    }
}

/// A call as text; `record` gives what stands behind `load`.
pub fn call_text<L>(call: &Call<L>, record: fn(&L) -> String) -> String {
    match call {
        Call::Clear => "clear".to_string(),
        Call::Load(loaded) => format!("load {}", record(loaded)),
        Call::Hookup(i, j) => format!("hookup {i} {j}"),
        Call::Count => "count".to_string(),
        Call::Part(i, None) => format!("part {i}"),
        Call::Part(i, Some(out)) => format!("part {i} -o {}", out.written),
    }
}

/// `bytes` and the digits of a record, if it has any.
fn inline(loaded: &Loaded) -> String {
    let digits: String = loaded.source.record.iter().map(|byte| format!("{byte:02x}")).collect();
    format!("bytes {digits}").trim_end().to_string()
}

/// The script as text with its records in it.
pub fn write(script: &Script<Loaded>) -> String {
    let calls: String = script.calls.iter().map(|call| call_text(call, inline) + "\n").collect();
    format!("capacity {}\n{calls}", script.capacity)
}

#[cfg(test)]
mod tests {
    use super::*;

    const WHOLE: &str = "\
# a shelf
  capacity 262144   # the largest

clear
\tload a#b.part # not of the name
load \"my part.table\"
load bytes
load bytes 00fF
load \"bytes\"
load -
hookup 0 4294967295
count
part 007
part 2 -o \"#1\"
part 3 -o bytes
";

    fn name(written: &str, line: usize, column: usize) -> Name {
        let (written, path) = (written.to_string(), written.trim_matches('"').to_string());
        Name { written, path, place: Place { line, column } }
    }

    fn said(text: &str) -> String {
        read(text.as_bytes(), false).unwrap_err().to_string()
    }

    /// What is said about a line behind `capacity 0`, without the number of the line.
    fn said_of(line: &str) -> String {
        let said = said(&format!("capacity 0\n{line}\n"));
        said.strip_prefix("2:").unwrap_or(&said).to_string()
    }

    #[test]
    fn every_call() {
        let script = read(WHOLE.as_bytes(), false).unwrap();
        let file = |written, line, column| Call::Load(Given::File(name(written, line, column)));
        let expected = [
            Call::Clear,
            file("a#b.part", 5, 7),
            file("\"my part.table\"", 6, 6),
            Call::Load(Given::Bytes(Vec::new())),
            Call::Load(Given::Bytes(vec![0x00, 0xFF])),
            file("\"bytes\"", 9, 6),
            file("-", 10, 6),
            Call::Hookup(0, u32::MAX),
            Call::Count,
            Call::Part(7, None),
            Call::Part(2, Some(name("\"#1\"", 14, 11))),
            Call::Part(3, Some(name("bytes", 15, 11))),
        ];
        assert_eq!((script.capacity, script.calls.as_slice()), (262_144, &expected[..]));
        let files: Vec<&str> = script.files().map(|name| name.path.as_str()).collect();
        assert_eq!(files, ["a#b.part", "my part.table", "bytes", "-"]);
    }

    #[test]
    fn other_line_ends() {
        let script = read("\u{FEFF}capacity 6\r\ncount".as_bytes(), false).unwrap();
        assert_eq!((script.capacity, script.calls.as_slice()), (6, &[Call::Count][..]));
    }

    #[test]
    fn the_capacity_comes_first_and_once() {
        assert_eq!(said(""), "1:1: expected 'capacity', found the end of the text");
        assert_eq!(said("# capacity 1\n\n"), "3:1: expected 'capacity', found the end of the text");
        assert_eq!(said("\n clear\n"), "2:2: expected 'capacity', found 'clear'");
        assert_eq!(said("capacity"), "1:9: expected a number of bytes from 0 to 262144, found the end of the line");
        assert_eq!(said("capacity 262145"), "1:10: expected a number of bytes from 0 to 262144, found '262145'");
        assert_eq!(said("capacity -1"), "1:10: expected a number of bytes from 0 to 262144, found '-1'");
        assert_eq!(said("capacity 1 2"), "1:12: expected the end of the line, found '2'");
        let again = "1: expected 'clear', 'load', 'hookup', 'count' or 'part', found 'capacity'";
        assert_eq!(said_of("capacity 1"), again);
    }

    #[test]
    fn faults_of_words() {
        let calls = "expected 'clear', 'load', 'hookup', 'count' or 'part', found";
        assert_eq!(said_of("Clear"), format!("1: {calls} 'Clear'"));
        assert_eq!(said_of("count#"), format!("1: {calls} 'count#'"));
        assert_eq!(said_of("\"clear\""), format!("1: {calls} the quoted name \"clear\""));
        assert_eq!(said_of("clear all"), "7: expected the end of the line, found 'all'");
        assert_eq!(said_of("count \"x\""), "7: expected the end of the line, found the quoted name \"x\"");
        assert_eq!(said_of("load a b"), "8: expected the end of the line, found 'b'");
        assert_eq!(said_of("load # a"), "6: expected a file or 'bytes', found the end of the line");
    }

    #[test]
    fn faults_of_numbers() {
        let number = "expected the number of a part from 0 to 4294967295, found";
        assert_eq!(said_of("hookup 0 4294967296"), format!("10: {number} '4294967296'"));
        assert_eq!(said_of("hookup 0"), format!("9: {number} the end of the line"));
        assert_eq!(said_of("hookup 1x 0"), format!("8: {number} '1x'"));
        assert_eq!(said_of("hookup \"1\" 0"), format!("8: {number} the quoted name \"1\""));
        assert_eq!(said_of("part -o x"), format!("6: {number} '-o'"));
        assert_eq!(said_of("part 1 x"), "8: expected '-o' or the end of the line, found 'x'");
        assert_eq!(said_of("part 1 -o -"), "11: expected a file, found '-'");
        assert_eq!(said_of("part 1 -o \"-\""), "11: expected a file, found the quoted name \"-\"");
        assert_eq!(said_of("part 1 -o"), "10: expected a file, found the end of the line");
        assert_eq!(said_of("part 1 -o x y"), "13: expected the end of the line, found 'y'");
    }

    #[test]
    fn faults_of_names_and_digits() {
        assert_eq!(said_of("load \"x"), "6: expected '\"' at the end of this name, found the end of the line");
        assert_eq!(said_of("load \"\""), "6: expected a name between the quotes, found none");
        assert_eq!(said_of("load \"x\"y"), "9: expected a blank behind the quotes, found 'y'");
        assert_eq!(said_of("load bytes 00g0"), "14: expected a hexadecimal digit, found 'g'");
        assert_eq!(said_of("load bytes 00é"), "14: expected a hexadecimal digit, found 'é'");
        assert_eq!(said_of("load bytes 123"), "12: expected an even number of hexadecimal digits, found 3");
        assert_eq!(said_of("load bytes \"00\""), "12: expected hexadecimal digits, found the quoted name \"00\"");
        assert_eq!(said_of("load bytes 00 00"), "15: expected the end of the line, found '00'");
    }

    /// The first fault of a line is told, also before a name without an end.
    #[test]
    fn faults_of_characters() {
        assert_eq!(said_of("x \"y").split(',').next(), Some("1: expected 'clear'"));
        assert_eq!(said_of("load a\u{7}"), "7: expected visible text, found the hidden character U+0007");
        assert_eq!(said_of("count # \u{202E}"), "9: expected visible text, found the hidden character U+202E");
        let fault = read(b"capacity 1\nload \xFF", false).unwrap_err();
        assert_eq!(fault.to_string(), "2:6: expected text in UTF-8, found the byte 0xFF");
    }

    #[test]
    fn standard_input_is_read_once() {
        let again = said("capacity 0\n\nload -\nload x\nload \"-\"\n");
        assert_eq!(again, "5:6: expected a file, as standard input is loaded by line 3, found '-'");
        let script = read(b"capacity 0\nload -", true).unwrap_err().to_string();
        assert_eq!(script, "2:6: expected a file, as standard input is the script, found '-'");
        assert!(read(b"capacity 0\nload ./-\nload ./-\npart 0 -o ./-", true).is_ok());
    }

    #[test]
    fn a_script_with_its_records() {
        let text = "capacity 17\nclear\nload bytes\nload bytes 00ff\nhookup 1 2\ncount\npart 0 -o \"a b\"\n";
        let script = read(text.as_bytes(), false).unwrap().loaded();
        assert_eq!(write(&script), text);
        let shown: Vec<String> =
            script.calls.iter().map(|call| call_text(call, |loaded| loaded.words.clone())).collect();
        assert_eq!(shown, ["clear", "load 0 bytes", "load 2 bytes", "hookup 1 2", "count", "part 0 -o \"a b\""]);
    }
}
