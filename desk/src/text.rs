//! Text as it is read, of tables and of scripts: places, faults, hidden characters, and one line from its left to its right.

use std::fmt;

/// A line and a column, both from 1; a column is a character.
#[derive(Clone, Copy, PartialEq, Eq, Debug)]
pub struct Place {
    pub line: usize,
    pub column: usize,
}

/// What is wrong with a text, and where.
#[derive(Clone, PartialEq, Eq, Debug)]
pub struct Fault {
    pub place: Place,
    pub message: String,
}

impl fmt::Display for Fault {
    fn fmt(&self, f: &mut fmt::Formatter) -> fmt::Result {
        write!(f, "{}:{}: {}", self.place.line, self.place.column, self.message)
    }
}

/// A fault as the outcome of reading something.
pub(crate) fn fault<T>(place: Place, message: String) -> Result<T, Fault> {
    Err(Fault { place, message })
}

/// Characters of which nothing is seen, or that show text in other lines or in another order than it stands in the file.
fn formats(c: char) -> bool {
    matches!(c, '\u{AD}' | '\u{61C}' | '\u{180E}' | '\u{200B}'..='\u{200F}' | '\u{2028}'..='\u{202E}')
        || matches!(c, '\u{2060}'..='\u{206F}' | '\u{FEFF}' | '\u{FFF9}'..='\u{FFFB}' | '\u{E0000}'..='\u{E007F}')
}

fn hidden(c: char) -> bool {
    (c.is_control() && c != '\t') || formats(c)
}

/// Words from elsewhere, such as a file's name, for a message: on one line, and without hidden characters.
pub fn shown(words: &str) -> String {
    words.chars().map(|c| if hidden(c) || c == '\t' { '?' } else { c }).collect()
}

/// The place behind a text's last character.
pub(crate) fn end_of(text: &str) -> Place {
    let last = text.rsplit('\n').next().unwrap_or("");
    Place { line: text.matches('\n').count() + 1, column: last.chars().count() + 1 }
}

/// The place of the first byte that is not UTF-8; nothing where all are.
pub fn not_text(bytes: &[u8]) -> Option<Fault> {
    let at = std::str::from_utf8(bytes).err()?.valid_up_to();
    let place = end_of(&String::from_utf8_lossy(&bytes[..at]));
    Some(Fault { place, message: format!("expected text in UTF-8, found the byte 0x{:02X}", bytes[at]) })
}

/// A blank, which only stands between words.
pub(crate) fn is_blank(c: char) -> bool {
    c == ' ' || c == '\t'
}

/// One line's characters and the next to read.
pub(crate) struct Line {
    number: usize,
    chars: Vec<char>,
    next: usize,
}

impl Line {
    /// The line with this number. No hidden character may stand in it.
    pub fn new(number: usize, text: &str) -> Result<Line, Fault> {
        let chars: Vec<char> = text.chars().collect();
        match chars.iter().position(|&c| hidden(c)) {
            Some(at) => {
                let message = format!("expected visible text, found the hidden character U+{:04X}", chars[at] as u32);
                fault(Place { line: number, column: at + 1 }, message)
            }
            None => Ok(Line { number, chars, next: 0 }),
        }
    }

    pub fn place(&self) -> Place {
        Place { line: self.number, column: self.next + 1 }
    }

    pub fn here(&self) -> Option<char> {
        self.chars.get(self.next).copied()
    }

    /// Does this stand here?
    pub fn at(&self, characters: &[char]) -> bool {
        self.chars[self.next..].starts_with(characters)
    }

    /// Goes past some characters.
    pub fn pass(&mut self, count: usize) {
        self.next += count;
    }

    /// Takes characters while a test holds.
    pub fn take(&mut self, test: fn(char) -> bool) -> String {
        let from = self.next;
        while self.here().is_some_and(test) {
            self.next += 1;
        }
        self.chars[from..self.next].iter().collect()
    }

    /// Goes past blanks. Is there nothing more, or a comment?
    pub fn is_over(&mut self) -> bool {
        self.take(is_blank);
        matches!(self.here(), None | Some('#'))
    }

    /// A name in quotes, without them; the next character is the first quote.
    pub fn quoted(&mut self) -> Result<String, String> {
        self.pass(1);
        let name = self.take(|c| c != '"');
        if self.here().is_none() {
            return Err("expected '\"' at the end of this name, found the end of the line".to_string());
        }
        self.pass(1);
        match name.trim().is_empty() {
            true => Err("expected a name between the quotes, found none".to_string()),
            false => Ok(name),
        }
    }
}

#[cfg(test)]
mod tests {
    use super::*;

    #[test]
    fn the_place_of_a_byte_that_is_no_text() {
        assert_eq!(not_text(b"part\nobserver"), None);
        let fault = not_text(b"part\n\xC3\xA9b\xFF").unwrap();
        assert_eq!(fault.to_string(), "2:3: expected text in UTF-8, found the byte 0xFF");
    }

    #[test]
    fn words_from_elsewhere() {
        assert_eq!(shown("a\u{1b}b\tc\n\u{200b}\u{202e}"), "a?b?c???");
        assert_eq!(shown("é \"x\" 'y'"), "é \"x\" 'y'");
    }

    /// From the left to the right: words, a name in quotes, a comment.
    #[test]
    fn a_line() {
        let mut line = Line::new(7, " ab \"c d\"# e").unwrap();
        assert!(!line.is_over() && line.at(&['a', 'b']) && !line.at(&['b']));
        assert_eq!((line.place(), line.take(|c| !is_blank(c))), (Place { line: 7, column: 2 }, "ab".to_string()));
        assert!(!line.is_over());
        assert_eq!(line.quoted(), Ok("c d".to_string()));
        assert!(line.is_over() && line.here() == Some('#'));
        line.pass(3);
        assert_eq!((line.here(), line.place().column), (None, 13));
        assert!(Line::new(1, "\"a").unwrap().quoted().is_err() && Line::new(1, "\" \"").unwrap().quoted().is_err());
        let fault = Line::new(2, "a\u{0}").err().unwrap();
        assert_eq!(fault.to_string(), "2:2: expected visible text, found the hidden character U+0000");
    }
}
