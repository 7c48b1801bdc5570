//! Splits a table's text into tokens, each with its place.

use std::fmt;

use crate::text::{end_of, Fault, Line, Place};

#[derive(Clone, PartialEq, Eq, Debug)]
pub enum What {
    /// Pieces of ASCII letters, digits and `_`, with single dots between them: a keyword, a number or a name.
    Word(String),
    /// A name in quotes, without them.
    Quoted(String),
    Open,
    Close,
    Arrow,
    /// Stands once at the end of each line that has a token.
    LineEnd,
    FileEnd,
    /// No token: what is wrong. Told only when a reader comes to it.
    Bad(String),
}

#[derive(Clone, PartialEq, Eq, Debug)]
pub struct Token {
    pub what: What,
    pub place: Place,
}

impl fmt::Display for What {
    fn fmt(&self, f: &mut fmt::Formatter) -> fmt::Result {
        match self {
            What::Word(word) => write!(f, "'{word}'"),
            What::Quoted(name) => write!(f, "the quoted name \"{name}\""),
            What::Open => write!(f, "'{{'"),
            What::Close => write!(f, "'}}'"),
            What::Arrow => write!(f, "'->'"),
            What::LineEnd => write!(f, "the end of the line"),
            What::FileEnd => write!(f, "the end of the text"),
            What::Bad(message) => write!(f, "{message}"),
        }
    }
}

const ARROW: [char; 2] = ['-', '>'];

/// What is taken for a piece of a word, so that all of it is told where it is none.
fn in_word(c: char) -> bool {
    c.is_alphanumeric() || "_.-".contains(c)
}

/// A word; letters of other alphabets, hyphens and dots at any place are taken with it, to name the whole word.
fn word(line: &mut Line) -> What {
    let mut word = String::new();
    while let Some(c) = line.here().filter(|&c| in_word(c) && !line.at(&ARROW)) {
        word.push(c);
        line.pass(1);
    }
    if word == "-" {
        return What::Bad("expected '->', found '-'".to_string());
    }
    if !word.is_ascii() || word.contains('-') {
        let letters = "expected only the letters a to z and A to Z, digits, '_' and '.'";
        return What::Bad(format!("{letters}, found '{word}'"));
    }
    match word.split('.').any(str::is_empty) {
        true => What::Bad(format!("expected a letter, a digit or '_' before and behind each '.', found '{word}'")),
        false => What::Word(word),
    }
}

fn quoted(line: &mut Line) -> What {
    match line.quoted() {
        Ok(name) if name.contains('\t') => {
            What::Bad("expected visible text between the quotes, found a tab".to_string())
        }
        Ok(name) => What::Quoted(name),
        Err(message) => What::Bad(message),
    }
}

/// The token that begins at the next character.
fn token(line: &mut Line, first: char) -> What {
    let (what, length) = match first {
        '"' => return quoted(line),
        '{' => (What::Open, 1),
        '}' => (What::Close, 1),
        _ if line.at(&ARROW) => (What::Arrow, ARROW.len()),
        c if in_word(c) => return word(line),
        c => (What::Bad(format!("expected a word, a number, '{{', '}}', '->' or '\"', found '{c}'")), 1),
    };
    line.pass(length);
    what
}

/// The tokens of one line; a comment is none.
fn line_tokens(number: usize, text: &str, tokens: &mut Vec<Token>) {
    let mut line = match Line::new(number, text) {
        Ok(line) => line,
        Err(Fault { place, message }) => return tokens.push(Token { what: What::Bad(message), place }),
    };
    let before = tokens.len();
    loop {
        let over = line.is_over();
        let place = line.place();
        match line.here() {
            Some(first) if !over => tokens.push(Token { what: token(&mut line, first), place }),
            _ if tokens.len() > before => return tokens.push(Token { what: What::LineEnd, place }),
            _ => return,
        }
    }
}

/// All tokens of a text, `FileEnd` last.
pub fn split(text: &str) -> Vec<Token> {
    let text = text.strip_prefix('\u{FEFF}').unwrap_or(text);
    let mut tokens = Vec::new();
    for (i, line) in text.lines().enumerate() {
        line_tokens(i + 1, line, &mut tokens);
    }
    tokens.push(Token { what: What::FileEnd, place: end_of(text) });
    tokens
}

#[cfg(test)]
mod tests {
    use super::*;

    fn word(word: &str) -> What {
        What::Word(word.to_string())
    }

    fn at(line: usize, column: usize, what: What) -> Token {
        Token { what, place: Place { line, column } }
    }

    #[test]
    fn tokens_with_their_places() {
        let tokens = split("a{0}\n\n# only a comment\n  0->1 \"é }\"#c\n");
        let expected = [
            at(1, 1, word("a")),
            at(1, 2, What::Open),
            at(1, 3, word("0")),
            at(1, 4, What::Close),
            at(1, 5, What::LineEnd),
            at(4, 3, word("0")),
            at(4, 4, What::Arrow),
            at(4, 6, word("1")),
            at(4, 8, What::Quoted("é }".to_string())),
            at(4, 13, What::LineEnd),
            at(5, 1, What::FileEnd),
        ];
        assert_eq!(tokens, expected);
    }

    /// Dots stand between pieces; anywhere else the whole word is no token.
    #[test]
    fn words_with_dots() {
        for good in ["idle.sent", "0.sent", "0.1", "a.b.c", "7a._", "_.9", "part.rank"] {
            assert_eq!(split(good)[0], at(1, 1, word(good)));
        }
        let places = split("a.b->0.1{x.y}");
        let words = [at(1, 1, word("a.b")), at(1, 6, word("0.1")), at(1, 10, word("x.y"))];
        assert!(words.iter().all(|word| places.contains(word)), "{places:?}");
        for bad in [".a", "a.", "a..b", ".", "..", ".0", "0.1."] {
            let message = format!("expected a letter, a digit or '_' before and behind each '.', found '{bad}'");
            assert_eq!(split(&format!("x {bad} y"))[1], at(1, 3, What::Bad(message)));
        }
    }

    /// An arrow ends a word; any other hyphen is told with the word that it stands in.
    #[test]
    fn hyphens() {
        assert_eq!(split("a->b")[..2], [at(1, 1, word("a")), at(1, 2, What::Arrow)]);
        for (text, column, found) in [("a-b", 1, "a-b"), ("event -1", 7, "-1"), ("a-->b", 1, "a-")] {
            let message = format!("expected only the letters a to z and A to Z, digits, '_' and '.', found '{found}'");
            assert!(split(text).contains(&at(1, column, What::Bad(message))), "{text}");
        }
        assert_eq!(split("a - > b")[1], at(1, 3, What::Bad("expected '->', found '-'".to_string())));
    }

    #[test]
    fn hidden_characters() {
        for c in [
            '\u{0}', '\u{1B}', '\u{7F}', '\u{85}', '\u{AD}', '\u{200B}', '\u{2028}', '\u{202E}', '\u{2066}', '\u{FEFF}',
        ] {
            let message = format!("expected visible text, found the hidden character U+{:04X}", c as u32);
            assert_eq!(split(&format!("a \"b{c}\""))[0], at(1, 5, What::Bad(message)));
        }
        let tab = "expected visible text between the quotes, found a tab".to_string();
        assert_eq!(split("a\t\"b\tc\"")[1], at(1, 3, What::Bad(tab)));
    }

    #[test]
    fn line_ends_of_other_systems() {
        assert_eq!(
            split("\u{FEFF}part\r\n"),
            [at(1, 1, word("part")), at(1, 5, What::LineEnd), at(2, 1, What::FileEnd)]
        );
    }

    #[test]
    fn a_text_without_a_last_line_end() {
        assert_eq!(split("part"), [at(1, 1, word("part")), at(1, 5, What::LineEnd), at(1, 5, What::FileEnd)]);
        assert_eq!(split(""), [at(1, 1, What::FileEnd)]);
    }
}
