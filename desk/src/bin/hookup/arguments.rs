//! The command line of one command: options anywhere, and the other words in their order.

use std::collections::BTreeMap;
use std::ffi::OsString;
use std::path::{Path, PathBuf};

use crate::files::is_standard_input;
use crate::trouble::Trouble;
use desk::level::Level;
use desk::reader;
use desk::text::shown;

/// What a command takes.
pub struct Form {
    pub name: &'static str,
    /// How many words that are no options there may be, and what they are.
    pub least: usize,
    pub most: usize,
    pub expects: &'static str,
    /// Options without a word behind them, and options with one.
    pub flags: &'static [&'static str],
    pub values: &'static [&'static str],
    pub help: &'static str,
    pub run: fn(&Arguments) -> Result<i32, Trouble>,
}

#[derive(Default, Debug)]
pub struct Arguments {
    pub words: Vec<OsString>,
    pub help: bool,
    options: BTreeMap<&'static str, OsString>,
}

impl Arguments {
    pub fn has(&self, flag: &str) -> bool {
        self.options.contains_key(flag)
    }

    /// The word behind an option, as text.
    fn value(&self, option: &str) -> Option<String> {
        self.options.get(option).map(|word| word.to_string_lossy().into_owned())
    }

    /// The level of `--observer`.
    pub fn level(&self) -> Result<Option<Level>, Trouble> {
        let level = self.value("--observer").map(|text| reader::read_level(&text)).transpose();
        level.map_err(|fault| Trouble::usage(format!("--observer: {}", fault.message)))
    }

    /// The file of `-o`; `-` is standard output, as without it.
    pub fn out(&self) -> Option<&Path> {
        self.options.get("-o").map(Path::new).filter(|path| path.as_os_str() != "-")
    }

    /// All words as files.
    pub fn files(&self) -> Vec<PathBuf> {
        self.words.iter().map(PathBuf::from).collect()
    }

    pub fn file(&self, i: usize) -> &Path {
        Path::new(&self.words[i])
    }

    /// Takes an option, with the word behind it where it needs one.
    fn option(&mut self, form: &Form, word: &str, rest: &mut impl Iterator<Item = OsString>) -> Result<(), String> {
        let (name, joined) = match word.split_once('=') {
            Some((name, value)) => (name, Some(OsString::from(value))),
            None => (word, None),
        };
        let known = |names: &[&'static str]| names.iter().find(|known| **known == name).copied();
        let (name, value) = if let Some(name) = known(form.flags).filter(|_| joined.is_none()) {
            (name, OsString::new())
        } else if let Some(name) = known(form.values) {
            let value = joined.or_else(|| rest.next());
            (name, value.ok_or_else(|| format!("expected a word after {name}"))?)
        } else {
            return Err(format!("unexpected option {}", shown(word)));
        };
        match self.options.insert(name, value) {
            Some(_) => Err(format!("{name} stands twice")),
            None => Ok(()),
        }
    }

    fn counted(&self, form: &Form) -> Result<(), String> {
        if (form.least..=form.most).contains(&self.words.len()) {
            return Ok(());
        }
        Err(format!("expected {}, found {}", form.expects, self.words.len()))
    }
}

/// Reads the words behind a command's name.
pub fn read(form: &Form, words: impl Iterator<Item = OsString>) -> Result<Arguments, String> {
    let mut words = words;
    let mut arguments = Arguments::default();
    let mut options = true;
    while let Some(word) = words.next() {
        match word.to_str() {
            Some("--") if options => options = false,
            Some("--help" | "-h") if options => return Ok(Arguments { help: true, ..Arguments::default() }),
            Some(option) if options && option.len() > 1 && option.starts_with('-') => {
                arguments.option(form, option, &mut words)?
            }
            _ => arguments.words.push(word),
        }
    }
    arguments.counted(form)?;
    if arguments.files().iter().filter(|file| is_standard_input(file)).count() > 1 {
        return Err("standard input (-) stands twice".to_string());
    }
    Ok(arguments)
}

#[cfg(test)]
mod tests {
    use super::*;

    const FORM: Form = Form {
        name: "draw",
        least: 1,
        most: 2,
        expects: "1 or 2 files",
        flags: &["--around"],
        values: &["-o", "--observer"],
        help: "",
        run: |_| Ok(0),
    };

    fn read_line(line: &str) -> Result<Arguments, String> {
        read(&FORM, line.split(' ').filter(|word| !word.is_empty()).map(OsString::from))
    }

    #[test]
    fn words_and_options() {
        let arguments = read_line("a.part -o b.dot --observer level --around b.part").unwrap();
        assert_eq!(arguments.files(), [PathBuf::from("a.part"), PathBuf::from("b.part")]);
        assert_eq!(arguments.out(), Some(Path::new("b.dot")));
        assert_eq!(arguments.value("--observer").as_deref(), Some("level"));
        assert!(arguments.has("--around") && !arguments.help);
        assert_eq!(read_line("a --observer=x=y").unwrap().value("--observer").as_deref(), Some("x=y"));
        assert_eq!(read_line("-").unwrap().words, ["-"]);
        assert_eq!(read_line("-- -o --help").unwrap().words, ["-o", "--help"]);
        for line in ["--help", "-h", "a -h", "a b c --help"] {
            assert!(read_line(line).unwrap().help);
        }
    }

    #[test]
    fn faults() {
        for (line, fault) in [
            ("", "expected 1 or 2 files, found 0"),
            ("a b c", "expected 1 or 2 files, found 3"),
            ("a --colour", "unexpected option --colour"),
            ("a --around=1", "unexpected option --around=1"),
            ("a -o", "expected a word after -o"),
            ("a -o b -o c", "-o stands twice"),
            ("a --around --around", "--around stands twice"),
            ("- -", "standard input (-) stands twice"),
        ] {
            assert_eq!(read_line(line).unwrap_err(), fault);
        }
    }
}
