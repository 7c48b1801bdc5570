//! Files that are read: tables and records, `-` for standard input.

use std::fs::{self, File, Metadata};
use std::io::{self, Read};
use std::os::unix::fs::MetadataExt;
use std::path::Path;

use crate::standard;
use crate::trouble::Trouble;
use desk::part::Table;
use desk::source::{is_text, Source, MOST_OF_A_RECORD, MOST_OF_A_TEXT};
use desk::text::shown;

/// Standard input where a file is named.
pub fn is_standard_input(path: &Path) -> bool {
    path.as_os_str() == "-"
}

/// A file's name in messages.
pub fn title(path: &Path) -> String {
    match is_standard_input(path) {
        true => "standard input".to_string(),
        false if path.as_os_str().is_empty() => "''".to_string(),
        false => shown(&path.to_string_lossy()),
    }
}

/// A file's name without its folders.
pub fn short_title(path: &Path) -> String {
    match path.file_name() {
        Some(name) if !is_standard_input(path) => shown(&name.to_string_lossy()),
        _ => title(path),
    }
}

/// A file that is there, or standard input.
fn open(path: &Path) -> io::Result<Box<dyn Read>> {
    if path.as_os_str().is_empty() {
        return Err(io::Error::other("the name is empty"));
    }
    match is_standard_input(path) {
        true => standard::INPUT.must_be_open().map(|()| Box::new(io::stdin().lock()) as Box<dyn Read>),
        false => Ok(Box::new(File::open(path)?)),
    }
}

/// Up to `most` bytes of a file, and of a text up to `MOST_OF_A_TEXT`; one more where there are more.
fn read_up_to(path: &Path, most: usize) -> io::Result<Vec<u8>> {
    let mut file = open(path)?;
    let mut bytes = Vec::new();
    file.by_ref().take(most as u64 + 1).read_to_end(&mut bytes)?;
    if is_text(&bytes) {
        file.take((MOST_OF_A_TEXT - most) as u64).read_to_end(&mut bytes)?;
    }
    Ok(bytes)
}

/// The bytes of a file that are read: `most` of one that is no text, and one more where there are more.
pub fn content(path: &Path, most: usize) -> Result<Vec<u8>, Trouble> {
    let bytes = read_up_to(path, most).map_err(|why| Trouble::usage(format!("cannot read {}: {why}", title(path))))?;
    match bytes.len() > MOST_OF_A_TEXT {
        true => Err(Trouble::content(format!("{}: a text of more than {MOST_OF_A_TEXT} bytes", title(path)))),
        false => Ok(bytes),
    }
}

/// What a file holds. A fault of a table is told by line and column; bytes that are no well-formed record are not told.
pub fn source(path: &Path) -> Result<Source, Trouble> {
    let bytes = content(path, MOST_OF_A_RECORD)?;
    Source::read(&bytes).map_err(|fault| Trouble::content(format!("{}:{fault}", title(path))))
}

/// The part of a file with its names; a record has to be well-formed.
pub fn table(path: &Path) -> Result<Table, Trouble> {
    let source = source(path)?;
    well_formed(path, &source).cloned()
}

/// The part of what was read, which a record describes only where no refusal applies.
pub fn well_formed<'a>(path: &Path, source: &'a Source) -> Result<&'a Table, Trouble> {
    let note = match source.goes_on {
        true => format!(" (only the first {MOST_OF_A_RECORD} bytes are judged)"),
        false => String::new(),
    };
    source.table.as_ref().map_err(|misfit| Trouble::content(format!("{}: {misfit}{note}", title(path))))
}

/// What stands behind a path; behind `-` the file that standard input reads.
fn metadata(path: &Path) -> io::Result<Metadata> {
    match is_standard_input(path) {
        true => fs::metadata("/dev/stdin"),
        false => fs::metadata(path),
    }
}

/// Whether two paths lead to one file: by another spelling, a symbolic link or a hard link too.
pub fn same_file(out: &Path, input: &Path) -> bool {
    match (fs::metadata(out), metadata(input)) {
        (Ok(a), Ok(b)) => (a.dev(), a.ino()) == (b.dev(), b.ino()),
        _ => false,
    }
}

#[cfg(test)]
mod tests {
    use super::*;

    #[test]
    fn the_same_file_by_other_spellings() {
        let same = |a: &str, b: &str| same_file(Path::new(a), Path::new(b));
        let here = concat!(env!("CARGO_MANIFEST_DIR"), "/examples/toggle.table");
        assert!(same(here, here));
        assert!(same(here, concat!(env!("CARGO_MANIFEST_DIR"), "/src/.././examples//toggle.table")));
        assert!(!same(here, concat!(env!("CARGO_MANIFEST_DIR"), "/examples/guard.table")));
        assert!(!same(here, "/no/such/file"));
        assert!(!same("/no/such/file", "/no/such/file"));
    }

    #[test]
    fn titles() {
        assert_eq!(title(Path::new("-")), "standard input");
        assert_eq!(short_title(Path::new("-")), "standard input");
        assert_eq!(short_title(Path::new("a/b.table")), "b.table");
        assert_eq!(title(Path::new("a/b.table")), "a/b.table");
        assert_eq!(title(Path::new("a\nb/\u{1b}[2J")), "a?b/?[2J");
        assert_eq!(short_title(Path::new("a/b\npass")), "b?pass");
    }
}
