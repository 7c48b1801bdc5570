//! What a file holds: a table or a record, told by its content.

use crate::part::Table;
use crate::reader;
use crate::record::{self, Misfit};
use crate::text::Fault;

/// Of a record so many bytes are judged, as by the program `verdict`. No well-formed record is longer.
pub const MOST_OF_A_RECORD: usize = 65_536;

/// No table and no script needs more bytes of text.
pub const MOST_OF_A_TEXT: usize = 16 << 20;

/// A file's first bytes tell whether it is text.
const TELLING: usize = 6;

/// What a file holds.
#[derive(Clone, PartialEq, Eq, Debug)]
pub struct Source {
    /// The bytes that are judged: a table's record, or the first bytes of a file that is no table.
    pub record: Vec<u8>,
    /// The part that they describe, with a table's names; or which condition for a refusal comes first, and where.
    pub table: Result<Table, Misfit>,
    /// The file is a record that goes on behind the bytes that are judged.
    pub goes_on: bool,
}

/// The marks with which text in UTF-16 begins.
const UTF_16: [&[u8]; 2] = [b"\xFF\xFE", b"\xFE\xFF"];

/// Is it text in UTF-16? A record or a script may begin with the mark's bytes, but its length or capacity is then small
/// enough that no character stands behind them.
fn is_utf_16(bytes: &[u8]) -> bool {
    let marked = UTF_16.iter().any(|mark| bytes.starts_with(mark));
    marked && bytes.iter().skip(2).take(2).any(|&byte| byte >= b'\t')
}

/// Is it text? The length in a record's header has zero bytes, which are none. Text in UTF-16 is told as text too, whose
/// fault it then is not to be in UTF-8.
pub fn is_text(bytes: &[u8]) -> bool {
    let control = |byte: &u8| *byte < b' ' && !b"\t\n\r".contains(byte);
    let plain = !bytes.is_empty() && !bytes.iter().take(TELLING).any(control);
    plain || is_utf_16(bytes)
}

impl Source {
    /// The content of a file. A table has to be whole.
    pub fn read(bytes: &[u8]) -> Result<Source, Fault> {
        if is_text(bytes) {
            return reader::read(bytes).map(Source::of_table);
        }
        let judged = &bytes[..bytes.len().min(MOST_OF_A_RECORD)];
        let table = record::read(judged).map(Table::unnamed);
        Ok(Source { record: judged.to_vec(), table, goes_on: judged.len() < bytes.len() })
    }

    pub fn of_table(table: Table) -> Source {
        Source { record: record::write(&table.part), table: Ok(table), goes_on: false }
    }
}

#[cfg(test)]
mod tests {
    use super::*;

    #[test]
    fn tables_and_records() {
        for table in ["part\n", "# x", "\n", "\t", "p", "\r\n", "\u{feff}part", "hello!", "hello\n\u{0}"] {
            assert!(is_text(table.as_bytes()), "{table:?}");
        }
        for utf_16 in [b"\xFF\xFEp\0a\0", b"\xFE\xFF\0p\0a"] {
            assert_eq!(Source::read(utf_16).unwrap_err().place.column, 1);
        }
        let records = [
            &b""[..],
            b"\xFF\0\xFE",
            b"\xFF\xFE\0\0\0\x03",
            b"\xFE\xFF\x01\0\0",
            b"\x2e\0\0\0\x01\0",
            b"\0",
            b"part\0",
            b"\x01abcdefg",
            b"abcde\x1b",
        ];
        for record in records {
            assert!(!is_text(record), "{record:?}");
        }
    }

    #[test]
    fn a_table_and_its_record() {
        let table = b"part\nobserver rank 0 compartments none\nstates only\nstart only\nclasses {only}\n";
        let source = Source::read(table).unwrap();
        assert_eq!(source.record, [5, 0, 0, 0, 1, 0, 0, 1, 0, 0, 0]);
        assert_eq!(source.table.as_ref().unwrap().names.state(0), Some("only"));
        let again = Source::read(&source.record).unwrap();
        assert_eq!(again.record, source.record);
        assert_eq!(again.table.unwrap().part, source.table.unwrap().part);
        assert_eq!(Source::read(b"parts").unwrap_err().to_string(), "1:1: expected 'part', found 'parts'");
    }

    #[test]
    fn the_first_bytes_of_a_long_record() {
        let mut bytes = vec![0; MOST_OF_A_RECORD];
        let source = Source::read(&bytes).unwrap();
        assert_eq!((source.record.len(), source.goes_on), (MOST_OF_A_RECORD, false));
        bytes.push(0);
        let source = Source::read(&bytes).unwrap();
        assert_eq!((source.record.len(), source.goes_on), (MOST_OF_A_RECORD, true));
        assert!(source.table.is_err());
    }
}
