//! `hookup record`

use super::only_file;
use crate::arguments::{Arguments, Form};
use crate::output;
use crate::trouble::Trouble;
use desk::record;

pub const FORM: Form = Form {
    name: "record",
    least: 1,
    most: 1,
    expects: "1 file",
    flags: &[],
    values: &["-o", "--observer"],
    help: HELP,
    run,
};

const HELP: &str = "\
usage: hookup record FILE [--observer \"LEVEL\"] [-o OUT]

Writes the record of a part: of a table the bytes that stand for it, without its names; of a
well-formed record its own bytes again. Bytes that are no well-formed record are told with the
condition that stands in the way and the byte where it does.

--observer \"rank 1 compartments none\" takes one observer of several out: the record has that
observer alone.

exit status: 0 done; 1 the file is faulty or refused, or it has no such observer; 2 usage, or
             a file cannot be read or written (a terminal is no place for a record)
";

fn run(arguments: &Arguments) -> Result<i32, Trouble> {
    let table = only_file(arguments)?;
    output::write_record(arguments.out(), &arguments.files(), &record::write(&table.part))?;
    Ok(0)
}
