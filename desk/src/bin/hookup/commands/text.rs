//! `hookup text`

use super::only_file;
use crate::arguments::{Arguments, Form};
use crate::output;
use crate::trouble::Trouble;
use desk::writer;

pub const FORM: Form = Form {
    name: "text",
    least: 1,
    most: 1,
    expects: "1 file",
    flags: &[],
    values: &["-o", "--observer"],
    help: HELP,
    run,
};

const HELP: &str = "\
usage: hookup text FILE [--observer \"LEVEL\"] [-o OUT]

Writes the canonical text of a part: of a record its table, with numbers for the states; of a
table the same part in the one canonical form, with its names and without its comments. Classes
come by their smallest state, steps and compartments ascending.

--observer \"rank 1 compartments none\" takes one observer of several out: the table has that
observer alone. `hookup observers` puts them together again.

exit status: 0 done; 1 the file is faulty or refused, or it has no such observer; 2 usage, or
             a file cannot be read or written
";

fn run(arguments: &Arguments) -> Result<i32, Trouble> {
    let table = only_file(arguments)?;
    output::write(arguments.out(), &arguments.files(), writer::write(&table).as_bytes())?;
    Ok(0)
}
