//! `hookup observers`

use crate::arguments::{Arguments, Form};
use crate::trouble::Trouble;
use crate::{files, output};
use desk::observers::together;
use desk::part::{Table, Titled};
use desk::{record, writer};

pub const FORM: Form = Form {
    name: "observers",
    least: 2,
    most: 4,
    expects: "2 to 4 files",
    flags: &["--text"],
    values: &["-o"],
    help: HELP,
    run,
};

const HELP: &str = "\
usage: hookup observers A B [C [D]] [--text] [-o OUT]

Writes one record of kind 2 with the observers of all the files, by the bytes of their levels;
with --text its table, with the names of the first file that has some. A file may have several
observers; together they are at most four, and no two have the same level.

The files must have the same states, start, events and steps: where two do not, they are told
as A to D by their places, with their differences as `hookup diff` prints them. A limited part
cannot be one of them. `hookup text --observer` takes one observer out again.

exit status: 0 done; 1 a file is faulty or refused, or the files do not go together; 2 usage,
             or a file cannot be read or written (a terminal is no place for a record)
";

fn run(arguments: &Arguments) -> Result<i32, Trouble> {
    let inputs = arguments.files();
    let titles: Vec<String> = inputs.iter().map(|path| files::title(path)).collect();
    let tables: Vec<Table> = inputs.iter().map(|path| files::table(path)).collect::<Result<_, Trouble>>()?;
    let titled: Vec<Titled> = titles.iter().zip(&tables).map(|(title, table)| Titled { title, table }).collect();
    let table = together(&titled).map_err(Trouble::content)?;
    match arguments.has("--text") {
        true => output::write(arguments.out(), &inputs, writer::write(&table).as_bytes())?,
        false => output::write_record(arguments.out(), &inputs, &record::write(&table.part))?,
    }
    Ok(0)
}
