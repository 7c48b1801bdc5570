//! `hookup diff`

use crate::arguments::{Arguments, Form};
use crate::trouble::{Trouble, CONTENT, USAGE};
use crate::{files, output};
use desk::diff::differences;

pub const FORM: Form =
    Form { name: "diff", least: 2, most: 2, expects: "2 files", flags: &[], values: &[], help: HELP, run };

const HELP: &str = "\
usage: hookup diff A B

Prints `same part` where both files have the same observers, states, start, groupings, events
and steps, thus the same record. Otherwise it names the two files and prints a line for each
difference. Names help to read, and are no difference.

Where the states of both have the same names in another order, the first difference is the
numbering, and the others compare states by name, with their numbers in A; where there is no
other difference, it says that the parts are the same but for the numbering. Under `same part`
the numbering says that the same record has its names at other states.

exit status: 0 the same part; 1 the parts differ; 2 any trouble: usage, or a file cannot be
             read, is faulty or is refused
";

/// Any trouble has a status of its own, since 1 says that the parts differ.
fn run(arguments: &Arguments) -> Result<i32, Trouble> {
    compare(arguments).map_err(|trouble| Trouble { status: USAGE, ..trouble })
}

fn compare(arguments: &Arguments) -> Result<i32, Trouble> {
    let [a, b] = [arguments.file(0), arguments.file(1)];
    let comparison = differences(&files::table(a)?, &files::table(b)?);
    let (mut text, status) = match comparison.same {
        true => ("same part\n".to_string(), 0),
        false => (String::new(), CONTENT),
    };
    let lines = comparison.told();
    if !lines.is_empty() {
        text += &format!("A is {}\nB is {}\n{}\n", files::title(a), files::title(b), lines.join("\n"));
    }
    output::print(&text).map(|()| status)
}
