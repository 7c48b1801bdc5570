//! `hookup closure`

use crate::arguments::{Arguments, Form};
use crate::trouble::Trouble;
use crate::{files, output};
use desk::{closure, proved, refusals};

pub const FORM: Form = Form {
    name: "closure",
    least: 1,
    most: 2,
    expects: "a file and at most one state",
    flags: &[],
    values: &[],
    help: HELP,
    run,
};

const HELP: &str = "\
usage: hookup closure FILE [STATE]

Prints a line for each state, or for STATE alone, its number or its name: the states that silent
steps lead to from it, as the proved library finds them, by the least number of steps and then
by their numbers. Silent are the high outputs and all internal events.

  from 1:busy: 1:busy; in 1 step: 3:sent 4:lost; in 2 steps: 2:idle

Of several observers each has a line with its level before its own. The part need not pass.

exit status: 0 done; 1 the file is faulty or refused, or it has no such state; 2 usage, or the
             file cannot be read
";

fn run(arguments: &Arguments) -> Result<i32, Trouble> {
    let path = arguments.file(0);
    let content = |why: String| Trouble::content(format!("{}: {why}", files::title(path)));
    let source = files::source(path)?;
    let table = files::well_formed(path, &source)?;
    let word = arguments.words.get(1).map(|word| word.to_string_lossy());
    let only = word.map(|word| closure::state(table, &word)).transpose().map_err(content)?;
    let refused = |number| content(format!("refused {number}: {}", refusals::words(number)));
    let closures = proved::closures(&source.record).map_err(refused)?;
    output::print(&(closure::lines(table, &closures, only).join("\n") + "\n"))?;
    Ok(0)
}
