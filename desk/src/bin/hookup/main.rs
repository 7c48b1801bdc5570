//! `hookup`: checks, joins, draws, compares and writes parts, and keeps a shelf of them. Every verdict, joined record,
//! closure and shelf comes from the proved library.

mod arguments;
mod commands;
mod files;
mod graphviz;
mod output;
mod standard;
mod trouble;

use std::ffi::OsString;
use std::process::exit;

use arguments::Form;
use commands::COMMANDS;
use desk::text::shown;
use trouble::Trouble;

const HELP: &str = "\
hookup: the desk tool for the parts of guard boxes

usage: hookup check FILE...            the verdict on parts, in words
       hookup join A B [-o OUT]        the table of two parts hooked together
       hookup draw FILE [-o OUT.svg]   a part as a picture
       hookup closure FILE [STATE]     where silent steps lead
       hookup diff A B                 the differences of two parts
       hookup observers A B... -o OUT  one record for several observers
       hookup record FILE -o OUT       a table's record
       hookup text FILE [-o OUT]       a record's table
       hookup shelf SCRIPT             calls on a shelf of parts
       hookup COMMAND --help           what a command takes, prints and answers
       hookup --version                the versions of the tool and of the kit

FILE is a table or a record of a part, told by its content; - is standard input. Of a record
the first 65536 bytes are judged. Without -o, or with -o -, the result goes to standard output;
the file of -o is written whole or not at all, and never over a file that was read.

Verdicts, joined tables, closures and shelves come from the proved library. Reading and writing
tables, pictures and words are this tool's own and not proved.

exit status: 0 done, 1 the content stands in the way (a fault, a refusal, a break), 2 usage, or
             something cannot be read, written or run. check and diff have their own.
";

fn version() -> String {
    format!("hookup {}\nproved with {}\n", env!("CARGO_PKG_VERSION"), env!("HOOKUP_KIT"))
}

fn find(word: &str) -> Result<&'static Form, Trouble> {
    let names: Vec<&str> = COMMANDS.iter().map(|form| form.name).collect();
    let found = COMMANDS.iter().find(|form| form.name == word);
    let other = if word.is_empty() { String::new() } else { format!(", found '{}'", shown(word)) };
    let expected = || format!("expected a command ({}){other}; hookup --help tells more", names.join(", "));
    found.copied().ok_or_else(|| Trouble::usage(expected()))
}

/// `hookup help [COMMAND]`
fn help(command: Option<OsString>) -> Result<i32, Trouble> {
    let text = match command {
        Some(word) => find(&word.to_string_lossy())?.help,
        None => HELP,
    };
    output::print(text).map(|()| 0)
}

fn command(form: &Form, words: impl Iterator<Item = OsString>) -> Result<i32, Trouble> {
    let arguments = arguments::read(form, words)
        .map_err(|why| Trouble::usage(format!("{why}; hookup {} --help tells the usage", form.name)))?;
    match arguments.help {
        true => output::print(form.help).map(|()| 0),
        false => (form.run)(&arguments),
    }
}

fn run() -> Result<i32, Trouble> {
    let mut words = std::env::args_os().skip(1);
    let first = words.next().unwrap_or_else(|| OsString::from(""));
    match first.to_string_lossy().as_ref() {
        "--help" | "-h" | "help" => help(words.next()),
        "--version" | "-V" | "version" => output::print(&version()).map(|()| 0),
        word => command(find(word)?, words),
    }
}

fn main() {
    exit(run().unwrap_or_else(Trouble::told));
}
