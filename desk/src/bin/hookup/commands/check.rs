//! `hookup check`

use std::path::Path;

use crate::arguments::{Arguments, Form};
use crate::files::{source, title};
use crate::output::print;
use crate::trouble::{Trouble, CONTENT, USAGE};
use desk::json::Object;
use desk::part::Table;
use desk::proved::{self, Break, Verdict};
use desk::reach::path;
use desk::source::Source;
use desk::verdict;

pub const FORM: Form = Form {
    name: "check",
    least: 1,
    most: usize::MAX,
    expects: "one file or more",
    flags: &["--line", "--json"],
    values: &[],
    help: HELP,
    run,
};

const HELP: &str = "\
usage: hookup check FILE... [--line | --json]

Checks whether each part is restrictive for each of its observers, with its own grouping, and
prints for each file the line that the program verdict prints: `pass`, `refused N`, or the first
broken rule, `rule R event E from S to T other U`. Under it stands the same in words, with the
names of the table: what the rule asks, for which observer, at which event and states, what is
missing there, and whether a run of the part comes to s. Of rule 1 T and U mean nothing, and of
rule 2 U, and the words leave them out. With several files the name of each stands above.

--line   prints the line alone; a file that cannot be read, or a faulty table, has no line, only
         its message on standard error
--json   prints one object a line instead: file, verdict (pass, break, refused or trouble),
         line, words, and of a break its values with their names

The verdict is the proved library's, on the first 65536 bytes of a record or on the record of a
table.

exit status: 0 every part passes, 1 some break a rule, 2 some are refused or cannot be read; the
             highest that applies
";

/// What is printed of each file.
#[derive(Clone, Copy, PartialEq, Eq)]
enum Style {
    Words { heading: bool },
    Line,
    Json,
}

fn style(arguments: &Arguments) -> Result<Style, Trouble> {
    match (arguments.has("--line"), arguments.has("--json")) {
        (true, true) => {
            Err(Trouble::usage("--line and --json stand together; hookup check --help tells more".to_string()))
        }
        (true, false) => Ok(Style::Line),
        (false, true) => Ok(Style::Json),
        (false, false) => Ok(Style::Words { heading: arguments.words.len() > 1 }),
    }
}

/// The exit status that a verdict asks for.
fn status(verdict: &Verdict) -> i32 {
    match verdict {
        Verdict::Pass { .. } => 0,
        Verdict::Broken(_) => CONTENT,
        Verdict::Refused(_) => USAGE,
    }
}

/// The values of a break, without those that mean nothing for its rule.
fn put_break(object: &mut Object, table: &Table, broken: &Break) {
    object.number("rule", broken.rule as u64);
    object.number("event", broken.event.into());
    object.optional("event_name", table.names.event(broken.event));
    object.number("observer", broken.observer.0.into());
    object.text("observer_level", &broken.observer.text());
    let states = [("s", "s_name", broken.s), ("t", "t_name", broken.t), ("u", "u_name", broken.u)];
    for (role, name, state) in &states[..broken.rule.min(3)] {
        object.number(role, *state as u64);
        object.optional(name, table.names.state(*state));
    }
    object.truth("s_reached", path(&table.part, broken.s).is_some());
}

fn object(file: &Path, source: &Source, verdict: &Verdict) -> Object {
    let mut object = Object::default();
    object.text("file", &file.to_string_lossy());
    let kind = match verdict {
        Verdict::Pass { .. } => "pass",
        Verdict::Broken(_) => "break",
        Verdict::Refused(_) => "refused",
    };
    object.text("verdict", kind);
    object.text("line", &verdict::line(verdict));
    match (verdict, &source.table) {
        (Verdict::Pass { limit }, table) => {
            object.number("limit", *limit);
            object.truth("limited", table.as_ref().is_ok_and(|table| table.part.is_limited()));
        }
        (Verdict::Refused(number), _) => object.number("refusal", (*number).into()),
        (Verdict::Broken(broken), Ok(table)) => put_break(&mut object, table, broken),
        (Verdict::Broken(_), Err(_)) => (),
    }
    object.texts("words", &verdict::words(source, verdict));
    object
}

/// What is printed of one file.
fn text(file: &Path, source: &Source, verdict: &Verdict, style: Style) -> String {
    let line = verdict::line(verdict);
    match style {
        Style::Line => format!("{line}\n"),
        Style::Json => object(file, source, verdict).line(),
        Style::Words { heading } => {
            let above = if heading { format!("{}:\n", title(file)) } else { String::new() };
            let below: String =
                verdict::words(source, verdict).iter().map(|sentence| format!("  {sentence}\n")).collect();
            format!("{above}{line}\n{below}")
        }
    }
}

/// Tells what stands in the way of a file's verdict; the other files are judged all the same.
fn tell(file: &Path, style: Style, trouble: Trouble) -> Result<(), Trouble> {
    if style == Style::Json {
        let mut object = Object::default();
        object.text("file", &file.to_string_lossy());
        object.text("verdict", "trouble");
        object.texts("words", &[trouble.message]);
        return print(&object.line());
    }
    trouble.told();
    Ok(())
}

/// Prints the verdict on one file, and gives the status that it asks for.
fn judge(file: &Path, style: Style) -> Result<i32, Trouble> {
    match source(file) {
        Ok(source) => {
            let verdict = proved::explain(&source.record);
            print(&text(file, &source, &verdict, style)).map(|()| status(&verdict))
        }
        Err(trouble) => tell(file, style, trouble).map(|()| USAGE),
    }
}

fn run(arguments: &Arguments) -> Result<i32, Trouble> {
    let style = style(arguments)?;
    let mut highest = 0;
    for file in arguments.files() {
        highest = highest.max(judge(&file, style)?);
    }
    Ok(highest)
}
