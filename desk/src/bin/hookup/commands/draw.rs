//! `hookup draw`

use std::path::Path;

use crate::arguments::{Arguments, Form};
use crate::graphviz::Format;
use crate::trouble::Trouble;
use crate::{files, output};
use desk::level::Level;
use desk::proved::{self, Verdict};
use desk::{draw, verdict};

pub const FORM: Form = Form {
    name: "draw",
    least: 1,
    most: 1,
    expects: "1 file",
    flags: &["--around"],
    values: &["-o", "--observer"],
    help: HELP,
    run,
};

const HELP: &str = "\
usage: hookup draw FILE [-o OUT.dot|OUT.svg|OUT.png|OUT.pdf] [--observer \"LEVEL\"] [--around]

Draws a part and the verdict on it, which the proved library gives for the bytes that are drawn.
Each class is a box, each state a node. In a break the states s, t and u of the rule are marked,
and so are the step that it is about and the one that is missing. Without -o the drawing goes to
standard output as Graphviz DOT; with it the extension decides. A picture (.svg, .png, .pdf) is
made by the program dot, which on Debian the package graphviz has.

--observer  the observer to show, its level as in a table: \"rank 1 compartments 0 3\". Else it is
            the one of the break, and of a part that passes the first.
--around    only what is around the break: the states that the rule names, for rules 4 and 5
            also the nearest (at most 8) where silent steps lead from u; and of the steps
            between them those that the rule speaks of. For large parts, on which dot works for
            minutes.

exit status: 0 drawn, whether the part passes or not; 1 the file has a fault or is no part, has
             not that observer, or has no break to draw around; 2 usage, or something cannot be
             read, written or run.
";

/// The DOT text of a file's part.
fn drawing(path: &Path, asked: Option<Level>, only_around: bool) -> Result<String, Trouble> {
    let content = |why: String| Trouble::content(format!("{}: {why}", files::title(path)));
    let source = files::source(path)?;
    let table = files::well_formed(path, &source)?;
    let verdict = proved::explain(&source.record);
    if let Verdict::Refused(number) = verdict {
        return Err(content(verdict::refusal(number, None).join(" ")));
    }
    let observer = draw::shown(&table.part, asked, &verdict).map_err(content)?;
    let around = match only_around {
        true => Some(draw::around(table, &source.record, observer, &verdict).map_err(content)?),
        false => None,
    };
    Ok(draw::draw(table, observer, &files::short_title(path), &verdict, around.as_ref()))
}

fn run(arguments: &Arguments) -> Result<i32, Trouble> {
    let format = Format::of(arguments.out())?;
    let drawing = drawing(arguments.file(0), arguments.level()?, arguments.has("--around"))?;
    output::write(arguments.out(), &arguments.files(), &format.bytes(drawing)?)?;
    Ok(0)
}
