//! `hookup join`

use crate::arguments::{Arguments, Form};
use crate::trouble::Trouble;
use crate::{files, output};
use desk::part::Titled;
use desk::proved::{self, Obstacle};
use desk::source::Source;
use desk::{joining, verdict, writer};

pub const FORM: Form =
    Form { name: "join", least: 2, most: 2, expects: "2 files", flags: &["--text"], values: &["-o"], help: HELP, run };

const HELP: &str = "\
usage: hookup join A B [--text] [-o OUT]

Writes the record of two parts hooked together, which the proved library makes and which passes
as both parts do; with --text its table. There a state is called by the pair of its two states,
idle.sent: by their names or, where a part has none, their numbers. Where two pairs would get
the same name, or one of more than 100 characters, all states are called by their numbers. An
event has the name that it has in one of the parts, or both names, a/b.

Where there is no joined record, the refusal is told in words: a part that does not pass; 9, the
observers differ; 10, a shared event clashes; 11, too many states or events.

exit status: 0 done; 1 a file is faulty, or the parts are not joined; 2 usage, or a file cannot
             be read or written (a terminal is no place for a record)
";

/// Why there is no joined record: a line, and under it the words.
fn refused(titles: [&str; 2], sources: [&Source; 2], obstacle: Obstacle) -> Trouble {
    let (line, sentences) = match (obstacle, &sources[0].table, &sources[1].table) {
        (Obstacle::Fails(side), ..) => {
            let verdict = proved::explain(&sources[side as usize].record);
            let line = format!("{}: {}", titles[side as usize], verdict::line(&verdict));
            (line, verdict::words(sources[side as usize], &verdict))
        }
        (_, Ok(a), Ok(b)) => {
            let parts = [(titles[0], a), (titles[1], b)].map(|(title, table)| Titled { title, table });
            (joining::line(obstacle), joining::sentences(obstacle, parts))
        }
        _ => (joining::line(obstacle), Vec::new()),
    };
    let below: String = sentences.iter().map(|sentence| format!("\n  {sentence}")).collect();
    Trouble::content(line + &below)
}

fn run(arguments: &Arguments) -> Result<i32, Trouble> {
    let inputs = arguments.files();
    let [title_a, title_b] = [0, 1].map(|i| files::title(&inputs[i]));
    let (a, b) = (files::source(&inputs[0])?, files::source(&inputs[1])?);
    let why = |obstacle| refused([&title_a, &title_b], [&a, &b], obstacle);
    let joined = proved::join(&a.record, &b.record).map_err(why)?;
    if arguments.has("--text") {
        let table = joining::table(files::well_formed(&inputs[0], &a)?, files::well_formed(&inputs[1], &b)?, &joined);
        output::write(arguments.out(), &inputs, writer::write(&table).as_bytes())?;
    } else {
        output::write_record(arguments.out(), &inputs, &joined)?;
    }
    Ok(0)
}
