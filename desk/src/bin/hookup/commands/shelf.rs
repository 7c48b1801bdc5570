//! `hookup shelf`

use std::collections::{BTreeMap, BTreeSet};
use std::path::{Path, PathBuf};
use std::rc::Rc;

use crate::arguments::{Arguments, Form};
use crate::files::{self, is_standard_input, title};
use crate::output;
use crate::trouble::{Trouble, CONTENT, USAGE};
use desk::record;
use desk::shelf::bytes::{self, MAX_BYTES};
use desk::shelf::run::{Shelf, Told};
use desk::shelf::{script, Call, Given, Loaded, Name, Script};
use desk::source::{is_text, Source};

pub const FORM: Form = Form {
    name: "shelf",
    least: 1,
    most: 1,
    expects: "1 script",
    flags: &["--bytes", "--text"],
    values: &["-o"],
    help: HELP,
    run,
};

const HELP: &str = "\
usage: hookup shelf SCRIPT [--bytes | --text] [-o OUT]

Makes the calls of a script on a shelf of parts, with the proved entries. For each it prints its
number, the call and, behind a colon, the line of replay; where it is not done, why. A script is
text, one call a line, or the bytes that replay reads, told by its content; - is standard input.

  capacity N         comes first: the shelf has so many bytes, 0 to 262144
  clear              makes the shelf empty; the first call on a shelf
  load FILE          puts a part on the shelf if it passes; FILE is a table or a record
  load bytes HEX     the same with a record in hexadecimal digits
  hookup I J         joins two parts, numbered from 0, and puts the joined part on the shelf
  count              tells how many parts there are
  part I [-o FILE]   tells where part I stands, and writes its record to FILE

Where a word would begin, # begins a comment. Quotes are for a FILE with blanks in its name,
\"my part.table\", and for one that is called \"bytes\". All files are read before the first call.

--bytes makes no call and writes the script as bytes for replay; --text writes it as text with
the records in it. Both go to OUT, or to standard output.

exit status: 0 every call is done, 1 a fault, or a call is refused or breaks a rule, 2 usage, or
             something cannot be read or written
";

/// What a script reads.
struct Inputs<'a> {
    script: &'a Path,
    /// The files that it loads, and the script itself: none of them is written over.
    files: Vec<PathBuf>,
}

impl Inputs<'_> {
    fn of<'a>(path: &'a Path, script: &Script<Given>) -> Inputs<'a> {
        let loaded: BTreeSet<&str> = script.files().map(|name| name.path.as_str()).collect();
        let mut files: Vec<PathBuf> = loaded.into_iter().map(PathBuf::from).collect();
        files.push(path.to_path_buf());
        Inputs { script: path, files }
    }
}

fn run(arguments: &Arguments) -> Result<i32, Trouble> {
    let (as_bytes, as_text) = (arguments.has("--bytes"), arguments.has("--text"));
    if as_bytes && as_text {
        return usage("expected --bytes or --text, found both");
    }
    if arguments.out().is_some() && !as_bytes && !as_text {
        return usage("expected --bytes or --text with -o, found neither");
    }
    let path = arguments.file(0);
    let given = read(path)?;
    let inputs = Inputs::of(path, &given);
    let script = load(path, given)?;
    if as_bytes {
        let bytes = for_replay(path, bytes::write(&script))?;
        output::write_record(arguments.out(), &inputs.files, &bytes).map(|()| 0)
    } else if as_text {
        output::write(arguments.out(), &inputs.files, script::write(&script).as_bytes()).map(|()| 0)
    } else {
        make(&script, &inputs)
    }
}

fn usage<T>(why: &str) -> Result<T, Trouble> {
    Err(Trouble::usage(format!("{why}; hookup shelf --help tells the usage")))
}

/// Bytes that are not too many for `replay`.
fn for_replay(path: &Path, bytes: Vec<u8>) -> Result<Vec<u8>, Trouble> {
    let what = format!("a script of more than {MAX_BYTES} bytes, which replay does not read");
    match bytes.len() <= MAX_BYTES {
        true => Ok(bytes),
        false => Err(Trouble::content(format!("{}: {what}", title(path)))),
    }
}

/// Reads a script. Bytes are told from text as a record is told from a table: the capacity has a zero byte.
fn read(path: &Path) -> Result<Script<Given>, Trouble> {
    let content = files::content(path, MAX_BYTES)?;
    let told = |fault: String| Trouble::content(format!("{}:{fault}", title(path)));
    if content.is_empty() || is_text(&content) {
        return script::read(&content, is_standard_input(path)).map_err(|fault| told(fault.to_string()));
    }
    let content = for_replay(path, content)?;
    bytes::read(&content).map_err(|fault| match record::read(&content) {
        Ok(_) => told(" expected a script, found the record of a part".to_string()),
        Err(_) => told(format!(" {fault}")),
    })
}

/// Trouble with a file that a script names, told with the line.
fn at_line(script: &Path, name: &Name, trouble: Trouble) -> Trouble {
    let place = format!("{}:{}", title(script), name.place.line);
    match trouble.message.strip_prefix("hookup: ").filter(|_| trouble.status == USAGE) {
        Some(why) => Trouble::usage(format!("{place}: {why}")),
        None => Trouble::content(format!("{place}: {}", trouble.message)),
    }
}

/// Reads the files of a script, each once.
fn load(path: &Path, script: Script<Given>) -> Result<Script<Loaded>, Trouble> {
    let mut known: BTreeMap<String, Rc<Source>> = BTreeMap::new();
    script.map(|given| match given {
        Given::Bytes(record) => Ok(Loaded::bytes(record)),
        Given::File(name) => {
            if !known.contains_key(&name.path) {
                let source = files::source(Path::new(&name.path)).map_err(|trouble| at_line(path, &name, trouble))?;
                known.insert(name.path.clone(), Rc::new(source));
            }
            Ok(Loaded::file(&name, known[&name.path].clone()))
        }
    })
}

/// Makes the calls, all of them also where some are not done or a file cannot be written, and prints each answer.
fn make(script: &Script<Loaded>, inputs: &Inputs) -> Result<i32, Trouble> {
    let mut shelf = Shelf::new(script.capacity);
    let mut highest = 0;
    for (i, call) in script.calls.iter().enumerate() {
        let told = shelf.make(call);
        let (written, trouble) = match write_part(call, &shelf, inputs) {
            Ok(written) => (written, None),
            Err(trouble) => (None, Some(trouble)),
        };
        output::print(&answer(i + 1, call, &told, written))?;
        let status = if told.is_done() { 0 } else { CONTENT };
        highest = highest.max(status).max(trouble.map_or(0, Trouble::told));
    }
    Ok(highest)
}

/// Writes the record of a part to its file, if the call names one and the part is there.
fn write_part<'a>(call: &'a Call<Loaded>, shelf: &Shelf, inputs: &Inputs) -> Result<Option<&'a Name>, Trouble> {
    let Call::Part(i, Some(name)) = call else { return Ok(None) };
    let Some(record) = shelf.record(*i) else { return Ok(None) };
    output::write(Some(Path::new(&name.path)), &inputs.files, record)
        .map_err(|trouble| at_line(inputs.script, name, trouble))?;
    Ok(Some(name))
}

/// The line of a call, and under it why it is not done.
fn answer(number: usize, call: &Call<Loaded>, told: &Told, written: Option<&Name>) -> String {
    let call = script::call_text(call, |loaded| loaded.words.clone());
    let written = written.map(|name| format!("written to {}", name.written));
    let notes: String = told.note.iter().chain(&written).map(|note| format!(", {note}")).collect();
    let sentences: String = told.sentences.iter().map(|sentence| format!("    {sentence}\n")).collect();
    format!("{number} {call}: {}{notes}\n{sentences}", told.line)
}
