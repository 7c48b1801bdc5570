//! The format of a drawing: DOT as it is, or a picture that the program `dot` of Graphviz makes of it.

use std::ffi::OsStr;
use std::io::{self, stderr, ErrorKind, Write};
use std::path::Path;
use std::process::{Child, Command, Output, Stdio};
use std::thread;

use crate::files::title;
use crate::trouble::Trouble;

/// A drawing's format, by the extension of its file.
#[derive(Clone, Copy, PartialEq, Eq, Debug)]
pub enum Format {
    Dot,
    /// Made by `dot`, with the word behind its option -T.
    Picture(&'static str),
}

impl Format {
    /// The format that a file is to have; standard output has DOT.
    pub fn of(out: Option<&Path>) -> Result<Format, Trouble> {
        let Some(path) = out else { return Ok(Format::Dot) };
        match path.extension().and_then(OsStr::to_str) {
            Some("dot") => Ok(Format::Dot),
            Some("svg") => Ok(Format::Picture("svg")),
            Some("png") => Ok(Format::Picture("png")),
            Some("pdf") => Ok(Format::Picture("pdf")),
            _ => {
                let found = title(path);
                Err(Trouble::usage(format!("-o: expected OUT.dot, OUT.svg, OUT.png or OUT.pdf, found '{found}'")))
            }
        }
    }

    /// The bytes of a drawing.
    pub fn bytes(self, drawing: String) -> Result<Vec<u8>, Trouble> {
        match self {
            Format::Dot => Ok(drawing.into_bytes()),
            Format::Picture(format) => {
                warn(&drawing);
                let made = start(format).and_then(|dot| fed(dot, drawing)).map_err(|why| cannot_run(&why))?;
                picture(made)
            }
        }
    }
}

/// On a drawing with more arrows `dot` may work for minutes, which is told before.
const MANY_ARROWS: usize = 1_000;

fn warn(drawing: &str) {
    let is_arrow = |line: &&str| line.starts_with("  s") && line.contains(" -> ") && !line.contains("style=invis");
    let arrows = drawing.lines().filter(is_arrow).count();
    if arrows > MANY_ARROWS {
        let words =
            format!("hookup: dot gets {arrows} arrows, which may take it many minutes; of a break --around draws less");
        // Where standard error is closed, the picture must do.
        let _ = writeln!(stderr(), "{words}");
    }
}

fn start(format: &str) -> io::Result<Child> {
    let mut command = Command::new("dot");
    command.arg(format!("-T{format}")).stdin(Stdio::piped()).stdout(Stdio::piped()).stderr(Stdio::piped()).spawn()
}

/// Hands the drawing to a program while its output is collected, so that neither waits for the other. A program that
/// does not read all of it tells why itself.
fn fed(mut program: Child, drawing: String) -> io::Result<Output> {
    let input = program.stdin.take();
    let feeder = thread::spawn(move || input.map(|mut input| input.write_all(drawing.as_bytes())));
    let output = program.wait_with_output();
    // A feeder that could not write has nothing to add to the program's own words.
    let _ = feeder.join();
    output
}

fn cannot_run(why: &io::Error) -> Trouble {
    let words = match why.kind() {
        ErrorKind::NotFound => "it is missing; on Debian the package graphviz has it (or write OUT.dot)".to_string(),
        _ => why.to_string(),
    };
    Trouble::usage(format!("cannot run dot: {words}"))
}

/// What `dot` has made; or its first error, where it has failed.
fn picture(made: Output) -> Result<Vec<u8>, Trouble> {
    if made.status.success() && !made.stdout.is_empty() {
        return Ok(made.stdout);
    }
    let said = String::from_utf8_lossy(&made.stderr).into_owned();
    let first = said.lines().find(|line| !line.trim().is_empty());
    let words = first.map_or_else(|| format!("it made no picture ({})", made.status), |line| line.trim().to_string());
    Err(Trouble::usage(format!("dot fails: {words}")))
}

#[cfg(test)]
mod tests {
    use super::*;

    #[test]
    fn formats_by_extension() {
        let of = |out: &str| Format::of(Some(Path::new(out))).map_err(|trouble| trouble.message);
        assert_eq!(Format::of(None).unwrap(), Format::Dot);
        assert_eq!(of("a/b.part.dot"), Ok(Format::Dot));
        assert_eq!(of("b.pdf"), Ok(Format::Picture("pdf")));
        for out in ["a.svg/b", "b", ".svg", "b.svgz", "b.SVG", "svg", "b."] {
            let message = format!("hookup: -o: expected OUT.dot, OUT.svg, OUT.png or OUT.pdf, found '{out}'");
            assert_eq!(of(out), Err(message));
        }
    }
}
