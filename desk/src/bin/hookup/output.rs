//! What a command writes: to standard output, or to the file of `-o`, which is there whole or not at all.

use std::fs::{self, File, Metadata, OpenOptions, Permissions};
use std::io::{self, ErrorKind, IsTerminal, Write};
use std::os::unix::fs::{fchown, MetadataExt, OpenOptionsExt, PermissionsExt};
use std::path::{Path, PathBuf};
use std::process;

use crate::files::{same_file, title};
use crate::standard;
use crate::trouble::Trouble;

/// Writes to standard output. Where nobody reads it any more, that is no trouble.
fn to_standard_output(bytes: &[u8]) -> io::Result<()> {
    standard::OUTPUT.must_be_open()?;
    let mut out = io::stdout().lock();
    match out.write_all(bytes).and_then(|()| out.flush()) {
        Err(why) if why.kind() == ErrorKind::BrokenPipe => Ok(()),
        written => written,
    }
}

/// Prints text on standard output.
pub fn print(text: &str) -> Result<(), Trouble> {
    to_standard_output(text.as_bytes()).map_err(|why| Trouble::usage(format!("cannot write standard output: {why}")))
}

/// Writes a command's text to the file of `-o`, or to standard output where there is none.
pub fn write(out: Option<&Path>, inputs: &[PathBuf], bytes: &[u8]) -> Result<(), Trouble> {
    let (written, place) = match out {
        Some(path) => (to_file(path, inputs, bytes), title(path)),
        None => (to_standard_output(bytes), "standard output".to_string()),
    };
    written.map_err(|why| Trouble::usage(format!("cannot write {place}: {why}")))
}

/// Writes a command's record, as text is written; but a terminal is no place for one.
pub fn write_record(out: Option<&Path>, inputs: &[PathBuf], record: &[u8]) -> Result<(), Trouble> {
    if out.is_none() && io::stdout().is_terminal() {
        return Err(Trouble::usage("a record is no text for a terminal: name a file with -o".to_string()));
    }
    write(out, inputs, record)
}

/// Writes to a file that is none of the inputs.
fn to_file(path: &Path, inputs: &[PathBuf], bytes: &[u8]) -> io::Result<()> {
    if let Some(input) = inputs.iter().find(|input| same_file(path, input)) {
        return Err(io::Error::other(format!("it is the same file as the input {}", title(input))));
    }
    match fs::metadata(path) {
        Ok(there) if there.is_file() => {
            // A file that may not be written is not replaced either.
            OpenOptions::new().write(true).open(path)?;
            // Behind a symbolic link the file itself is written anew.
            replace(&fs::canonicalize(path)?, bytes, Some(there))
        }
        // A device or a pipe is written to as it is.
        Ok(_) => OpenOptions::new().write(true).open(path)?.write_all(bytes),
        Err(_) if path.is_symlink() => Err(io::Error::other("it is a symbolic link that leads nowhere")),
        Err(_) => replace(path, bytes, None),
    }
}

/// Writes a new file beside the one that is wanted, and gives it the name once all bytes are in it.
fn replace(path: &Path, bytes: &[u8], before: Option<Metadata>) -> io::Result<()> {
    // In the place of a file that was there before, nobody else reads the new one until it is as that was.
    let (new, file) = create_beside(path, if before.is_some() { 0o600 } else { 0o666 })?;
    let written = fill(file, bytes, before).and_then(|()| fs::rename(&new, path));
    if written.is_err() {
        let _ = fs::remove_file(&new);
    }
    written
}

/// A new file beside another one, by a name that is free: a run that was killed may have left its own.
fn create_beside(path: &Path, mode: u32) -> io::Result<(PathBuf, File)> {
    let mut number = 0;
    loop {
        let new = path.with_file_name(format!(".hookup-{}-{number}.new", process::id()));
        match OpenOptions::new().write(true).create_new(true).mode(mode).open(&new) {
            Err(why) if why.kind() == ErrorKind::AlreadyExists => number += 1,
            opened => return opened.map(|file| (new, file)),
        }
    }
}

fn fill(mut file: File, bytes: &[u8], before: Option<Metadata>) -> io::Result<()> {
    file.write_all(bytes)?;
    if let Some(before) = before {
        keep(&file, &before)?;
    }
    file.sync_all()
}

/// Gives a file the group, the owner and the permissions of another. A user who may not give it away keeps it, and what
/// was allowed to a group is allowed to no other.
fn keep(file: &File, before: &Metadata) -> io::Result<()> {
    let mut mode = before.mode() & 0o7777;
    if fchown(file, None, Some(before.gid())).is_err() {
        mode &= !0o2070;
    }
    if fchown(file, Some(before.uid()), None).is_err() {
        mode &= !0o4000;
    }
    file.set_permissions(Permissions::from_mode(mode))
}

#[cfg(test)]
mod tests {
    use super::*;

    /// What another run has left behind is neither taken nor removed.
    #[test]
    fn a_new_file_beside_one_that_was_left_behind() {
        let folder = std::env::temp_dir().join(format!("hookup-test-{}", process::id()));
        fs::create_dir(&folder).unwrap();
        let [left, wanted] = [&format!(".hookup-{}-0.new", process::id()), "wanted"].map(|name| folder.join(name));
        fs::write(&left, "left").unwrap();
        replace(&wanted, b"new", None).unwrap();
        assert_eq!((fs::read(&left).unwrap(), fs::read(&wanted).unwrap()), (b"left".to_vec(), b"new".to_vec()));
        assert_eq!(fs::read_dir(&folder).unwrap().count(), 2);
        fs::remove_dir_all(&folder).unwrap();
    }
}
