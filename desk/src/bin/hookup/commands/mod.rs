//! The commands: each has its form, its help and what it does.

mod check;
mod closure;
mod diff;
mod draw;
mod join;
mod observers;
mod record;
mod shelf;
mod text;

use crate::arguments::{Arguments, Form};
use crate::files;
use crate::trouble::Trouble;
use desk::observers::alone;
use desk::part::Table;

pub const COMMANDS: [&Form; 9] = [
    &check::FORM,
    &join::FORM,
    &draw::FORM,
    &closure::FORM,
    &diff::FORM,
    &observers::FORM,
    &record::FORM,
    &text::FORM,
    &shelf::FORM,
];

/// The part of a command's only file; where `--observer` stands, with that observer alone.
fn only_file(arguments: &Arguments) -> Result<Table, Trouble> {
    let path = arguments.file(0);
    let level = arguments.level()?;
    let table = files::table(path)?;
    let Some(level) = level else { return Ok(table) };
    alone(&table, level).map_err(|why| Trouble::content(format!("{}: {why}", files::title(path))))
}
