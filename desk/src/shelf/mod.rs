//! Scripts of calls on a shelf of parts: as text, as the bytes that `replay` reads, and made on the proved entries.

pub mod bytes;
pub mod run;
pub mod script;
pub mod words;

use std::rc::Rc;

use crate::part::Table;
use crate::record::{self, counted};
use crate::source::Source;
use crate::text::Place;

/// The largest shelf, as of `replay`.
pub const MAX_CAPACITY: usize = 262_144;

/// The bytes of an end record.
const END: usize = 6;

/// A file that a script names.
#[derive(Clone, PartialEq, Eq, Debug)]
pub struct Name {
    /// As it stands in the script, with its quotes if it has any.
    pub written: String,
    pub path: String,
    pub place: Place,
}

/// What a load of a script names.
#[derive(Clone, PartialEq, Eq, Debug)]
pub enum Given {
    File(Name),
    Bytes(Vec<u8>),
}

/// What a load takes to the shelf.
#[derive(Clone, PartialEq, Eq, Debug)]
pub struct Loaded {
    /// The file as it stands in the script, or how many bytes it gives.
    pub words: String,
    pub source: Rc<Source>,
}

/// A call of a script, with what stands for the record of a load.
#[derive(Clone, PartialEq, Eq, Debug)]
pub enum Call<L> {
    Clear,
    Load(L),
    Hookup(u32, u32),
    Count,
    /// The record goes to the file, if there is one.
    Part(u32, Option<Name>),
}

/// The bytes of a shelf, and the calls on it.
#[derive(Clone, PartialEq, Eq, Debug)]
pub struct Script<L> {
    pub capacity: usize,
    pub calls: Vec<Call<L>>,
}

impl Loaded {
    pub fn file(name: &Name, source: Rc<Source>) -> Loaded {
        Loaded { words: name.written.clone(), source }
    }

    /// Bytes are a record, whatever they look like.
    pub fn bytes(record: Vec<u8>) -> Loaded {
        let words = counted(record.len(), "byte");
        let table = record::read(&record).map(Table::unnamed);
        Loaded { words, source: Rc::new(Source { record, table, goes_on: false }) }
    }
}

impl<L> Call<L> {
    fn map<M, E>(self, load: impl FnOnce(L) -> Result<M, E>) -> Result<Call<M>, E> {
        Ok(match self {
            Call::Clear => Call::Clear,
            Call::Load(given) => Call::Load(load(given)?),
            Call::Hookup(i, j) => Call::Hookup(i, j),
            Call::Count => Call::Count,
            Call::Part(i, out) => Call::Part(i, out),
        })
    }
}

impl<L> Script<L> {
    /// The script with something else in its loads, up to the first that has none.
    pub fn map<M, E>(self, mut load: impl FnMut(L) -> Result<M, E>) -> Result<Script<M>, E> {
        let calls: Result<Vec<Call<M>>, E> = self.calls.into_iter().map(|call| call.map(&mut load)).collect();
        Ok(Script { capacity: self.capacity, calls: calls? })
    }
}

impl Script<Given> {
    /// The files that the script loads, in its order.
    pub fn files(&self) -> impl Iterator<Item = &Name> {
        self.calls.iter().filter_map(|call| match call {
            Call::Load(Given::File(name)) => Some(name),
            _ => None,
        })
    }
}

#[cfg(test)]
impl Script<Given> {
    /// The script of a test, which names no files to load.
    fn loaded(self) -> Script<Loaded> {
        let load = |given| match given {
            Given::Bytes(record) => Ok(Loaded::bytes(record)),
            Given::File(name) => Err(name),
        };
        self.map(load).unwrap()
    }
}
