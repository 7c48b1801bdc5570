//! What a drawing shows: the part for one of its observers, all of it or what is around a break.

use super::around::Around;
use crate::part::{Event, Observer, Table};
use crate::proved::Break;

/// A drawing's subject.
pub struct View<'a> {
    pub table: &'a Table,
    pub observer: &'a Observer,
    /// The break that is marked, one for this observer.
    pub broken: Option<&'a Break>,
    /// Only this is shown; without it everything is.
    pub around: Option<&'a Around>,
}

impl<'a> View<'a> {
    pub fn shows(&self, state: usize) -> bool {
        match self.around {
            Some(around) => around.states.contains(&state),
            None => true,
        }
    }

    /// The states that are shown, ascending.
    pub fn states(&self) -> impl Iterator<Item = usize> + '_ {
        (0..self.table.part.states).filter(|&s| self.shows(s))
    }

    fn shows_steps_of(&self, event: &Event) -> bool {
        match self.around {
            Some(around) => around.shows_steps_of(self.observer, event),
            None => true,
        }
    }

    /// The events that lead from one shown state to another, as far as their steps are shown.
    pub fn events(&self, s: usize, t: usize) -> Vec<&'a Event> {
        self.table.part.events.iter().filter(|event| event.leads(s, t) && self.shows_steps_of(event)).collect()
    }
}
