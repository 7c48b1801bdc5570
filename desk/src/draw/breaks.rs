//! What a break's marks are: the states' roles, the named step, the missing one.

use super::edges::event_text;
use super::view::View;
use crate::part::Event;
use crate::proved::Break;

/// The states that a broken rule names, with their roles: s; for rule 2 also t; for rules 3 to 5 also u.
pub fn roles(broken: &Break) -> Vec<(&'static str, usize)> {
    let all = [("s", broken.s), ("t", broken.t), ("u", broken.u)];
    all.into_iter().take(broken.rule).collect()
}

/// The roles of a state: `s`, `t`, `u`, several or none.
pub fn roles_of(view: &View, state: usize) -> String {
    let roles = view.broken.map(roles).unwrap_or_default();
    let here: Vec<&str> = roles.iter().filter(|(_, other)| *other == state).map(|(role, _)| *role).collect();
    here.join(", ")
}

/// Is this the step that a break names?
pub fn is_named(view: &View, event: &Event, s: usize, t: usize) -> bool {
    view.broken.is_some_and(|named| named.rule > 1 && (named.event, named.s, named.t) == (event.identifier, s, t))
}

/// The state whose step is missing, and what it has not: s for rule 1, u for rules 3 to 5.
pub fn missing(view: &View) -> Option<(usize, String)> {
    let named = view.broken?;
    let event = event_text(view.table, view.table.part.event(named.event)?);
    let into = format!("into {} {}", view.observer.class_word(), view.observer.classes[named.t]);
    match named.rule {
        1 => Some((named.s, format!("no step by {event}"))),
        2 => None,
        3 => Some((named.u, format!("no step by {event} {into}"))),
        4 => Some((named.u, format!("no silent steps {into}"))),
        _ => Some((named.u, format!("no {event}, with silent steps around it, {into}"))),
    }
}
