//! Steps as edges: one for each two states, with all its events on the label.

use super::breaks::{is_named, missing};
use super::dot::{attributes, escaped, filled};
use super::view::View;
use super::{SEEN, UNSEEN};
use crate::part::{Event, Kind, Observer, Table};

/// A label's line is filled up to this many characters.
const WIDTH: usize = 14;

fn mark(kind: Kind) -> &'static str {
    match kind {
        Kind::Input => "?",
        Kind::Output => "!",
        Kind::Internal => "τ",
    }
}

/// `?7 send`
pub fn event_text(table: &Table, event: &Event) -> String {
    let name = table.names.event(event.identifier).map(|name| format!(" {name}")).unwrap_or_default();
    format!("{}{}{name}", mark(event.kind), event.identifier)
}

/// Seen events upright, unseen ones in italics and another colour. The blanks keep the line off the text.
fn styled(text: &str, seen: bool) -> String {
    let text = escaped(text);
    match seen {
        true => format!("<FONT COLOR=\"{SEEN}\">&#160;{text}&#160;</FONT>"),
        false => format!("<FONT COLOR=\"{UNSEEN}\"><I>&#160;{text}&#160;</I></FONT>"),
    }
}

/// The label's lines: seen events first, several to a line while they are short.
fn label(view: &View, events: &[&Event]) -> String {
    let mut lines = Vec::new();
    for seen in [true, false] {
        let here = events.iter().filter(|event| view.observer.sees(event) == seen);
        let texts: Vec<String> = here.map(|event| event_text(view.table, event)).collect();
        let filled = filled(texts.iter().map(String::as_str), ", ", WIDTH);
        lines.extend(filled.iter().map(|line| styled(line, seen) + "<BR ALIGN=\"LEFT\"/>"));
    }
    lines.concat()
}

/// Line style and colour: seen solid, unseen dashed, both a double line.
fn line(observer: &Observer, events: &[&Event]) -> (&'static str, String) {
    let any_seen = events.iter().any(|event| observer.sees(event));
    let any_unseen = events.iter().any(|event| !observer.sees(event));
    match (any_seen, any_unseen) {
        (true, true) => ("solid", format!("{SEEN}:transparent:{UNSEEN}")),
        (true, false) => ("solid", SEEN.to_string()),
        _ => ("dashed", UNSEEN.to_string()),
    }
}

fn edge(view: &View, [s, t]: [usize; 2], events: &[&Event], marked: bool) -> String {
    let label = match marked {
        true => format!("<<B>{}</B>>", label(view, events)),
        false => format!("<{}>", label(view, events)),
    };
    let (style, color) = line(view.observer, events);
    let mut pairs = vec![("label", label.as_str()), ("style", style), ("color", &color)];
    if marked {
        pairs.push(("penwidth", "3.5"));
    }
    format!("  s{s} -> s{t} [{}];", attributes(&pairs))
}

/// Is a step from another state to this one shown?
fn entered(view: &View, t: usize) -> bool {
    view.states().any(|s| s != t && !view.events(s, t).is_empty())
}

/// The start state's arrow, where it is shown. Edges that are not drawn keep states without an arrow below the start.
pub fn start(view: &View) -> Vec<String> {
    let start = view.table.part.start;
    if !view.shows(start) {
        return Vec::new();
    }
    let mut lines = vec![
        "  start [shape=point, width=0.14, label=\"\", fillcolor=black];".to_string(),
        format!("  start -> s{start} [penwidth=1.5];"),
    ];
    let lone = view.states().filter(|&s| s != start && !entered(view, s));
    lines.extend(lone.map(|s| format!("  start -> s{s} [style=invis];")));
    lines
}

/// The steps from one state to another: the one that a break names has an edge of its own.
fn edges_between(view: &View, s: usize, t: usize) -> Vec<String> {
    let (named, others): (Vec<&Event>, Vec<&Event>) =
        view.events(s, t).into_iter().partition(|event| is_named(view, event, s, t));
    let both = [(others, false), (named, true)];
    let drawn = both.iter().filter(|(events, _)| !events.is_empty());
    drawn.map(|(events, marked)| edge(view, [s, t], events, *marked)).collect()
}

/// All steps that are shown. The missing one ends in its note.
pub fn edges(view: &View) -> Vec<String> {
    let pairs = view.states().flat_map(|s| view.states().map(move |t| (s, t)));
    let mut lines: Vec<String> = pairs.flat_map(|(s, t)| edges_between(view, s, t)).collect();
    if let Some((s, _)) = missing(view) {
        lines.push(format!("  s{s} -> missing [style=dotted, penwidth=2.5, arrowhead=tee];"));
    }
    lines
}
