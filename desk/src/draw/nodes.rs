//! States as nodes, classes as clusters, fine classes as clusters in them.

use super::breaks::{missing, roles_of};
use super::dot::{attributes, escaped, escaped_lines};
use super::view::View;
use crate::part::groups;
use crate::record::counted;

/// A note's line is filled up to this many characters.
const NOTE_WIDTH: usize = 30;

/// The name above its number, and in a break the state's roles in a black box.
fn label(view: &View, s: usize, roles: &str) -> String {
    let mut rows = match view.table.names.state(s) {
        Some(name) => {
            format!("<TR><TD>{}</TD></TR><TR><TD><FONT POINT-SIZE=\"9\">{s}</FONT></TD></TR>", escaped(name))
        }
        None => format!("<TR><TD>{s}</TD></TR>"),
    };
    if !roles.is_empty() {
        rows.push_str(&format!("<TR><TD BGCOLOR=\"black\"><FONT COLOR=\"white\"><B> {roles} </B></FONT></TD></TR>"));
    }
    format!("<<TABLE BORDER=\"0\" CELLBORDER=\"0\" CELLSPACING=\"0\" CELLPADDING=\"1\">{rows}</TABLE>>")
}

fn node(view: &View, s: usize) -> String {
    let roles = roles_of(view, s);
    let label = label(view, s, &roles);
    let mut pairs = vec![("label", label.as_str()), ("margin", "0.02")];
    if !roles.is_empty() {
        pairs.extend([("penwidth", "2.5"), ("fillcolor", "#fff3b0")]);
    }
    if !view.table.names.states.is_empty() {
        pairs.push(("shape", "ellipse"));
    }
    format!("    s{s} [{}];", attributes(&pairs))
}

/// The note of a missing step, in the box of its state.
fn note(view: &View, group: &[usize]) -> Option<String> {
    let (_, words) = missing(view).filter(|(state, _)| group.contains(state))?;
    let lines = escaped_lines(&format!("✗ {words}"), NOTE_WIDTH);
    Some(format!("    missing [shape=plaintext, style=\"\", label=<<B>{lines}</B>>];"))
}

/// The nodes of some states, and the note where a step of one of them is missing.
fn nodes(view: &View, group: &[usize]) -> Vec<String> {
    let mut lines: Vec<String> = group.iter().filter(|&&s| view.shows(s)).map(|&s| node(view, s)).collect();
    lines.extend(note(view, group));
    lines
}

/// `class 1`; around a break also how many of its states are shown.
fn title(view: &View, word: &str, number: usize, group: &[usize]) -> String {
    let shown = group.iter().filter(|&&s| view.shows(s)).count();
    match view.around {
        Some(_) => format!("{word} {number} ({shown} of {})", counted(group.len(), "state")),
        None => format!("{word} {number}"),
    }
}

/// A box with its title and what is in it.
fn cluster(name: &str, title: &str, fill: &str, content: Vec<String>) -> Vec<String> {
    let pairs = [("label", title), ("labelloc", "t"), ("labeljust", "r"), ("style", "rounded,filled")];
    let mut lines = vec![
        format!("  subgraph cluster_{name} {{"),
        format!("    graph [{}];", attributes(&pairs)),
        format!("    graph [color=\"#8a8a8a\", fillcolor=\"{fill}\", margin=14];"),
    ];
    lines.extend(content);
    lines.push("  }".to_string());
    lines
}

/// The classes of a column with a state that is shown, each with its number and all its states.
fn shown_groups(view: &View, column: &[u8]) -> Vec<(usize, Vec<usize>)> {
    let numbered = groups(column).into_iter().enumerate();
    numbered.filter(|(_, group)| group.iter().any(|&s| view.shows(s))).collect()
}

/// The boxes of the fine classes in a class, a step further in.
fn fine_clusters(view: &View, fine: &[u8], class: &[usize]) -> Vec<String> {
    let mut lines = Vec::new();
    for (number, group) in shown_groups(view, fine).iter().filter(|(_, group)| class.contains(&group[0])) {
        let title = title(view, "fine class", *number, group);
        lines.extend(cluster(&format!("fine_{number}"), &title, "#dcdcdc", nodes(view, group)));
    }
    lines.iter().map(|line| format!("  {line}")).collect()
}

/// A cluster for each class of the observer and, in a limited part, one for each fine class in it.
pub fn clusters(view: &View) -> Vec<String> {
    let mut lines = Vec::new();
    for (number, group) in shown_groups(view, &view.observer.classes) {
        let content = match &view.observer.fine {
            Some(fine) => fine_clusters(view, fine, &group),
            None => nodes(view, &group),
        };
        let title = title(view, view.observer.class_word(), number, &group);
        lines.extend(cluster(&number.to_string(), &title, "#f1f1f1", content));
    }
    lines
}
