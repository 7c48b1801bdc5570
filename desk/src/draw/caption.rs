//! The text under a drawing: title, observer, what is left out, the verdict in words, legend.

use super::dot::{escaped, escaped_lines};
use super::view::View;
use super::{SEEN, UNSEEN};
use crate::proved::Verdict;
use crate::verdict;

const WIDTH: usize = 76;

fn row(content: &str) -> String {
    format!("<TR><TD ALIGN=\"LEFT\" BALIGN=\"LEFT\">{content}</TD></TR>")
}

/// A row of words, as many lines as they need.
fn words(words: &str) -> String {
    row(&escaped_lines(words, WIDTH))
}

/// The observers that the drawing does not show; nothing where the part has only one.
fn other_observers(view: &View) -> Option<String> {
    let others = view.table.part.observers.iter().filter(|other| other.level != view.observer.level);
    let levels: Vec<String> = others.map(|other| other.level.text_and_byte()).collect();
    (!levels.is_empty()).then(|| words(&format!("not shown: observer {}", levels.join(", observer "))))
}

/// What the boxes of a limited part are; nothing where they are classes alone.
fn boxes(view: &View) -> Option<String> {
    view.observer.fine.as_ref().map(|_| words("a limited part: a box is a coarse class, a box in it a fine class"))
}

/// What is left out around a break; nothing where everything is shown.
fn left_out(view: &View) -> Option<String> {
    view.around.map(|around| words(&around.words(view.table.part.states)))
}

/// For whom the break is, where that is not the observer shown.
fn elsewhere(view: &View, verdict: &Verdict) -> Option<String> {
    let Verdict::Broken(broken) = verdict else { return None };
    let told = format!(
        "The break is for the observer {}, who is not shown here: no step or state is marked, and the classes named \
         below are that observer's.",
        broken.observer.text_and_byte()
    );
    view.broken.is_none().then(|| words(&told))
}

/// The line of the verdict, then its sentences.
fn verdict_rows(view: &View, verdict: &Verdict) -> String {
    let mut rows = row(&format!("<B>verdict: {}</B>", verdict::line(verdict)));
    rows.extend(elsewhere(view, verdict));
    rows.extend(verdict::sentences(view.table, verdict).iter().map(|sentence| words(sentence)));
    rows
}

/// What the observer sees of an event, then the signs.
fn legend() -> String {
    let seen = format!("<FONT COLOR=\"{SEEN}\">━━━━ seen: low input, low output</FONT>");
    let unseen = format!("<FONT COLOR=\"{UNSEEN}\">━ ━ ━ <I>unseen: high or internal</I></FONT>");
    let both = format!("<FONT COLOR=\"{SEEN}\">══</FONT><FONT COLOR=\"{UNSEEN}\">══</FONT> both");
    row(&format!("{seen}     {unseen}     {both}")) + &row("? input     ! output     τ internal     ● start")
}

/// The caption as an HTML-like label.
pub fn caption(view: &View, title: &str, verdict: &Verdict) -> String {
    let level = view.observer.level.text_and_byte();
    let mut rows = row(&format!("<B>{}</B>, observer {level}", escaped(title)));
    rows.extend(other_observers(view));
    rows.extend(boxes(view));
    rows.extend(left_out(view));
    rows.push_str(&verdict_rows(view, verdict));
    rows.push_str(&legend());
    format!("<<TABLE BORDER=\"0\" CELLBORDER=\"0\" CELLSPACING=\"2\">{rows}</TABLE>>")
}
