//! Draws a part as Graphviz DOT, with the verdict on it, for one of its observers.

mod around;
mod breaks;
mod caption;
mod dot;
mod edges;
mod nodes;
mod view;

use crate::level::Level;
use crate::observers::of_level;
use crate::part::{Observer, Part, Table};
use crate::proved::Verdict;
pub use around::{around, Around};
use view::View;

/// Colours of seen and unseen events. In grey print the line styles and the italics tell them apart.
const SEEN: &str = "#0b3d91";
const UNSEEN: &str = "#c4400c";
const FONT: &str = "Helvetica";

/// The observer to show: the one that was asked for, or the one of a break, or the first.
pub fn shown<'a>(part: &'a Part, asked: Option<Level>, verdict: &Verdict) -> Result<&'a Observer, String> {
    let level = match (asked, verdict) {
        (Some(level), _) => level,
        (None, Verdict::Broken(broken)) => broken.observer,
        (None, _) => part.observers[0].level,
    };
    of_level(part, level)
}

/// The DOT text of a part for one of its observers: all of it, or what is around its break. `title` stands over the
/// legend, and the verdict is the one on the part. A break is marked where it is one for this observer.
pub fn draw(table: &Table, observer: &Observer, title: &str, verdict: &Verdict, around: Option<&Around>) -> String {
    let broken = match verdict {
        Verdict::Broken(broken) if broken.concerns(observer) => Some(broken),
        _ => None,
    };
    let view = View { table, observer, broken, around };
    let mut lines = vec!["digraph part {".to_string()];
    lines.extend(settings(&caption::caption(&view, title, verdict)));
    // The start comes first: Graphviz then lays out the steps from there.
    lines.extend(edges::start(&view));
    lines.extend(nodes::clusters(&view));
    lines.extend(edges::edges(&view));
    lines.push("}".to_string());
    lines.join("\n") + "\n"
}

fn settings(caption: &str) -> Vec<String> {
    let graph = [("label", caption), ("labelloc", "b"), ("fontname", FONT), ("fontsize", "11")];
    // Without newrank some Graphviz versions fail on clusters with many edges between them.
    let layout = [("newrank", "true"), ("nodesep", "0.4"), ("ranksep", "0.5")];
    let node =
        [("shape", "circle"), ("fontname", FONT), ("fontsize", "12"), ("style", "filled"), ("fillcolor", "white")];
    let edge = [("fontname", FONT), ("fontsize", "11"), ("arrowsize", "0.8")];
    vec![
        format!("  graph [{}];", dot::attributes(&graph)),
        format!("  graph [{}];", dot::attributes(&layout)),
        format!("  node [{}];", dot::attributes(&node)),
        format!("  edge [{}];", dot::attributes(&edge)),
    ]
}

#[cfg(test)]
mod tests {
    use super::*;
    use crate::part::groups;
    use crate::proved;
    use crate::random::{self, Rng};
    use crate::{reader, record, verdict};

    /// Passes. Event 1 is a high input, 2 a low output, 3 internal and at a low level; all three share the edge from a to b.
    const TABLE: &str = "part
observer rank 1 compartments none
states a b c
start b
classes {a b} {c}
event 1 \"x<y\" input rank 2 compartments none
  a -> b
  b -> b
  c -> c
event 2 output rank 1 compartments none
  a -> b c
  b -> b c
event 3 internal rank 0 compartments none
  a -> b
  b -> c
";

    /// State b answers the low output no more: rule 5 event 2 from 0 to 1 other 1.
    fn mute() -> String {
        TABLE.replace("  b -> b c\n", "")
    }

    /// A part as a table, the bytes that are judged, and the verdict on them.
    fn judged(text: &str) -> (Table, Vec<u8>, Verdict) {
        let table = reader::read(text.as_bytes()).unwrap();
        let record = record::write(&table.part);
        let verdict = proved::explain(&record);
        (table, record, verdict)
    }

    fn drawn(text: &str) -> String {
        drawn_for(text, None)
    }

    fn drawn_for(text: &str, asked: Option<Level>) -> String {
        let (table, _, verdict) = judged(text);
        draw(&table, shown(&table.part, asked, &verdict).unwrap(), "t & u.table", &verdict, None)
    }

    fn drawn_around(text: &str) -> String {
        let (table, record, verdict) = judged(text);
        let observer = shown(&table.part, None, &verdict).unwrap();
        let around = around(&table, &record, observer, &verdict).unwrap();
        draw(&table, observer, "t & u.table", &verdict, Some(&around))
    }

    /// The drawing's line with this beginning; there must be exactly one.
    fn line(dot: &str, beginning: &str) -> String {
        let mut lines = dot.lines().filter(|line| line.trim_start().starts_with(beginning));
        let found = lines.next().unwrap_or_else(|| panic!("no {beginning} in\n{dot}"));
        assert_eq!(lines.next(), None);
        found.trim().to_string()
    }

    fn caption(dot: &str) -> String {
        line(dot, "graph [label=<").replace("<BR/>", " ")
    }

    /// The words of the note at a missing step.
    fn note(dot: &str) -> String {
        line(dot, "missing [").replace("<BR/>", " ")
    }

    /// The line of the verdict and all its sentences, of passes and of breaks.
    #[test]
    fn the_caption_has_the_verdict() {
        for text in [TABLE, &mute(), &limited(TABLE), &limited(&mute()), &watched(TABLE), &watched(&mute())] {
            let (table, _, verdict) = judged(text);
            let caption = caption(&drawn(text));
            assert!(caption.contains(&format!("<B>verdict: {}</B></TD>", verdict::line(&verdict))));
            for sentence in verdict::sentences(&table, &verdict) {
                assert!(caption.contains(&format!(">{}</TD>", dot::escaped(&sentence))), "{sentence}");
            }
        }
    }

    #[test]
    fn states_classes_and_start() {
        let dot = drawn(TABLE);
        assert!(dot.starts_with("digraph part {\n") && dot.ends_with("\n}\n"));
        line(&dot, "subgraph cluster_0 {");
        line(&dot, "subgraph cluster_1 {");
        assert!(!dot.contains("cluster_2"));
        assert!(line(&dot, "s2 [").contains("<TD>c</TD></TR><TR><TD><FONT POINT-SIZE=\"9\">2</FONT>"));
        line(&dot, "start -> s1 [penwidth");
        line(&dot, "start -> s0 [style=invis]");
        assert!(caption(&dot).contains("<B>t &amp; u.table</B>, observer rank 1 compartments none (0x40)"));
        assert!(!dot.contains("missing") && !dot.contains("broken") && !dot.contains("3.5"));
    }

    #[test]
    fn steps_of_two_states_share_an_edge() {
        let dot = drawn(TABLE);
        let both = line(&dot, "s0 -> s1 [");
        assert!(both.contains("color=\"#0b3d91:transparent:#c4400c\""));
        assert!(both.contains(">&#160;!2&#160;<") && both.contains("<I>&#160;?1 x&lt;y, τ3&#160;</I>"));
        let low = line(&dot, "s0 -> s2 [");
        assert!(low.contains("style=\"solid\", color=\"#0b3d91\""));
        let high = line(&dot, "s2 -> s2 [");
        assert!(high.contains("style=\"dashed\", color=\"#c4400c\""));
    }

    /// Its level makes no difference.
    #[test]
    fn an_internal_event_is_unseen() {
        for level in ["rank 0 compartments none", "rank 1 compartments none", "rank 2 compartments 4"] {
            let changed = TABLE.replace("rank 0 compartments none\n  a -> b", &format!("{level}\n  c -> c"));
            let dot = drawn(&changed);
            let inside = line(&dot, "s2 -> s2 [");
            assert!(inside.contains("<FONT COLOR=\"#c4400c\"><I>&#160;?1 x&lt;y, τ3&#160;</I></FONT>"), "{inside}");
            assert!(inside.contains("style=\"dashed\", color=\"#c4400c\""));
            assert!(caption(&dot).contains("<I>unseen: high or internal</I>"));
        }
    }

    #[test]
    fn a_break_of_rule_1() {
        let dot = drawn(&TABLE.replace("  c -> c\n", ""));
        assert!(line(&dot, "s2 [").contains("<B> s </B>"));
        assert!(!line(&dot, "s0 [").contains("black"));
        assert!(note(&dot).contains("<B>✗ no step by ?1 x&lt;y</B>"));
        line(&dot, "s2 -> missing [");
        assert!(caption(&dot).contains("<B>verdict: rule 1 event 1 from 2 to 0 other 0</B>"));
    }

    #[test]
    fn a_break_of_rule_2() {
        let dot = drawn(&TABLE.replace("{a b} {c}", "{a} {b c}"));
        let edges: Vec<&str> = dot.lines().filter(|line| line.starts_with("  s0 -> s1 [")).collect();
        assert_eq!(edges.len(), 2);
        assert!(edges[0].contains("!2") && edges[0].contains("τ3") && !edges[0].contains("penwidth"));
        assert!(edges[1].contains("?1 x&lt;y") && edges[1].contains("penwidth=\"3.5\""));
        assert!(line(&dot, "s0 [").contains("<B> s </B>") && line(&dot, "s1 [").contains("<B> t </B>"));
        assert!(!dot.contains("missing"));
    }

    /// The arrow of u is there, but it leads into another class.
    #[test]
    fn a_break_of_rule_3() {
        let dot = drawn(&TABLE.replace("input rank 2", "input rank 1").replace("  b -> b\n", "  b -> c\n"));
        assert!(caption(&dot).contains("<B>verdict: rule 3 event 1 from 0 to 1 other 1</B>"));
        assert!(note(&dot).contains("<B>✗ no step by ?1 x&lt;y into class 0</B>"));
        assert!(line(&dot, "s1 -> s2 [").contains("?1 x&lt;y"));
        line(&dot, "s1 -> missing [");
    }

    #[test]
    fn a_break_of_rule_4_by_an_internal_event() {
        let dot = drawn(&TABLE.replace("  a -> b\n  b -> c\n", "  b -> c\n"));
        let marked = dot.lines().find(|line| line.starts_with("  s1 -> s2 [") && line.contains("penwidth=\"3.5\""));
        assert!(marked.unwrap().contains("τ3") && !marked.unwrap().contains("!2"));
        assert!(note(&dot).contains("<B>✗ no silent steps into class 1</B>"));
        line(&dot, "s0 -> missing [");
    }

    #[test]
    fn a_break_of_rule_5() {
        let dot = drawn(&mute());
        assert!(line(&dot, "s1 [").contains("<B> t, u </B>"));
        assert!(note(&dot).contains("<B>✗ no !2, with silent steps around it, into class 0</B>"));
        line(&dot, "s1 -> missing [");
    }

    /// The table for two more observers: the first keeps all states together, the last sees all inputs and outputs.
    fn watched(text: &str) -> String {
        let first = "observer rank 0 compartments none\nstates a b c\nstart b\nclasses {a b c}\n";
        let text = text
            .replace("part\n", &format!("part\n{first}"))
            .replace("states a b c\nstart b\nclasses {a b} {c}", "classes {a b} {c}");
        text.replace("event 1", "observer rank 3 compartments none\nclasses {a} {b} {c}\nevent 1")
    }

    fn cluster_count(dot: &str) -> usize {
        dot.lines().filter(|line| line.contains("subgraph cluster_")).count()
    }

    /// The first of several observers, or the one that was asked for; the caption says which.
    #[test]
    fn one_of_several_observers() {
        let first = drawn(&watched(TABLE));
        assert_eq!(cluster_count(&first), 1);
        assert!(caption(&first).contains("<B>t &amp; u.table</B>, observer rank 0 compartments none (0x00)</TD>"));
        let others = "not shown: observer rank 1 compartments none (0x40), observer rank 3 compartments none (0xC0)";
        assert!(caption(&first).contains(others), "{first}");
        assert!(line(&first, "s0 -> s2 [").contains("style=\"dashed\", color=\"#c4400c\""));
        let last = drawn_for(&watched(TABLE), Some(Level(0xC0)));
        assert_eq!(cluster_count(&last), 3);
        assert!(caption(&last).contains(", observer rank 3 compartments none (0xC0)</TD>"));
        assert!(caption(&last).contains("not shown: observer rank 0 compartments none (0x00), observer rank 1"));
        assert!(line(&last, "s2 -> s2 [").contains("style=\"solid\", color=\"#0b3d91\""));
        assert!(!drawn(TABLE).contains("not shown"));
    }

    /// Without the caption, a drawing for an observer is that of the part with this observer alone.
    #[test]
    fn a_drawing_for_an_observer() {
        let body = |part: &Part, observer: &Observer| {
            let dot = draw(&Table::unnamed(part.clone()), observer, "x", &Verdict::Pass { limit: 1 }, None);
            dot.lines().filter(|line| !line.starts_with("  graph [label=<")).collect::<Vec<&str>>().join("\n")
        };
        let mut rng = Rng::new(8);
        for _ in 0..100 {
            let part = random::several(&mut rng);
            for observer in &part.observers {
                let alone = Part { observers: vec![observer.clone()], ..part.clone() };
                assert_eq!(body(&part, observer), body(&alone, observer));
            }
        }
    }

    /// The first observer keeps all states together, so for it no state has to answer.
    #[test]
    fn a_break_for_one_of_several_observers() {
        let dot = drawn(&watched(&mute()));
        assert_eq!(cluster_count(&dot), 2);
        assert!(caption(&dot).contains(", observer rank 1 compartments none (0x40)</TD>"));
        line(&dot, "s1 -> missing [");
        assert!(!dot.contains("who is not shown here"));
    }

    /// It marks nothing, and says for whom the break is.
    #[test]
    fn a_break_for_another_observer_than_the_one_shown() {
        for (level, classes) in [(Level(0), 1), (Level(0xC0), 3)] {
            let dot = drawn_for(&watched(&mute()), Some(level));
            assert_eq!(cluster_count(&dot), classes);
            let words = "The break is for the observer rank 1 compartments none (0x40), who is not shown here";
            assert!(caption(&dot).contains(words), "{dot}");
            assert!(caption(&dot).contains("<B>verdict: rule 5 event 2 from 0 to 1 other 1</B>"));
            assert!(!dot.contains("missing [") && !dot.contains("3.5") && !dot.contains("BGCOLOR=\"black\""));
        }
    }

    /// Rule 1 is broken for each observer, and marked for the one that is shown.
    #[test]
    fn a_break_of_rule_1_for_each_observer() {
        let deaf = watched(TABLE).replacen("  c -> c\n", "", 1);
        for level in [Level(0), Level(0x40), Level(0xC0)] {
            let dot = drawn_for(&deaf, Some(level));
            assert!(caption(&dot).contains("Rule 1 is broken for each observer."), "{dot}");
            assert!(dot.contains("missing [") && !dot.contains("who is not shown here"));
        }
    }

    #[test]
    fn which_observer_is_shown() {
        let (table, _, pass) = judged(&watched(TABLE));
        let (_, _, broken) = judged(&watched(&mute()));
        let [first, second, third] = table.part.observers.as_slice() else { panic!() };
        assert_eq!(shown(&table.part, None, &pass), Ok(first));
        assert_eq!(shown(&table.part, None, &broken), Ok(second));
        for verdict in [&pass, &broken] {
            assert_eq!(shown(&table.part, Some(third.level), verdict), Ok(third));
            assert_eq!(shown(&table.part, Some(second.level), verdict), Ok(second));
        }
        let none = "there is no observer rank 2 compartments 1 (0x82), only rank 0 compartments none (0x00), \
                    rank 1 compartments none (0x40), rank 3 compartments none (0xC0)";
        assert_eq!(shown(&table.part, Some(Level(0x82)), &pass), Err(none.to_string()));
    }

    /// A table as a limited part: c shares the class of a and b, but not their fine class.
    fn limited(text: &str) -> String {
        text.replace("classes {a b} {c}", "classes {a b c}\nfine {c} {b a}")
    }

    /// The lines from the one with this beginning to the end of its box.
    fn within<'a>(dot: &'a str, beginning: &str) -> Vec<&'a str> {
        let mut lines = dot.lines().skip_while(|line| !line.trim_start().starts_with(beginning));
        let first = lines.next().unwrap_or_else(|| panic!("no {beginning} in\n{dot}"));
        let indentation = &first[..first.len() - first.trim_start().len()];
        lines.take_while(|line| *line != format!("{indentation}}}")).collect()
    }

    #[test]
    fn fine_classes_are_boxes_in_those_of_the_coarse_ones() {
        let dot = drawn(&limited(TABLE));
        let coarse = within(&dot, "subgraph cluster_0 {");
        assert!(coarse[0].contains("label=\"coarse class 0\""));
        let inner: Vec<&str> = coarse.iter().filter(|line| line.contains("subgraph")).map(|line| line.trim()).collect();
        assert_eq!(inner, ["subgraph cluster_fine_0 {", "subgraph cluster_fine_1 {"]);
        let fine = within(&dot, "subgraph cluster_fine_0 {");
        assert!(fine[0].contains("label=\"fine class 0\"") && fine[1].contains("fillcolor=\"#dcdcdc\""));
        assert!(fine[2].starts_with("      s0 [") && fine[3].starts_with("      s1 [") && fine.len() == 4);
        let fine = within(&dot, "subgraph cluster_fine_1 {");
        assert!(fine[0].contains("label=\"fine class 1\"") && fine[2].starts_with("      s2 [") && fine.len() == 3);
        assert_eq!(cluster_count(&dot), 3);
        assert!(caption(&dot).contains("a limited part: a box is a coarse class, a box in it a fine class</TD>"));
    }

    /// Also where the fine classes are the classes.
    #[test]
    fn only_a_limited_part_has_boxes_in_boxes() {
        let equal = drawn(&TABLE.replace("{a b} {c}\n", "{a b} {c}\nfine {a b} {c}\n"));
        assert_eq!(cluster_count(&equal), 4);
        for dot in [drawn(TABLE), drawn(&watched(TABLE))] {
            assert!(!dot.contains("fine") && !dot.contains("coarse") && !dot.contains("limit"));
        }
    }

    /// The note of a missing step is in the fine box of its state.
    #[test]
    fn a_break_of_a_limited_part() {
        let dot = drawn(&limited(&mute()));
        let fine = within(&dot, "subgraph cluster_fine_0 {");
        assert!(fine[4].contains("missing ["));
        assert!(note(&dot).contains("✗ no !2, with silent steps around it, into coarse class 0</B>"));
    }

    /// States that hold a low output back: 0 has it, and from 1 silent steps lead on to all the others but 0 and 13, one by one.
    fn chain() -> String {
        let mut text = "part\nobserver rank 0 compartments none\nstates 14\nstart 13\n".to_string();
        text += "classes {0 1 2 3 4 5 6 7 8 9 10 11 12} {13}\n";
        text +=
            "event 2 output rank 0 compartments none\n 0 -> 13\n 13 -> 13\nevent 5 internal rank 0 compartments none\n";
        text += &(1..12).map(|s| format!(" {s} -> {}\n", s + 1)).collect::<String>();
        text + "event 7 input rank 0 compartments none\n"
            + &(0..14).map(|s| format!(" {s} -> 0 1 2\n")).collect::<String>()
    }

    #[test]
    fn around_a_break_of_rule_5() {
        let dot = drawn_around(&chain());
        let states: Vec<usize> = (0..14).filter(|s| dot.contains(&format!("    s{s} ["))).collect();
        assert_eq!(states, [0, 1, 2, 3, 4, 5, 6, 7, 8, 9, 13]);
        let words = "around the break: 11 of 14 states; only the steps of event 2 and silent ones between them; \
                     left out: 3 farther states where silent steps lead from u</TD>";
        assert!(caption(&dot).contains(words), "{dot}");
        assert!(line(&dot, "graph [label=\"class 0").contains("class 0 (10 of 13 states)"));
        assert!(line(&dot, "graph [label=\"class 1").contains("class 1 (1 of 1 state)"));
        // The silent steps, two low outputs, the start's arrow and the stub; the input's steps are left out.
        assert_eq!(dot.lines().filter(|line| is_step(line)).count(), 8 + 2);
        line(&dot, "start -> s13 [penwidth");
        line(&dot, "s1 -> missing [");
        assert!(!dot.contains("?7"));
    }

    /// Silent steps lead from u, but not into the class of t.
    #[test]
    fn around_a_break_of_rule_4() {
        let dot = drawn_around(&chain().replace(" 6 -> 7\n", " 6 -> 13\n 0 -> 7\n"));
        assert!(caption(&dot).contains("verdict: rule 4 event 5 from 6 to 13 other 0</B>"));
        let states: Vec<usize> = (0..14).filter(|s| dot.contains(&format!("    s{s} ["))).collect();
        assert_eq!(states, [0, 6, 7, 8, 9, 10, 11, 12, 13]);
        assert!(caption(&dot).contains("around the break: 9 of 14 states; only the silent steps between them</TD>"));
        assert_eq!(dot.lines().filter(|line| is_step(line)).count(), 7);
        assert!(!dot.contains("!2"));
    }

    /// Only the states that the rule names, and neither silent steps nor the start.
    #[test]
    fn around_a_break_of_rule_3() {
        let dot = drawn_around(&chain().replace(" 1 -> 0 1 2\n", " 1 -> 13\n"));
        assert!(caption(&dot).contains("around the break: 2 of 14 states; only the steps of event 7 between them</TD>"));
        assert!(caption(&dot).contains("verdict: rule 3 event 7 from 0 to 0 other 1</B>"));
        let steps: Vec<&str> = dot.lines().filter(|line| is_step(line)).map(|line| line.trim_start()).collect();
        assert_eq!(steps.iter().map(|step| &step[..8]).collect::<Vec<&str>>(), ["s0 -> s0", "s0 -> s1"]);
        assert!(steps.iter().all(|step| step.contains("?7") && !step.contains("τ5")));
        assert!(!dot.lines().any(|line| line.starts_with("  start")) && cluster_count(&dot) == 1);
        assert!(note(&dot).contains("no step by ?7 into class 0"));
    }

    /// Boxes of fine classes without a shown state are left out too.
    #[test]
    fn around_a_break_of_a_limited_part() {
        let dot = drawn_around(&limited(&mute().replace("  a -> b\n  b -> c\n", "  a -> b\n")));
        assert_eq!(cluster_count(&dot), 2);
        assert!(line(&dot, "graph [label=\"coarse class 0").contains("(2 of 3 states)"));
        assert!(line(&dot, "graph [label=\"fine class 0").contains("(2 of 2 states)"));
    }

    #[test]
    fn around_no_break() {
        let said = |text: &str, asked: Option<Level>| {
            let (table, record, verdict) = judged(text);
            around(&table, &record, shown(&table.part, asked, &verdict).unwrap(), &verdict).map(|_| ())
        };
        assert_eq!(said(TABLE, None), Err("the part passes, so there is no break to draw around".to_string()));
        let other = "the break is for the observer rank 1 compartments none (0x40), so there is none to draw around \
                     for rank 3 compartments none (0xC0)";
        assert_eq!(said(&watched(&mute()), Some(Level(0xC0))), Err(other.to_string()));
        assert_eq!(said(&watched(&mute()), Some(Level(0x40))), Ok(()));
    }

    /// Is this line an edge between two states?
    fn is_step(line: &str) -> bool {
        let from = line.strip_prefix("  s").is_some_and(|rest| rest.starts_with(|c: char| c.is_ascii_digit()));
        from && line.contains(" -> s")
    }

    /// Is this line the node of a state, so far in?
    fn is_state(line: &str, indentation: usize) -> bool {
        let node = line.trim_start();
        line.len() - node.len() == indentation
            && node.starts_with('s')
            && node[1..].starts_with(|c: char| c.is_ascii_digit())
    }

    /// Does the marked step share its states with others, so that there is an edge more?
    fn splits_an_edge(part: &Part, verdict: &Verdict) -> bool {
        let Verdict::Broken(broken) = verdict else { return false };
        let others = |other: u16| other != broken.event;
        broken.rule > 1 && part.events.iter().any(|event| others(event.identifier) && event.leads(broken.s, broken.t))
    }

    /// An edge for each two states with a step, a node for each state, a cluster for each class and fine class.
    #[test]
    fn random_parts_have_all_their_pieces() {
        let mut rng = Rng::new(6);
        for _ in 0..300 {
            let part = random::any(&mut rng);
            let verdict = proved::explain(&record::write(&part));
            let observer = shown(&part, None, &verdict).unwrap();
            let dot = draw(&Table::unnamed(part.clone()), observer, "x", &verdict, None);
            let count = |test: fn(&str) -> bool| dot.lines().filter(|line| test(line)).count();
            let n = part.states;
            let pairs = (0..n * n).filter(|i| part.events.iter().any(|event| event.leads(i / n, i % n))).count();
            assert_eq!(count(is_step), pairs + splits_an_edge(&part, &verdict) as usize);
            let classes = groups(&observer.classes).len();
            let fine = observer.fine.as_ref().map_or(0, |fine| groups(fine).len());
            let deep = observer.fine.is_some() as usize * n;
            assert_eq!([count(|line| is_state(line, 4)), count(|line| is_state(line, 6))], [n - deep, deep]);
            assert_eq!(count(|line| line.starts_with("  subgraph cluster_")), classes);
            assert_eq!(count(|line| line.starts_with("    subgraph cluster_fine_")), fine);
            assert_eq!(count(|line| line.contains("subgraph")), classes + fine);
        }
    }
}
