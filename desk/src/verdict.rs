//! A verdict of the proved library as `verdict` prints it, and in words with a table's names. Nothing here decides one.

use crate::observers::levels;
use crate::part::{Event, Kind, Observer, Table};
use crate::proved::{Break, Verdict};
use crate::reach::{path, Path};
use crate::record::Misfit;
use crate::refusals;
use crate::source::{Source, MOST_OF_A_RECORD};

/// The line that the program `verdict` prints.
pub fn line(verdict: &Verdict) -> String {
    match verdict {
        Verdict::Pass { .. } => "pass".to_string(),
        Verdict::Refused(refusal) => format!("refused {refusal}"),
        Verdict::Broken(Break { rule, event, s, t, u, .. }) => {
            format!("rule {rule} event {event} from {s} to {t} other {u}")
        }
    }
}

/// The observer for whom a rule is broken.
pub fn concerned<'a>(table: &'a Table, broken: &Break) -> &'a Observer {
    table.part.observer(broken.observer).expect("a break is told of an observer of the part")
}

/// `high input`, `low output`; an internal event is called just that, since its level plays no part.
fn kind_words(observer: &Observer, event: &Event) -> String {
    let level = if observer.is_low(event) { "low" } else { "high" };
    match event.kind {
        Kind::Internal => "internal event".to_string(),
        kind => format!("{level} {}", kind.word()),
    }
}

/// `high input 7 "send"`
fn event_words(table: &Table, observer: &Observer, identifier: u16) -> String {
    let event = table.part.event(identifier).expect("a break is told of an event of the part");
    format!("{} {}", kind_words(observer, event), table.event_words(identifier))
}

/// What s and u have in common under rules 3 to 5: the class, or that of the two in a limited part.
fn common_word(observer: &Observer, rule: usize) -> &'static str {
    match (rule, &observer.fine) {
        (4 | 5, Some(_)) => "fine class",
        _ => observer.class_word(),
    }
}

/// What a rule asks.
fn asked(observer: &Observer, rule: usize) -> String {
    let (class, common) = (observer.class_word(), common_word(observer, rule));
    let into = format!("from every state of s's {common} into t's {class}");
    match rule {
        1 => "every input has a step from every state".to_string(),
        2 => format!("a high input stays in its state's {class}"),
        3 => format!("where a low input leads from s to t, it leads {into}"),
        4 => format!("where a silent event leads from s to t, silent steps, or none, lead {into}"),
        _ => {
            format!("where a low output leads from s to t, it leads, with silent steps before and after it, {into}")
        }
    }
}

/// A class is shown with so many states at most.
const SHOWN: usize = 8;

/// The class of a state: `class 1 {2:idle 3:sent}`.
fn class_of(table: &Table, observer: &Observer, s: usize) -> String {
    let members: Vec<usize> = (0..table.part.states).filter(|&other| observer.same_class(s, other)).collect();
    let more = match members.len().saturating_sub(SHOWN) {
        0 => String::new(),
        more => format!(" and {more} more"),
    };
    let shown = table.states_words(&members[..members.len().min(SHOWN)]);
    format!("{} {} {shown}{more}", observer.class_word(), observer.classes[s])
}

/// What there is, at which event and states.
fn found(table: &Table, observer: &Observer, broken: &Break) -> String {
    let event = || event_words(table, observer, broken.event);
    let state = |role: &str, state: usize| format!("{role} = {}", table.state_words(state));
    let (s, t, u) = (state("s", broken.s), state("t", broken.t), state("u", broken.u));
    match broken.rule {
        // The same for all observers, so that the input's level plays no part.
        1 => format!("The input {} has no step from {s}.", table.event_words(broken.event)),
        2 => format!("The {} leads from {s} to {t}.", event()),
        rule => {
            let common = common_word(observer, rule);
            format!("The {} leads from {s} to {t}, and {u} is in the {common} of s.", event())
        }
    }
}

/// What is missing; of rule 1 it is all that there is to tell.
fn missing(table: &Table, observer: &Observer, broken: &Break) -> Option<String> {
    let into = format!("to no state of {}, that of t", class_of(table, observer, broken.t));
    match broken.rule {
        1 => None,
        2 => Some(format!("t is not in {}, that of s.", class_of(table, observer, broken.s))),
        3 => Some(format!("This input leads from u {into}.")),
        4 => Some(format!("Silent steps lead from u {into}, and u itself is not in it.")),
        _ => Some(format!("Silent steps, this output and silent steps lead from u {into}.")),
    }
}

/// Whether s can be reached at all: a rule asks the same of a state that no run comes to.
fn reached(table: &Table, s: usize) -> String {
    match path(&table.part, s) {
        Some(Path { events }) if events.is_empty() => "s is the start.".to_string(),
        Some(Path { events }) => {
            let steps = if events.len() == 1 { "step" } else { "steps" };
            let names: Vec<String> = events.iter().map(|&event| table.event_words(event)).collect();
            format!("s is reached from the start in {} {steps}: {}.", events.len(), names.join(", "))
        }
        None => "s cannot be reached from the start; the rules ask it of every state all the same.".to_string(),
    }
}

/// For whom a rule is broken. Rule 1 is the same for all observers.
fn for_whom(table: &Table, broken: &Break) -> String {
    match (broken.rule, table.part.has_several_observers()) {
        (1, true) => "each observer".to_string(),
        _ => format!("the observer {}", broken.observer.text_and_byte()),
    }
}

fn broken_sentences(table: &Table, broken: &Break) -> Vec<String> {
    let observer = concerned(table, broken);
    let mut sentences = vec![
        format!("Rule {} is broken for {}.", broken.rule, for_whom(table, broken)),
        format!("It asks: {}.", asked(observer, broken.rule)),
        found(table, observer, broken),
    ];
    sentences.extend(missing(table, observer, broken));
    sentences.push(reached(table, broken.s));
    sentences
}

/// What a pass says, and of a limited part what it does not say.
fn pass_sentences(table: &Table, limit: u64) -> Vec<String> {
    let levels = levels(&table.part);
    let sentences: &[&str] = match (table.part.is_limited(), table.part.has_several_observers()) {
        (true, _) => &[
            &format!("All five rules hold for the observer {levels}, as for a limited part."),
            &format!("The limit is {limit}: no coarse class has more fine classes than that."),
            "That high inputs stay hidden is not promised of a limited part.",
        ],
        (false, true) => &[
            &format!("All five rules hold for each observer: {levels}."),
            "High inputs stay hidden from each of them.",
        ],
        (false, false) => {
            &[&format!("All five rules hold for the observer {levels}."), "High inputs stay hidden from this observer."]
        }
    };
    sentences.iter().map(|sentence| sentence.to_string()).collect()
}

/// A verdict on a part in words, a sentence each. Refused bytes are no part: see `refusal`.
pub fn sentences(table: &Table, verdict: &Verdict) -> Vec<String> {
    match verdict {
        Verdict::Pass { limit } => pass_sentences(table, *limit),
        Verdict::Refused(number) => refusal(*number, None),
        Verdict::Broken(broken) => broken_sentences(table, broken),
    }
}

/// A refusal in words; and where in the record, if what was found there is that refusal's condition.
pub fn refusal(number: u32, misfit: Option<&Misfit>) -> Vec<String> {
    let mut sentences = vec![format!("Refused: {}.", refusals::words(number))];
    let place = misfit.filter(|misfit| u32::from(misfit.condition) == number);
    sentences.extend(place.map(|misfit| format!("At byte {}: {}.", misfit.byte, misfit.message)));
    sentences
}

/// The verdict on what was read in words, a sentence each. Where the tool finds no part in bytes that the library does not
/// refuse, it says so and no more.
pub fn words(source: &Source, verdict: &Verdict) -> Vec<String> {
    let mut sentences = match (verdict, &source.table) {
        (Verdict::Refused(number), table) => refusal(*number, table.as_ref().err()),
        (_, Ok(table)) => sentences(table, verdict),
        (_, Err(misfit)) => vec![format!("No words for it: this tool finds {misfit}.")],
    };
    if source.goes_on {
        sentences.push(format!("Only the first {MOST_OF_A_RECORD} bytes are judged."));
    }
    sentences
}

#[cfg(test)]
mod tests {
    use super::*;
    use crate::{proved, reader, record};

    /// The verdict of the library on a table, as its line and in words.
    fn judged(text: &str) -> (String, Vec<String>) {
        let table = reader::read(text.as_bytes()).unwrap();
        let verdict = proved::explain(&record::write(&table.part));
        (line(&verdict), sentences(&table, &verdict))
    }

    /// The head of a table with the classes {a b} {c}, and the lines of its events.
    fn table(observer: &str, events: &str) -> String {
        format!("part\nobserver {observer}\nstates a b c\nstart a\nclasses {{a b}} {{c}}\n{events}")
    }

    /// A table for the observer of rank 1.
    fn watched(events: &str) -> String {
        table("rank 1 compartments none", events)
    }

    fn assert_words(text: &str, wanted: &str, words: &[&str]) {
        let (line, sentences) = judged(text);
        assert_eq!(line, wanted);
        assert_eq!(sentences, words);
    }

    #[test]
    fn rules_1_and_2_without_filler_states() {
        let first = "Rule 1 is broken for the observer rank 1 compartments none (0x40).";
        let asks = "It asks: every input has a step from every state.";
        let one = "event 2 \"tick\" input rank 0 compartments none\n a -> a\n b -> b\n";
        let found = "The input 2 \"tick\" has no step from s = 2:c.";
        let away = "s cannot be reached from the start; the rules ask it of every state all the same.";
        assert_words(&watched(one), "rule 1 event 2 from 2 to 0 other 0", &[first, asks, found, away]);
        let two = "event 1 input rank 2 compartments none\n a -> c\n b -> b\n c -> c\n";
        let words = [
            "Rule 2 is broken for the observer rank 1 compartments none (0x40).",
            "It asks: a high input stays in its state's class.",
            "The high input 1 leads from s = 0:a to t = 2:c.",
            "t is not in class 0 {0:a 1:b}, that of s.",
            "s is the start.",
        ];
        assert_words(&watched(two), "rule 2 event 1 from 0 to 2 other 0", &words);
    }

    #[test]
    fn rule_3() {
        let words = [
            "Rule 3 is broken for the observer rank 1 compartments none (0x40).",
            "It asks: where a low input leads from s to t, it leads from every state of s's class into t's class.",
            "The low input 1 leads from s = 1:b to t = 2:c, and u = 0:a is in the class of s.",
            "This input leads from u to no state of class 1 {2:c}, that of t.",
            "s is reached from the start in 1 step: 3 \"turn\".",
        ];
        let events = "event 1 input rank 1 compartments none\n a -> a\n b -> b c\n c -> c\n\
                      event 3 \"turn\" internal rank 0 compartments none\n a -> b\n";
        let (line, sentences) = judged(&watched(events));
        assert_eq!(line, "rule 3 event 1 from 1 to 2 other 0");
        assert_eq!(sentences, words);
    }

    #[test]
    fn rules_4_and_5() {
        let leads = "leads from s = 0:a to t = 2:c, and u = 1:b is in the class of s.";
        for (event, it) in [("output rank 2", "high output"), ("internal rank 0", "internal event")] {
            let (line, words) = judged(&watched(&format!("event 3 {event} compartments none\n a -> c\n")));
            assert_eq!(line, "rule 4 event 3 from 0 to 2 other 1");
            let asks =
                "It asks: where a silent event leads from s to t, silent steps, or none, lead from every state of \
                        s's class into t's class.";
            assert_eq!(words[1], asks);
            assert_eq!(words[2], format!("The {it} 3 {leads}"));
            let missing =
                "Silent steps lead from u to no state of class 1 {2:c}, that of t, and u itself is not in it.";
            assert_eq!(words[3], missing);
        }
        let (line, words) = judged(&watched("event 4 \"out\" output rank 1 compartments none\n a -> c\n"));
        assert_eq!(line, "rule 5 event 4 from 0 to 2 other 1");
        assert_eq!(words[2], format!("The low output 4 \"out\" {leads}"));
        let missing = "Silent steps, this output and silent steps lead from u to no state of class 1 {2:c}, that of t.";
        assert_eq!(words[3], missing);
    }

    #[test]
    fn a_long_class_and_a_long_run() {
        let mut text = String::from("part\nobserver rank 0 compartments none\nstates 12\nstart 0\nclasses ");
        text.push_str("{0 1 2 3 4 5 6 7 8 9 10} {11}\n");
        text.push_str("event 1 input rank 1 compartments none\n");
        for s in 0..12 {
            text.push_str(&format!("  {s} -> {}\n", (s + 1).min(11)));
        }
        let (line, words) = judged(&text);
        assert_eq!(line, "rule 2 event 1 from 10 to 11 other 0");
        assert_eq!(words[3], "t is not in class 0 {0 1 2 3 4 5 6 7} and 3 more, that of s.");
        assert_eq!(words[4], "s is reached from the start in 10 steps: 1, 1, 1, 1, 1, 1, 1, 1, 1, 1.");
    }

    /// Rules 2 and 3 are about coarse classes; rules 4 and 5 ask the fine class of s for the coarse one of t.
    #[test]
    fn breaks_of_a_limited_part() {
        let limited = |events: &str| watched(events).replace("{c}\n", "{c}\nfine {a b} {c}\n");
        let (_, words) = judged(&limited("event 3 internal rank 0 compartments none\n a -> c\n"));
        assert_eq!(
            words[2],
            "The internal event 3 leads from s = 0:a to t = 2:c, and u = 1:b is in the fine class of s."
        );
        let missing =
            "Silent steps lead from u to no state of coarse class 1 {2:c}, that of t, and u itself is not in it.";
        assert_eq!(words[3], missing);
        let (_, words) = judged(&limited("event 1 input rank 1 compartments none\n a -> c\n b -> b\n c -> c\n"));
        assert_eq!(words[2], "The low input 1 leads from s = 0:a to t = 2:c, and u = 1:b is in the coarse class of s.");
    }

    #[test]
    fn passes() {
        let text = table("rank 0 compartments none", "");
        let rules = "All five rules hold for the observer rank 0 compartments none (0x00).";
        assert_words(&text, "pass", &[rules, "High inputs stay hidden from this observer."]);
        let several = text.clone() + "observer rank 1 compartments none\nclasses {a b c}\n";
        let rules =
            "All five rules hold for each observer: rank 0 compartments none (0x00), rank 1 compartments none (0x40).";
        assert_words(&several, "pass", &[rules, "High inputs stay hidden from each of them."]);
        let limited = text + "fine {a} {b} {c}\n";
        let words = [
            "All five rules hold for the observer rank 0 compartments none (0x00), as for a limited part.",
            "The limit is 2: no coarse class has more fine classes than that.",
            "That high inputs stay hidden is not promised of a limited part.",
        ];
        assert_words(&limited, "pass", &words);
    }

    /// The break of the second observer names it; rule 1 is the same for each.
    #[test]
    fn several_observers() {
        let head = "part\nobserver rank 0 compartments none\nstates a b\nstart a\nclasses {a b}\n\
                    observer rank 1 compartments none\nclasses {a} {b}\n";
        let (_, words) = judged(&format!("{head}event 1 input rank 2 compartments none\n a -> b\n b -> b\n"));
        assert_eq!(words[0], "Rule 2 is broken for the observer rank 1 compartments none (0x40).");
        let (_, words) = judged(&format!("{head}event 1 input rank 2 compartments none\n a -> a\n"));
        assert_eq!(words[0], "Rule 1 is broken for each observer.");
    }

    #[test]
    fn refusals_in_words() {
        let bytes = [5, 0, 0, 0, 1, 0, 0, 1, 0, 0, 3];
        let misfit = Source::read(&bytes).unwrap().table.unwrap_err();
        let verdict = proved::explain(&bytes);
        assert_eq!(line(&verdict), "refused 6");
        let words = ["Refused: the classes of an observer are not numbered by first appearance."];
        assert_eq!(refusal(6, None), words);
        let place = format!("At byte 10: {}.", misfit.message);
        assert_eq!(refusal(6, Some(&misfit)), [words[0], &place]);
        assert_eq!(refusal(16, Some(&misfit)).len(), 1);
    }
}
