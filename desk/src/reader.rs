//! Reads a table's text. The grammar is in the README; there is one function for each of its rules.
//! Reading stops at the first fault, which names its line and column and what was expected there.

use crate::level::{Level, MAX_COMPARTMENT, MAX_RANK};
use crate::part::{
    by_first_appearance, Event, Kind, Names, Observer, Part, Table, MAX_EVENTS, MAX_NAME, MAX_OBSERVERS, MAX_STATES,
};
use crate::text::{fault, not_text, Fault, Place};
use crate::tokens::{split, Token, What};

/// The words of the form. None of them can name a state.
const KEYWORDS: [&str; 13] = [
    "part",
    "observer",
    "rank",
    "compartments",
    "none",
    "states",
    "start",
    "classes",
    "fine",
    "event",
    "input",
    "output",
    "internal",
];

const NAME_OR_START: &str = "a state's name or a line that begins with 'start'";

const FINE_FOR_SEVERAL: &str = "expected 'fine' only in a table with one observer, found several observers";

/// What a line of classes is about, for what it asks and for the words of its faults.
struct Column<'a> {
    keyword: &'static str,
    /// `class` or `fine class`.
    class: &'static str,
    /// Whose the classes are; nothing for those of the first observer.
    whose: String,
    /// The classes that have fine classes in them; none where it is these that are read.
    coarse: Option<&'a [u8]>,
}

impl Column<'_> {
    fn classes(whose: String) -> Column<'static> {
        Column { keyword: "classes", class: "class", whose, coarse: None }
    }

    fn fine(coarse: &[u8]) -> Column<'_> {
        Column { keyword: "fine", class: "fine class", whose: String::new(), coarse: Some(coarse) }
    }

    /// May the state stand in the class that begins with `first`? A class has no state that stands in one already, and
    /// a fine class only states of one class.
    fn admits(&self, token: &Token, s: usize, first: usize, group_of: &[Option<usize>]) -> Result<(), Fault> {
        if group_of[s].is_some() {
            let (class, whose) = (self.class, &self.whose);
            let message = format!("state {s} stands in the {class}es{whose} twice, expected each state once");
            return fault(token.place, message);
        }
        if self.coarse.is_some_and(|coarse| coarse[s] != coarse[first]) {
            let why = "as a fine class lies inside one class (refusal 21)";
            return unexpected(token, &format!("a state of the class of state {first}, {why}"));
        }
        Ok(())
    }
}

/// The states as their line gives them: how many, and their names if there are any.
struct States {
    count: usize,
    names: Vec<String>,
}

impl States {
    fn find(&self, word: &str) -> Option<usize> {
        find_state(word, self.count, &self.names)
    }
}

struct Reader {
    tokens: Vec<Token>,
    next: usize,
}

/// A token that is not what was expected.
fn unexpected<T>(token: &Token, expected: &str) -> Result<T, Fault> {
    match &token.what {
        What::Bad(message) => fault(token.place, message.clone()),
        what => fault(token.place, format!("expected {expected}, found {what}")),
    }
}

fn is_number(word: &str) -> bool {
    word.bytes().all(|byte| byte.is_ascii_digit())
}

/// Can the word name a state? With a dot in it, it can.
fn is_name(word: &str) -> bool {
    word.contains('.') || !word.starts_with(|c: char| c.is_ascii_digit()) && !KEYWORDS.contains(&word)
}

/// The state with this number or this name, of so many states with these names.
pub fn find_state(word: &str, count: usize, names: &[String]) -> Option<usize> {
    match is_number(word) {
        true => number_up_to(word, count - 1),
        false => names.iter().position(|name| name == word),
    }
}

/// A number of any length that is at most `most`.
pub(crate) fn number_up_to(word: &str, most: usize) -> Option<usize> {
    if !is_number(word) {
        return None;
    }
    word.parse().ok().filter(|&number| number <= most)
}

impl Reader {
    fn new(text: &str) -> Reader {
        Reader { tokens: split(text), next: 0 }
    }

    fn peek(&self) -> &Token {
        &self.tokens[self.next]
    }

    /// Takes the next token; the last one stays.
    fn take(&mut self) -> Token {
        let token = self.peek().clone();
        if token.what != What::FileEnd {
            self.next += 1;
        }
        token
    }

    fn at_word(&self, word: &str) -> bool {
        matches!(&self.peek().what, What::Word(here) if here == word)
    }

    fn at_any_word(&self) -> bool {
        matches!(&self.peek().what, What::Word(_))
    }

    /// Is the next token the end of a line, and a token of this sort behind it?
    fn goes_on_with(&self, sort: fn(&What) -> bool) -> bool {
        self.peek().what == What::LineEnd && sort(&self.tokens[self.next + 1].what)
    }

    fn keyword(&mut self, word: &str) -> Result<(), Fault> {
        if !self.at_word(word) {
            return unexpected(self.peek(), &format!("'{word}'"));
        }
        self.take();
        Ok(())
    }

    fn line_end(&mut self) -> Result<(), Fault> {
        if self.peek().what != What::LineEnd {
            return unexpected(self.peek(), "the end of the line");
        }
        self.take();
        Ok(())
    }

    /// A number from 0 to `most`; `thing` is what it stands for.
    fn number(&mut self, thing: &str, most: usize) -> Result<usize, Fault> {
        if let What::Word(word) = &self.peek().what {
            if let Some(number) = number_up_to(word, most) {
                self.take();
                return Ok(number);
            }
        }
        unexpected(self.peek(), &format!("{thing} from 0 to {most}"))
    }

    /// level = "rank" number "compartments" ( "none" | number { number } ); for rank 0 only "none"
    fn level(&mut self) -> Result<Level, Fault> {
        self.keyword("rank")?;
        let rank = self.number("a rank", MAX_RANK as usize)?;
        self.keyword("compartments")?;
        let level = Level::of_rank(rank as u8);
        if self.at_word("none") {
            self.take();
            return Ok(level);
        }
        if rank == 0 {
            return unexpected(self.peek(), "'none', as a level of rank 0 has no compartments (refusal 16)");
        }
        self.compartments(level)
    }

    fn compartments(&mut self, mut level: Level) -> Result<Level, Fault> {
        let mut wanted = "'none' or a compartment";
        loop {
            let place = self.peek().place;
            let compartment = self.number(wanted, MAX_COMPARTMENT as usize)? as u8;
            if level.has(compartment) {
                return fault(place, format!("compartment {compartment} stands twice, expected each once"));
            }
            level = level.with(compartment);
            if self.peek().what == What::LineEnd {
                return Ok(level);
            }
            wanted = "the end of the line or a compartment";
        }
    }

    /// observer = "observer" level; the level's byte is above that of the observer before it.
    fn observer(&mut self, before: Option<&Observer>) -> Result<Level, Fault> {
        self.keyword("observer")?;
        let place = self.peek().place;
        let level = self.level()?;
        if let Some(before) = before.filter(|before| level.0 <= before.level.0) {
            let (found, before) = (level.text_and_byte(), before.level.text_and_byte());
            let expected = format!("a level whose byte is above that of {before}, the one before it (refusal 20)");
            return fault(place, format!("expected {expected}; found {found}"));
        }
        self.line_end()?;
        Ok(level)
    }

    /// The observers behind the first one's classes: { observer classes }
    fn further_observers(&mut self, states: &States, observers: &mut Vec<Observer>) -> Result<(), Fault> {
        while self.at_word("observer") {
            if observers.len() == MAX_OBSERVERS {
                let message = format!("expected at most {MAX_OBSERVERS} observers (refusal 20), found one more");
                return fault(self.peek().place, message);
            }
            let level = self.observer(observers.last())?;
            let column = Column::classes(format!(" of the observer {}", level.text_and_byte()));
            let classes = self.column(states, &column)?;
            if self.at_word("fine") {
                return fault(self.peek().place, FINE_FOR_SEVERAL.to_string());
            }
            observers.push(Observer { level, classes, fine: None });
        }
        Ok(())
    }

    /// [ fine ], which belongs to the classes of an only observer.
    fn fine(&mut self, states: &States, coarse: &[u8]) -> Result<Option<Vec<u8>>, Fault> {
        if !self.at_word("fine") {
            return Ok(None);
        }
        let place = self.peek().place;
        let fine = self.column(states, &Column::fine(coarse))?;
        match self.at_word("observer") {
            true => fault(place, FINE_FOR_SEVERAL.to_string()),
            false => Ok(Some(fine)),
        }
    }

    /// states = "states" ( number | name { name } )
    fn states(&mut self) -> Result<States, Fault> {
        self.keyword("states")?;
        let states = match &self.peek().what {
            What::Word(word) if is_number(word) => self.state_number()?,
            _ => self.state_names()?,
        };
        self.line_end()?;
        Ok(states)
    }

    fn state_number(&mut self) -> Result<States, Fault> {
        let token = self.take();
        if let What::Word(word) = &token.what {
            if let Some(count) = number_up_to(word, MAX_STATES).filter(|&count| count > 0) {
                return Ok(States { count, names: Vec::new() });
            }
        }
        unexpected(&token, &format!("a number of states from 1 to {MAX_STATES}"))
    }

    /// Names go on over lines that begin with a name.
    fn state_names(&mut self) -> Result<States, Fault> {
        let mut names: Vec<String> = Vec::new();
        loop {
            if self.goes_on_with(|what| matches!(what, What::Word(word) if is_name(word))) {
                self.take();
            }
            if !names.is_empty() && self.peek().what == What::LineEnd {
                return Ok(States { count: names.len(), names });
            }
            let name = self.state_name(&names)?;
            names.push(name);
        }
    }

    /// One more name, not among those before it.
    fn state_name(&mut self, before: &[String]) -> Result<String, Fault> {
        let token = self.peek().clone();
        let wanted = if before.is_empty() { "a number of states or a state's name" } else { NAME_OR_START };
        let What::Word(name) = &token.what else { return unexpected(&token, wanted) };
        if KEYWORDS.contains(&name.as_str()) {
            return fault(token.place, format!("expected {wanted}, found '{name}', a word of the form"));
        }
        if !is_name(name) {
            return unexpected(&token, wanted);
        }
        if name.len() > MAX_NAME {
            return fault(
                token.place,
                format!("expected a name of at most {MAX_NAME} characters, found {}", name.len()),
            );
        }
        if let Some(s) = before.iter().position(|other| other == name) {
            return fault(token.place, format!("'{name}' already names state {s}, expected another name"));
        }
        if before.len() == MAX_STATES {
            return fault(token.place, format!("expected at most {MAX_STATES} states, found '{name}'"));
        }
        self.take();
        Ok(name.clone())
    }

    /// state = number | name; `or` is what else might stand here.
    fn state(&mut self, states: &States, or: &str) -> Result<usize, Fault> {
        let found = match &self.peek().what {
            What::Word(word) => states.find(word),
            _ => None,
        };
        let Some(state) = found else {
            let name = if states.names.is_empty() { "" } else { " or a state's name" };
            return unexpected(self.peek(), &format!("a state from 0 to {}{name}{or}", states.count - 1));
        };
        self.take();
        Ok(state)
    }

    /// start = "start" state
    fn start(&mut self, states: &States) -> Result<usize, Fault> {
        self.keyword("start")?;
        let start = self.state(states, "")?;
        self.line_end()?;
        Ok(start)
    }

    /// classes = "classes" class { class }, fine = "fine" class { class }; they go on over lines that begin with `{`.
    fn column(&mut self, states: &States, column: &Column) -> Result<Vec<u8>, Fault> {
        let place = self.peek().place;
        self.keyword(column.keyword)?;
        let mut group_of = vec![None; states.count];
        let mut groups = 0;
        loop {
            if self.goes_on_with(|what| *what == What::Open) {
                self.take();
            }
            if groups > 0 && self.peek().what == What::LineEnd {
                break;
            }
            self.class(states, column, groups, &mut group_of)?;
            groups += 1;
        }
        self.line_end()?;
        numbered(place, column, &group_of)
    }

    /// class = "{" state { state } "}"
    fn class(
        &mut self,
        states: &States,
        column: &Column,
        group: usize,
        group_of: &mut [Option<usize>],
    ) -> Result<(), Fault> {
        if self.peek().what != What::Open {
            let wanted = if group == 0 { "'{'" } else { "'{' or the end of the line" };
            return unexpected(self.peek(), wanted);
        }
        self.take();
        let mut first = None;
        while self.peek().what != What::Close || first.is_none() {
            let token = self.peek().clone();
            let s = self.state(states, if first.is_some() { " or '}'" } else { "" })?;
            column.admits(&token, s, *first.get_or_insert(s), group_of)?;
            group_of[s] = Some(group);
        }
        self.take();
        Ok(())
    }

    /// All events to the end of the text; `or` is what else might stand before the first.
    fn events(&mut self, states: &States, names: &mut Names, or: &str) -> Result<Vec<Event>, Fault> {
        let mut events: Vec<Event> = Vec::new();
        while self.peek().what != What::FileEnd {
            if !self.at_word("event") {
                let other = if events.is_empty() { or } else { "a step such as '0 -> 1', " };
                return unexpected(self.peek(), &format!("{other}'event' or the end of the text"));
            }
            if events.len() == MAX_EVENTS {
                return fault(self.peek().place, format!("expected at most {MAX_EVENTS} events, found one more"));
            }
            let event = self.event(states, events.last(), names)?;
            events.push(event);
        }
        Ok(events)
    }

    /// event = "event" number [ quoted name ] kind level, then its steps
    fn event(&mut self, states: &States, before: Option<&Event>, names: &mut Names) -> Result<Event, Fault> {
        self.keyword("event")?;
        let identifier = self.identifier(before)?;
        if let What::Quoted(name) = &self.peek().what {
            names.events.insert(identifier, name.clone());
            self.take();
        }
        let kind = self.kind(names.event(identifier).is_some())?;
        let level = self.level()?;
        self.line_end()?;
        let rows = self.steps(states)?;
        Ok(Event { identifier, kind, level, rows })
    }

    /// An identifier above the one before it.
    fn identifier(&mut self, before: Option<&Event>) -> Result<u16, Fault> {
        let place = self.peek().place;
        let identifier = self.number("an identifier", u16::MAX as usize)? as u16;
        match before {
            Some(event) if identifier <= event.identifier => {
                let before = event.identifier;
                fault(place, format!("expected an identifier above {before}, the one before it; found '{identifier}'"))
            }
            _ => Ok(identifier),
        }
    }

    /// kind = "input" | "output" | "internal"
    fn kind(&mut self, named: bool) -> Result<Kind, Fault> {
        for kind in Kind::ALL {
            if self.at_word(kind.word()) {
                self.take();
                return Ok(kind);
            }
        }
        let name = if named { "" } else { "a name in quotes, " };
        unexpected(self.peek(), &format!("{name}'input', 'output' or 'internal'"))
    }

    /// The rows of an event: a line for each state that has a step.
    fn steps(&mut self, states: &States) -> Result<Vec<u64>, Fault> {
        let mut rows = vec![0; states.count];
        while self.at_any_word() && !self.at_word("event") {
            let place = self.peek().place;
            let s = self.state(states, " or 'event'")?;
            if rows[s] != 0 {
                return fault(place, format!("state {s} has a line under this event already, expected one line"));
            }
            if self.peek().what != What::Arrow {
                return unexpected(self.peek(), "'->'");
            }
            self.take();
            rows[s] = self.targets(states)?;
        }
        Ok(rows)
    }

    /// The states behind an arrow, to the end of the line.
    fn targets(&mut self, states: &States) -> Result<u64, Fault> {
        let mut row = 0;
        let mut or = "";
        while row == 0 || self.peek().what != What::LineEnd {
            let place = self.peek().place;
            let t = self.state(states, or)?;
            if row >> t & 1 == 1 {
                return fault(place, format!("state {t} stands twice on this line, expected each once"));
            }
            row |= 1 << t;
            or = " or the end of the line";
        }
        self.take();
        Ok(row)
    }

    /// table = "part", observer, states, start, classes, [ fine ] or { observer, classes }, { event }
    fn table(&mut self) -> Result<Table, Fault> {
        self.keyword("part")?;
        self.line_end()?;
        let level = self.observer(None)?;
        let states = self.states()?;
        let start = self.start(&states)?;
        let classes = self.column(&states, &Column::classes(String::new()))?;
        let fine = self.fine(&states, &classes)?;
        let mut observers = vec![Observer { level, classes, fine }];
        self.further_observers(&states, &mut observers)?;
        let mut names = Names { states: states.names.clone(), ..Names::default() };
        let events = self.events(&states, &mut names, before_events(&observers))?;
        Ok(Table { part: Part { states: states.count, start, events, observers }, names })
    }
}

/// What else may stand before the first event, behind the classes of these observers.
fn before_events(observers: &[Observer]) -> &'static str {
    match observers {
        [only] if only.fine.is_some() => "",
        [_] => "'fine', 'observer', ",
        several if several.len() < MAX_OBSERVERS => "'observer', ",
        _ => "",
    }
}

/// The class numbers, if each state has a group.
fn numbered(place: Place, column: &Column, group_of: &[Option<usize>]) -> Result<Vec<u8>, Fault> {
    if let Some(s) = group_of.iter().position(Option::is_none) {
        let (class, whose) = (column.class, &column.whose);
        return fault(place, format!("state {s} stands in no {class}{whose}, expected each state in one"));
    }
    let groups: Vec<usize> = group_of.iter().flatten().copied().collect();
    Ok(by_first_appearance(&groups))
}

/// Reads a table.
pub fn read(bytes: &[u8]) -> Result<Table, Fault> {
    if let Some(fault) = not_text(bytes) {
        return Err(fault);
    }
    Reader::new(&String::from_utf8_lossy(bytes)).table()
}

/// Reads a level alone, as it stands behind `observer`.
pub fn read_level(text: &str) -> Result<Level, Fault> {
    let mut reader = Reader::new(text);
    let level = reader.level()?;
    reader.line_end()?;
    match reader.peek().what {
        What::FileEnd => Ok(level),
        _ => unexpected(reader.peek(), "nothing more"),
    }
}

#[cfg(test)]
mod tests {
    use super::*;
    use crate::random::Rng;
    use crate::record;

    const GOOD: &str = "\
# a comment
part
observer rank 1 compartments 0 3
states idle sent full           # names
start idle
classes {idle sent} {full}
event 7 \"send it\" input rank 2 compartments none
  idle -> sent full
  1 -> 1
event 9 output rank 0 compartments none
event 12 internal rank 3 compartments 5 1
  2->0
";

    /// A table with three observers.
    const WATCHED: &str = "\
part
observer rank 0 compartments none
states idle sent full
start idle
classes {idle sent full}
observer rank 1 compartments 0 3
classes {idle sent} {full}
observer rank 2 compartments none
classes
  {full}
  {sent}
  {idle}
event 7 \"send it\" input rank 2 compartments none
  idle -> sent full
";

    /// A limited part.
    const LIMITED: &str = "\
part
observer rank 0 compartments none
states idle sent full lost
start idle
classes {idle sent} {full lost}
fine {lost} {full}          # each apart
  {sent idle}
event 7 \"send it\" input rank 2 compartments none
  idle -> sent full
";

    fn parse(text: &str) -> Result<Table, String> {
        read(text.as_bytes()).map_err(|fault| fault.to_string())
    }

    /// What is said about GOOD with one piece of its text replaced.
    fn said(old: &str, new: &str) -> String {
        assert!(GOOD.contains(old), "{old}");
        parse(&GOOD.replacen(old, new, 1)).unwrap_err()
    }

    #[test]
    fn a_table() {
        let Table { part, names } = parse(GOOD).unwrap();
        assert_eq!((part.states, part.start), (3, 0));
        assert_eq!(part.observers, [Observer { level: Level(0x49), classes: vec![0, 0, 1], fine: None }]);
        let rows: Vec<Vec<u64>> = part.events.iter().map(|event| event.rows.clone()).collect();
        assert_eq!(rows, [[6, 2, 0], [0, 0, 0], [0, 0, 1]]);
        let heads: Vec<(u16, Kind, u8)> = part.events.iter().map(|e| (e.identifier, e.kind, e.level.0)).collect();
        assert_eq!(heads, [(7, Kind::Input, 0x80), (9, Kind::Output, 0), (12, Kind::Internal, 0xE2)]);
        assert_eq!(names.states, ["idle", "sent", "full"]);
        assert_eq!((names.event(7), names.event(9)), (Some("send it"), None));
    }

    /// Numbers for names, other class order, other blanks: the same part.
    #[test]
    fn the_same_part_in_other_words() {
        let other = "part\r\nobserver rank 1 compartments 3 0\r\nstates 3\r\nstart 00\r\nclasses {2}{1 0}\r\n\r\n\
                     event 7 input rank 2 compartments none\n1->1\n\t0->2 1#x\n\
                     event 9 output rank 0 compartments none\nevent 12 internal rank 3 compartments 1 5\n2->0";
        assert_eq!(parse(other).unwrap().part, parse(GOOD).unwrap().part);
    }

    #[test]
    fn names_and_classes_over_several_lines() {
        let names = "states\n  idle # none\n\n  sent full\n";
        let text = GOOD.replace("states idle sent full           # names\n", names);
        let text = text.replace("classes {idle sent} {full}", "classes\n  {idle sent}  # one\n  {full}");
        assert_eq!(parse(&text), parse(GOOD));
    }

    #[test]
    fn the_smallest_table() {
        let text = "part\nobserver rank 0 compartments none\nstates 1\nstart 0\nclasses {0}\n";
        let part = parse(text).unwrap().part;
        assert_eq!((part.states, part.events.len()), (1, 0));
    }

    #[test]
    fn faults_of_the_first_lines() {
        assert_eq!(parse("").unwrap_err(), "1:1: expected 'part', found the end of the text");
        assert_eq!(parse("# none\n").unwrap_err(), "2:1: expected 'part', found the end of the text");
        assert_eq!(parse("part").unwrap_err(), "1:5: expected 'observer', found the end of the text");
        assert_eq!(said("part", "Part"), "2:1: expected 'part', found 'Part'");
        assert_eq!(said("part", "part 1"), "2:6: expected the end of the line, found '1'");
        assert_eq!(said("observer", "states"), "3:1: expected 'observer', found 'states'");
        assert_eq!(said("states", "state"), "4:1: expected 'states', found 'state'");
        assert_eq!(said("start idle\n", ""), "5:1: expected 'start', found 'classes'");
        assert_eq!(said("classes", "{0}"), "6:1: expected 'classes', found '{'");
    }

    #[test]
    fn faults_of_levels() {
        assert_eq!(said("rank 1", "1"), "3:10: expected 'rank', found '1'");
        assert_eq!(said("rank 1", "rank 4"), "3:15: expected a rank from 0 to 3, found '4'");
        assert_eq!(said("rank 1", "rank one"), "3:15: expected a rank from 0 to 3, found 'one'");
        assert_eq!(said("compartments 0 3", "0 3"), "3:17: expected 'compartments', found '0'");
        let nothing = "3:29: expected 'none' or a compartment from 0 to 5, found the end of the line";
        assert_eq!(said("compartments 0 3", "compartments"), nothing);
        let six = "3:32: expected the end of the line or a compartment from 0 to 5, found '6'";
        assert_eq!(said("compartments 0 3", "compartments 0 6"), six);
        assert_eq!(said("0 3", "6"), "3:30: expected 'none' or a compartment from 0 to 5, found '6'");
        assert_eq!(said("0 3", "3 3"), "3:32: compartment 3 stands twice, expected each once");
        let none = "3:32: expected the end of the line or a compartment from 0 to 5, found 'none'";
        assert_eq!(said("0 3", "0 none"), none);
        assert_eq!(said("0 3", "none 0"), "3:35: expected the end of the line, found '0'");
        let event = "7:24: expected 'rank', found the end of the line";
        assert_eq!(said("input rank 2 compartments none", "input"), event);
    }

    /// A level of rank 0, with anything else in the place of 'none'.
    #[test]
    fn faults_of_rank_0() {
        let expected = "expected 'none', as a level of rank 0 has no compartments (refusal 16), found";
        assert_eq!(said("rank 1 compartments 0 3", "rank 0 compartments 0"), format!("3:30: {expected} '0'"));
        assert_eq!(said("rank 1", "rank 00"), format!("3:31: {expected} '0'"));
        assert_eq!(said("rank 2 compartments none", "rank 0 compartments 5"), format!("7:45: {expected} '5'"));
        assert_eq!(said("rank 3", "rank 0"), format!("11:39: {expected} '5'"));
        let nine = "rank 0 compartments none\nevent 12";
        assert_eq!(said(nine, "rank 0 compartments 3 3\nevent 12"), format!("10:36: {expected} '3'"));
        assert_eq!(said(nine, "rank 0 compartments 6\nevent 12"), format!("10:36: {expected} '6'"));
        assert_eq!(said(nine, "rank 0 compartments\nevent 12"), format!("10:35: {expected} the end of the line"));
    }

    #[test]
    fn faults_of_states() {
        let names = "idle sent full ";
        assert_eq!(said(names, "0"), "4:8: expected a number of states from 1 to 64, found '0'");
        assert_eq!(said(names, "65"), "4:8: expected a number of states from 1 to 64, found '65'");
        let huge = "99999999999999999999999";
        assert_eq!(said(names, huge), format!("4:8: expected a number of states from 1 to 64, found '{huge}'"));
        assert_eq!(said(names, "3 idle"), "4:10: expected the end of the line, found 'idle'");
        let start = "expected a state's name or a line that begins with 'start', found";
        assert_eq!(said(names, "idle 3"), format!("4:13: {start} '3'"));
        assert_eq!(said(names, "idle 3a"), format!("4:13: {start} '3a'"));
        assert_eq!(said("start idle", "strat 0"), format!("5:7: {start} '0'"));
        assert_eq!(said(names, "idle {"), format!("4:13: {start} '{{'"));
        let first = "expected a number of states or a state's name, found";
        assert_eq!(said(names, ""), format!("4:18: {first} the end of the line"));
        assert_eq!(said(names, "event"), format!("4:8: {first} 'event', a word of the form"));
        assert_eq!(said(names, "idle rank"), format!("4:13: {start} 'rank', a word of the form"));
        assert_eq!(said(names, "idle sent idle"), "4:18: 'idle' already names state 0, expected another name");
        let long = "x".repeat(101);
        assert_eq!(said(names, &long), "4:8: expected a name of at most 100 characters, found 101");
        assert_eq!(said(names, &long[1..]), "5:7: expected a state from 0 to 0 or a state's name, found 'idle'");
    }

    /// With a dot a piece may be a number or a word of the form; a number alone stays the number of a state.
    #[test]
    fn names_with_dots() {
        let text = "part\nobserver rank 0 compartments none\nstates idle.sent 0.1\n  1.0 event.7\n 7a.x\nstart 0.1\n\
                    classes {idle.sent 1} {1.0 event.7 4}\n\
                    event 7 input rank 0 compartments none\n 0.1->1.0\n event.7 -> 7a.x 0\n";
        let Table { part, names } = parse(text).unwrap();
        assert_eq!(names.states, ["idle.sent", "0.1", "1.0", "event.7", "7a.x"]);
        assert_eq!((part.states, part.start, part.events[0].rows.clone()), (5, 1, vec![0, 4, 0, 17, 0]));
        assert_eq!(part.observers[0].classes, [0, 0, 1, 1, 1]);
    }

    #[test]
    fn faults_of_names_with_dots() {
        let names = "idle sent full ";
        let start = "expected a state's name or a line that begins with 'start', found";
        assert_eq!(said(names, "0.a 7a"), format!("4:12: {start} '7a'"));
        assert_eq!(said(names, "0.a 7"), format!("4:12: {start} '7'"));
        assert_eq!(said(names, "7a"), "4:8: expected a number of states or a state's name, found '7a'");
        assert_eq!(said(names, "0.1 0.1"), "4:12: '0.1' already names state 0, expected another name");
        let dots = "expected a letter, a digit or '_' before and behind each '.', found";
        assert_eq!(said(names, "idle .a"), format!("4:13: {dots} '.a'"));
        assert_eq!(said(names, "a..b"), format!("4:8: {dots} 'a..b'"));
        assert_eq!(said("start idle", "start idle."), format!("5:7: {dots} 'idle.'"));
        let state = "expected a state from 0 to 2 or a state's name, found";
        assert_eq!(said("start idle", "start 0.1"), format!("5:7: {state} '0.1'"));
        assert_eq!(said("rank 1", "rank 1.0"), "3:15: expected a rank from 0 to 3, found '1.0'");
        assert_eq!(said("part", "part.a"), "2:1: expected 'part', found 'part.a'");
        let unnamed = "part\nobserver rank 0 compartments none\nstates 2\nstart 0.1\n";
        assert_eq!(parse(unnamed).unwrap_err(), "4:7: expected a state from 0 to 1, found '0.1'");
    }

    /// 64 names are read, the 65th is a fault at its place.
    #[test]
    fn the_limit_of_names() {
        let list = |count: usize| (0..count).map(|s| format!(" s{s}")).collect::<String>();
        let text =
            |count| format!("part\nobserver rank 0 compartments none\nstates{}\nstart s0\nclasses {{s0}}", list(count));
        assert_eq!(parse(&text(64)).unwrap_err(), "5:1: state 1 stands in no class, expected each state in one");
        assert_eq!(parse(&text(65)).unwrap_err(), "3:254: expected at most 64 states, found 's64'");
    }

    #[test]
    fn faults_of_start_and_classes() {
        let state = "expected a state from 0 to 2 or a state's name";
        assert_eq!(said("start idle", "start 3"), format!("5:7: {state}, found '3'"));
        assert_eq!(said("start idle", "start ful"), format!("5:7: {state}, found 'ful'"));
        assert_eq!(said("start idle", "start"), format!("5:6: {state}, found the end of the line"));
        assert_eq!(said("start idle", "start 0 1"), "5:9: expected the end of the line, found '1'");
        let classes = "classes {idle sent} {full}";
        assert_eq!(said(classes, "classes"), "6:8: expected '{', found the end of the line");
        assert_eq!(said(classes, "classes idle"), "6:9: expected '{', found 'idle'");
        assert_eq!(said(classes, "classes {}"), format!("6:10: {state}, found '}}'"));
        assert_eq!(said(classes, "classes {0 3}"), format!("6:12: {state} or '}}', found '3'"));
        assert_eq!(said(classes, "classes {0 1"), format!("6:13: {state} or '}}', found the end of the line"));
        assert_eq!(said(classes, "classes {0 1} 2"), "6:15: expected '{' or the end of the line, found '2'");
        let twice = "6:16: state 1 stands in the classes twice, expected each state once";
        assert_eq!(said(classes, "classes {0 1} {sent 2}"), twice);
        assert_eq!(said(classes, "classes {0 1}"), "6:1: state 2 stands in no class, expected each state in one");
    }

    #[test]
    fn faults_of_events() {
        assert_eq!(said("event 7", "7"), "7:1: expected 'fine', 'observer', 'event' or the end of the text, found '7'");
        assert_eq!(said("event 7", "event 65536"), "7:7: expected an identifier from 0 to 65535, found '65536'");
        assert_eq!(said("event 7", "event send"), "7:7: expected an identifier from 0 to 65535, found 'send'");
        let falling = "10:7: expected an identifier above 7, the one before it; found";
        assert_eq!(said("event 9", "event 6"), format!("{falling} '6'"));
        assert_eq!(said("event 9", "event 7"), format!("{falling} '7'"));
        assert_eq!(said("input", "in"), "7:19: expected 'input', 'output' or 'internal', found 'in'");
        let unnamed = "10:9: expected a name in quotes, 'input', 'output' or 'internal', found 'rank'";
        assert_eq!(said("output ", ""), unnamed);
        let twice = "7:19: expected 'input', 'output' or 'internal', found the quoted name \"b\"";
        assert_eq!(said("input", "\"b\""), twice);
    }

    /// 32 events are read, the 33rd is a fault at its line.
    #[test]
    fn the_limit_of_events() {
        let head = "part\nobserver rank 0 compartments none\nstates 1\nstart 0\nclasses {0}\n";
        let events = |count: usize| -> String {
            (0..count).map(|e| format!("event {e} input rank 0 compartments none\n 0 -> 0\n")).collect()
        };
        assert_eq!(parse(&(head.to_string() + &events(32))).unwrap().part.events.len(), 32);
        let fault = parse(&(head.to_string() + &events(33))).unwrap_err();
        assert_eq!(fault, "70:1: expected at most 32 events, found one more");
    }

    #[test]
    fn faults_of_steps() {
        let state = "expected a state from 0 to 2 or a state's name";
        assert_eq!(said("idle ->", "3 ->"), format!("8:3: {state} or 'event', found '3'"));
        assert_eq!(said("event 9", "evnt 9"), format!("10:1: {state} or 'event', found 'evnt'"));
        assert_eq!(said("  1 -> 1", "  1 1"), "9:5: expected '->', found '1'");
        assert_eq!(said("  1 -> 1", "  1 - 1"), "9:5: expected '->', found '-'");
        assert_eq!(said("  1 -> 1", "  1 ->"), format!("9:7: {state}, found the end of the line"));
        assert_eq!(said("  1 -> 1", "  1 -> 3"), format!("9:8: {state}, found '3'"));
        assert_eq!(said("  1 -> 1", "  1 -> 0 3"), format!("9:10: {state} or the end of the line, found '3'"));
        assert_eq!(said("  1 -> 1", "  1 -> 0 -> 2"), format!("9:10: {state} or the end of the line, found '->'"));
        assert_eq!(said("  1 -> 1", "  1 -> 1 0 sent"), "9:12: state 1 stands twice on this line, expected each once");
        let twice = "9:3: state 0 has a line under this event already, expected one line";
        assert_eq!(said("  1 -> 1", "  idle -> 1"), twice);
        let other = "expected a step such as '0 -> 1', 'event' or the end of the text, found";
        assert_eq!(said("  1 -> 1", "  -> 1"), format!("9:3: {other} '->'"));
    }

    /// What is said about WATCHED with one piece of its text replaced.
    fn said_watched(old: &str, new: &str) -> String {
        assert!(WATCHED.contains(old), "{old}");
        parse(&WATCHED.replacen(old, new, 1)).unwrap_err()
    }

    #[test]
    fn several_observers() {
        let Table { part, names } = parse(WATCHED).unwrap();
        let columns = [(0x00, [0, 0, 0]), (0x49, [0, 0, 1]), (0x80, [0, 1, 2])];
        let observer =
            |(byte, classes): (u8, [u8; 3])| Observer { level: Level(byte), classes: classes.to_vec(), fine: None };
        assert_eq!(part.observers, columns.map(observer));
        assert_eq!((part.states, part.start, part.events[0].rows.as_slice()), (3, 0, &[6, 0, 0][..]));
        assert_eq!(names.states, ["idle", "sent", "full"]);
        assert_eq!(names.event(7), Some("send it"));
    }

    #[test]
    fn observers_that_do_not_rise() {
        let expected = "expected a level whose byte is above that of";
        let before = "the one before it (refusal 20); found";
        let (low, middle) = ("rank 0 compartments none (0x00)", "rank 1 compartments 0 3 (0x49)");
        let same = said_watched("rank 2 compartments none", "rank 1 compartments 3 0");
        assert_eq!(same, format!("8:10: {expected} {middle}, {before} {middle}"));
        let falling = said_watched("rank 2 compartments none", "rank 1 compartments 3");
        assert_eq!(falling, format!("8:10: {expected} {middle}, {before} rank 1 compartments 3 (0x48)"));
        let second = said_watched("rank 1 compartments 0 3", "rank 0 compartments none");
        assert_eq!(second, format!("6:10: {expected} {low}, {before} {low}"));
        let first = said_watched("rank 0", "rank 3");
        assert_eq!(first, format!("6:10: {expected} rank 3 compartments none (0xC0), {before} {middle}"));
    }

    /// The bytes rise; the order of levels plays no part.
    #[test]
    fn levels_that_are_not_comparable() {
        let text = WATCHED.replace("rank 0 compartments none", "rank 1 compartments 0");
        let text = text.replace("rank 1 compartments 0 3", "rank 1 compartments 1");
        let levels: Vec<u8> = parse(&text).unwrap().part.observers.iter().map(|o| o.level.0).collect();
        assert_eq!(levels, [0x41, 0x42, 0x80]);
    }

    /// Four observers are read, the fifth is a fault at its line.
    #[test]
    fn the_limit_of_observers() {
        let more = |count: u8| -> String {
            (0..count).map(|c| format!("observer rank 3 compartments {c}\nclasses {{2 1 0}}\n")).collect()
        };
        let text = |count| WATCHED.replace("event 7", &(more(count) + "event 7"));
        assert_eq!(parse(&text(1)).unwrap().part.observers.len(), 4);
        let fault = parse(&text(2)).unwrap_err();
        assert_eq!(fault, "15:1: expected at most 4 observers (refusal 20), found one more");
    }

    #[test]
    fn other_faults_of_several_observers() {
        let other = "'observer', 'event' or the end of the text, found";
        assert_eq!(said_watched("event 7", "7"), format!("13:1: expected {other} '7'"));
        let full = WATCHED.replace("event 7", "observer rank 3 compartments none\nclasses {0 1 2}\n7");
        let fault = parse(&full).unwrap_err();
        assert_eq!(fault, "15:1: expected 'event' or the end of the text, found '7'");
        let found = said_watched("classes {idle sent} {full}", "states 3");
        assert_eq!(found, "7:1: expected 'classes', found 'states'");
        assert_eq!(
            said_watched("0 3", "0 6").split(',').next(),
            Some("6:32: expected the end of the line or a compartment from 0 to 5")
        );
        let mislabelled = "expected 'none', as a level of rank 0 has no compartments (refusal 16), found '0'";
        assert_eq!(said_watched("rank 1 compartments 0 3", "rank 0 compartments 0"), format!("6:30: {mislabelled}"));
        let end = said_watched("rank 2 compartments none", "rank 2 compartments none 3");
        assert_eq!(end, "8:35: expected the end of the line, found '3'");
        let behind = WATCHED.to_string() + "observer rank 3 compartments none\n";
        let fault = parse(&behind).unwrap_err();
        assert_eq!(fault, "15:1: expected a state from 0 to 2 or a state's name or 'event', found 'observer'");
    }

    /// Faults in the classes of a further observer name it.
    #[test]
    fn faults_of_further_classes() {
        let second = "of the observer rank 1 compartments 0 3 (0x49)";
        let twice = said_watched("{idle sent} {full}", "{idle sent} {full 0}");
        assert_eq!(twice, format!("7:27: state 0 stands in the classes {second} twice, expected each state once"));
        let none = said_watched("{idle sent} {full}", "{idle sent}");
        assert_eq!(none, format!("7:1: state 2 stands in no class {second}, expected each state in one"));
        let first = said_watched("{idle sent full}", "{idle full}");
        assert_eq!(first, "5:1: state 1 stands in no class, expected each state in one");
    }

    /// What is said about LIMITED with one piece of its text replaced.
    fn said_limited(old: &str, new: &str) -> String {
        assert!(LIMITED.contains(old), "{old}");
        parse(&LIMITED.replacen(old, new, 1)).unwrap_err()
    }

    #[test]
    fn a_limited_part() {
        let part = parse(LIMITED).unwrap().part;
        let observer = Observer { level: Level(0), classes: vec![0, 0, 1, 1], fine: Some(vec![0, 0, 1, 2]) };
        assert_eq!(part.observers, [observer]);
        assert_eq!((part.states, part.events[0].rows.as_slice()), (4, &[6, 0, 0, 0][..]));
        let other = LIMITED.replace("{lost} {full}          # each apart\n  {sent idle}", "{0 1} {2} {3}");
        assert_eq!(parse(&other).unwrap().part, part);
        let none = LIMITED.replace("fine {lost} {full}          # each apart\n  {sent idle}\n", "");
        assert_eq!(parse(&none).unwrap().part.observers[0].fine, None);
        let equal = LIMITED.replace("{lost} {full}", "{lost full}");
        assert_eq!(parse(&equal).unwrap().part.observers[0].fine, Some(vec![0, 0, 1, 1]));
        let single = LIMITED.replace("{sent idle}", "{sent} {idle}");
        assert_eq!(parse(&single).unwrap().part.observers[0].fine, Some(vec![0, 1, 2, 3]));
    }

    /// A fine class that is not inside one class, at the first state that is outside.
    #[test]
    fn fine_classes_across_two_classes() {
        let inside = "as a fine class lies inside one class (refusal 21), found";
        let expected = |state| format!("expected a state of the class of state {state}, {inside}");
        let two = said_limited("{lost} {full}", "{lost idle} {full}");
        assert_eq!(two, format!("6:12: {} 'idle'", expected(3)));
        let third = said_limited("{lost} {full}", "{3 full sent}");
        assert_eq!(third, format!("6:14: {} 'sent'", expected(3)));
        let last = said_limited("{lost} {full}", "{lost} {2 1}");
        assert_eq!(last, format!("6:16: {} '1'", expected(2)));
        let other_classes = said_limited("{idle sent} {full lost}", "{idle} {sent full lost}");
        assert_eq!(other_classes, format!("7:9: {} 'idle'", expected(1)));
    }

    #[test]
    fn other_faults_of_fine_classes() {
        let state = "expected a state from 0 to 3 or a state's name";
        let twice = "7:16: state 3 stands in the fine classes twice, expected each state once";
        assert_eq!(said_limited("{sent idle}", "{sent idle} {lost}"), twice);
        let none = "6:1: state 3 stands in no fine class, expected each state in one";
        assert_eq!(said_limited("{lost} {full}", "{full}"), none);
        assert_eq!(said_limited("fine {lost} {full}", "fine {}"), format!("6:7: {state}, found '}}'"));
        assert_eq!(said_limited("fine {lost} {full}", "fine {4}"), format!("6:7: {state}, found '4'"));
        assert_eq!(said_limited("fine {lost} {full}", "fine lost"), "6:6: expected '{', found 'lost'");
        let end = "6:13: expected '{' or the end of the line, found 'full'";
        assert_eq!(said_limited("fine {lost} {full}", "fine {lost} full"), end);
        let nothing = LIMITED.replace(" {lost} {full}          # each apart\n  {sent idle}", "");
        assert_eq!(parse(&nothing).unwrap_err(), "6:5: expected '{', found the end of the line");
        let word = "3:8: expected a number of states or a state's name, found 'fine', a word of the form";
        assert_eq!(said_limited("states idle", "states fine"), word);
    }

    #[test]
    fn fine_classes_at_another_place() {
        let second = LIMITED.replace("event 7", "fine {0 1} {2} {3}\nevent 7");
        assert_eq!(parse(&second).unwrap_err(), "8:1: expected 'event' or the end of the text, found 'fine'");
        let before = LIMITED.replace("classes", "fine");
        assert_eq!(parse(&before).unwrap_err(), "5:1: expected 'classes', found 'fine'");
        let behind = LIMITED.to_string() + "fine {0 1} {2} {3}\n";
        let state = "expected a state from 0 to 3 or a state's name or 'event', found 'fine'";
        assert_eq!(parse(&behind).unwrap_err(), format!("10:1: {state}"));
    }

    /// The fault is at the `fine` line, whether it is that of the first observer or that of a further one.
    #[test]
    fn fine_classes_for_several_observers() {
        let several = "expected 'fine' only in a table with one observer, found several observers";
        let second = "observer rank 1 compartments none\nclasses {0 1 2 3}\nevent 7";
        assert_eq!(said_limited("event 7", second), format!("6:1: {several}"));
        let third = "observer rank 2 compartments none\n";
        assert_eq!(said_watched(third, &format!("  fine {{0 1 2}}\n{third}")), format!("8:3: {several}"));
        assert_eq!(said_watched("event 7", "fine {0} {1} {2}\nevent 7"), format!("13:1: {several}"));
        assert_eq!(said_watched("observer rank 1", "fine {0} {1 2}\nobserver rank 1"), format!("6:1: {several}"));
    }

    #[test]
    fn a_level_alone() {
        assert_eq!(read_level(" rank 1  compartments 3 0"), Ok(Level(0x49)));
        assert_eq!(read_level("rank 0 compartments none\n"), Ok(Level(0)));
        let said = |text| read_level(text).unwrap_err().message;
        assert_eq!(said("0x49"), "expected 'rank', found '0x49'");
        assert_eq!(said("rank 1"), "expected 'compartments', found the end of the line");
        assert_eq!(said("rank 1 compartments none none"), "expected the end of the line, found 'none'");
        assert_eq!(said("rank 1 compartments none\nrank"), "expected nothing more, found 'rank'");
        assert_eq!(said(""), "expected 'rank', found the end of the text");
    }

    /// In tables without names no name is offered.
    #[test]
    fn faults_without_names() {
        let text = "part\nobserver rank 0 compartments none\nstates 1\nstart idle\n";
        assert_eq!(parse(text).unwrap_err(), "4:7: expected a state from 0 to 0, found 'idle'");
    }

    #[test]
    fn faults_of_single_characters() {
        let sorts = "expected a word, a number, '{', '}', '->' or '\"', found";
        assert_eq!(said("start idle", "start: idle"), format!("5:6: {sorts} ':'"));
        let letters = "5:7: expected only the letters a to z and A to Z, digits, '_' and '.', found 'idlé'";
        assert_eq!(said("start idle", "start idlé"), letters);
        assert_eq!(said("classes", "@classes"), format!("6:1: {sorts} '@'"));
        let quote = "7:9: expected '\"' at the end of this name, found the end of the line";
        assert_eq!(said("\"send it\"", "\"send it"), quote);
        assert_eq!(said("\"send it\"", "\" \""), "7:9: expected a name between the quotes, found none");
        let control = "expected visible text, found the hidden character";
        assert_eq!(said("send it", "send\u{7}it"), format!("7:14: {control} U+0007"));
        assert_eq!(said("# names", "# \u{202E}names"), format!("4:35: {control} U+202E"));
        assert_eq!(said("start idle", "start\ridle"), format!("5:6: {control} U+000D"));
        let bytes = read(b"part\nobserver \xFF").unwrap_err().to_string();
        assert_eq!(bytes, "2:10: expected text in UTF-8, found the byte 0xFF");
    }

    /// The first fault in the file is told, also before one that is no token.
    #[test]
    fn the_first_fault_comes_first() {
        let text = GOOD.replace("rank 1", "rank 9").replace("start idle", "start @");
        assert_eq!(parse(&text).unwrap_err(), "3:15: expected a rank from 0 to 3, found '9'");
    }

    /// Every beginning of a text is read or has a fault inside it.
    #[test]
    fn cut_texts() {
        for whole in [GOOD, WATCHED, LIMITED] {
            for end in 0..whole.len() {
                let text = &whole[..end];
                if let Err(fault) = read(text.as_bytes()) {
                    assert!(fault.place.line <= text.matches('\n').count() + 1);
                }
            }
        }
    }

    /// Pieces of a text left out, doubled or swapped: a fault inside the text, or a part that comes back.
    fn mangled(text: &str) {
        let mut rng = Rng::new(7);
        let (mut faults, mut parts) = (0, 0);
        let lines = text.lines().count();
        for _ in 0..5000 {
            let mut bytes = text.as_bytes().to_vec();
            for _ in 0..=rng.below(2) {
                let (at, other) = (rng.below(bytes.len()), rng.below(bytes.len()));
                match rng.below(4) {
                    0 => drop(bytes.remove(at)),
                    1 => bytes.insert(at, bytes[other]),
                    2 => bytes.swap(at, other),
                    _ => bytes[at] = rng.next() as u8,
                }
            }
            match read(&bytes) {
                Ok(table) => {
                    assert_eq!(parse(&crate::writer::write(&table)), Ok(table.clone()));
                    let text = crate::writer::write(&Table::unnamed(table.part.clone()));
                    assert_eq!(parse(&text).unwrap().part, table.part);
                    assert_eq!(record::read(&record::write(&table.part)), Ok(table.part));
                    parts += 1;
                }
                Err(fault) => {
                    assert!(fault.place.line <= lines + 3 && fault.message.contains("expected"), "{fault}");
                    faults += 1;
                }
            }
        }
        assert!(faults > 1000 && parts > 100, "{faults} {parts}");
    }

    #[test]
    fn mangled_texts() {
        mangled(GOOD);
        mangled(WATCHED);
        mangled(LIMITED);
    }
}
