//! The part record: its kinds, its bytes, its fields, and the refusals of a record.
//! Document 01, "Levels", "The part record", "Refusals out of the input"; document 02, requests d, i, k and l.

use std::ops::Deref;

/// The kind of an event.
#[derive(Clone, Copy, PartialEq, Eq, Debug)]
pub enum Kind {
    Input,
    Output,
    Internal,
}

impl Kind {
    pub fn byte(self) -> u8 {
        match self {
            Kind::Input => 0,
            Kind::Output => 1,
            Kind::Internal => 2,
        }
    }
}

#[derive(Clone, Copy, PartialEq, Eq, Debug)]
pub struct Event {
    pub identifier: u16,
    pub kind: Kind,
    pub level: u8,
}

/// The number of classes in a column: one more than the largest class byte.
pub fn count_of(column: &[u8]) -> usize {
    let mut largest = 0;
    for &class in column {
        if class > largest {
            largest = class;
        }
    }
    largest as usize + 1
}

/// An observer of a part: its level, the grouping of the states that is proposed for it, and in a limited part a finer
/// one.
#[derive(Clone, PartialEq, Eq, Debug)]
pub struct Observer {
    pub level: u8,
    pub classes: Vec<u8>,
    pub fine: Option<Vec<u8>>,
}

impl Observer {
    /// An observer without a finer grouping.
    pub fn new(level: u8, classes: Vec<u8>) -> Observer {
        Observer { level, classes, fine: None }
    }

    pub fn class_count(&self) -> usize {
        count_of(&self.classes)
    }

    /// Request l: the fine column, which equals the coarse one where none is given.
    pub fn fine_classes(&self) -> &[u8] {
        self.fine.as_ref().unwrap_or(&self.classes)
    }

    pub fn fine_class_count(&self) -> usize {
        count_of(self.fine_classes())
    }

    /// Request l: how many fine classes are in one coarse class.
    pub fn fine_classes_in(&self, class: u8) -> usize {
        let mut met: Vec<u8> = Vec::new();
        for (s, &fine) in self.fine_classes().iter().enumerate() {
            if self.classes[s] == class && !met.contains(&fine) {
                met.push(fine);
            }
        }
        met.len()
    }

    /// Request l: the largest number of fine classes in one coarse class.
    pub fn limit(&self) -> usize {
        self.classes.iter().map(|&class| self.fine_classes_in(class)).max().unwrap()
    }
}

/// A part as its record describes it: a table of states, events and steps, and a list of observers.
/// `steps[e][s][t]`: event number e may lead from s to t.
#[derive(Clone, PartialEq, Eq, Debug)]
pub struct Part {
    pub states: usize,
    pub start: usize,
    pub events: Vec<Event>,
    pub steps: Vec<Vec<Vec<bool>>>,
    pub observers: Vec<Observer>,
}

impl Part {
    /// A part for one observer, of these states and events without any step.
    pub fn without_steps(observer: u8, start: usize, classes: Vec<u8>, events: Vec<Event>) -> Part {
        Part::for_observers(vec![Observer::new(observer, classes)], start, events)
    }

    /// The same for a list of observers.
    pub fn for_observers(observers: Vec<Observer>, start: usize, events: Vec<Event>) -> Part {
        let states = observers[0].classes.len();
        let steps = vec![vec![vec![false; states]; states]; events.len()];
        Part { states, start, events, steps, observers }
    }

    /// n, the number of states.
    pub fn state_count(&self) -> usize {
        self.states
    }

    /// m, the number of events.
    pub fn event_count(&self) -> usize {
        self.events.len()
    }

    pub fn is_input(&self, e: usize) -> bool {
        self.events[e].kind == Kind::Input
    }

    pub fn is_output(&self, e: usize) -> bool {
        self.events[e].kind == Kind::Output
    }

    pub fn is_internal(&self, e: usize) -> bool {
        self.events[e].kind == Kind::Internal
    }

    pub fn leads(&self, e: usize, s: usize, t: usize) -> bool {
        self.steps[e][s][t]
    }

    /// The part as observer number i of its list sees it.
    pub fn view(&self, i: usize) -> View<'_> {
        View { part: self, observer: &self.observers[i] }
    }

    /// The part as each of its observers sees it, in the order of the list.
    pub fn views(&self) -> Vec<View<'_>> {
        (0..self.observers.len()).map(|i| self.view(i)).collect()
    }

    /// The observers' levels, in the order of the list.
    pub fn levels(&self) -> Vec<u8> {
        self.observers.iter().map(|observer| observer.level).collect()
    }

    /// The part of kind 1 with the first observer and its coarse column alone.
    pub fn as_kind_1(&self) -> Part {
        let first = Observer::new(self.observers[0].level, self.observers[0].classes.clone());
        Part { observers: vec![first], ..self.clone() }
    }

    /// Request l: does the part give a fine column?
    pub fn is_limited(&self) -> bool {
        self.observers.iter().any(|observer| observer.fine.is_some())
    }

    /// Request l: the limit, which is 1 where no fine column is given.
    pub fn limit(&self) -> usize {
        self.observers.iter().map(Observer::limit).max().unwrap()
    }
}

/// A part as one of its observers sees it: which events are low, and which states have one class. All else is the part's.
#[derive(Clone, Copy, Debug)]
pub struct View<'a> {
    pub part: &'a Part,
    pub observer: &'a Observer,
}

impl Deref for View<'_> {
    type Target = Part;

    fn deref(&self) -> &Part {
        self.part
    }
}

impl View<'_> {
    /// The observer's level.
    pub fn level(&self) -> u8 {
        self.observer.level
    }

    pub fn class_count(&self) -> usize {
        self.observer.class_count()
    }

    /// "Levels": is the event's level at or below the observer's?
    pub fn is_low(&self, e: usize) -> bool {
        at_or_below(self.events[e].level, self.level())
    }

    /// "Levels": all others are high, incomparable ones too.
    pub fn is_high(&self, e: usize) -> bool {
        !self.is_low(e)
    }

    pub fn is_low_output(&self, e: usize) -> bool {
        self.is_output(e) && self.is_low(e)
    }

    /// Request i: the steps of high outputs are quiet, and those of internal events whatever their level.
    pub fn is_quiet(&self, e: usize) -> bool {
        self.is_internal(e) || (self.is_output(e) && self.is_high(e))
    }

    /// Have the states one class, in a limited part one coarse class?
    pub fn same_class(&self, s: usize, t: usize) -> bool {
        self.observer.classes[s] == self.observer.classes[t]
    }

    pub fn same_fine_class(&self, s: usize, t: usize) -> bool {
        self.observer.fine_classes()[s] == self.observer.fine_classes()[t]
    }
}

/// "Levels": the rank, bits 7 and 6.
pub fn rank(level: u8) -> u8 {
    level / 64
}

/// "Levels": is compartment bit `bit` (0 to 5) set?
pub fn has_compartment(level: u8, bit: u32) -> bool {
    (level >> bit) & 1 == 1
}

/// "Levels": the order of levels.
pub fn at_or_below(a: u8, b: u8) -> bool {
    if rank(a) > rank(b) {
        return false;
    }
    for bit in 0..6 {
        if has_compartment(a, bit) && !has_compartment(b, bit) {
            return false;
        }
    }
    true
}

/// Neither level is at or below the other.
pub fn incomparable(a: u8, b: u8) -> bool {
    !at_or_below(a, b) && !at_or_below(b, a)
}

/// Request d: a rank 0 level with a compartment bit.
pub fn is_mislabelled(level: u8) -> bool {
    rank(level) == 0 && (0..6).any(|bit| has_compartment(level, bit))
}

/// Two bytes at an offset, little-endian.
pub fn u16_at(bytes: &[u8], offset: usize) -> u16 {
    bytes[offset] as u16 + 256 * bytes[offset + 1] as u16
}

/// Four bytes at an offset, little-endian.
pub fn u32_at(bytes: &[u8], offset: usize) -> u32 {
    u16_at(bytes, offset) as u32 + 65536 * u16_at(bytes, offset + 2) as u32
}

/// What the first byte of a body tells: the level of the one observer, or how many observers are listed.
#[derive(Clone, Copy, PartialEq, Eq, Debug)]
pub enum First {
    Level,
    Count,
}

/// The form of a kind of records: what the first byte of the body tells, and how many class columns each observer has.
#[derive(Clone, Copy, Debug)]
pub struct Form {
    pub kind: u16,
    pub first: First,
    pub columns: usize,
}

/// The kinds of records that are described: document 01's, and those of requests k and l. All others are refused with 3.
/// The first column of an observer is the coarse one, a second one is finer.
pub const FORMS: [Form; 3] = [
    Form { kind: 1, first: First::Level, columns: 1 },
    Form { kind: 2, first: First::Count, columns: 1 },
    Form { kind: 3, first: First::Level, columns: 2 },
];

/// Request k: how many observers a record of kind 2 may list.
pub const FEWEST_LISTED: usize = 2;
pub const MOST_LISTED: usize = 4;

/// Is the kind described?
pub fn is_described(kind: u16) -> bool {
    FORMS.iter().any(|form| form.kind == kind)
}

/// "The part record", requests k and l: the form of a part's record, by its number of observers and of their columns.
pub fn form_of(part: &Part) -> Form {
    let first = if part.observers.len() == 1 { First::Level } else { First::Count };
    let columns = if part.is_limited() { 2 } else { 1 };
    FORMS.into_iter().find(|form| form.first == first && form.columns == columns).unwrap()
}

pub const HEADER: usize = 6;
pub const KIND_AT: usize = 4;
pub const FIRST_AT: usize = 6;
pub const STATE_COUNT_AT: usize = 7;
pub const START_AT: usize = 8;
pub const EVENT_COUNT_AT: usize = 9;
const NUMBERS_END: usize = 10;

/// Where the fields of a record lie: by its form, the number of its observers, n and m.
#[derive(Clone, Copy, Debug)]
pub struct Layout {
    pub form: Form,
    pub observers: usize,
    pub n: usize,
    pub m: usize,
}

impl Layout {
    /// By a record's own bytes, valid once refusals 1 to 4 are out of the way. A count is taken as it stands. Of a kind
    /// without a form nothing is known; it is laid out as kind 1.
    pub fn of(bytes: &[u8]) -> Layout {
        let kind = u16_at(bytes, KIND_AT);
        let form = FORMS.into_iter().find(|form| form.kind == kind).unwrap_or(FORMS[0]);
        let observers = match form.first {
            First::Level => 1,
            First::Count => bytes[FIRST_AT] as usize,
        };
        Layout { form, observers, n: bytes[STATE_COUNT_AT] as usize, m: bytes[EVENT_COUNT_AT] as usize }
    }

    /// By a part.
    pub fn of_part(part: &Part) -> Layout {
        let (observers, n, m) = (part.observers.len(), part.state_count(), part.event_count());
        Layout { form: form_of(part), observers, n, m }
    }

    /// The bytes of the listed observers, behind the four numbers.
    fn list_length(self) -> usize {
        match self.form.first {
            First::Level => 0,
            First::Count => self.observers,
        }
    }

    /// The number of class columns.
    pub fn columns(self) -> usize {
        self.observers * self.form.columns
    }

    /// "The part record", requests k and l: the number of body bytes.
    pub fn body_length(self) -> usize {
        4 + self.list_length() + self.columns() * self.n + 4 * self.m + 8 * self.m * self.n
    }

    /// The level of observer number i.
    pub fn observer_at(self, i: usize) -> usize {
        match self.form.first {
            First::Level => FIRST_AT,
            First::Count => NUMBERS_END + i,
        }
    }

    /// The class of state s in a column.
    pub fn class_at(self, column: usize, s: usize) -> usize {
        NUMBERS_END + self.list_length() + column * self.n + s
    }

    pub fn entry_at(self, e: usize) -> usize {
        self.class_at(self.columns(), 0) + 4 * e
    }

    /// The level of event number e.
    pub fn level_at(self, e: usize) -> usize {
        self.entry_at(e) + 3
    }

    pub fn row_at(self, e: usize, s: usize) -> usize {
        self.entry_at(self.m) + 8 * (e * self.n + s)
    }
}

/// The number of bytes of the longest record of a form.
pub fn longest_of(form: Form) -> usize {
    let observers = if form.first == First::Count { MOST_LISTED } else { 1 };
    HEADER + Layout { form, observers, n: 64, m: 32 }.body_length()
}

/// "The part record", request k: the number of bytes of the longest record.
pub fn longest() -> usize {
    FORMS.into_iter().map(longest_of).max().unwrap()
}

/// Bit t of the eight-byte row at an offset, bit 0 lowest.
pub fn row_bit(bytes: &[u8], offset: usize, t: usize) -> bool {
    (bytes[offset + t / 8] >> (t % 8)) & 1 == 1
}

/// Refusal 1.
pub fn refusal_1(bytes: &[u8]) -> bool {
    bytes.len() < HEADER
}

/// Refusal 2.
pub fn refusal_2(bytes: &[u8]) -> bool {
    u32_at(bytes, 0) as usize != bytes.len() - HEADER
}

/// Refusal 3, requests k and l: a kind without a form.
pub fn refusal_3(bytes: &[u8]) -> bool {
    !is_described(u16_at(bytes, KIND_AT))
}

/// Refusal 4.
pub fn refusal_4(bytes: &[u8]) -> bool {
    if bytes.len() - HEADER < 4 {
        return true;
    }
    let n = bytes[STATE_COUNT_AT];
    let start = bytes[START_AT];
    let m = bytes[EVENT_COUNT_AT];
    n < 1 || n > 64 || start >= n || m > 32
}

/// Refusal 5. A count that 20 would refuse counts here too.
pub fn refusal_5(bytes: &[u8]) -> bool {
    u32_at(bytes, 0) as usize != Layout::of(bytes).body_length()
}

/// Refusal 20: a count outside 2 to 4, or observers that do not rise. Records that list no observers never get it.
pub fn refusal_20(bytes: &[u8]) -> bool {
    let layout = Layout::of(bytes);
    if layout.form.first != First::Count {
        return false;
    }
    if layout.observers < FEWEST_LISTED || layout.observers > MOST_LISTED {
        return true;
    }
    for i in 1..layout.observers {
        if bytes[layout.observer_at(i)] <= bytes[layout.observer_at(i - 1)] {
            return true;
        }
    }
    false
}

/// Refusals 6 and 21 for one column: it is not numbered by first appearance.
pub fn is_misnumbered(classes: &[u8]) -> bool {
    if classes[0] != 0 {
        return true;
    }
    let mut largest_before = 0;
    for s in 1..classes.len() {
        let class = classes[s];
        if class as usize > largest_before as usize + 1 {
            return true;
        }
        if class > largest_before {
            largest_before = class;
        }
    }
    false
}

/// The class bytes of a column.
pub fn column(bytes: &[u8], column: usize) -> &[u8] {
    let layout = Layout::of(bytes);
    &bytes[layout.class_at(column, 0)..layout.class_at(column + 1, 0)]
}

/// The grouping of observer number i, in a record of kind 3 the coarse one.
pub fn classes_of(bytes: &[u8], i: usize) -> &[u8] {
    column(bytes, i * Layout::of(bytes).form.columns)
}

/// The finer grouping of observer number i, where the kind has one.
pub fn fine_of(bytes: &[u8], i: usize) -> Option<&[u8]> {
    let columns = Layout::of(bytes).form.columns;
    (columns > 1).then(|| column(bytes, i * columns + 1))
}

/// Refusal 6: tested for the column of each observer, the coarse one where there are two.
pub fn refusal_6(bytes: &[u8]) -> bool {
    (0..Layout::of(bytes).observers).any(|i| is_misnumbered(classes_of(bytes, i)))
}

/// Refusal 21: have two states of one fine class different coarse classes?
pub fn crosses(classes: &[u8], fine: &[u8]) -> bool {
    for s in 0..classes.len() {
        for t in 0..classes.len() {
            if fine[s] == fine[t] && classes[s] != classes[t] {
                return true;
            }
        }
    }
    false
}

/// Refusal 21: a fine class across two coarse ones, or a fine column that is not numbered by first appearance. Records
/// without a fine column never get it.
pub fn refusal_21(bytes: &[u8]) -> bool {
    (0..Layout::of(bytes).observers).any(|i| match fine_of(bytes, i) {
        Some(fine) => is_misnumbered(fine) || crosses(classes_of(bytes, i), fine),
        None => false,
    })
}

/// Refusal 7.
pub fn refusal_7(bytes: &[u8]) -> bool {
    let layout = Layout::of(bytes);
    for e in 1..layout.m {
        let before = u16_at(bytes, layout.entry_at(e - 1));
        let identifier = u16_at(bytes, layout.entry_at(e));
        if identifier <= before {
            return true;
        }
    }
    for e in 0..layout.m {
        let kind = bytes[layout.entry_at(e) + 2];
        if kind > 2 {
            return true;
        }
    }
    false
}

/// The levels of the observers.
pub fn observer_levels(bytes: &[u8]) -> Vec<u8> {
    let layout = Layout::of(bytes);
    (0..layout.observers).map(|i| bytes[layout.observer_at(i)]).collect()
}

/// The levels of the events.
pub fn event_levels(bytes: &[u8]) -> Vec<u8> {
    let layout = Layout::of(bytes);
    (0..layout.m).map(|e| bytes[layout.level_at(e)]).collect()
}

/// Refusal 16: such a level as an observer's or in an event.
pub fn refusal_16(bytes: &[u8]) -> bool {
    observer_levels(bytes).into_iter().any(is_mislabelled) || event_levels(bytes).into_iter().any(is_mislabelled)
}

/// Refusal 8.
pub fn refusal_8(bytes: &[u8]) -> bool {
    let layout = Layout::of(bytes);
    for e in 0..layout.m {
        for s in 0..layout.n {
            for t in layout.n..64 {
                if row_bit(bytes, layout.row_at(e, s), t) {
                    return true;
                }
            }
        }
    }
    false
}

/// "Order", requests d, k and l: the refusals of a record, in the order in which they are tested.
pub const ORDER: [u32; 11] = [1, 2, 3, 4, 5, 20, 6, 21, 7, 16, 8];

/// Can a record of this kind get the refusal?
pub fn kind_can_get(kind: u16, number: u32) -> bool {
    match number {
        20 => kind == 2,
        21 => kind == 3,
        _ => true,
    }
}

/// Does the refusal of this number apply? Of 1 to 5 and 20, those before it must not.
pub fn applies(number: u32, bytes: &[u8]) -> bool {
    match number {
        1 => refusal_1(bytes),
        2 => refusal_2(bytes),
        3 => refusal_3(bytes),
        4 => refusal_4(bytes),
        5 => refusal_5(bytes),
        20 => refusal_20(bytes),
        6 => refusal_6(bytes),
        21 => refusal_21(bytes),
        7 => refusal_7(bytes),
        16 => refusal_16(bytes),
        8 => refusal_8(bytes),
        _ => unreachable!(),
    }
}

/// The first refusal that applies.
pub fn first_refusal(bytes: &[u8]) -> Option<u32> {
    for number in ORDER {
        if applies(number, bytes) {
            return Some(number);
        }
    }
    None
}

/// Reads a record: its fields, or the first refusal.
pub fn read(bytes: &[u8]) -> Result<Part, u32> {
    match first_refusal(bytes) {
        Some(number) => Err(number),
        None => Ok(fields(bytes)),
    }
}

/// The fields of a record that refusals 1 to 7, 20 and 21 leave alone; bits of rows at n and above are left out.
pub fn fields(bytes: &[u8]) -> Part {
    let layout = Layout::of(bytes);
    let mut observers = Vec::new();
    for (i, level) in observer_levels(bytes).into_iter().enumerate() {
        let fine = fine_of(bytes, i).map(<[u8]>::to_vec);
        observers.push(Observer { level, classes: classes_of(bytes, i).to_vec(), fine });
    }
    let mut events = Vec::new();
    for e in 0..layout.m {
        let at = layout.entry_at(e);
        let kind = match bytes[at + 2] {
            0 => Kind::Input,
            1 => Kind::Output,
            _ => Kind::Internal,
        };
        events.push(Event { identifier: u16_at(bytes, at), kind, level: bytes[layout.level_at(e)] });
    }
    let steps = vec![vec![vec![false; layout.n]; layout.n]; layout.m];
    let mut part = Part { states: layout.n, start: bytes[START_AT] as usize, events, steps, observers };
    for e in 0..layout.m {
        for s in 0..layout.n {
            for t in 0..layout.n {
                part.steps[e][s][t] = row_bit(bytes, layout.row_at(e, s), t);
            }
        }
    }
    part
}

pub fn push_u16(bytes: &mut Vec<u8>, number: u16) {
    bytes.push((number % 256) as u8);
    bytes.push((number / 256) as u8);
}

pub fn push_u32(bytes: &mut Vec<u8>, number: u32) {
    push_u16(bytes, (number % 65536) as u16);
    push_u16(bytes, (number / 65536) as u16);
}

pub fn push_u64(bytes: &mut Vec<u8>, number: u64) {
    push_u32(bytes, (number % (1 << 32)) as u32);
    push_u32(bytes, (number >> 32) as u32);
}

/// Writes the record of a part of at most 64 states. One observer makes it kind 1, several make it kind 2, and one with a
/// fine column makes it kind 3.
pub fn write(part: &Part) -> Vec<u8> {
    let layout = Layout::of_part(part);
    let (n, m) = (layout.n, layout.m);
    let mut bytes = Vec::new();
    push_u32(&mut bytes, layout.body_length() as u32);
    push_u16(&mut bytes, layout.form.kind);
    bytes.push(match layout.form.first {
        First::Level => part.observers[0].level,
        First::Count => part.observers.len() as u8,
    });
    bytes.push(n as u8);
    bytes.push(part.start as u8);
    bytes.push(m as u8);
    if layout.form.first == First::Count {
        bytes.extend_from_slice(&part.levels());
    }
    for observer in &part.observers {
        bytes.extend_from_slice(&observer.classes);
        bytes.extend(observer.fine.iter().flatten());
    }
    for e in 0..m {
        push_u16(&mut bytes, part.events[e].identifier);
        bytes.push(part.events[e].kind.byte());
        bytes.push(part.events[e].level);
    }
    for e in 0..m {
        for s in 0..n {
            let mut row = [0u8; 8];
            for t in 0..n {
                if part.leads(e, s, t) {
                    row[t / 8] += 1 << (t % 8);
                }
            }
            bytes.extend_from_slice(&row);
        }
    }
    bytes
}

#[cfg(test)]
mod tests {
    use super::*;
    use crate::examples;
    use crate::make;
    use crate::rng::Rng;

    #[test]
    fn levels_of_the_examples() {
        assert!(at_or_below(0x81, 0x81));
        assert!(!at_or_below(0x41, 0x80));
        assert!(incomparable(0x41, 0x80));
        assert!(at_or_below(0x00, 0x00));
        assert!(at_or_below(0x3F, 0xFF));
        assert!(!at_or_below(0xC0, 0xBF));
    }

    #[test]
    fn the_largest_record() {
        assert_eq!(FORMS.map(longest_of), [16_586, 16_782, 16_650]);
        assert_eq!(longest(), 16_782);
    }

    #[test]
    fn reading_gives_back_what_was_written() {
        let mut rng = Rng::new(11);
        for form in FORMS {
            for _ in 0..200 {
                let (n, m) = (rng.range(1, 8), rng.range(0, 6));
                let part = make::passing_of_kind(&mut rng, form.kind, n, m);
                assert_eq!(form_of(&part).kind, form.kind);
                assert_eq!(read(&write(&part)), Ok(part));
            }
        }
        assert_eq!(write(&read(&examples::p()).unwrap()), examples::p());
    }

    /// Demand 2: well-formed records with the same fields are the same bytes.
    #[test]
    fn well_formed_records_are_equal_where_their_fields_are() {
        let mut rng = Rng::new(12);
        let mut well_formed = 0;
        for _ in 0..3000 {
            let bytes = make::bad_record(&mut rng);
            if let Ok(part) = read(&bytes) {
                assert_eq!(write(&part), bytes);
                well_formed += 1;
            }
        }
        assert!(well_formed > 500);
    }

    /// Minimal damages to P, one for each way in which a refusal can come.
    #[test]
    fn each_refusal_by_a_minimal_damage() {
        let p = examples::p();
        let changed = |offset: usize, byte: u8| {
            let mut bytes = p.clone();
            bytes[offset] = byte;
            first_refusal(&bytes)
        };
        assert_eq!(first_refusal(&p), None);
        assert_eq!(first_refusal(&[]), Some(1));
        assert_eq!(first_refusal(&p[..5]), Some(1));
        assert_eq!(first_refusal(&p[..6]), Some(2));
        assert_eq!(first_refusal(&p[..51]), Some(2));
        assert_eq!(changed(0, 0x2D), Some(2));
        assert_eq!(changed(3, 1), Some(2));
        assert_eq!(changed(4, 0), Some(3));
        assert_eq!(changed(5, 1), Some(3));
        assert_eq!(first_refusal(&[3, 0, 0, 0, 1, 0, 0, 1, 0]), Some(4));
        assert_eq!(first_refusal(&[0, 0, 0, 0, 1, 0]), Some(4));
        assert_eq!(changed(7, 0), Some(4));
        assert_eq!(changed(7, 65), Some(4));
        assert_eq!(changed(8, 2), Some(4));
        assert_eq!(changed(9, 33), Some(4));
        assert_eq!(changed(7, 3), Some(5));
        assert_eq!(changed(9, 1), Some(5));
        assert_eq!(changed(10, 1), Some(6));
        assert_eq!(changed(11, 2), Some(6));
        assert_eq!(changed(12, 2), Some(7));
        assert_eq!(changed(12, 3), Some(7));
        assert_eq!(changed(14, 3), Some(7));
        assert_eq!(changed(18, 255), Some(7));
        assert_eq!(changed(20, 6), Some(8));
        assert_eq!(changed(51, 0x80), Some(8));
    }

    /// Requests k and l: refusal 3 for every kind but 1, 2 and 3.
    #[test]
    fn kinds_not_described() {
        for (kind, bytes) in [(1, examples::p()), (2, examples::p_for_two()), (3, examples::guard())] {
            assert_eq!(first_refusal(&bytes), None);
            let with = |at: usize, byte: u8| {
                let mut changed = bytes.clone();
                changed[at] = byte;
                first_refusal(&changed)
            };
            for (at, byte) in [(4, 0), (4, 4), (4, 5), (4, 0xFF), (5, 1), (5, 0xFF)] {
                assert_eq!(with(at, byte), Some(3));
            }
            // With another's kind: its length does not fit.
            for other in (1..=3).filter(|&other| other != kind) {
                assert_eq!(with(4, other), Some(5));
            }
        }
    }

    /// Request l: the numbers, the coarse column, the fine one, the entries, the rows.
    #[test]
    fn fields_of_a_limited_part() {
        let part = read(&examples::guard()).unwrap();
        assert_eq!(part.observers, [Observer { level: 0x00, classes: vec![0, 0], fine: Some(vec![0, 1]) }]);
        assert_eq!((part.states, part.start, part.event_count()), (2, 0, 2));
        assert_eq!([part.leads(0, 1, 1), part.leads(1, 0, 0), part.leads(1, 1, 1)], [true, true, false]);
        assert_eq!(write(&part), examples::guard());
        let view = part.view(0);
        assert_eq!([view.same_class(0, 1), view.same_fine_class(0, 1)], [true, false]);
        assert_eq!([view.class_count(), view.observer.fine_class_count()], [1, 2]);
        // Without its fine column it is of kind 1; with one that is like the coarse one it is not.
        let mut other = part.clone();
        other.observers[0].fine = None;
        assert_eq!((write(&other)[4], write(&other).len()), (1, 52));
        other.observers[0].fine = Some(vec![0, 0]);
        assert_eq!((write(&other)[4], write(&other).len()), (3, 54));
        assert_eq!(write(&read(&examples::z_limited()).unwrap()), examples::z_limited());
        let length = |n: usize, m: usize| Layout { form: FORMS[2], observers: 1, n, m }.body_length();
        assert_eq!([length(2, 2), length(1, 0), length(64, 32)], [48, 6, 16_644]);
    }

    /// Request l: the largest number of fine classes in a coarse class.
    #[test]
    fn limits() {
        let limit = |classes: &[u8], fine: &[u8]| {
            Observer { level: 0, classes: classes.to_vec(), fine: Some(fine.to_vec()) }.limit()
        };
        assert_eq!(limit(&[0], &[0]), 1);
        assert_eq!(limit(&[0, 0], &[0, 1]), 2);
        assert_eq!(limit(&[0, 1], &[0, 1]), 1);
        assert_eq!(limit(&[0, 0, 0, 0], &[0, 0, 1, 0]), 2);
        assert_eq!(limit(&[0, 1, 1, 0, 1], &[0, 1, 2, 0, 3]), 3);
        assert_eq!(limit(&[0, 0, 0, 1, 2], &[0, 1, 2, 3, 4]), 3);
        assert_eq!(read(&examples::guard()).unwrap().limit(), 2);
        assert_eq!(read(&examples::p()).unwrap().limit(), 1);
        assert_eq!(read(&examples::p_for_two()).unwrap().limit(), 1);
    }

    /// Minimal damages to the guard. Its coarse column is bytes 10 and 11, its fine one 12 and 13; its entries begin at 14
    /// and 18, its rows at 22.
    #[test]
    fn each_refusal_of_a_limited_part_by_a_minimal_damage() {
        for (at, byte, refusal) in [
            (0, 0x31, 2),
            (7, 0, 4),
            (7, 65, 4),
            (8, 2, 4),
            (9, 33, 4),
            (7, 3, 5),
            (9, 1, 5),
            (10, 1, 6),
            (11, 2, 6),
            (12, 1, 21),
            (12, 255, 21),
            (13, 2, 21),
            (13, 255, 21),
            (16, 3, 7),
            (18, 1, 7),
            (20, 3, 7),
            (6, 0x01, 16),
            (17, 0x3F, 16),
            (21, 0x01, 16),
            (22, 6, 8),
            (53, 0x80, 8),
        ] {
            assert_eq!(first_refusal(&examples::guard_with(&[(at, byte)])), Some(refusal), "byte {}", at);
        }
        // One fine class for two coarse ones, two for two, two for one, one for one.
        for (coarse, fine, refusal) in [(1, 0, Some(21)), (1, 1, None), (0, 1, None), (0, 0, None)] {
            assert_eq!(first_refusal(&examples::guard_with(&[(11, coarse), (13, fine)])), refusal);
        }
        assert_eq!(first_refusal(&examples::guard()[..53]), Some(2));
        assert_eq!(first_refusal(&[3, 0, 0, 0, 3, 0, 0, 1, 0]), Some(4));
        assert_eq!(first_refusal(&[0, 0, 0, 0, 3, 0]), Some(4));
        assert_eq!(first_refusal(&[5, 0, 0, 0, 3, 0, 0, 1, 0, 0, 0]), Some(5));
    }

    /// Request l: 21 stands between 6 and 7. Every damage is in place; they are taken away from the first one on.
    #[test]
    fn order_of_refusals_of_a_limited_part() {
        let guard = examples::guard();
        let mut bytes = guard.clone();
        for (at, byte) in [(53, 0x80), (21, 0x3F), (16, 3), (13, 2), (11, 2), (9, 33), (4, 7), (0, 0x31)] {
            bytes[at] = byte;
        }
        for (number, at) in [(2, 0), (3, 4), (4, 9), (6, 11), (21, 13), (7, 16), (16, 21), (8, 53)] {
            assert_eq!(first_refusal(&bytes), Some(number));
            bytes[at] = guard[at];
        }
        assert_eq!(bytes, guard);
        // One event too few for the length, and a fine class too high.
        assert_eq!(first_refusal(&examples::guard_with(&[(9, 1), (13, 2)])), Some(5));
        // A coarse class too high makes the fine one cross, and 6 comes first.
        assert_eq!(first_refusal(&examples::guard_with(&[(11, 2), (13, 0)])), Some(6));
    }

    /// Request k: the count, n, start and m, the observers, a class column for each, the entries, the rows.
    #[test]
    fn fields_of_a_list() {
        let p = read(&examples::p()).unwrap();
        let part = read(&examples::p_for_two()).unwrap();
        let first = Observer::new(0x00, vec![0, 0]);
        let second = Observer::new(0x40, vec![0, 1]);
        assert_eq!(p.observers, [first.clone()]);
        assert_eq!(part.observers, [first, second]);
        assert_eq!((part.states, part.start, &part.events, &part.steps), (2, 0, &p.events, &p.steps));
        assert_eq!(write(&part), examples::p_for_two());
        // Input 1 is high for the first observer and low for the second.
        assert_eq!([part.view(0).is_high(0), part.view(1).is_high(0)], [true, false]);
        assert_eq!([part.view(0).same_class(0, 1), part.view(1).same_class(0, 1)], [true, false]);
        assert_eq!([part.view(0).class_count(), part.view(1).class_count()], [1, 2]);
        // One observer makes it kind 1 again.
        assert_eq!(write(&Part { observers: part.observers[..1].to_vec(), ..part }), examples::p());
        assert_eq!(write(&read(&examples::z_for_two()).unwrap()), examples::z_for_two());
        assert_eq!(examples::z_for(&[0x00, 0x40]), examples::z_for_two());
    }

    /// Request k: a byte for each observer listed, and a column for each.
    #[test]
    fn lengths_of_lists() {
        let length = |observers: usize, n: usize, m: usize| Layout { form: FORMS[1], observers, n, m }.body_length();
        assert_eq!(length(2, 2, 2), 50);
        assert_eq!(length(4, 64, 32), 16_776);
        assert_eq!(length(0, 2, 2), 44);
        assert_eq!(length(255, 2, 2), 4 + 255 + 510 + 40);
    }

    /// P for two observers with other counts, and the record for so many observers: 5 is tested before 20, with the count
    /// as it stands.
    #[test]
    fn counts_out_of_range() {
        for count in [0, 1, 3, 4, 5, 255] {
            assert_eq!(first_refusal(&examples::p_for_two_with(&[(6, count)])), Some(5));
        }
        // The length of five observers, and a count of 255 or of two.
        let with_length_of_5 = |count: u8| {
            let mut bytes = examples::p_for_two_with(&[(0, 59), (6, count)]);
            bytes.extend_from_slice(&[0; 9]);
            first_refusal(&bytes)
        };
        assert_eq!([with_length_of_5(255), with_length_of_5(2), with_length_of_5(5)], [Some(5), Some(5), Some(20)]);
        let all: Vec<u8> = (0..=254).collect();
        for (levels, refusal) in [
            (&[][..], Some(20)),
            (&[0x00], Some(20)),
            (&[0x00, 0x40], None),
            (&[0x00, 0x40, 0x41], None),
            (&[0x00, 0x40, 0x41, 0xFF], None),
            (&[0x00, 0x40, 0x41, 0x80, 0xFF], Some(20)),
            (&all, Some(20)),
        ] {
            // Z for so many observers: one state, and no events.
            let mut bytes = Vec::new();
            push_u32(&mut bytes, 4 + 2 * levels.len() as u32);
            bytes.extend_from_slice(&[2, 0, levels.len() as u8, 1, 0, 0]);
            bytes.extend_from_slice(levels);
            bytes.extend_from_slice(&vec![0; levels.len()]);
            assert_eq!(first_refusal(&bytes), refusal, "{} observers", levels.len());
        }
    }

    /// Request k: each observer's byte is above the one before.
    #[test]
    fn observers_that_do_not_rise() {
        for (levels, refusal) in [
            (&[0x40, 0x40][..], Some(20)),
            (&[0x40, 0x00], Some(20)),
            (&[0x41, 0x80], None),
            (&[0x00, 0x40, 0x40], Some(20)),
            (&[0x00, 0x80, 0x40], Some(20)),
            (&[0x00, 0x00, 0x40], Some(20)),
            (&[0x00, 0x40, 0x80, 0x80], Some(20)),
            (&[0x00, 0x40, 0x80, 0x7F], Some(20)),
            (&[0x7F, 0x80, 0xFE, 0xFF], None),
        ] {
            assert_eq!(first_refusal(&examples::z_for(levels)), refusal, "{:?}", levels);
        }
    }

    /// Minimal damages to P for two observers. Its observers are bytes 10 and 11, its columns 12 and 13, 14 and 15; its
    /// entries begin at 16 and 20, its rows at 24.
    #[test]
    fn each_refusal_of_a_list_by_a_minimal_damage() {
        for (at, byte, refusal) in [
            (0, 0x31, 2),
            (7, 0, 4),
            (7, 65, 4),
            (8, 2, 4),
            (9, 33, 4),
            (7, 3, 5),
            (9, 1, 5),
            (10, 0x40, 20),
            (11, 0x00, 20),
            (12, 1, 6),
            (13, 2, 6),
            (14, 1, 6),
            (15, 2, 6),
            (18, 3, 7),
            (20, 1, 7),
            (22, 3, 7),
            (10, 0x01, 16),
            (11, 0x3F, 16),
            (19, 0x01, 16),
            (23, 0x01, 16),
            (24, 6, 8),
            (55, 0x80, 8),
        ] {
            assert_eq!(first_refusal(&examples::p_for_two_with(&[(at, byte)])), Some(refusal), "byte {}", at);
        }
        assert_eq!(first_refusal(&examples::p_for_two()[..55]), Some(2));
        assert_eq!(first_refusal(&[3, 0, 0, 0, 2, 0, 2, 1, 0]), Some(4));
        assert_eq!(first_refusal(&[0, 0, 0, 0, 2, 0]), Some(4));
    }

    /// Request k: 20 stands between 5 and 6. Every damage is in place; they are taken away from the first one on.
    #[test]
    fn order_of_refusals_of_a_list() {
        let p = examples::p_for_two();
        let mut bytes = p.clone();
        // A stray bit, a bad level, a kind above 2, a class too high in the second column, equal observers, 33 events, a
        // kind that is not described, a wrong length.
        for (at, byte) in [(55, 0x80), (23, 0x3F), (18, 3), (15, 2), (10, 0x40), (9, 33), (4, 7), (0, 0x31)] {
            bytes[at] = byte;
        }
        for (number, at) in [(2, 0), (3, 4), (4, 9), (20, 10), (6, 15), (7, 18), (16, 23), (8, 55)] {
            assert_eq!(first_refusal(&bytes), Some(number));
            bytes[at] = p[at];
        }
        assert_eq!(bytes, p);
        // One event too few for the length, and observers that do not rise.
        assert_eq!(first_refusal(&examples::p_for_two_with(&[(9, 1), (11, 0)])), Some(5));
    }

    /// 63 of the 256 levels: 0x01 to 0x3F.
    #[test]
    fn mislabelled_levels() {
        for level in [0x01, 0x02, 0x04, 0x08, 0x10, 0x20, 0x21, 0x3E, 0x3F] {
            assert!(is_mislabelled(level));
        }
        for level in [0x00, 0x40, 0x41, 0x7F, 0x80, 0x81, 0xBF, 0xC0, 0xC1, 0xFF] {
            assert!(!is_mislabelled(level));
        }
        assert_eq!((0..=255).filter(|&level| is_mislabelled(level)).count(), 63);
    }

    /// P with another observer, or with another level of its first or its last event.
    #[test]
    fn mislabelled_records() {
        let layout = Layout::of(&examples::p());
        for at in [layout.observer_at(0), layout.level_at(0), layout.level_at(1)] {
            for (level, refusal) in
                [(0x01, Some(16)), (0x20, Some(16)), (0x3F, Some(16)), (0x00, None), (0x40, None), (0x41, None)]
            {
                let mut bytes = examples::p();
                bytes[at] = level;
                assert_eq!(first_refusal(&bytes), refusal);
                assert_eq!(read(&bytes).err(), refusal);
            }
        }
        // Z has no event to look at.
        let mut z = examples::z();
        z[FIRST_AT] = 0x01;
        assert_eq!(first_refusal(&z), Some(16));
        z[FIRST_AT] = 0x41;
        assert_eq!(first_refusal(&z), None);
    }

    /// Every damage is in place; they are taken away from the first one on.
    #[test]
    fn order_of_refusals() {
        let p = examples::p();
        let mut bytes = p.clone();
        // A stray bit, a bad level, a kind above 2, a class too high, 33 events, kind 0, a wrong length.
        for (at, byte) in [(51, 0x80), (19, 0x3F), (14, 3), (10, 1), (9, 33), (4, 0), (0, 0x2D)] {
            bytes[at] = byte;
        }
        for (number, at) in [(2, 0), (3, 4), (4, 9), (6, 10), (7, 14), (16, 19), (8, 51)] {
            assert_eq!(first_refusal(&bytes), Some(number));
            bytes[at] = p[at];
        }
        assert_eq!(bytes, p);
        // One event too few for the length, and a class too high or a bad observer.
        bytes[9] = 1;
        bytes[10] = 1;
        bytes[FIRST_AT] = 0x01;
        assert_eq!(first_refusal(&bytes), Some(5));
        bytes[9] = 2;
        assert_eq!(first_refusal(&bytes), Some(6));
        bytes[10] = 0;
        assert_eq!(first_refusal(&bytes), Some(16));
    }
}
