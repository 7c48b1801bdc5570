//! The refusals in words. `docs/FORMAT.md` has the fields of a record that they are about.

/// What a refusal says.
pub fn words(refusal: u32) -> &'static str {
    match refusal {
        1 => "fewer bytes than a record's header has",
        2 => "the length in the header is not the number of bytes behind it",
        3 => "the kind of the record is none of 1, 2 and 3",
        4 => "the number of states, the start or the number of events is out of range",
        5 => "the length is not that of so many observers, states and events",
        6 => "the classes of an observer are not numbered by first appearance",
        7 => "the identifiers do not rise, or an event is neither input, output nor internal",
        8 => "a step leads to a state that is not there",
        9 => "the observers of the two parts differ in number or level",
        10 => "a shared event is not an output of one part and an input of the other, or its levels differ",
        11 => "more than 64 states or 32 events together",
        12 => "the shelf has no end record",
        13 => "no part has that number",
        14 => "a record on the shelf does not pass",
        15 => "there is no room",
        16 => "the level of an observer or of an event has rank 0 and a compartment",
        20 => "not two to four observers, or their levels do not rise",
        21 => "the fine classes are not numbered by first appearance, or one lies across two coarse classes",
        _ => "a refusal that this tool does not know",
    }
}
