//! Makes levels, identifiers and events.

use crate::record::{at_or_below, incomparable, is_mislabelled, Event, Kind};
use crate::rng::Rng;

/// The level without its compartments where it may have none.
fn labelled(level: u8) -> u8 {
    if is_mislabelled(level) {
        0
    } else {
        level
    }
}

/// Any level that refusal 16 leaves alone.
pub fn any_level(rng: &mut Rng) -> u8 {
    labelled(rng.byte())
}

/// Another such level, one rank or compartment away.
pub fn near_level(rng: &mut Rng, level: u8) -> u8 {
    loop {
        let near = level ^ (1 << rng.below(8));
        if !is_mislabelled(near) {
            return near;
        }
    }
}

/// A level for refusal 16: often the first compartment alone, the last or all, and often a low one where there is one.
pub fn bad_level(rng: &mut Rng, observer: u8) -> u8 {
    let level = if rng.chance(1, 2) { rng.pick(&[0x01, 0x20, 0x3F]) } else { rng.range(0x01, 0x3F) as u8 };
    if level & observer != 0 && rng.chance(1, 2) {
        level & observer
    } else {
        level
    }
}

/// An observer level for which high levels exist, that is any but 0xFF; and 16 leaves it alone.
pub fn observer(rng: &mut Rng) -> u8 {
    match rng.below(4) {
        0 => 0,
        1 => 0x80,
        2 => rng.pick(&[0x40, 0x41, 0x81, 0xC0, 0x7F, 0xFE, 0xBF]),
        _ => labelled(rng.below(255) as u8),
    }
}

/// A level at or below the observer's.
pub fn low_level(rng: &mut Rng, observer: u8) -> u8 {
    loop {
        let level = match rng.below(3) {
            0 => observer,
            1 => labelled(rng.byte() & observer),
            _ => 0,
        };
        if at_or_below(level, observer) {
            return level;
        }
    }
}

/// A level not at or below the observer's, often an incomparable one.
pub fn high_level(rng: &mut Rng, observer: u8) -> u8 {
    assert!(observer != 0xFF);
    let wants_incomparable = rng.chance(1, 2);
    for _ in 0..50 {
        let level = any_level(rng);
        if wants_incomparable && incomparable(level, observer) {
            return level;
        }
        if !wants_incomparable && !at_or_below(level, observer) {
            return level;
        }
    }
    loop {
        let level = any_level(rng);
        if !at_or_below(level, observer) {
            return level;
        }
    }
}

/// The kind of an event, and on which side its level is.
#[derive(Clone, Copy, PartialEq, Eq, Debug)]
pub enum Role {
    LowInput,
    HighInput,
    LowOutput,
    HighOutput,
    LowInternal,
    HighInternal,
}

pub const ROLES: [Role; 6] =
    [Role::LowInput, Role::HighInput, Role::LowOutput, Role::HighOutput, Role::LowInternal, Role::HighInternal];

/// Those whose steps are quiet.
pub const QUIET_ROLES: [Role; 3] = [Role::HighOutput, Role::LowInternal, Role::HighInternal];

pub fn event(rng: &mut Rng, observer: u8, identifier: u16, role: Role) -> Event {
    let kind = match role {
        Role::LowInput | Role::HighInput => Kind::Input,
        Role::LowOutput | Role::HighOutput => Kind::Output,
        Role::LowInternal | Role::HighInternal => Kind::Internal,
    };
    let level = match role {
        Role::LowInput | Role::LowOutput | Role::LowInternal => low_level(rng, observer),
        Role::HighInput | Role::HighOutput | Role::HighInternal => high_level(rng, observer),
    };
    Event { identifier, kind, level }
}

/// Rising identifiers, now and then with 0 first and 65,535 last.
pub fn identifiers(rng: &mut Rng, count: usize) -> Vec<u16> {
    let mut chosen: Vec<u16> = Vec::new();
    if count > 0 && rng.chance(1, 3) {
        chosen.push(0);
    }
    if count > 1 && rng.chance(1, 3) {
        chosen.push(65_535);
    }
    let span = if rng.chance(1, 2) { 3 * count + 2 } else { 65_536 };
    while chosen.len() < count {
        let identifier = rng.below(span) as u16;
        if !chosen.contains(&identifier) {
            chosen.push(identifier);
        }
    }
    chosen.sort();
    chosen
}

pub fn random_events(rng: &mut Rng, observer: u8, count: usize) -> Vec<Event> {
    let mut events = Vec::new();
    for identifier in identifiers(rng, count) {
        let role = rng.pick(&ROLES);
        events.push(event(rng, observer, identifier, role));
    }
    events
}

#[cfg(test)]
mod tests {
    use super::*;
    use crate::record::Part;

    /// Every level but the bad ones is drawn, rank 0 as often as the others.
    #[test]
    fn levels_are_labelled() {
        let mut rng = Rng::new(63);
        let mut drawn = [0; 256];
        for _ in 0..20_000 {
            drawn[any_level(&mut rng) as usize] += 1;
        }
        for level in 0..=255 {
            assert_eq!(drawn[level as usize] == 0, is_mislabelled(level), "{}", level);
        }
        assert!(drawn[0] > 4000, "{}", drawn[0]);
    }

    #[test]
    fn events_have_their_roles() {
        let mut rng = Rng::new(66);
        for _ in 0..300 {
            let observer = observer(&mut rng);
            for role in ROLES {
                let events = vec![event(&mut rng, observer, 7, role)];
                let part = Part::without_steps(observer, 0, vec![0], events);
                assert_eq!(part.view(0).is_quiet(0), QUIET_ROLES.contains(&role));
                assert_eq!(part.view(0).is_low_output(0), role == Role::LowOutput);
                let is_low = matches!(role, Role::LowInput | Role::LowOutput | Role::LowInternal);
                assert_eq!(part.view(0).is_low(0), is_low);
            }
        }
    }

    #[test]
    fn drawn_levels_are_on_their_side() {
        let mut rng = Rng::new(64);
        let mut incomparable_ones = 0;
        for _ in 0..5000 {
            let observer = observer(&mut rng);
            let low = low_level(&mut rng, observer);
            let high = high_level(&mut rng, observer);
            let near = near_level(&mut rng, observer);
            for level in [observer, low, high, near] {
                assert!(!is_mislabelled(level));
            }
            assert!(at_or_below(low, observer) && !at_or_below(high, observer));
            assert!(near != observer);
            assert!(is_mislabelled(bad_level(&mut rng, observer)));
            if incomparable(high, observer) {
                incomparable_ones += 1;
            }
        }
        assert!(incomparable_ones > 1500, "{}", incomparable_ones);
    }
}
