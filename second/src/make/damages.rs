//! Makes records that are meant to be refused: damaged for each refusal of a record, mangled, random bytes.

use super::breaks::changed_steps;
use super::kinds::any_of_kinds;
use super::levels::bad_level;
use super::limited::damage_fine;
use super::lists::{damage_list, mislabel_list};
use crate::record::{
    self, column, observer_levels, u32_at, Layout, EVENT_COUNT_AT, FORMS, HEADER, ORDER, START_AT, STATE_COUNT_AT,
};
use crate::rng::Rng;

/// Damages a well-formed record towards one of the refusals of a record. Where the record has no place for it (no events
/// for 7, say, no list of observers for 20 or no fine column for 21), it stays as it is.
pub fn damage(rng: &mut Rng, bytes: &mut Vec<u8>, refusal: u32) {
    if bytes.len() <= HEADER + 4 {
        // An earlier damage has already cut it.
        return;
    }
    let layout = Layout::of(bytes);
    let (n, m) = (layout.n, layout.m);
    match refusal {
        1 => bytes.truncate(rng.below(6)),
        2 => match rng.below(5) {
            0 => {
                let length = u32_at(bytes, 0);
                set_length(bytes, length + 1);
            }
            1 => {
                let length = u32_at(bytes, 0);
                set_length(bytes, length - 1);
            }
            2 => {
                for _ in 0..rng.range(1, 9) {
                    bytes.push(rng.pick(&[0, 0xFF]));
                }
            }
            3 => {
                let cut = rng.range(1, bytes.len() - HEADER);
                bytes.truncate(bytes.len() - cut);
            }
            _ => {
                let at = rng.below(4);
                bytes[at] = bytes[at].wrapping_add(rng.range(1, 255) as u8);
            }
        },
        3 => match rng.below(4) {
            0 => bytes[4] = 0,
            1 => bytes[4] = rng.range(FORMS.len() + 1, 255) as u8,
            2 => bytes[5] = rng.range(1, 255) as u8,
            _ => {
                bytes[4] = 0;
                bytes[5] = 1;
            }
        },
        4 => match rng.below(6) {
            0 => {
                bytes.truncate(HEADER + rng.below(4));
                let length = bytes.len() - HEADER;
                set_length(bytes, length as u32);
            }
            1 => bytes[STATE_COUNT_AT] = 0,
            2 => bytes[STATE_COUNT_AT] = rng.pick(&[65, 66, 128, 255]),
            3 => bytes[START_AT] = n as u8,
            4 => bytes[START_AT] = rng.range(n, 255) as u8,
            _ => bytes[EVENT_COUNT_AT] = rng.pick(&[33, 34, 64, 255]),
        },
        5 => match rng.below(4) {
            0 => {
                for _ in 0..rng.range(1, 9) {
                    bytes.push(0);
                }
                let length = bytes.len() - HEADER;
                set_length(bytes, length as u32);
            }
            1 => {
                let cut = rng.range(1, bytes.len() - HEADER - 4);
                bytes.truncate(bytes.len() - cut);
                let length = bytes.len() - HEADER;
                set_length(bytes, length as u32);
            }
            2 => bytes[STATE_COUNT_AT] = if n < 64 { n as u8 + 1 } else { 63 },
            _ => bytes[EVENT_COUNT_AT] = if m < 32 { m as u8 + 1 } else { 31 },
        },
        20 => damage_list(rng, bytes),
        6 => {
            let i = if layout.observers > 1 { rng.below(layout.observers) } else { 0 };
            misnumber(rng, bytes, i * layout.form.columns);
        }
        21 => damage_fine(rng, bytes),
        7 => {
            if m >= 2 && rng.chance(1, 2) {
                let e = rng.pick(&[1, m / 2, m - 1]).max(1);
                // Two neighbours get the same identifier, or change places.
                let changes_places = rng.chance(1, 2);
                for i in 0..2 {
                    let before = bytes[layout.entry_at(e - 1) + i];
                    if changes_places {
                        bytes[layout.entry_at(e - 1) + i] = bytes[layout.entry_at(e) + i];
                    }
                    bytes[layout.entry_at(e) + i] = before;
                }
            } else if m >= 1 {
                let e = rng.pick(&[0, m / 2, m - 1]);
                bytes[layout.entry_at(e) + 2] = rng.pick(&[3, 4, 128, 255]);
            }
        }
        16 if layout.observers > 1 && rng.chance(1, 2) => mislabel_list(rng, bytes),
        16 => {
            let whose = rng.pick(&[0, 1, m / 2 + 1, m]).min(m);
            let level = bad_level(rng, observer_levels(bytes)[0]);
            label(bytes, whose, level);
        }
        _ => {
            if m >= 1 && n < 64 {
                let e = rng.pick(&[0, m / 2, m - 1]);
                let s = rng.pick(&[0, n / 2, n - 1]);
                let bit = if rng.chance(1, 3) { rng.range(n, 63) } else { rng.pick(&[n, 63]) };
                bytes[layout.row_at(e, s) + bit / 8] |= 1 << (bit % 8);
            }
        }
    }
}

/// Damages one class column towards refusal 6, or 21 where it is a fine one.
pub fn misnumber(rng: &mut Rng, bytes: &mut [u8], i: usize) {
    let layout = Layout::of(bytes);
    let s = rng.pick(&[0, layout.n / 2, layout.n - 1]);
    bytes[layout.class_at(i, s)] = if s == 0 {
        rng.pick(&[1, 2, 255])
    } else {
        let largest_before = *column(bytes, i)[..s].iter().max().unwrap();
        if rng.chance(1, 2) {
            largest_before + 2
        } else {
            255
        }
    }
}

/// Gives a level to the first observer, which is number 0, or to an event, from number 1 on.
pub fn label(bytes: &mut [u8], whose: usize, level: u8) {
    let layout = Layout::of(bytes);
    let at = if whose == 0 { layout.observer_at(0) } else { layout.level_at(whose - 1) };
    bytes[at] = level;
}

pub(super) fn set_length(bytes: &mut [u8], length: u32) {
    bytes[..4].copy_from_slice(&length.to_le_bytes());
}

/// Changes, cuts or lengthens a record at random.
pub fn mangled(rng: &mut Rng, bytes: &[u8]) -> Vec<u8> {
    let mut mangled = bytes.to_vec();
    match rng.below(4) {
        0 => {
            for _ in 0..rng.range(1, 3) {
                let at = rng.below(mangled.len());
                mangled[at] ^= 1 << rng.below(8);
            }
        }
        1 => {
            for _ in 0..rng.range(1, 3) {
                let at = rng.below(mangled.len().min(24));
                mangled[at] = rng.byte();
            }
        }
        2 => mangled.truncate(rng.below(bytes.len())),
        _ => {
            let count = rng.range(1, 12);
            let more = rng.bytes(count);
            mangled.extend_from_slice(&more);
        }
    }
    mangled
}

/// Random bytes, now and then with a length field and a kind that fit.
pub fn random_bytes(rng: &mut Rng) -> Vec<u8> {
    let count = rng.below(80);
    let mut bytes = rng.bytes(count);
    if bytes.len() >= 6 && rng.chance(1, 2) {
        let length = bytes.len() - HEADER;
        set_length(&mut bytes, length as u32);
        bytes[4] = rng.pick(&FORMS).kind as u8;
        bytes[5] = 0;
    }
    bytes
}

/// A record that Check refuses or finds broken, for the most part.
pub fn bad_record(rng: &mut Rng) -> Vec<u8> {
    let part = any_of_kinds(rng);
    let mut bytes = record::write(&part);
    match rng.below(4) {
        0 => {
            let refusal = rng.pick(&ORDER);
            damage(rng, &mut bytes, refusal);
            bytes
        }
        1 => record::write(&changed_steps(rng, &part)),
        2 => mangled(rng, &bytes),
        _ => random_bytes(rng),
    }
}

#[cfg(test)]
mod tests {
    use super::*;
    use crate::check::{self, Verdict};
    use crate::make::passing_of_kind;
    use crate::record::kind_can_get;

    #[test]
    fn damages_are_refused_as_meant() {
        for form in FORMS {
            are_refused_as_meant(form.kind);
        }
    }

    fn are_refused_as_meant(kind: u16) {
        let mut rng = Rng::new(53);
        for refusal in ORDER.into_iter().filter(|&refusal| kind_can_get(kind, refusal)) {
            let mut as_meant = 0;
            for _ in 0..100 {
                let n = rng.range(2, 6);
                let m = rng.range(2, 5);
                let mut bytes = record::write(&passing_of_kind(&mut rng, kind, n, m));
                damage(&mut rng, &mut bytes, refusal);
                if check::check(&bytes) == Verdict::Refused(refusal) {
                    as_meant += 1;
                }
            }
            assert!(as_meant > 60, "kind {}, refusal {}: {}", kind, refusal, as_meant);
        }
    }
}
