//! Levels: one byte with a rank and six compartments. Document 01, "Levels", and document 02, d.

/// The largest rank; bits 7 and 6 hold it.
pub const MAX_RANK: u8 = 3;

/// The largest compartment; compartment c is bit c, bit 0 the lowest.
pub const MAX_COMPARTMENT: u8 = 5;

const COMPARTMENT_BITS: u8 = 0x3F;

#[derive(Clone, Copy, PartialEq, Eq, Debug)]
pub struct Level(pub u8);

impl Level {
    /// The level of a rank of at most 3 without compartments.
    pub fn of_rank(rank: u8) -> Level {
        assert!(rank <= MAX_RANK);
        Level(rank << 6)
    }

    /// The same level with one compartment more.
    pub fn with(self, compartment: u8) -> Level {
        assert!(compartment <= MAX_COMPARTMENT);
        Level(self.0 | 1 << compartment)
    }

    pub fn rank(self) -> u8 {
        self.0 >> 6
    }

    pub fn has(self, compartment: u8) -> bool {
        self.0 & COMPARTMENT_BITS & (1 << compartment) != 0
    }

    fn has_compartments(self) -> bool {
        self.0 & COMPARTMENT_BITS != 0
    }

    /// Rank 0 and a compartment: a record with such a level is refused with 16.
    pub fn is_mislabelled(self) -> bool {
        self.rank() == 0 && self.has_compartments()
    }

    /// The order of levels: the rank is not larger, and each compartment is also the other's.
    pub fn at_or_below(self, other: Level) -> bool {
        let missing = self.0 & COMPARTMENT_BITS & !other.0;
        self.rank() <= other.rank() && missing == 0
    }

    /// As the text form has it: `rank 1 compartments 0 3`.
    pub fn text(self) -> String {
        let mut text = format!("rank {} compartments", self.rank());
        for compartment in 0..=MAX_COMPARTMENT {
            if self.has(compartment) {
                text.push_str(&format!(" {compartment}"));
            }
        }
        if !self.has_compartments() {
            text.push_str(" none");
        }
        text
    }

    /// The text form and the byte: `rank 1 compartments 0 3 (0x49)`.
    pub fn text_and_byte(self) -> String {
        format!("{} (0x{:02X})", self.text(), self.0)
    }
}

#[cfg(test)]
mod tests {
    use super::*;

    #[test]
    fn the_bits_of_a_level() {
        assert_eq!(Level::of_rank(1).with(0).with(3), Level(0x49));
        assert_eq!(Level::of_rank(3).with(5), Level(0xE0));
        assert_eq!(Level(0x49).text(), "rank 1 compartments 0 3");
        assert_eq!(Level(0xC0).text(), "rank 3 compartments none");
        assert_eq!(Level(0xFF).text_and_byte(), "rank 3 compartments 0 1 2 3 4 5 (0xFF)");
        assert_eq!(Level(0).text_and_byte(), "rank 0 compartments none (0x00)");
    }

    /// All bytes, bit by bit.
    #[test]
    fn mislabelled_levels() {
        for byte in 0..=255u8 {
            let rank = byte / 64;
            let compartment = (0..6).any(|bit| (byte >> bit) & 1 == 1);
            assert_eq!(Level(byte).is_mislabelled(), rank == 0 && compartment);
            assert_eq!(Level(byte).is_mislabelled(), (0x01..=0x3F).contains(&byte));
        }
    }

    #[test]
    fn the_order_of_levels() {
        assert!(Level(0x81).at_or_below(Level(0x81)));
        assert!(!Level(0x41).at_or_below(Level(0x80)));
        assert!(!Level(0x80).at_or_below(Level(0x41)));
        assert!(Level(0x3F).at_or_below(Level(0xFF)));
        assert!(!Level(0xC0).at_or_below(Level(0xBF)));
    }

    /// All pairs, bit by bit.
    #[test]
    fn the_order_bit_by_bit() {
        for a in 0..=255u8 {
            for b in 0..=255u8 {
                let ranks = a / 64 <= b / 64;
                let compartments = (0..6).all(|bit| (a >> bit) & 1 <= (b >> bit) & 1);
                assert_eq!(Level(a).at_or_below(Level(b)), ranks && compartments);
            }
        }
    }
}
