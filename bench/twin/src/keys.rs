//! The kinds of key that can be counted, and when two keys count as one.

use crate::bands::Band;

/// What is counted. Likeness is an equivalence; alike keys count as one.
pub trait Key: Copy {
    fn alike(&self, other: &Self) -> bool;
}

/// A sounder and the band of one of its readings.
#[derive(Clone, Copy, Debug, PartialEq, Eq)]
pub struct SoundingKey {
    pub sounder: [u8; 2],
    pub band: Band,
}

impl Key for SoundingKey {
    fn alike(&self, other: &Self) -> bool {
        self == other
    }
}

/// The address of a sentence: two bytes say who speaks, three what kind of sentence it is.
#[derive(Clone, Copy, Debug, PartialEq, Eq)]
pub struct AddressKey(pub [u8; 5]);

impl AddressKey {
    /// The three bytes that name the kind of sentence.
    pub fn kind(&self) -> [u8; 3] {
        let [_, _, first, second, third] = self.0;
        [first, second, third]
    }
}

impl Key for AddressKey {
    fn alike(&self, other: &Self) -> bool {
        self.kind() == other.kind()
    }
}

#[cfg(test)]
mod tests {
    use super::*;

    #[test]
    fn the_talker_does_not_matter_to_an_address() {
        let depth = AddressKey(*b"SDDPT");
        assert!(depth.alike(&AddressKey(*b"IIDPT")));
        assert!(!depth.alike(&AddressKey(*b"SDDBT")));
    }

    #[test]
    fn soundings_are_alike_by_sounder_and_band() {
        let key = |sounder: &[u8; 2], clearance| SoundingKey {
            sounder: *sounder,
            band: Band::of(clearance),
        };
        assert!(key(b"SD", 46).alike(&key(b"SD", 54)));
        assert!(!key(b"SD", 46).alike(&key(b"SD", 55)));
        assert!(!key(b"SD", 46).alike(&key(b"II", 46)));
    }
}
