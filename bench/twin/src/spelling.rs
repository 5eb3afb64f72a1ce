//! How keys are spelled by five bytes, numbered, and drawn.

use crate::bands::Band;
use crate::keeper::Keeper;
use crate::keys::{AddressKey, Key, SoundingKey};
use crate::tally::{Head, Row};
use crate::verdicts::{Judgement, VerdictRefusal, verdict};

/// A kind of key that requests can name.
pub trait Spelled: Key {
    /// The key that five bytes of 0 spell.
    const BLANK: Self;

    fn of_bytes(bytes: [u8; 5]) -> Option<Self>;

    fn bytes(&self) -> [u8; 5];

    /// The key of that number.
    fn numbered(number: u32) -> Self;

    /// A verdict from the readings of one sounder, where keys have sounders.
    fn judge<P: Keeper>(
        keeper: &P,
        rows: &[Row<Self>],
        heads: &[Head],
        sounder: [u8; 2],
        class: u8,
    ) -> Option<Result<Judgement, VerdictRefusal>>;
}

impl Spelled for SoundingKey {
    const BLANK: SoundingKey = SoundingKey {
        sounder: [0; 2],
        band: Band::LOWEST,
    };

    fn of_bytes(bytes: [u8; 5]) -> Option<SoundingKey> {
        let [first, second, band, _, _] = bytes;
        Some(SoundingKey {
            sounder: [first, second],
            band: Band::new(band)?,
        })
    }

    fn bytes(&self) -> [u8; 5] {
        let [first, second] = self.sounder;
        [first, second, self.band.number(), 0, 0]
    }

    fn numbered(number: u32) -> SoundingKey {
        let [first, second, _, _] = (number / 7).to_le_bytes();
        SoundingKey {
            sounder: [first, second],
            band: Band::cycled(number),
        }
    }

    fn judge<P: Keeper>(
        keeper: &P,
        rows: &[Row<SoundingKey>],
        heads: &[Head],
        sounder: [u8; 2],
        class: u8,
    ) -> Option<Result<Judgement, VerdictRefusal>> {
        Some(verdict(keeper, rows, heads, sounder, class))
    }
}

impl Spelled for AddressKey {
    const BLANK: AddressKey = AddressKey([0; 5]);

    fn of_bytes(bytes: [u8; 5]) -> Option<AddressKey> {
        Some(AddressKey(bytes))
    }

    fn bytes(&self) -> [u8; 5] {
        self.0
    }

    fn numbered(number: u32) -> AddressKey {
        let [first, second, third, _] = number.to_le_bytes();
        AddressKey([b'S', b'D', first, second, third])
    }

    fn judge<P: Keeper>(
        _: &P,
        _: &[Row<AddressKey>],
        _: &[Head],
        _: [u8; 2],
        _: u8,
    ) -> Option<Result<Judgement, VerdictRefusal>> {
        None
    }
}

/// Draws numbers; the same in every run.
#[derive(Clone, Debug, Default)]
pub struct Draws {
    state: u64,
}

impl Draws {
    /// A number among so many, 0 counting as 1.
    pub fn next_below(&mut self, many: u32) -> u32 {
        self.state = self
            .state
            .wrapping_mul(6_364_136_223_846_793_005)
            .wrapping_add(1_442_695_040_888_963_407);
        // The 31 bits that are left fit.
        let number = (self.state >> 33) as u32;
        number % many.max(1)
    }

    /// A key among so many.
    pub fn next_key<K: Spelled>(&mut self, many: u32) -> K {
        K::numbered(self.next_below(many))
    }
}

#[cfg(test)]
mod tests {
    use super::*;

    #[test]
    fn keys_are_spelled_by_five_bytes() {
        let key = SoundingKey::of_bytes([b'S', b'D', 6, 1, 2]).unwrap();
        assert_eq!(key.bytes(), [b'S', b'D', 6, 0, 0]);
        assert_eq!(SoundingKey::of_bytes([b'S', b'D', 7, 0, 0]), None);
        assert_eq!(SoundingKey::of_bytes([0; 5]), Some(SoundingKey::BLANK));
        assert_eq!(AddressKey::of_bytes(*b"SDDPT").unwrap().bytes(), *b"SDDPT");
    }

    #[test]
    fn keys_are_numbered() {
        let number = 7 * 0x0403 + 5;
        assert_eq!(SoundingKey::numbered(number).bytes(), [3, 4, 5, 0, 0]);
        assert_eq!(AddressKey::numbered(0x0605_0403).0, [b'S', b'D', 3, 4, 5]);
    }

    #[test]
    fn draws_begin_at_nought() {
        let mut draws = Draws::default();
        let first = (1_442_695_040_888_963_407u64 >> 33) as u32;
        assert_eq!(draws.next_below(1_000_000_007), first % 1_000_000_007);
        assert_eq!(draws.next_below(0), 0);
    }
}
