//! Clearances and the bands that they fall into.

/// The least clearance, in centimetres, that each class of ferry needs.
pub const LIMITS: [i32; 6] = [46, 55, 61, 70, 84, 98];

/// How many of the limits a clearance reaches: 0 to 6.
#[derive(Clone, Copy, Debug, PartialEq, Eq, PartialOrd, Ord)]
pub struct Band(u8);

impl Band {
    /// The highest band: every limit is reached.
    pub const HIGHEST: Band = Band(LIMITS.len() as u8);

    /// The lowest band: no limit is reached.
    pub const LOWEST: Band = Band(0);

    /// The band of that number, if there is one.
    pub fn new(number: u8) -> Option<Band> {
        (number <= Band::HIGHEST.0).then_some(Band(number))
    }

    /// The band of any number, where numbers go round through all bands.
    pub fn cycled(number: u32) -> Band {
        Band((number % (LIMITS.len() as u32 + 1)) as u8)
    }

    /// The band of a clearance in centimetres.
    pub fn of(clearance: i32) -> Band {
        Band(LIMITS.iter().filter(|limit| clearance >= **limit).count() as u8)
    }

    pub fn number(self) -> u8 {
        self.0
    }

    /// The bands that are too short for a class, lowest first.
    pub fn short_for(class: Class) -> impl Iterator<Item = Band> {
        (0..class.0).map(Band)
    }
}

/// A class of ferry: 1 to 6.
#[derive(Clone, Copy, Debug, PartialEq, Eq)]
pub struct Class(u8);

impl Class {
    /// The class of that number, if there is one.
    pub fn new(number: u8) -> Option<Class> {
        (1..=LIMITS.len() as u8)
            .contains(&number)
            .then_some(Class(number))
    }
}

#[cfg(test)]
mod tests {
    use super::*;

    #[test]
    fn clearances_fall_into_their_bands() {
        let bands = [45, 46, 98, -60].map(|clearance| Band::of(clearance).number());
        assert_eq!(bands, [0, 1, 6, 0]);
    }

    #[test]
    fn no_band_is_above_six_and_no_class_outside_one_to_six() {
        assert!(Band::new(6).is_some() && Band::new(7).is_none());
        assert!(Class::new(0).is_none() && Class::new(1).is_some());
        assert!(Class::new(6).is_some() && Class::new(7).is_none());
    }

    #[test]
    fn a_class_is_short_below_its_own_limit() {
        for (class, limit) in (1..).zip(LIMITS) {
            let short: Vec<Band> = Band::short_for(Class::new(class).unwrap()).collect();
            assert!(short.contains(&Band::of(limit - 1)));
            assert!(!short.contains(&Band::of(limit)));
        }
    }
}
