//! The setting that a keeper is made from.

use std::error::Error;
use std::fmt;

/// An accuracy and a span that go together.
#[derive(Clone, Copy, Debug, PartialEq, Eq)]
pub struct Setting {
    accuracy: u32,
    span: u32,
}

/// The widest span that there is.
pub const WIDEST: u32 = 20;

/// The highest accuracy that there is.
pub const FINEST: u32 = 6;

/// How far the span has to be above the accuracy.
pub const MARGIN: u32 = 3;

#[derive(Clone, Copy, Debug, PartialEq, Eq)]
pub enum SettingRefusal {
    Accuracy,
    Span,
}

impl SettingRefusal {
    pub fn number(self) -> u32 {
        match self {
            SettingRefusal::Accuracy => 1,
            SettingRefusal::Span => 2,
        }
    }
}

impl fmt::Display for SettingRefusal {
    fn fmt(&self, f: &mut fmt::Formatter<'_>) -> fmt::Result {
        write!(f, "refused {}", self.number())
    }
}

impl Error for SettingRefusal {}

impl Setting {
    pub fn new(accuracy: u32, span: u32) -> Result<Setting, SettingRefusal> {
        if !(1..=FINEST).contains(&accuracy) {
            Err(SettingRefusal::Accuracy)
        } else if !(accuracy + MARGIN..=WIDEST).contains(&span) {
            Err(SettingRefusal::Span)
        } else {
            Ok(Setting { accuracy, span })
        }
    }

    pub fn accuracy(self) -> u32 {
        self.accuracy
    }

    pub fn span(self) -> u32 {
        self.span
    }

    /// How many keys the window can hold.
    pub fn capacity(self) -> u32 {
        1 << self.span
    }

    /// Whether a list at the threshold can be answered in a window of that size.
    pub fn answers(self, threshold: u32, size: u32) -> bool {
        threshold > 0 && u64::from(threshold) << self.accuracy >= u64::from(size)
    }
}

#[cfg(test)]
mod tests {
    use super::*;

    #[test]
    fn the_accuracy_is_looked_at_first() {
        assert_eq!(Setting::new(0, 0), Err(SettingRefusal::Accuracy));
        assert_eq!(Setting::new(7, 30), Err(SettingRefusal::Accuracy));
        assert_eq!(Setting::new(6, 8), Err(SettingRefusal::Span));
        assert_eq!(Setting::new(1, 21), Err(SettingRefusal::Span));
        assert!(Setting::new(6, 9).is_ok());
        assert!(Setting::new(1, 20).is_ok());
    }

    #[test]
    fn thresholds_below_the_accuracy_are_not_answered() {
        let setting = Setting::new(1, 5).unwrap();
        assert!(!setting.answers(0, 0));
        assert!(setting.answers(1, 0));
        assert!(!setting.answers(8, 17));
        assert!(setting.answers(9, 17));
        assert!(setting.answers(u32::MAX, 17));
    }
}
