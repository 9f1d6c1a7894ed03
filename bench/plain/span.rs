//! Intervals of a field's values, and rules as boxes of them.

pub const GREATEST: [u32; 5] = [u32::MAX, u32::MAX, 65_535, 65_535, 255];

#[derive(Clone, Copy, PartialEq, Eq, Hash)]
pub struct Span {
    pub lo: u32,
    pub hi: u32,
}

/// A rule: for each field spans that rise, between which a value is missing.
pub trait Boxed {
    fn set(&self, field: usize) -> &[Span];
    fn decision(&self) -> u32;
}
