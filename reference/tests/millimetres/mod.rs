//! Ways to bring tenths of a millimetre to whole millimetres, for the tests that take wrong ways.

#[derive(Clone, Copy, Debug, PartialEq, Eq)]
pub enum Millimetre {
    Cut,
    Nearest,
    Next,
}

impl Millimetre {
    /// Whole mm of so many tenths.
    pub fn of(self, tenths: u64) -> u64 {
        match self {
            Self::Cut => tenths / 10,
            Self::Nearest => tenths / 10 + tenths % 10 / 5,
            Self::Next => tenths.div_ceil(10),
        }
    }
}
