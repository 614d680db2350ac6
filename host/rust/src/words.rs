//! How numbers are told: what is counted in decimal, what is looked up in hexadecimal.

use std::fmt;

/// A value that is compared, masked by or returned: hexadecimal from 10 on.
pub(crate) struct Value(pub u64);

impl fmt::Display for Value {
    fn fmt(&self, to: &mut fmt::Formatter) -> fmt::Result {
        if self.0 < 10 {
            write!(to, "{}", self.0)
        } else {
            write!(to, "{:#x}", self.0)
        }
    }
}

/// The number of a call: decimal, as tables of native calls have it, and hexadecimal where no such table goes.
pub(crate) struct CallNumber(pub u32);

impl fmt::Display for CallNumber {
    fn fmt(&self, to: &mut fmt::Formatter) -> fmt::Result {
        if self.0 < 0x1_0000 {
            write!(to, "{}", self.0)
        } else {
            write!(to, "{:#x}", self.0)
        }
    }
}
