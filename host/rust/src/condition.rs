//! Conditions: one argument of a call compared with a value.

use std::fmt;

use crate::words::Value;
use crate::Error;

/// How much of an argument and of the value is compared.
#[derive(Clone, Copy, Debug, PartialEq, Eq, Hash)]
pub enum Width {
    /// The low 32 bits, of both.
    Dword,
    /// All 64 bits.
    Qword,
}

/// How an argument is compared. All comparisons are unsigned.
///
/// Only masked equality has a mask, and it always has one:
///
/// ```compile_fail,E0308
/// # use callfilter::{Condition, Operator, Width};
/// let condition = Condition::new(0, Width::Dword, Operator::MaskedEq, 1);
/// ```
#[derive(Clone, Copy, Debug, PartialEq, Eq, Hash)]
pub enum Operator {
    /// The argument is the value.
    Eq,
    /// The argument is not the value.
    Ne,
    /// The argument is the value or greater.
    Ge,
    /// The argument is greater than the value.
    Gt,
    /// The argument is the value or less.
    Le,
    /// The argument is less than the value.
    Lt,
    /// Argument and value agree in the bits of this mask.
    MaskedEq(u64),
}

/// One comparison of an argument.
///
/// ```
/// use callfilter::{Condition, Operator, Width};
///
/// let read_only = Condition::new(2, Width::Qword, Operator::MaskedEq(3), 0)?;
/// assert_eq!(read_only.to_string(), "argument 2 & 3 = 0");
/// # Ok::<(), callfilter::Error>(())
/// ```
///
/// Its parts are only put together by [`Condition::new`], so that no condition has an argument that calls have not:
///
/// ```compile_fail,E0451
/// # use callfilter::{Condition, Operator, Width};
/// let condition = Condition { index: 6, width: Width::Dword, operator: Operator::Eq, value: 0 };
/// ```
#[derive(Clone, Copy, Debug, PartialEq, Eq, Hash)]
pub struct Condition {
    index: u8,
    width: Width,
    operator: Operator,
    value: u64,
}

impl Condition {
    /// The argument's index is 0 to 5. A value, or a mask, that is compared as a [`Width::Dword`] has at most 32 bits: what it has above
    /// them would never be looked at. A negative `int` is cut to them: `AT_FDCWD as u32` is 0xffffff9c. As a [`Width::Qword`]
    /// it would have ones above, where calls mostly have zeros, and would not match.
    ///
    /// ```
    /// use callfilter::{Condition, Error, Operator, Width};
    ///
    /// let error = Condition::new(6, Width::Dword, Operator::Eq, 1).unwrap_err();
    /// assert_eq!(error.to_string(), "there is no argument 6; a call has the arguments 0 to 5");
    /// let error = Condition::new(0, Width::Dword, Operator::Eq, 1 << 32).unwrap_err();
    /// assert_eq!(error, Error::MoreThan32Bits { number: 1 << 32, place: None });
    /// let error = Condition::new(0, Width::Dword, Operator::Eq, -100_i64 as u64).unwrap_err();
    /// assert_eq!(
    ///     error.to_string(),
    ///     "a dword condition looks at 32 bits, and 0xffffffffffffff9c has more: cut it to 0xffffff9c; \
    ///      the bits above are no part of an int, and calls mostly have zeros there"
    /// );
    /// ```
    pub fn new(index: u8, width: Width, operator: Operator, value: u64) -> Result<Condition, Error> {
        if index > 5 {
            return Err(Error::IndexAboveFive { index, place: None });
        }
        if let Some(number) = [value, operator.mask()].into_iter().find(|number| width.low_bits(*number) != *number) {
            return Err(Error::MoreThan32Bits { number, place: None });
        }
        Ok(Condition { index, width, operator, value })
    }

    /// Which argument is compared.
    pub fn index(&self) -> u8 {
        self.index
    }

    /// How much of it is compared.
    pub fn width(&self) -> Width {
        self.width
    }

    /// How it is compared.
    pub fn operator(&self) -> Operator {
        self.operator
    }

    /// What it is compared with.
    pub fn value(&self) -> u64 {
        self.value
    }
}

impl fmt::Display for Condition {
    fn fmt(&self, to: &mut fmt::Formatter) -> fmt::Result {
        write!(to, "argument {}", self.index)?;
        if self.width == Width::Dword {
            write!(to, " (low 32 bits)")?;
        }
        let seen = |number| Value(self.width.low_bits(number));
        let value = seen(self.value);
        match self.operator {
            Operator::Eq => write!(to, " = {value}"),
            Operator::Ne => write!(to, " ≠ {value}"),
            Operator::Ge => write!(to, " ≥ {value}"),
            Operator::Gt => write!(to, " > {value}"),
            Operator::Le => write!(to, " ≤ {value}"),
            Operator::Lt => write!(to, " < {value}"),
            Operator::MaskedEq(mask) => write!(to, " & {} = {}", seen(mask), seen(self.value & mask)),
        }
    }
}

impl Width {
    fn low_bits(self, number: u64) -> u64 {
        match self {
            Width::Dword => number & 0xffff_ffff,
            Width::Qword => number,
        }
    }

    /// The number that stands for it in a set's bytes.
    pub(crate) fn number(self) -> u8 {
        match self {
            Width::Dword => 4,
            Width::Qword => 8,
        }
    }

    pub(crate) fn from_number(number: u8) -> Option<Width> {
        [Width::Dword, Width::Qword].into_iter().find(|known| known.number() == number)
    }
}

impl Operator {
    /// The number that stands for it in a set's bytes, where the mask has a place of its own.
    pub(crate) fn number(self) -> u8 {
        match self {
            Operator::Eq => 0,
            Operator::Ge => 1,
            Operator::Gt => 2,
            Operator::Le => 3,
            Operator::Lt => 4,
            Operator::MaskedEq(_) => 5,
            Operator::Ne => 6,
        }
    }

    pub(crate) fn mask(self) -> u64 {
        match self {
            Operator::MaskedEq(mask) => mask,
            _ => 0,
        }
    }

    pub(crate) fn from_number(number: u8, mask: u64) -> Option<Operator> {
        use Operator::{Eq, Ge, Gt, Le, Lt, MaskedEq, Ne};
        [Eq, Ge, Gt, Le, Lt, MaskedEq(mask), Ne].into_iter().find(|known| known.number() == number && known.mask() == mask)
    }
}
