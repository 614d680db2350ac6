//! Architectures, and the words by which the kernel names them.

use std::{fmt, str::FromStr};

use crate::Error;

/// Added to an architecture's number in a set's bytes: native numbers only.
pub(crate) const NATIVE_ONLY: u32 = 0x100;

/// The architecture that a rule set is for. A call from any other kills the process, whatever the set lists.
///
/// Names are compared without case.
///
/// ```
/// use callfilter::Architecture;
///
/// assert_eq!("X86_64".parse(), Ok(Architecture::X86_64));
/// assert_eq!(Architecture::Aarch64.to_string(), "aarch64");
/// let error = "pdp11".parse::<Architecture>().unwrap_err();
/// assert_eq!(error.to_string(), "there is no architecture \"pdp11\" here: rule sets are for x86_64 or aarch64 or riscv64");
/// ```
///
/// One that is not known cannot be written:
///
/// ```compile_fail,E0599
/// let architecture = callfilter::Architecture::Pdp11;
/// ```
#[derive(Clone, Copy, Debug, PartialEq, Eq, Hash)]
#[non_exhaustive]
pub enum Architecture {
    /// x86_64
    X86_64,
    /// aarch64
    Aarch64,
    /// riscv64
    Riscv64,
}

impl Architecture {
    /// Every architecture.
    pub const ALL: [Architecture; 3] = [Architecture::X86_64, Architecture::Aarch64, Architecture::Riscv64];

    /// The name, in small letters.
    pub fn name(self) -> &'static str {
        match self {
            Architecture::X86_64 => "x86_64",
            Architecture::Aarch64 => "aarch64",
            Architecture::Riscv64 => "riscv64",
        }
    }

    /// The word that the kernel hands a filter with every call (linux/audit.h).
    pub fn word(self) -> u32 {
        match self {
            Architecture::X86_64 => 0xc000_003e,
            Architecture::Aarch64 => 0xc000_00b7,
            Architecture::Riscv64 => 0xc000_00f3,
        }
    }

    /// The number that stands for it in a set's bytes.
    pub(crate) fn number(self) -> u32 {
        match self {
            Architecture::X86_64 => 1,
            Architecture::Aarch64 => 2,
            Architecture::Riscv64 => 3,
        }
    }

    pub(crate) fn from_number(number: u32) -> Option<Architecture> {
        Architecture::ALL.into_iter().find(|known| known.number() == number)
    }
}

impl fmt::Display for Architecture {
    fn fmt(&self, to: &mut fmt::Formatter) -> fmt::Result {
        to.pad(self.name())
    }
}

impl FromStr for Architecture {
    type Err = Error;

    fn from_str(name: &str) -> Result<Architecture, Error> {
        let known = Architecture::ALL.into_iter().find(|known| known.name().eq_ignore_ascii_case(name));
        known.ok_or_else(|| Error::UnknownArchitecture(name.to_owned()))
    }
}

#[cfg(test)]
mod tests {
    use super::*;

    #[test]
    fn names_are_compared_without_case_and_whole() {
        for known in Architecture::ALL {
            for name in [known.name().to_owned(), known.name().to_uppercase(), known.name().replace('a', "A")] {
                assert_eq!(name.parse(), Ok(known));
            }
            assert_eq!(Architecture::from_number(known.number()), Some(known));
        }
        for name in ["", " x86_64", "x86_64 ", "x86-64", "x86", "riscv", "aarch6\u{2074}"] {
            assert_eq!(name.parse::<Architecture>(), Err(Error::UnknownArchitecture(name.to_owned())));
        }
    }
}
