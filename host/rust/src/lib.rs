//! Rule sets for seccomp, compiled into filters by proved code.
//!
//! A rule set says which system calls match: by their numbers and, with rules, by their arguments. Compiling makes it a filter of classic
//! BPF, the bytes that seccompiler 0.5.0 makes, which returns one action for the calls that match and another for all else; or, by
//! [`RuleSet::compile_search`], one that does the same in fewer steps. seccompiler has no [`RuleSet::native_only`], which keeps x32's calls
//! out. The compiler is proved: what a filter returns is what its rule set means, for every call. This crate only brings values to it and
//! back.
//!
//! ```
//! use callfilter::{Action, Architecture, Call, Condition, Operator, RuleSet, Width};
//!
//! let mut set = RuleSet::new(Architecture::X86_64, Action::Errno(1), Action::Allow);
//! set.call(0);
//! set.call(1).rule(&[Condition::new(0, Width::Dword, Operator::Eq, 1)?]);
//! set.call(257)
//!     .rule(&[Condition::new(2, Width::Qword, Operator::MaskedEq(3), 0)?])
//!     .rule(&[Condition::new(1, Width::Qword, Operator::Ge, 1 << 32)?]);
//!
//! let filter = set.compile()?;
//! assert_eq!(filter.len(), 36);
//!
//! let call = Call::new(Architecture::X86_64, 1, [2, 0, 0, 0, 0, 0]);
//! assert_eq!(set.decide(&call)?, Action::Errno(1));
//! assert_eq!(filter.run(&call).action(), Some(Action::Errno(1)));
//! # Ok::<(), callfilter::Error>(())
//! ```
//!
//! The archive is made by `host/archive.sh`, and found where that puts it or in the folder whose whole path the environment
//! variable `CALLFILTER_LIB` is. It links only into programs for x86-64. A host for another machine has this crate as a build dependency,
//! and embeds the bytes of a [`Filter`] that its build script makes.
//!
//! Installing a filter is left to the host: a [`Filter`] is a slice of [`sock_filter`], whose pointer and length are what `prctl(2)` and
//! `seccomp(2)` ask for.

#![deny(unsafe_code)]
#![warn(missing_docs)]

#[cfg(not(target_arch = "x86_64"))]
compile_error!("libcallfilter.a links only into x86-64 programs");

mod action;
mod architecture;
// the one file with unsafe code: the calls of the archive's functions
#[allow(unsafe_code)]
mod boundary;
mod call;
mod condition;
mod error;
mod filter;
mod instruction;
mod listing;
mod reading;
mod rule_set;
mod words;
mod writing;

/// The version of the archive that is linked: major, minor and patch. A program with this crate in it links only with an archive of the
/// same binary interface; within that, versions may differ.
///
/// ```
/// assert_eq!(callfilter::version(), [0, 1, 0]);
/// ```
pub fn version() -> [u8; 3] {
    let [patch, minor, major, _] = boundary::version().to_le_bytes();
    [major, minor, patch]
}

pub use action::Action;
pub use architecture::Architecture;
pub use call::Call;
pub use condition::{Condition, Operator, Width};
pub use error::{Error, Place};
pub use filter::{Filter, Outcome};
pub use instruction::sock_filter;
pub use rule_set::{Listed, Rule, RuleSet};
