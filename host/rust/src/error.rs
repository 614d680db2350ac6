//! What can be wrong, and where, in words.

use std::fmt;

use crate::words::CallNumber;
use crate::{Action, Architecture};

/// Where in a rule set something is wrong. All is counted from 0, in the order of the set's bytes: a [`RuleSet`](crate::RuleSet) has its
/// calls by ascending number there, and their rules as they were added.
///
/// ```
/// use callfilter::Place;
///
/// let place = Place { entry: 3, call: 257, rule: Some(0), condition: Some(2) };
/// assert_eq!(place.to_string(), "entry 3 (call 257), rule 0, condition 2");
/// ```
#[derive(Clone, Copy, Debug, PartialEq, Eq, Hash)]
pub struct Place {
    /// Which entry of the set.
    pub entry: usize,
    /// The number of the call that it lists.
    pub call: u32,
    /// Which rule of the entry, where it is about a rule.
    pub rule: Option<usize>,
    /// Which condition of the rule, where it is about a condition.
    pub condition: Option<usize>,
}

impl fmt::Display for Place {
    fn fmt(&self, to: &mut fmt::Formatter) -> fmt::Result {
        write!(to, "entry {} (call {})", self.entry, CallNumber(self.call))?;
        let inside = [("rule", self.rule), ("condition", self.condition)];
        inside.into_iter().try_for_each(|(part, number)| number.map_or(Ok(()), |number| write!(to, ", {part} {number}")))
    }
}

/// What is wrong, and where. The text says it in words, the place first if there is one.
#[derive(Clone, Debug, PartialEq, Eq)]
#[non_exhaustive]
pub enum Error {
    /// Bytes that are no rule set.
    NotOfTheFormat,
    /// In a set's bytes a number is listed that does not come behind the one before it.
    NotAscending {
        /// The entry that lists it: the first such one.
        place: Place,
        /// The number listed just before it.
        behind: u32,
    },
    /// The set has one action for calls that match and for those that do not.
    EqualActions(Action),
    /// This rule, the first such one, has no conditions.
    EmptyRule(Place),
    /// This call is listed without rules, to match always, and with rules.
    AlwaysAndByRules(u32),
    /// A condition looks at an argument that calls do not have.
    IndexAboveFive {
        /// The argument's index.
        index: u8,
        /// The first such condition of a set; none from [`Condition::new`](crate::Condition::new), where there is no set yet.
        place: Option<Place>,
    },
    /// A dword condition's value, or its mask, has more than the 32 bits that it looks at.
    MoreThan32Bits {
        /// The value, or the mask if it is only that.
        number: u64,
        /// The first such condition of a set; none from [`Condition::new`](crate::Condition::new), where there is no set yet.
        place: Option<Place>,
    },
    /// The filter would be too long.
    TooManyInstructions {
        /// How many instructions it would have.
        count: u32,
        /// The first entry with which it is too long; of a search one with which it gets too long, since it need not grow with each.
        place: Place,
        /// How many a search would have, by [`RuleSet::compile_search`](crate::RuleSet::compile_search), where that is short enough.
        search: Option<u32>,
    },
    /// The set would have more than 1 MiB as bytes.
    SetTooLong,
    /// Bytes that the kernel would not take as a filter.
    NotTaken,
    /// A name that is no known architecture's.
    UnknownArchitecture(String),
}

impl Error {
    /// Where in a set it is wrong, if it is wrong in one place.
    ///
    /// ```
    /// use callfilter::{Action, Architecture, Place, RuleSet};
    ///
    /// let mut set = RuleSet::new(Architecture::X86_64, Action::Log, Action::Allow);
    /// set.call(9).rule(&[]).call(3);
    /// let error = set.compile().unwrap_err();
    /// assert_eq!(error.place(), Some(Place { entry: 1, call: 9, rule: Some(0), condition: None }));
    /// ```
    pub fn place(&self) -> Option<Place> {
        match self {
            Error::NotAscending { place, .. } | Error::EmptyRule(place) | Error::TooManyInstructions { place, .. } => Some(*place),
            Error::IndexAboveFive { place, .. } | Error::MoreThan32Bits { place, .. } => *place,
            _ => None,
        }
    }

    /// The same of a condition that stands in a set.
    pub(crate) fn at(mut self, here: Place) -> Error {
        if let Error::IndexAboveFive { place, .. } | Error::MoreThan32Bits { place, .. } = &mut self {
            *place = Some(here);
        }
        self
    }
}

impl fmt::Display for Error {
    fn fmt(&self, to: &mut fmt::Formatter) -> fmt::Result {
        if let Some(place) = self.place() {
            write!(to, "{place}: ")?;
        }
        match self {
            Error::NotOfTheFormat => write!(
                to,
                "these bytes are no rule set: cut short, too long, or with a number that stands for nothing; a RuleSet writes them right"
            ),
            Error::NotAscending { behind, .. } => {
                write!(to, "the one before it lists call {}; numbers must be strictly ascending", CallNumber(*behind))
            }
            Error::EqualActions(action) => {
                write!(to, "the action is {action} whether a call matches or not: a filter needs two different actions")
            }
            Error::EmptyRule(_) => {
                write!(to, "it has no conditions; give it at least one, or the call no rules if it is to match always")
            }
            Error::AlwaysAndByRules(call) => {
                let call = CallNumber(*call);
                write!(to, "call {call} is listed without rules, to match always, and once more with rules: keep one of the two")
            }
            Error::IndexAboveFive { index, .. } => write!(to, "there is no argument {index}; a call has the arguments 0 to 5"),
            Error::MoreThan32Bits { number, .. } => {
                write!(to, "a dword condition looks at 32 bits, and {number:#x} has more")?;
                if number >> 32 == 0xffff_ffff {
                    let cut = number & 0xffff_ffff;
                    write!(to, ": cut it to {cut:#x}; the bits above are no part of an int, and calls mostly have zeros there")
                } else {
                    write!(to, "; compare a qword, or cut the number")
                }
            }
            Error::TooManyInstructions { count, search, .. } => {
                write!(to, "with it the filter gets too long; in all it would have {count} instructions, and at most 4096 are compiled: ")?;
                match search {
                    Some(short) => write!(to, "compile_search makes a filter of {short} that does the same"),
                    None => write!(to, "list fewer calls or conditions"),
                }
            }
            Error::SetTooLong => write!(to, "the rule set would have more than 1 MiB as bytes: list fewer calls or conditions"),
            Error::NotTaken => write!(
                to,
                "the kernel would not take these bytes as a filter: 1 to 4096 whole instructions of known codes, forward jumps that stay \
                 inside, aligned loads and a return at the end"
            ),
            Error::UnknownArchitecture(name) => {
                let [first, rest @ ..] = Architecture::ALL;
                write!(to, "there is no architecture {name:?} here: rule sets are for {first}")?;
                rest.iter().try_for_each(|known| write!(to, " or {known}"))
            }
        }
    }
}

impl std::error::Error for Error {}
