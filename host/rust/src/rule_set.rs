//! Rule sets: which calls match, and what becomes of them.

use std::collections::BTreeMap;
use std::fmt;
use std::ops::Deref;

use crate::words::CallNumber;
use crate::{reading, writing, Action, Architecture, Call, Condition, Error, Filter};

/// Conditions that must all hold.
pub type Rule = Vec<Condition>;

/// Which calls match, and which action there is for those that do and those that do not.
///
/// - A call from another architecture kills the process, whatever else.
/// - With [`native_only`](RuleSet::native_only) a call of x86_64's second table (x32) does too.
/// - A call that is not listed gets the mismatch action.
/// - A call that is listed without rules gets the match action.
/// - A call that is listed with rules gets the match action if one of them has all its conditions true, else the mismatch action.
///
/// Calls may be listed in any order, and rules for one call in several goes.
///
/// ```
/// use callfilter::{Action, Architecture, Condition, Operator, RuleSet, Width};
///
/// let mut set = RuleSet::new(Architecture::X86_64, Action::Errno(1), Action::Allow);
/// for number in [231, 60, 0] {
///     set.call(number);
/// }
/// let to_standard_output = Condition::new(0, Width::Dword, Operator::Eq, 1)?;
/// set.call(1).rule(&[to_standard_output]);
/// assert_eq!(
///     set.to_string(),
///     "on x86_64: allow what matches, else errno 1; on any other architecture: kill process
/// call 0 matches
/// call 1 matches if argument 0 (low 32 bits) = 1
/// call 60 matches
/// call 231 matches"
/// );
/// # Ok::<(), callfilter::Error>(())
/// ```
///
/// A rule belongs to a call, so there is none without one:
///
/// ```compile_fail,E0599
/// # use callfilter::{Action, Architecture, Condition, Operator, RuleSet, Width};
/// let mut set = RuleSet::new(Architecture::X86_64, Action::KillProcess, Action::Allow);
/// set.rule(&[]);
/// ```
#[derive(Clone, Debug, PartialEq, Eq)]
pub struct RuleSet {
    architecture: Architecture,
    native_only: bool,
    mismatch: Action,
    on_match: Action,
    calls: BTreeMap<u32, Entry>,
}

#[derive(Clone, Debug, Default, PartialEq, Eq)]
struct Entry {
    /// Whether it was listed without rules: then it has to stay without.
    always: bool,
    rules: Vec<Rule>,
}

impl RuleSet {
    /// A set that lists nothing yet. The two actions must differ when it is compiled.
    pub fn new(architecture: Architecture, mismatch: Action, on_match: Action) -> RuleSet {
        RuleSet { architecture, native_only: false, mismatch, on_match, calls: BTreeMap::new() }
    }

    /// Makes it a set for native numbers only.
    ///
    /// On x86_64 the kernel asks filters also about the calls of a second table (x32), under the same architecture word, with bit 30 set in
    /// their numbers. In a set for native numbers only each number with that bit kills the process, whatever is listed, but for
    /// 0xffffffff, which stands for a call that a tracer has cancelled. It takes three instructions, four where nothing is listed. The
    /// other architectures have no second table: there it changes nothing.
    ///
    /// A set that lists what is refused, and lets all else pass, lets pass all of x32 without it.
    ///
    /// ```
    /// use callfilter::{Action, Architecture, Call, RuleSet};
    ///
    /// // write is refused, and all else allowed
    /// let mut set = RuleSet::new(Architecture::X86_64, Action::Allow, Action::Errno(1));
    /// set.call(1);
    /// let write_of_x32 = Call::new(Architecture::X86_64, 0x4000_0001, [0; 6]);
    /// assert_eq!(set.decide(&write_of_x32)?, Action::Allow);
    /// set.native_only();
    /// assert_eq!(set.decide(&write_of_x32)?, Action::KillProcess);
    /// # Ok::<(), callfilter::Error>(())
    /// ```
    pub fn native_only(&mut self) -> &mut RuleSet {
        self.native_only = true;
        self
    }

    /// Lists a call. It matches whatever its arguments are, unless it is given rules.
    ///
    /// A call that is listed both ways is refused when the set is compiled: whichever was meant, the other would be an open door.
    ///
    /// ```
    /// use callfilter::{Action, Architecture, Condition, Error, Operator, RuleSet, Width};
    ///
    /// let mut set = RuleSet::new(Architecture::X86_64, Action::KillProcess, Action::Allow);
    /// set.call(1).rule(&[Condition::new(0, Width::Dword, Operator::Eq, 1)?]);
    /// set.call(1).rule(&[Condition::new(0, Width::Dword, Operator::Eq, 2)?]);
    /// assert!(set.compile().is_ok());
    /// set.call(1);
    /// assert_eq!(set.compile(), Err(Error::AlwaysAndByRules(1)));
    /// # Ok::<(), Error>(())
    /// ```
    ///
    /// A number below 0 cannot be written:
    ///
    /// ```compile_fail,E0600
    /// # use callfilter::{Action, Architecture, RuleSet};
    /// # let mut set = RuleSet::new(Architecture::X86_64, Action::KillProcess, Action::Allow);
    /// set.call(-1);
    /// ```
    pub fn call(&mut self, number: u32) -> Listed<'_> {
        let entry = self.calls.entry(number).or_default();
        let always_before = std::mem::replace(&mut entry.always, true);
        Listed { set: self, number, always_before }
    }

    /// Compiles the set.
    ///
    /// ```
    /// use callfilter::{Action, Architecture, Error, RuleSet};
    ///
    /// let mut set = RuleSet::new(Architecture::X86_64, Action::Log, Action::Allow);
    /// assert_eq!(set.compile()?.len(), 4);
    /// let error = set.call(7).rule(&[]).compile().unwrap_err();
    /// assert_eq!(
    ///     error.to_string(),
    ///     "entry 0 (call 7), rule 0: it has no conditions; give it at least one, or the call no rules if it is to match always"
    /// );
    /// let error = RuleSet::new(Architecture::X86_64, Action::Allow, Action::Allow).compile().unwrap_err();
    /// assert_eq!(error.to_string(), "the action is allow whether a call matches or not: a filter needs two different actions");
    /// # Ok::<(), Error>(())
    /// ```
    pub fn compile(&self) -> Result<Filter, Error> {
        Filter::compile(&self.to_bytes()?)
    }

    /// Compiles the set into a search: a filter with the same meaning, never longer than the other, that finds a call's number by halves
    /// and not one after another. Where many calls are listed it runs far fewer instructions.
    ///
    /// Numbers that follow each other, all without rules, are one span, and a number with rules is one. With at most 2<sup>k</sup> spans
    /// a run takes at most k + max(6, k) instructions and a return, and for a call with rules as many more as the other filter has for
    /// these; for native numbers only at most two more.
    ///
    /// ```
    /// use callfilter::{Action, Architecture, Call, RuleSet};
    ///
    /// let mut set = RuleSet::new(Architecture::X86_64, Action::Errno(1), Action::Allow);
    /// for number in (0..512).step_by(2) {
    ///     set.call(number);
    /// }
    /// let (list, search) = (set.compile()?, set.compile_search()?);
    /// assert_eq!((list.len(), search.len()), (1285, 392));
    /// let call = Call::new(Architecture::X86_64, 510, [0; 6]);
    /// assert_eq!((list.run(&call).steps, search.run(&call).steps), (516, 13));
    /// assert_eq!(list.run(&call).action(), search.run(&call).action());
    /// # Ok::<(), callfilter::Error>(())
    /// ```
    pub fn compile_search(&self) -> Result<Filter, Error> {
        Filter::compile_search(&self.to_bytes()?)
    }

    /// What the set means for a call: the action that its filter returns. A set that cannot be compiled is refused here too, unless it is
    /// only for the length of its filter.
    ///
    /// ```
    /// use callfilter::{Action, Architecture, Call, RuleSet};
    ///
    /// let mut set = RuleSet::new(Architecture::X86_64, Action::Trap, Action::Allow);
    /// set.call(39);
    /// assert_eq!(set.decide(&Call::new(Architecture::X86_64, 39, [0; 6]))?, Action::Allow);
    /// assert_eq!(set.decide(&Call::new(Architecture::X86_64, 40, [0; 6]))?, Action::Trap);
    /// assert_eq!(set.decide(&Call::new(Architecture::Aarch64, 39, [0; 6]))?, Action::KillProcess);
    /// # Ok::<(), callfilter::Error>(())
    /// ```
    pub fn decide(&self, call: &Call) -> Result<Action, Error> {
        let word = reading::action_of(&self.to_bytes()?, &call.to_bytes())?;
        Ok(Action::from_word(word).expect("a set has no other actions"))
    }

    /// The set as bytes, which has one form only.
    ///
    /// ```
    /// use callfilter::{Action, Architecture, RuleSet};
    ///
    /// let mut set = RuleSet::new(Architecture::X86_64, Action::Errno(1), Action::Allow);
    /// set.call(257);
    /// let bytes = set.to_bytes()?;
    /// assert_eq!(bytes, [1, 0, 0, 0, 1, 0, 5, 0, 0, 0, 255, 127, 1, 0, 0, 0, 1, 1, 0, 0, 0, 0, 0, 0]);
    /// assert_eq!(RuleSet::from_bytes(&bytes)?, set);
    /// # Ok::<(), callfilter::Error>(())
    /// ```
    pub fn to_bytes(&self) -> Result<Vec<u8>, Error> {
        match self.calls.iter().find(|(_, entry)| entry.always && !entry.rules.is_empty()) {
            Some((number, _)) => Err(Error::AlwaysAndByRules(*number)),
            None => writing::bytes_of(self),
        }
    }

    /// Reads a set back from its bytes. Any bytes may be offered; those that can be no filter whatever its length are refused.
    ///
    /// ```
    /// use callfilter::{Error, RuleSet};
    ///
    /// assert_eq!(RuleSet::from_bytes(&[1, 2, 3]), Err(Error::NotOfTheFormat));
    /// ```
    pub fn from_bytes(bytes: &[u8]) -> Result<RuleSet, Error> {
        reading::set_of(bytes)
    }

    /// The architecture that the set is for.
    pub fn architecture(&self) -> Architecture {
        self.architecture
    }

    /// Whether it is a set for native numbers only.
    ///
    /// ```
    /// use callfilter::{Action, Architecture, RuleSet};
    ///
    /// let mut set = RuleSet::new(Architecture::X86_64, Action::Trap, Action::Allow);
    /// assert!(!set.is_native_only() && set.native_only().is_native_only());
    /// assert!(RuleSet::from_bytes(&set.to_bytes()?)?.is_native_only());
    /// # Ok::<(), callfilter::Error>(())
    /// ```
    pub fn is_native_only(&self) -> bool {
        self.native_only
    }

    /// What becomes of a call that does not match.
    pub fn mismatch(&self) -> Action {
        self.mismatch
    }

    /// What becomes of a call that matches.
    pub fn on_match(&self) -> Action {
        self.on_match
    }

    /// The calls that are listed, by ascending number, and the rules of each.
    ///
    /// ```
    /// use callfilter::{Action, Architecture, RuleSet};
    ///
    /// let mut set = RuleSet::new(Architecture::Aarch64, Action::Trap, Action::Allow);
    /// set.call(64);
    /// set.call(63);
    /// assert!(set.calls().map(|(number, _)| number).eq([63, 64]));
    /// ```
    pub fn calls(&self) -> impl Iterator<Item = (u32, &[Rule])> {
        self.calls.iter().map(|(number, entry)| (*number, entry.rules.as_slice()))
    }
}

/// A call that was just listed, open for its rules.
///
/// ```
/// use callfilter::{Action, Architecture, Condition, Error, Operator, RuleSet, Width};
///
/// // 0 to 9, but not 5
/// let below_ten = Condition::new(0, Width::Qword, Operator::Lt, 10)?;
/// let not_five = Condition::new(0, Width::Qword, Operator::Ne, 5)?;
/// let filter = RuleSet::new(Architecture::X86_64, Action::Trap, Action::Allow).call(2).rule(&[below_ten, not_five]).compile()?;
/// # assert_eq!(filter.len(), 19);
/// # Ok::<(), Error>(())
/// ```
///
/// The set cannot be used for anything else in between:
///
/// ```compile_fail,E0502
/// # use callfilter::{Action, Architecture, RuleSet};
/// # let mut set = RuleSet::new(Architecture::X86_64, Action::Trap, Action::Allow);
/// let listed = set.call(2);
/// let filter = set.compile();
/// listed.rule(&[]);
/// ```
#[derive(Debug)]
pub struct Listed<'a> {
    set: &'a mut RuleSet,
    number: u32,
    /// Whether it had been listed without rules before.
    always_before: bool,
}

impl<'a> Listed<'a> {
    /// Adds a rule: the call matches only if some rule of it has all its conditions true. A rule without conditions is refused when the
    /// set is compiled.
    pub fn rule(self, conditions: &[Condition]) -> Listed<'a> {
        let entry = self.set.calls.entry(self.number).or_default();
        entry.always = self.always_before;
        entry.rules.push(conditions.to_vec());
        self
    }

    /// Lists another call, and leaves this one.
    pub fn call(self, number: u32) -> Listed<'a> {
        self.set.call(number)
    }
}

impl Deref for Listed<'_> {
    type Target = RuleSet;

    fn deref(&self) -> &RuleSet {
        self.set
    }
}

impl fmt::Display for RuleSet {
    /// The set in words, a rule to a line.
    fn fmt(&self, to: &mut fmt::Formatter) -> fmt::Result {
        let elsewhere = Action::KillProcess;
        let (only, others) = if self.native_only { (", native numbers only", " or by a number that is not native") } else { ("", "") };
        write!(to, "on {}{only}: {} what matches, else {}; ", self.architecture, self.on_match, self.mismatch)?;
        write!(to, "on any other architecture{others}: {elsewhere}")?;
        for (number, entry) in &self.calls {
            let both = entry.always && !entry.rules.is_empty();
            let listed = format!("call {} matches{}", CallNumber(*number), if both { " always, and" } else { "" });
            write!(to, "\n{listed}")?;
            for (place, rule) in entry.rules.iter().enumerate() {
                let joined = if place == 0 { " if".to_owned() } else { format!("\n{:>width$}", "or", width = listed.len() + 3) };
                write!(to, "{joined} {}", in_words(rule))?;
            }
        }
        Ok(())
    }
}

fn in_words(rule: &[Condition]) -> String {
    let conditions: Vec<String> = rule.iter().map(Condition::to_string).collect();
    conditions.join(" and ")
}
