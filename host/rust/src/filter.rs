//! Filters: what the kernel is given, and what they do with a call.

use std::ops::Deref;

use crate::{boundary, reading, sock_filter, Action, Call, Error};

/// As many instructions as a compiled filter has at most.
pub(crate) const LONGEST: usize = 4096;

/// A filter that the kernel takes, as a slice of its instructions.
///
/// A filter comes from compiling a set, or from bytes on which the kernel's checks pass. Printed, it is a listing:
///
/// ```
/// use callfilter::{Action, Architecture, RuleSet};
///
/// let filter = RuleSet::new(Architecture::X86_64, Action::Log, Action::Allow).compile()?;
/// assert_eq!(filter[3].k, Action::Log.word());
/// assert_eq!(
///     filter.to_string().lines().collect::<Vec<_>>(),
///     [
///         "       0  ld   [4]         architecture",
///         "╭──    1  jeq  0xc000003e  x86_64? yes → 3",
///         "│      2  ret  0x80000000  other architectures: kill process",
///         "╰─►    3  ret  0x7ffc0000  log",
///     ]
/// );
/// # Ok::<(), callfilter::Error>(())
/// ```
///
/// Instructions alone are no filter:
///
/// ```compile_fail,E0451
/// let filter = callfilter::Filter { instructions: vec![] };
/// ```
#[derive(Clone, Debug, PartialEq, Eq, Hash)]
pub struct Filter {
    instructions: Vec<sock_filter>,
}

/// What a filter does with a call.
#[derive(Clone, Copy, Debug, PartialEq, Eq, Hash)]
pub struct Outcome {
    /// The word that it returns.
    pub word: u32,
    /// How many instructions are executed.
    pub steps: u32,
}

impl Outcome {
    /// The action that the word stands for. A compiled filter returns no other words; one made by others may.
    pub fn action(&self) -> Option<Action> {
        Action::from_word(self.word)
    }
}

impl Filter {
    /// Compiles a set from its bytes, without reading it into a [`RuleSet`](crate::RuleSet) first.
    ///
    /// ```
    /// use callfilter::{Error, Filter, Place};
    ///
    /// let twice = [1, 0, 0, 0, 1, 0, 5, 0, 0, 0, 255, 127, 2, 0, 0, 0, 3, 0, 0, 0, 0, 0, 0, 0, 3, 0, 0, 0, 0, 0, 0, 0];
    /// let error = Filter::compile(&twice).unwrap_err();
    /// let place = Place { entry: 1, call: 3, rule: None, condition: None };
    /// assert_eq!(error, Error::NotAscending { place, behind: 3 });
    /// assert_eq!(error.to_string(), "entry 1 (call 3): the one before it lists call 3; numbers must be strictly ascending");
    /// ```
    pub fn compile(set: &[u8]) -> Result<Filter, Error> {
        Filter::compiled(set, boundary::compile)
    }

    /// Compiles a set from its bytes into a search, as [`RuleSet::compile_search`](crate::RuleSet::compile_search) does.
    ///
    /// ```
    /// use callfilter::Filter;
    ///
    /// let one_call = [1, 0, 0, 0, 1, 0, 5, 0, 0, 0, 255, 127, 1, 0, 0, 0, 3, 0, 0, 0, 0, 0, 0, 0];
    /// assert!(Filter::compile_search(&one_call)?.len() <= Filter::compile(&one_call)?.len());
    /// assert_eq!(Filter::compile_search(&[]), Filter::compile(&[]));
    /// # Ok::<(), callfilter::Error>(())
    /// ```
    pub fn compile_search(set: &[u8]) -> Result<Filter, Error> {
        Filter::compiled(set, boundary::compile_search)
    }

    fn compiled(set: &[u8], by: fn(&[u8], &mut [sock_filter]) -> boundary::Answer) -> Result<Filter, Error> {
        let mut instructions = vec![sock_filter::default(); LONGEST];
        let answer = by(set, &mut instructions);
        if answer.code != 0 {
            return Err(reading::refusal(answer, set));
        }
        instructions.truncate(answer.count as usize);
        instructions.shrink_to_fit();
        Ok(Filter { instructions })
    }

    /// Whether the kernel would take these bytes as a filter.
    ///
    /// ```
    /// use callfilter::Filter;
    ///
    /// assert!(Filter::accepted(&[6, 0, 0, 0, 0, 0, 255, 127]));
    /// assert!(!Filter::accepted(&[5, 0, 0, 0, 0, 0, 0, 0]));
    /// ```
    pub fn accepted(bytes: &[u8]) -> bool {
        boundary::accepts(bytes)
    }

    /// The filter that bytes are, whoever made them.
    ///
    /// ```
    /// use callfilter::{Error, Filter};
    ///
    /// assert_eq!(Filter::from_bytes(&[6, 0, 0, 0, 0, 0, 255, 127])?.len(), 1);
    /// assert_eq!(Filter::from_bytes(&[]), Err(Error::NotTaken));
    /// # Ok::<(), Error>(())
    /// ```
    pub fn from_bytes(bytes: &[u8]) -> Result<Filter, Error> {
        if !boundary::accepts(bytes) {
            return Err(Error::NotTaken);
        }
        let eights = bytes.chunks_exact(8).map(|eight| eight.try_into().expect("eight bytes"));
        Ok(Filter { instructions: eights.map(sock_filter::from_bytes).collect() })
    }

    /// The bytes that the kernel reads.
    pub fn to_bytes(&self) -> Vec<u8> {
        self.iter().flat_map(|instruction| instruction.to_bytes()).collect()
    }

    /// What the filter returns for a call, and after how many instructions, without installing it.
    ///
    /// ```
    /// use callfilter::{Action, Architecture, Call, RuleSet};
    ///
    /// let filter = RuleSet::new(Architecture::X86_64, Action::Log, Action::Allow).compile()?;
    /// let outcome = filter.run(&Call::new(Architecture::X86_64, 0, [0; 6]));
    /// assert_eq!((outcome.action(), outcome.steps), (Some(Action::Log), 3));
    /// # Ok::<(), callfilter::Error>(())
    /// ```
    pub fn run(&self, call: &Call) -> Outcome {
        let ended = boundary::run(self, &call.to_bytes());
        assert!(ended.code == 0, "a filter that the kernel takes always returns");
        Outcome { word: ended.action, steps: ended.steps }
    }

    /// The same for each of many calls, in their order. The kernel's checks are made once for all of them, and not once for each, so that a
    /// call costs no more than the instructions that it runs.
    ///
    /// ```
    /// use callfilter::{Action, Architecture, Call, RuleSet};
    ///
    /// let mut set = RuleSet::new(Architecture::X86_64, Action::Log, Action::Allow);
    /// let filter = set.call(7).compile()?;
    /// let calls: Vec<Call> = (0..1000).map(|number| Call::new(Architecture::X86_64, number, [0; 6])).collect();
    /// let outcomes = filter.run_all(&calls);
    /// assert_eq!((outcomes[7].action(), outcomes[8].action()), (Some(Action::Allow), Some(Action::Log)));
    /// assert!(outcomes.iter().zip(&calls).all(|(outcome, call)| *outcome == filter.run(call)));
    /// # Ok::<(), callfilter::Error>(())
    /// ```
    pub fn run_all(&self, calls: &[Call]) -> Vec<Outcome> {
        let asked: Vec<u8> = calls.iter().flat_map(Call::to_bytes).collect();
        let mut out = vec![0; 8 * calls.len()];
        let code = boundary::run_all(self, &asked, &mut out);
        assert!(code == 0, "a filter that the kernel takes always returns");
        let word = |bytes: &[u8]| u32::from_le_bytes(bytes.try_into().expect("four bytes"));
        out.chunks_exact(8).map(|ran| Outcome { word: word(&ran[..4]), steps: word(&ran[4..]) }).collect()
    }
}

impl Deref for Filter {
    type Target = [sock_filter];

    fn deref(&self) -> &[sock_filter] {
        &self.instructions
    }
}
