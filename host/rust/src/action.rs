//! Actions: what a filter tells the kernel to do with a call.

use std::fmt;

/// What becomes of a call. The numbers that errno and trace carry have 16 bits, as in the word that a filter returns.
///
/// ```
/// use callfilter::Action;
///
/// assert_eq!(Action::Errno(1).to_string(), "errno 1");
/// assert_eq!(Action::Errno(1).word(), 0x0005_0001);
/// ```
#[derive(Clone, Copy, Debug, PartialEq, Eq, Hash)]
#[non_exhaustive]
pub enum Action {
    /// The whole process is killed.
    KillProcess,
    /// The calling thread is killed.
    KillThread,
    /// The thread gets the signal SIGSYS.
    Trap,
    /// The call is not made, and fails with this error number. With 0 it does not fail: it returns 0, as if it had been made. Of a number
    /// above 4,095 the kernel makes 4,095.
    Errno(u16),
    /// A supervisor that listens is asked; without one the call fails.
    UserNotif,
    /// A tracer is told this number; without one the call fails.
    Trace(u16),
    /// The call is logged and made.
    Log,
    /// The call is made.
    Allow,
}

impl Action {
    /// The word that a filter returns for this action.
    pub fn word(self) -> u32 {
        match self {
            Action::KillProcess => 0x8000_0000,
            Action::KillThread => 0x0000_0000,
            Action::Trap => 0x0003_0000,
            Action::Errno(number) => 0x0005_0000 | u32::from(number),
            Action::UserNotif => 0x7fc0_0000,
            Action::Trace(number) => 0x7ff0_0000 | u32::from(number),
            Action::Log => 0x7ffc_0000,
            Action::Allow => 0x7fff_0000,
        }
    }

    /// The action that a word stands for, if it is one that rule sets have.
    ///
    /// ```
    /// use callfilter::Action;
    ///
    /// assert_eq!(Action::from_word(0x7fff_0000), Some(Action::Allow));
    /// assert_eq!(Action::from_word(0x7fff_0001), None);
    /// ```
    pub fn from_word(word: u32) -> Option<Action> {
        let number = (word & 0xffff) as u16;
        let plain = [Action::KillProcess, Action::KillThread, Action::Trap, Action::UserNotif, Action::Log, Action::Allow];
        let all = plain.into_iter().chain([Action::Errno(number), Action::Trace(number)]);
        all.into_iter().find(|action| action.word() == word)
    }
}

impl fmt::Display for Action {
    fn fmt(&self, to: &mut fmt::Formatter) -> fmt::Result {
        match self {
            Action::KillProcess => to.pad("kill process"),
            Action::KillThread => to.pad("kill thread"),
            Action::Trap => to.pad("trap"),
            Action::Errno(number) => to.pad(&format!("errno {number}")),
            Action::UserNotif => to.pad("user notif"),
            Action::Trace(number) => to.pad(&format!("trace {number}")),
            Action::Log => to.pad("log"),
            Action::Allow => to.pad("allow"),
        }
    }
}

#[cfg(test)]
mod tests {
    use super::*;

    #[test]
    fn words_are_those_of_linux_seccomp_h() {
        let words = [
            (Action::KillProcess, 0x8000_0000, "kill process"),
            (Action::KillThread, 0x0000_0000, "kill thread"),
            (Action::Trap, 0x0003_0000, "trap"),
            (Action::Errno(13), 0x0005_000d, "errno 13"),
            (Action::UserNotif, 0x7fc0_0000, "user notif"),
            (Action::Trace(0xffff), 0x7ff0_ffff, "trace 65535"),
            (Action::Log, 0x7ffc_0000, "log"),
            (Action::Allow, 0x7fff_0000, "allow"),
        ];
        for (action, word, name) in words {
            assert_eq!((action.word(), action.to_string()), (word, name.to_owned()));
        }
    }

    #[test]
    fn every_word_names_the_action_that_has_it() {
        let mut known = 0;
        for upper in 0..=0xffff_u32 {
            for lower in [0, 1, 0x8000, 0xffff] {
                let word = upper << 16 | lower;
                if let Some(action) = Action::from_word(word) {
                    assert_eq!(action.word(), word);
                    known += 1;
                }
            }
        }
        // six plain ones, and two with any number
        assert_eq!(known, 6 + 2 * 4);
    }
}
