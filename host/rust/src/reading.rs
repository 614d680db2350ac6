//! A set's bytes read part by part by the proved readers, whether compiling takes them or not.

use std::iter::from_fn;

use crate::architecture::NATIVE_ONLY;
use crate::boundary::{self, Answer, Compared, Cursor, Decision};
use crate::filter::LONGEST;
use crate::{sock_filter, Action, Architecture, Condition, Error, Operator, Place, Rule, RuleSet, Width};

/// The rule set that bytes stand for.
pub(crate) fn set_of(bytes: &[u8]) -> Result<RuleSet, Error> {
    // whatever the call, since no action is looked at; and that no filter is short enough says nothing against the set
    action_of(bytes, &[0; 64]).and_then(|_| Parts::read(bytes).typed())
}

/// The word that a set means for a call.
pub(crate) fn action_of(set: &[u8], call: &[u8; 64]) -> Result<u32, Error> {
    let Decision { code, action, entry, rule, condition } = boundary::decide(set, call);
    match code {
        0 => Ok(action),
        _ => Err(refusal(Answer { code, count: 0, entry, rule, condition }, set)),
    }
}

/// What an answer other than 0 says of a set. It says where; what stands there is looked up.
pub(crate) fn refusal(answer: Answer, set: &[u8]) -> Error {
    let parts = Parts::read(set);
    match answer.code {
        boundary::NOT_ASCENDING => {
            let place = parts.place(answer);
            Error::NotAscending { place, behind: parts.entries[place.entry - 1].number }
        }
        boundary::EQUAL_ACTIONS => Error::EqualActions(Action::from_word(parts.on_match).expect("a set has no other actions")),
        boundary::EMPTY_RULE => Error::EmptyRule(parts.place(answer)),
        boundary::INDEX_ABOVE_FIVE | boundary::MORE_THAN_32_BITS => parts
            .condition(answer.entry as usize, answer.rule as usize, answer.condition as usize)
            .expect_err("no condition can be made of what compiling refuses"),
        boundary::TOO_MANY_INSTRUCTIONS => {
            Error::TooManyInstructions { count: answer.count, place: parts.place(answer), search: search_count(set) }
        }
        _ => Error::NotOfTheFormat,
    }
}

/// How many instructions a search has, where it compiles.
fn search_count(set: &[u8]) -> Option<u32> {
    let answer = boundary::compile_search(set, &mut [sock_filter::default(); LONGEST]);
    (answer.code == 0).then_some(answer.count)
}

struct Entry {
    number: u32,
    rules: Vec<Vec<Compared>>,
}

struct Parts {
    architecture: u32,
    mismatch: u32,
    on_match: u32,
    entries: Vec<Entry>,
}

impl Parts {
    /// Up to where the bytes are not of the format.
    fn read(set: &[u8]) -> Parts {
        let head = boundary::read_head(set);
        let entries = Reader { set, cursor: head.next }.entries();
        Parts { architecture: head.architecture, mismatch: head.mismatch, on_match: head.on_match, entries }
    }

    /// The place that an answer says, with the number of its call.
    fn place(&self, answer: Answer) -> Place {
        let told = |number: u32| (number != boundary::NOWHERE).then_some(number as usize);
        let entry = answer.entry as usize;
        Place { entry, call: self.entries[entry].number, rule: told(answer.rule), condition: told(answer.condition) }
    }

    /// Its error has its place.
    fn condition(&self, entry: usize, rule: usize, condition: usize) -> Result<Condition, Error> {
        let listed = &self.entries[entry];
        let read = &listed.rules[rule][condition];
        let known = (Width::from_number(read.width), Operator::from_number(read.operator, read.mask));
        let (Some(width), Some(operator)) = known else { return Err(Error::NotOfTheFormat) };
        let place = Place { entry, call: listed.number, rule: Some(rule), condition: Some(condition) };
        Condition::new(read.index, width, operator, read.value).map_err(|refused| refused.at(place))
    }

    /// Its error is the first condition's that cannot be made.
    fn typed(&self) -> Result<RuleSet, Error> {
        let architecture = Architecture::from_number(self.architecture & !NATIVE_ONLY);
        let known = (architecture, Action::from_word(self.mismatch), Action::from_word(self.on_match));
        let (Some(architecture), Some(mismatch), Some(on_match)) = known else { return Err(Error::NotOfTheFormat) };
        let mut set = RuleSet::new(architecture, mismatch, on_match);
        if self.architecture & NATIVE_ONLY != 0 {
            set.native_only();
        }
        for (entry, read) in self.entries.iter().enumerate() {
            let mut listed = set.call(read.number);
            for (rule, conditions) in read.rules.iter().enumerate() {
                let made: Result<Rule, Error> = (0..conditions.len()).map(|condition| self.condition(entry, rule, condition)).collect();
                listed = listed.rule(&made?);
            }
        }
        Ok(set)
    }
}

struct Reader<'a> {
    set: &'a [u8],
    cursor: Cursor,
}

impl Reader<'_> {
    // whether a part was read: then the cursor stands behind it
    fn goes_on(&mut self, next: Cursor) -> bool {
        if next.code == 0 {
            self.cursor = next;
        }
        next.code == 0
    }

    fn entries(mut self) -> Vec<Entry> {
        from_fn(|| {
            let entry = boundary::next_entry(self.set, self.cursor);
            self.goes_on(entry.next).then(|| Entry { number: entry.number, rules: self.rules() })
        })
        .collect()
    }

    fn rules(&mut self) -> Vec<Vec<Compared>> {
        from_fn(|| {
            let begun = boundary::next_rule(self.set, self.cursor);
            self.goes_on(begun).then(|| self.conditions())
        })
        .collect()
    }

    fn conditions(&mut self) -> Vec<Compared> {
        from_fn(|| {
            let condition = boundary::next_condition(self.set, self.cursor);
            self.goes_on(condition.next).then_some(condition)
        })
        .collect()
    }
}
