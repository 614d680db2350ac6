//! Rule sets written as bytes, part by part, by the proved writers.

use crate::architecture::NATIVE_ONLY;
use crate::boundary::{self, Writer};
use crate::{Condition, Error, RuleSet};

/// The bytes of a set, its calls in ascending order.
pub(crate) fn bytes_of(set: &RuleSet) -> Result<Vec<u8>, Error> {
    let mut growing = Growing { bytes: Vec::new(), writer: Writer { code: 0, end: 0, entry: 0, rule: 0 } };
    let architecture = set.architecture().number() | if set.is_native_only() { NATIVE_ONLY } else { 0 };
    let (mismatch, on_match) = (set.mismatch().word(), set.on_match().word());
    growing.put(|out, _| boundary::start(out, architecture, mismatch, on_match))?;
    for (number, rules) in set.calls() {
        growing.put(|out, writer| boundary::list(out, writer, number))?;
        for rule in rules {
            growing.put_rule(rule)?;
        }
    }
    growing.bytes.truncate(growing.writer.end as usize);
    Ok(growing.bytes)
}

struct Growing {
    bytes: Vec<u8>,
    writer: Writer,
}

impl Growing {
    fn put_rule(&mut self, rule: &[Condition]) -> Result<(), Error> {
        self.put(boundary::begin_rule)?;
        rule.iter().try_for_each(|condition| {
            let (index, width, operator) = (condition.index(), condition.width().number(), condition.operator());
            self.put(|out, writer| {
                boundary::add_condition(out, writer, index, width, operator.number(), condition.value(), operator.mask())
            })
        })
    }

    // A refused part has written nothing, and the state before it can be used again. What has a type is a good part, and the parts come
    // in their order, so only room and length are left to be refused.
    fn put(&mut self, write: impl Fn(&mut [u8], Writer) -> Writer) -> Result<(), Error> {
        loop {
            let written = write(&mut self.bytes, self.writer);
            match written.code {
                0 => {
                    self.writer = written;
                    return Ok(());
                }
                boundary::NO_ROOM => self.bytes.resize(2 * self.bytes.len() + 64, 0),
                boundary::SET_TOO_LONG => return Err(Error::SetTooLong),
                code => unreachable!("a writer refused a good part with {code}"),
            }
        }
    }
}
