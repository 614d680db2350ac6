//! Makes the filter of a host on aarch64, as bytes that the host embeds. This runs on the machine that builds, which has to be x86-64.

use std::{env, fs, path::Path};

use callfilter::{Action, Architecture, Condition, Error, Operator, RuleSet, Width};

fn main() {
    println!("cargo:rerun-if-changed=build.rs");
    let filter = filter().expect("the rule set compiles");
    let folder = env::var_os("OUT_DIR").expect("cargo says where it goes");
    fs::write(Path::new(&folder).join("filter.bpf"), filter).expect("it is written");
}

// read, write to standard output, exit_group
fn filter() -> Result<Vec<u8>, Error> {
    let mut set = RuleSet::new(Architecture::Aarch64, Action::Errno(1), Action::Allow);
    set.call(63);
    set.call(64).rule(&[Condition::new(0, Width::Dword, Operator::Eq, 1)?]);
    set.call(94);
    Ok(set.compile_search()?.to_bytes())
}
