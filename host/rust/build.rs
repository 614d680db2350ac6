//! Finds libcallfilter.a: in the folder that CALLFILTER_LIB names, else where `host/archive.sh` puts it.

use std::{env, path::PathBuf, process::exit};

fn main() {
    println!("cargo:rerun-if-env-changed=CALLFILTER_LIB");
    let here = PathBuf::from(env::var_os("CARGO_MANIFEST_DIR").expect("cargo says where the crate is"));
    let named = env::var_os("CALLFILTER_LIB").map(PathBuf::from);
    // cargo runs this in the crate's own folder, and does not say where it was called
    if let Some(folder) = named.as_ref().filter(|folder| folder.is_relative()) {
        refuse(&format!("CALLFILTER_LIB is {}, which is no whole path: say CALLFILTER_LIB=\"$PWD\"/{0}", folder.display()));
    }
    let folder = named.unwrap_or_else(|| here.join("../../target/staticlib"));
    let archive = folder.join("libcallfilter.a");
    if !archive.is_file() {
        refuse(&format!(
            "{} is not there: make it by `host/archive.sh`, or say by CALLFILTER_LIB which folder it is in",
            archive.display()
        ));
    }
    println!("cargo:rerun-if-changed={}", archive.display());
    println!("cargo:rustc-link-search=native={}", folder.display());
    println!("cargo:rustc-link-lib=static=callfilter");
}

fn refuse(why: &str) {
    eprintln!("{why}");
    exit(1);
}
