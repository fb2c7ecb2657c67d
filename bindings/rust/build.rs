//! Says where libluffa.a is: in `LUFFA_LIB_DIR`, or where the repository's `make` puts it.

use std::env;
use std::path::PathBuf;
use std::process::ExitCode;

fn main() -> ExitCode {
    println!("cargo:rerun-if-changed=build.rs");
    println!("cargo:rerun-if-env-changed=LUFFA_LIB_DIR");
    // Cargo runs this in the crate's folder.
    let folder = match env::var_os("LUFFA_LIB_DIR") {
        Some(named) if !named.is_empty() => PathBuf::from(named),
        _ => PathBuf::from("../../target/staticlib"),
    };
    // The compiler may run in another folder, so it is told the whole path.
    let Ok(archive) = folder.join("libluffa.a").canonicalize() else {
        eprintln!("There is no libluffa.a in {}.", folder.display());
        eprintln!("Run `make` in the repository, or set LUFFA_LIB_DIR to the folder that has it.");
        return ExitCode::FAILURE;
    };
    println!("cargo:rerun-if-changed={}", archive.display());
    let folder = archive.parent().expect("a file's folder");
    println!("cargo:rustc-link-search=native={}", folder.display());
    ExitCode::SUCCESS
}
