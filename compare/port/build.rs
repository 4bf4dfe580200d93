//! Links the port's archive: the file PORT_LIB (a relative one is taken from the workspace), or
//! crates/exports/out/libexports.a in the repository that holds this workspace.

use std::path::PathBuf;
use std::{env, process};

fn main() {
    let manifest = PathBuf::from(env::var_os("CARGO_MANIFEST_DIR").unwrap_or_default());
    println!("cargo:rerun-if-env-changed=PORT_LIB");
    let archive = match env::var_os("PORT_LIB") {
        Some(file) => manifest.join("..").join(file),
        None => manifest.join("../../crates/exports/out/libexports.a"),
    };
    println!("cargo:rerun-if-changed={}", archive.display());
    let Ok(archive) = archive.canonicalize() else {
        refuse(&format!(
            "{} is missing: build it with `rt lib` in crates/exports, or set PORT_LIB to the archive",
            archive.display()
        ));
    };
    let (Some(folder), Some(name)) = (archive.parent(), archive.file_name()) else {
        refuse(&format!("{} is no archive", archive.display()));
    };
    println!("cargo:rustc-link-search=native={}", folder.display());
    println!(
        "cargo:rustc-link-lib=static:+verbatim={}",
        name.to_string_lossy()
    );
}

fn refuse(line: &str) -> ! {
    eprintln!("error: {line}");
    process::exit(1)
}
