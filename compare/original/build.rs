//! Finds the Rust sources and writes the module file that takes them in unchanged; shared by both originals.
//! The sources stand in the folder SRC (a relative one is taken from the workspace), or in shared/docs/src
//! beside the repository; which files these are, and of which commit, is in the workspace's README.md.

use std::path::{Path, PathBuf};
use std::{env, fs, process};

fn main() {
    let manifest = PathBuf::from(variable("CARGO_MANIFEST_DIR"));
    let sources = source_folder(&manifest).join("crates/kornia-slam/src");
    let own = manifest.join("../original/src");
    let files = Files {
        conversion: existing(sources.join("pose_conversion.rs")),
        optimizer: existing(sources.join("loop_closure/sparse_pgo.rs")),
        pose_graph: existing(sources.join("loop_closure/pose_graph.rs")),
        access: existing(own.join("access.rs")),
        closing: existing(own.join("closing.rs")),
        map: existing(own.join("map.rs")),
    };
    let target = PathBuf::from(variable("OUT_DIR")).join("modules.rs");
    fs::write(target, modules(&files)).expect("OUT_DIR can be written");
    if variable("CARGO_PKG_NAME") == "original_hooked" {
        println!("cargo:rustc-cfg=test");
    }
    println!("cargo:rerun-if-env-changed=SRC");
}

/// The originals, then the doors to them and the map that stands in.
struct Files {
    conversion: PathBuf,
    optimizer: PathBuf,
    pose_graph: PathBuf,
    access: PathBuf,
    closing: PathBuf,
    map: PathBuf,
}

fn variable(name: &str) -> String {
    env::var(name).unwrap_or_else(|_| refuse(&format!("{name} is not set")))
}

fn source_folder(manifest: &Path) -> PathBuf {
    match env::var_os("SRC") {
        Some(folder) => manifest.join("..").join(folder),
        None => manifest.join("../../../shared/docs/src"),
    }
}

fn existing(path: PathBuf) -> PathBuf {
    println!("cargo:rerun-if-changed={}", path.display());
    match path.canonicalize() {
        Ok(found) => found,
        Err(_) => refuse(&format!(
            "{} is missing: set SRC to a folder that holds crates/kornia-slam/src of kornia-slam ae5b4164ad (compare/README.md)",
            path.display()
        )),
    }
}

fn refuse(line: &str) -> ! {
    eprintln!("error: {line}");
    process::exit(1)
}

/// The originals have functions that nothing here calls, so dead code is allowed in them, and only there.
fn modules(files: &Files) -> String {
    let (conversion, map) = (&files.conversion, &files.map);
    let loop_closure = loop_closure(files);
    format!(
        "#[allow(dead_code)]
#[path = {conversion:?}]
mod pose_conversion;

mod loop_closure {{
{loop_closure}
}}

mod mapping {{
    #[path = {map:?}]
    pub mod map;
}}
"
    )
}

fn loop_closure(files: &Files) -> String {
    let (optimizer, pose_graph) = (&files.optimizer, &files.pose_graph);
    let (access, closing) = (&files.access, &files.closing);
    format!(
        "    #[allow(dead_code)]
    pub mod sparse_pgo {{
        include!({optimizer:?});

        #[path = {access:?}]
        pub mod access;
    }}

    #[allow(dead_code)]
    #[path = {pose_graph:?}]
    mod pose_graph;

    #[path = {closing:?}]
    pub mod closing;

    pub use closing::VerifiedLoopEdge;"
    )
}
