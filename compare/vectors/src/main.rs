//! Writes a fixed list of the original's answers to a file, for replay where no Rust is at hand: `vectors FILE`.
//! The format stands in format.rs; the same sources give the same bytes.

mod format;
mod records;

use std::process::ExitCode;

use format::File;

/// The largest file that is written.
const LARGEST: usize = 400_000;

fn main() -> ExitCode {
    let arguments: Vec<String> = std::env::args().skip(1).collect();
    let [path] = arguments.as_slice() else {
        eprintln!("vectors FILE: one argument is needed, the file to write");
        return ExitCode::from(2);
    };
    match written(path) {
        Ok(line) => {
            println!("{line}");
            ExitCode::SUCCESS
        }
        Err(line) => {
            eprintln!("vectors: {line}");
            ExitCode::from(1)
        }
    }
}

fn written(path: &str) -> Result<String, String> {
    let mut file = File::default();
    records::runs(&mut file)?;
    records::assemblies(&mut file);
    records::lists(&mut file)?;
    records::layers(&mut file);
    let line = file.summary();
    let bytes = file.bytes();
    if bytes.len() > LARGEST {
        return Err(format!("{} bytes are more than {LARGEST}", bytes.len()));
    }
    std::fs::write(path, &bytes).map_err(|error| format!("{path}: {error}"))?;
    Ok(format!("{} bytes, {line}", bytes.len()))
}
