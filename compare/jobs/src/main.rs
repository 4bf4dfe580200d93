//! Writes the repository's sample jobs into a folder: `jobs FOLDER`. The same sources give the same
//! bytes.

mod evening;
#[cfg(test)]
mod lines;
mod samples;

use std::path::Path;
use std::process::ExitCode;

use samples::samples;

fn main() -> ExitCode {
    let arguments: Vec<String> = std::env::args().skip(1).collect();
    let [folder] = arguments.as_slice() else {
        eprintln!("jobs FOLDER: one argument is needed, the folder to write into");
        return ExitCode::from(2);
    };
    match written(Path::new(folder)) {
        Ok(count) => {
            println!("{count} jobs");
            ExitCode::SUCCESS
        }
        Err(line) => {
            eprintln!("jobs: {line}");
            ExitCode::from(1)
        }
    }
}

fn written(folder: &Path) -> Result<usize, String> {
    let list = samples();
    for (name, bytes) in &list {
        let path = folder.join(format!("{name}.job"));
        std::fs::write(&path, bytes).map_err(|error| format!("{}: {error}", path.display()))?;
    }
    Ok(list.len())
}
