//! `compare N SEED [KIND [INDEX]]`. Exit status 0 where all agree, 1 where anything differs or is not met, 2 for
//! arguments that ask for nothing that is there.

use std::process::ExitCode;

use compare::kinds::kinds;
use compare::{compare, Asked};
use port::EXPORTS;

fn main() -> ExitCode {
    let arguments: Vec<String> = std::env::args().skip(1).collect();
    let kinds = kinds();
    match Asked::of(&arguments, &kinds) {
        Ok(asked) => {
            let outcome = compare(&asked, &kinds, EXPORTS);
            outcome.print();
            ExitCode::from(u8::from(!outcome.holds()))
        }
        Err(line) => {
            eprintln!("compare N SEED [KIND [INDEX]]: {line}");
            ExitCode::from(2)
        }
    }
}
