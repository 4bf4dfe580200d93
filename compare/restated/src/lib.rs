//! What the port adds to the Rust, stated once more in Rust from documents 01 and 02: the refusal
//! table, the decisions, the counts and the stop reasons, the job file, what is built of a scan and
//! whether it may be printed; and the random inputs that the programs of this workspace share.

pub mod assembly;
pub mod case;
pub mod closing;
pub mod decide;
pub mod expect;
pub mod faults;
pub mod forced;
pub mod graphs;
pub mod job_inputs;
pub mod job_reader;
pub mod jobs;
pub mod layer_inputs;
pub mod layers;
pub mod limits;
pub mod lists;
pub mod paths;
pub mod pieces;
pub mod places;
pub mod random;
pub mod run;
pub mod samples;
pub mod scan;
pub mod scan_faults;
pub mod scan_inputs;
pub mod table;
pub mod texts;
pub mod verdict;
pub mod wild;

/// Equal bits, or both NaN.
pub fn same32(a: f32, b: f32) -> bool {
    a.to_bits() == b.to_bits() || (a.is_nan() && b.is_nan())
}

/// Equal bits, or both NaN.
pub fn same64(a: f64, b: f64) -> bool {
    a.to_bits() == b.to_bits() || (a.is_nan() && b.is_nan())
}

pub fn all_same32(a: &[f32], b: &[f32]) -> bool {
    a.len() == b.len() && a.iter().zip(b).all(|(a, b)| same32(*a, *b))
}

pub fn all_same64(a: &[f64], b: &[f64]) -> bool {
    a.len() == b.len() && a.iter().zip(b).all(|(a, b)| same64(*a, *b))
}
