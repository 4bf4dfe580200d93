//! The original beside the port on random inputs: how each kind of case is checked, what was met, and what of it
//! makes a comparison fail. The program is `main.rs`; that planted differences are seen is tried in `tests/`.

pub mod asked;
mod assembly;
mod buffers;
mod closing;
mod closings;
mod comparison;
mod coverage;
mod decide;
mod jobs;
pub mod kinds;
mod layers;
mod lengths;
mod runs;
mod tally;
mod texts;

pub use asked::Asked;
pub use comparison::{compare, Comparison, Outcome};
pub use coverage::{Demand, MEETS_ALL};
pub use tally::{Checked, Tally};
