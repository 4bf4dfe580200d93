//! The same three files once more, built with cfg(test) on, so that sparse_pgo.rs keeps its test hooks.

include!(concat!(env!("OUT_DIR"), "/modules.rs"));

pub use loop_closure::closing::*;
pub use loop_closure::sparse_pgo::access::*;
pub use mapping::map::{Frame, Keyframe, Map};
