//! sparse_pgo.rs, pose_graph.rs and pose_conversion.rs, compiled unchanged over the stand-ins, with doors to their
//! private items.

include!(concat!(env!("OUT_DIR"), "/modules.rs"));

pub use loop_closure::closing::*;
pub use loop_closure::sparse_pgo::access::*;
pub use mapping::map::{Frame, Keyframe, Map};
