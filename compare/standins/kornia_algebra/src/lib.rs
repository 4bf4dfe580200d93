//! Stands in for kornia_algebra: the names that sparse_pgo.rs, pose_graph.rs and pose_conversion.rs use,
//! with document 01's rotation arithmetic behind them (orders of operation C1 to C13 of docs/DECISIONS.md).

mod quaternion;
mod transform;
mod vectors;

pub use quaternion::Quaternion;
pub use transform::{SE3F32, SO3F32, SO3F64};
pub use vectors::{Mat3AF32, Mat3F64, Vec3AF32, Vec3F64};
