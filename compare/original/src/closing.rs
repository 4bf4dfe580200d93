//! A door to pose_graph.rs, a module beside it: its public items, the loop edge that verification.rs would give,
//! what a chain edge measures, and the two measures that pose_graph.rs keeps to its folder.

use kornia_3d::pgo::PgoEdge;
use kornia_3d::pose::Pose3d;
use kornia_algebra::{Vec3F64, SE3F32};

use super::pose_graph;
pub use super::pose_graph::{
    optimize_pose_graph, InertialPgoContext, PgoConfig, PgoError, PgoResult,
};

/// A loop as found and verified: the keyframes' numbers and the query's pose seen from the candidate.
#[derive(Clone, Debug)]
pub struct VerifiedLoopEdge {
    pub candidate_kf_idx: usize,
    pub query_kf_idx: usize,
    pub candidate_to_query: Pose3d,
}

/// What a chain edge measures, by the two calls with which pose_graph.rs makes it.
pub fn chain_measurement(earlier: &Pose3d, later: &Pose3d) -> SE3F32 {
    crate::pose_conversion::pose_to_se3(&Pose3d::between(earlier, later))
}

/// The cost that is judged: in f64, over the edges that have a residual.
pub fn judged_cost(poses: &[Pose3d], edges: &[PgoEdge]) -> f64 {
    pose_graph::pose_graph_cost(poses, edges)
}

/// The largest angle by which gravity tips, of all poses.
pub fn tipped_by(before: &[Pose3d], after: &[Pose3d], gravity: Vec3F64) -> f64 {
    pose_graph::max_gravity_alignment_error(before, after, gravity)
}
