//! Stands in for the map: its keyframes, each with the number and the pose that pose_graph.rs reads.

use kornia_3d::pose::Pose3d;

pub struct Frame {
    pub idx: usize,
    pub pose_world_to_cam: Pose3d,
}

pub struct Keyframe {
    pub frame: Frame,
}

pub struct Map {
    pub keyframes: Vec<Keyframe>,
}

impl Map {
    pub fn keyframes(&self) -> &[Keyframe] {
        &self.keyframes
    }
}
