//! Document 01's refusal table, rows 1 to 19, with document 02's row 26, as one list of tests in
//! its order; written from the pages, with nothing of the original in it.

use crate::case::Case;
use crate::paths::loose_pose;

#[derive(Copy, Clone, Debug, PartialEq)]
pub struct Refusal {
    pub number: u32,
    pub place: u32,
}

pub const MAX_POSES: usize = 256;
pub const MAX_EDGES: usize = 1024;
pub const MAX_FIXED: usize = 256;
pub const MAX_FREE: usize = 64;
pub const MAX_LIMIT: u32 = 1000;
pub const MAX_DAMPING: f32 = 1e10;

/// The rows asked before a run begins, in their order: 26 stands between 13 and 14.
pub const ORDER: [u32; 20] = [
    1, 2, 3, 4, 5, 6, 7, 8, 9, 10, 11, 12, 13, 26, 14, 15, 16, 17, 18, 19,
];

/// The rows that a run may meet once it began.
pub const IN_THE_RUN: [u32; 3] = [20, 21, 22];

/// Rows that the Rust has no word for.
pub const PORTS_OWN: [u32; 6] = [2, 3, 13, 14, 16, 26];

/// A row's position in the order; all that is not asked before a run stands behind it.
pub fn position(row: u32) -> usize {
    let found = ORDER.iter().position(|asked| *asked == row);
    found.unwrap_or(ORDER.len())
}

fn when(holds: bool, number: u32) -> Option<Refusal> {
    holds.then_some(Refusal { number, place: 0 })
}

fn at(place: Option<usize>, number: u32) -> Option<Refusal> {
    place.map(|place| Refusal {
        number,
        place: place as u32,
    })
}

/// The first row that holds, of 1 to 19 and 26.
pub fn refused(c: &Case) -> Option<Refusal> {
    refused_graph(c).or_else(|| refused_settings(c))
}

/// The first row that holds, of 1 to 14 and 26: all that assembly alone asks.
pub fn refused_graph(c: &Case) -> Option<Refusal> {
    when(c.gravity.is_some_and(bad_gravity), 1)
        .or_else(|| when(bad_lengths(c), 2))
        .or_else(|| when(too_many(c), 3))
        .or_else(|| when(c.poses.is_empty(), 4))
        .or_else(|| when(c.ends.is_empty(), 5))
        .or_else(|| at(bad_pose(c), 6))
        .or_else(|| bad_edge(c))
        .or_else(|| at(bad_fixed(c), 11))
        .or_else(|| when(c.free_count() == 0, 12))
        .or_else(|| when(c.free_count() > MAX_FREE, 13))
        .or_else(|| at(loose_pose(c), 26))
        .or_else(|| when(c.work32 < c.need32() || c.work64 < c.need64(), 14))
}

fn refused_settings(c: &Case) -> Option<Refusal> {
    refused_limit(c.limit)
        .or_else(|| when(bad_tolerance(c.cost_tolerance), 17))
        .or_else(|| when(bad_tolerance(c.gradient_tolerance), 18))
        .or_else(|| when(bad_damping(c.damping), 19))
}

/// Rows 15 to 17 and 19: what the decisions alone ask of their settings.
pub fn refused_decisions(limit: u32, tolerance: f32, damping: f32) -> Option<Refusal> {
    refused_limit(limit)
        .or_else(|| when(bad_tolerance(tolerance), 17))
        .or_else(|| when(bad_damping(damping), 19))
}

fn refused_limit(limit: u32) -> Option<Refusal> {
    when(limit == 0, 15).or_else(|| when(limit > MAX_LIMIT, 16))
}

fn bad_gravity(g: [f64; 3]) -> bool {
    let length = ((g[0] * g[0] + g[1] * g[1]) + g[2] * g[2]).sqrt();
    !g.iter().all(|x| x.is_finite()) || !length.is_finite() || length <= 1e-9
}

fn bad_lengths(c: &Case) -> bool {
    c.poses.len() % 12 != 0
        || c.ends.len() % 2 != 0
        || c.edges.len() != 4 * c.ends.len()
        || c.out != c.poses.len()
}

fn too_many(c: &Case) -> bool {
    c.pose_count() > MAX_POSES || c.edge_count() > MAX_EDGES || c.fixed.len() > MAX_FIXED
}

fn bad_pose(c: &Case) -> Option<usize> {
    c.poses
        .chunks_exact(12)
        .position(|pose| !pose.iter().all(|x| x.is_finite()))
}

/// Rows 7 to 10, edge by edge.
fn bad_edge(c: &Case) -> Option<Refusal> {
    let count = c.pose_count();
    let pairs = c.ends.chunks_exact(2).zip(c.edges.chunks_exact(8));
    pairs.enumerate().find_map(|(k, (ends, n))| {
        let number = edge_fault(count, ends, n)?;
        at(Some(k), number)
    })
}

fn edge_fault(count: usize, ends: &[u32], n: &[f32]) -> Option<u32> {
    if ends.iter().any(|end| *end as usize >= count) {
        Some(7)
    } else if ends[0] == ends[1] {
        Some(8)
    } else if !n[7].is_finite() {
        Some(9)
    } else if !finite_matrix(n) || !n[4..7].iter().all(|x| x.is_finite()) {
        Some(10)
    } else {
        None
    }
}

/// The nine numbers of the measured matrix, worked out in f64 and narrowed, are finite.
fn finite_matrix(n: &[f32]) -> bool {
    let [x, y, z, w] = [n[0] as f64, n[1] as f64, n[2] as f64, n[3] as f64];
    let m = [
        1.0 - 2.0 * (y * y + z * z),
        1.0 - 2.0 * (x * x + z * z),
        1.0 - 2.0 * (x * x + y * y),
        2.0 * (x * y - z * w),
        2.0 * (x * y + z * w),
        2.0 * (x * z - y * w),
        2.0 * (x * z + y * w),
        2.0 * (y * z - x * w),
        2.0 * (y * z + x * w),
    ];
    m.iter().all(|entry| (*entry as f32).is_finite())
}

fn bad_fixed(c: &Case) -> Option<usize> {
    c.fixed.iter().position(|i| *i as usize >= c.pose_count())
}

fn bad_tolerance(tolerance: f32) -> bool {
    !tolerance.is_finite() || tolerance < 0.0
}

fn bad_damping(damping: f32) -> bool {
    !damping.is_finite() || damping <= 0.0 || damping > MAX_DAMPING
}
