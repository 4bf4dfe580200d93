//! Document 02's job file (Wish 1) once more: what a job means, the records it is written as, and
//! what the writer turns down. Floats are their bits throughout; the reader stands in job_reader.rs.

use crate::case::Case;
pub use crate::job_reader::read;

/// A refusal's number, and the byte offset that goes with it.
pub type Fault = (u32, usize);

/// What a job file means.
#[derive(Clone, Debug, Default, PartialEq)]
pub struct Job {
    /// Limit, cost tolerance, gradient tolerance, damping.
    pub settings: [u32; 4],
    pub poses: Vec<u64>,
    pub ends: Vec<u32>,
    pub edges: Vec<u32>,
    pub fixed: Vec<u32>,
}

/// How many poses, edges and fixed entries a reader takes.
#[derive(Copy, Clone, Debug, PartialEq)]
pub struct Room {
    pub poses: usize,
    pub edges: usize,
    pub fixed: usize,
}

impl Room {
    /// Of slices of any length: whole poses, and edges that fit both of their slices.
    pub fn of(poses: usize, ends: usize, edges: usize, fixed: usize) -> Self {
        Self {
            poses: poses / 12,
            edges: (ends / 2).min(edges / 8),
            fixed,
        }
    }

    pub(crate) fn of_kind(&self, kind: u16) -> usize {
        match kind {
            POSE => self.poses,
            EDGE => self.edges,
            FIXED => self.fixed,
            _ => 1,
        }
    }
}

pub(crate) const SETTINGS: u16 = 1;
pub(crate) const POSE: u16 = 2;
pub(crate) const EDGE: u16 = 3;
pub(crate) const FIXED: u16 = 4;
pub(crate) const END: u16 = 5;

/// The bytes in front of a body.
pub const HEADER: usize = 4;

/// How long the bodies of a kind are; none where there is no such kind.
pub fn body_length(kind: u16) -> Option<u16> {
    match kind {
        SETTINGS => Some(16),
        POSE => Some(96),
        EDGE => Some(40),
        FIXED => Some(4),
        END => Some(0),
        _ => None,
    }
}

/// A record of four bytes a word, its length as its body has it.
fn record(kind: u16, words: &[u32]) -> Vec<u8> {
    let length = 4 * words.len() as u16;
    let header = [length.to_le_bytes(), kind.to_le_bytes()].concat();
    let body = words.iter().flat_map(|word| word.to_le_bytes());
    header.into_iter().chain(body).collect()
}

/// A job whose numbers fit, record by record.
pub fn records(job: &Job) -> Vec<Vec<u8>> {
    let halves = |x: &u64| [*x as u32, (*x >> 32) as u32];
    let pose = |p: &[u64]| record(POSE, &p.iter().flat_map(halves).collect::<Vec<_>>());
    let edge = |(ends, numbers): (&[u32], &[u32])| record(EDGE, &[ends, numbers].concat());
    let edges = job.ends.chunks_exact(2).zip(job.edges.chunks_exact(8));
    let mut list = vec![record(SETTINGS, &job.settings)];
    list.extend(job.poses.chunks_exact(12).map(pose));
    list.extend(edges.map(edge));
    list.extend(job.fixed.iter().map(|entry| record(FIXED, &[*entry])));
    list.push(record(END, &[]));
    list
}

pub fn write(job: &Job) -> Vec<u8> {
    records(job).concat()
}

/// What the writer says of a job and so many bytes of output: 2, then 36.
pub fn not_written(job: &Job, output: usize) -> Option<Fault> {
    let unfit = job.poses.len() % 12 != 0
        || job.ends.len() % 2 != 0
        || job.edges.len() != 4 * job.ends.len();
    if unfit {
        Some((2, 0))
    } else if output < write(job).len() {
        Some((36, 0))
    } else {
        None
    }
}

impl Job {
    /// The job of a run with DOF 6; gravity and what is lent to the run do not go into it.
    pub fn of(case: &Case) -> Self {
        let floats = [case.cost_tolerance, case.gradient_tolerance, case.damping];
        let [cost, gradient, damping] = floats.map(f32::to_bits);
        Self {
            settings: [case.limit, cost, gradient, damping],
            poses: case.poses.iter().map(|x| x.to_bits()).collect(),
            ends: case.ends.clone(),
            edges: case.edges.iter().map(|x| x.to_bits()).collect(),
            fixed: case.fixed.clone(),
        }
    }

    /// The run that the job means, lent exactly what it needs.
    pub fn case(&self) -> Case {
        let [limit, floats @ ..] = self.settings;
        let [cost_tolerance, gradient_tolerance, damping] = floats.map(f32::from_bits);
        let mut case = Case {
            gravity: None,
            poses: self.poses.iter().map(|x| f64::from_bits(*x)).collect(),
            ends: self.ends.clone(),
            edges: self.edges.iter().map(|x| f32::from_bits(*x)).collect(),
            fixed: self.fixed.clone(),
            limit,
            cost_tolerance,
            gradient_tolerance,
            damping,
            work32: 0,
            work64: 0,
            out: 0,
        };
        case.fit();
        case
    }
}

#[cfg(test)]
mod tests {
    use super::*;
    use crate::samples::two_poses;

    fn sample() -> Job {
        Job::of(&two_poses(1.0, 1.0))
    }

    #[test]
    fn the_sample_is_written_as_document_02_says() {
        let bytes = write(&sample());
        assert_eq!(bytes.len(), 276);
        assert_eq!(bytes[..8], [16, 0, 1, 0, 30, 0, 0, 0]);
        assert_eq!(bytes[8..12], 1e-6f32.to_bits().to_le_bytes());
        assert_eq!(bytes[16..20], 1e-3f32.to_bits().to_le_bytes());
        assert_eq!(bytes[20..24], [96, 0, 2, 0]);
        assert_eq!(bytes[24..32], 1f64.to_bits().to_le_bytes());
        assert_eq!(bytes[220..224], [40, 0, 3, 0]);
        assert_eq!(bytes[224..232], [0, 0, 0, 0, 1, 0, 0, 0]);
        assert_eq!(bytes[244..248], 1f32.to_bits().to_le_bytes());
        assert_eq!(bytes[264..], [4, 0, 4, 0, 0, 0, 0, 0, 0, 0, 5, 0]);
    }

    #[test]
    fn room_counts_whole_poses_and_the_smaller_of_ends_and_edge_numbers() {
        let room = |poses, edges, fixed| Room {
            poses,
            edges,
            fixed,
        };
        assert_eq!(Room::of(23, 5, 16, 3), room(1, 2, 3));
        assert_eq!(Room::of(24, 9, 15, 0), room(2, 1, 0));
        assert_eq!(Room::of(11, 1, 80, 1), room(0, 0, 1));
    }

    #[test]
    fn the_writer_gives_2_for_its_inputs_and_then_36() {
        let says = |change: fn(&mut Job), output| {
            let mut job = sample();
            change(&mut job);
            not_written(&job, output)
        };
        assert_eq!(says(|_| {}, 276), None);
        assert_eq!(says(|_| {}, 999), None);
        assert_eq!(says(|_| {}, 275), Some((36, 0)));
        assert_eq!(says(|_| {}, 0), Some((36, 0)));
        assert_eq!(says(|job| job.poses.push(0), 0), Some((2, 0)));
        assert_eq!(says(|job| job.ends.push(0), 999), Some((2, 0)));
        assert_eq!(says(|job| job.ends.extend([0, 0]), 999), Some((2, 0)));
        assert_eq!(says(|job| job.edges.extend([0; 8]), 999), Some((2, 0)));
        assert_eq!(says(|job| job.edges.truncate(7), 999), Some((2, 0)));
        assert_eq!(says(|job| job.fixed.clear(), 268), None);
    }
}
