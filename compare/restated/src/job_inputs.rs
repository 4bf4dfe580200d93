//! Random job files: good ones with numbers of any bits, rooms of every size for them, headers
//! changed byte by byte, and damage of every kind.

use crate::jobs::{body_length, records, Job, Room, HEADER};
use crate::random::Random;

/// Signs, zeros, infinities and NaN with payloads, quiet and not.
const ODD32: [u32; 9] = [
    0,
    0x8000_0000,
    0x7F80_0000,
    0xFF80_0000,
    0x7F80_0001,
    0x7FC0_0000,
    0xFFC1_2345,
    u32::MAX,
    1,
];

const ODD64: [u64; 9] = [
    0,
    0x8000_0000_0000_0000,
    0x7FF0_0000_0000_0000,
    0xFFF0_0000_0000_0000,
    0x7FF0_0000_0000_0001,
    0x7FF8_0000_0000_0000,
    0xFFF8_0000_1234_5678,
    u64::MAX,
    1,
];

pub fn bits32(random: &mut Random) -> u32 {
    match random.below(3) {
        0 => random.pick(&ODD32),
        1 => random.below(20) as u32,
        _ => random.next() as u32,
    }
}

pub fn bits64(random: &mut Random) -> u64 {
    match random.below(3) {
        0 => random.pick(&ODD64),
        1 => random.span(10.0).to_bits(),
        _ => random.next(),
    }
}

pub fn many32(random: &mut Random, count: usize) -> Vec<u32> {
    (0..count).map(|_| bits32(random)).collect()
}

pub fn many64(random: &mut Random, count: usize) -> Vec<u64> {
    (0..count).map(|_| bits64(random)).collect()
}

fn job_of(random: &mut Random, poses: usize, edges: usize, fixed: usize) -> Job {
    Job {
        settings: [0; 4].map(|_| bits32(random)),
        poses: many64(random, 12 * poses),
        ends: many32(random, 2 * edges),
        edges: many32(random, 8 * edges),
        fixed: many32(random, fixed),
    }
}

/// A good job of any meaning, now and then with none of a kind.
pub fn job(random: &mut Random) -> Job {
    let most = random.pick(&[3, 3, 6, 20]);
    let [poses, edges, fixed] = [most, most, most].map(|most| match random.below(8) {
        0 => 0,
        _ => random.between(0, most),
    });
    job_of(random, poses, edges, fixed)
}

/// A good job with up to two of each.
pub fn small_job(random: &mut Random) -> Job {
    let [poses, edges, fixed] = [(); 3].map(|_| random.below(3));
    job_of(random, poses, edges, fixed)
}

/// How many numbers are lent for poses, ends, edges and fixed entries.
#[derive(Copy, Clone, Debug, PartialEq)]
pub struct Lengths {
    pub poses: usize,
    pub ends: usize,
    pub edges: usize,
    pub fixed: usize,
}

impl Lengths {
    pub fn exact(job: &Job) -> Self {
        Self {
            poses: job.poses.len(),
            ends: job.ends.len(),
            edges: job.edges.len(),
            fixed: job.fixed.len(),
        }
    }

    pub fn none() -> Self {
        Self::exact(&Job::default())
    }

    /// More of each, in whole poses and edges or not, and not the same of ends and edge numbers.
    pub fn more(self, random: &mut Random) -> Self {
        Self {
            poses: self.poses + random.below(30),
            ends: self.ends + random.below(6),
            edges: self.edges + random.below(20),
            fixed: self.fixed + random.below(4),
        }
    }

    /// Each in turn too short for its last: by one number, and by a whole pose or edge.
    pub fn one_too_small(self) -> Vec<Self> {
        let less = usize::checked_sub;
        let poses = [1, 12].map(|by| less(self.poses, by).map(|poses| Self { poses, ..self }));
        let ends = [1, 2].map(|by| less(self.ends, by).map(|ends| Self { ends, ..self }));
        let edges = [1, 8].map(|by| less(self.edges, by).map(|edges| Self { edges, ..self }));
        let fixed = [1].map(|by| less(self.fixed, by).map(|fixed| Self { fixed, ..self }));
        let all = poses.into_iter().chain(ends).chain(edges).chain(fixed);
        all.flatten().collect()
    }

    pub fn room(&self) -> Room {
        Room::of(self.poses, self.ends, self.edges, self.fixed)
    }
}

/// Any room for a job: exact, larger, none, or too small by one.
pub fn any_lengths(random: &mut Random, job: &Job) -> Lengths {
    let exact = Lengths::exact(job);
    let small = exact.one_too_small();
    match random.below(4) {
        0 => exact,
        1 => exact.more(random),
        2 if !small.is_empty() => random.pick(&small),
        _ => Lengths::none(),
    }
}

/// The job with numbers that are no whole poses, ends or edges.
pub fn unfit_jobs(random: &mut Random, job: &Job) -> Vec<Job> {
    let but = |change: &dyn Fn(&mut Job)| {
        let mut changed = job.clone();
        change(&mut changed);
        changed
    };
    let some = random.between(1, 11);
    let mut list = vec![
        but(&|job| job.poses.extend(vec![7; some])),
        but(&|job| job.ends.push(7)),
        but(&|job| job.ends.extend([7, 8])),
        but(&|job| job.edges.push(7)),
        but(&|job| job.edges.extend([7; 4])),
        but(&|job| job.edges.extend([7; 8])),
        but(&|job| {
            job.ends.push(7);
            job.edges.extend([7; 4]);
        }),
    ];
    let Lengths { poses, edges, .. } = Lengths::exact(job);
    if poses > 0 {
        list.push(but(&|job| job.poses.truncate(poses - 1)));
    }
    if edges > 0 {
        list.push(but(&|job| job.edges.truncate(edges - 1)));
        list.push(but(&|job| job.edges.truncate(edges - 8)));
    }
    list
}

/// Every byte of every header changed to several values, and every header to that of every kind.
pub fn changed_headers(job: &Job) -> Vec<Vec<u8>> {
    let list = records(job);
    let bytes = list.concat();
    let starts = list.iter().scan(0, |next, record| {
        let at = *next;
        *next += record.len();
        Some(at)
    });
    starts
        .flat_map(|at| {
            let mut changed = changed_bytes(&bytes, at);
            changed.extend(other_kinds(&bytes, at));
            changed
        })
        .collect()
}

fn changed_bytes(bytes: &[u8], header: usize) -> Vec<Vec<u8>> {
    let mut list = Vec::new();
    for at in header..header + HEADER {
        let found = bytes[at];
        let near = [found.wrapping_add(1), found.wrapping_sub(1)];
        for byte in near.into_iter().chain(0..=7).chain([16, 40, 96, 128, 255]) {
            let mut changed = bytes.to_vec();
            changed[at] = byte;
            list.push(changed);
        }
    }
    list
}

/// Kinds 0 to 6 with the length of their bodies; 6 is the second edition's, of 60 bytes.
fn other_kinds(bytes: &[u8], header: usize) -> Vec<Vec<u8>> {
    let put = |kind: u16| {
        let length = body_length(kind).unwrap_or(10 * kind);
        let mut changed = bytes.to_vec();
        changed[header..header + 2].copy_from_slice(&length.to_le_bytes());
        changed[header + 2..header + HEADER].copy_from_slice(&kind.to_le_bytes());
        changed
    };
    (0..=6).map(put).collect()
}

/// A job's bytes with records and bytes put out of order, up to three times each.
pub fn damaged(random: &mut Random, job: &Job) -> Vec<u8> {
    let mut list = records(job);
    for _ in 0..random.below(3) {
        damage_records(random, &mut list);
    }
    let mut bytes = list.concat();
    for _ in 0..random.below(3) {
        damage_bytes(random, &mut bytes);
    }
    bytes
}

fn damage_records(random: &mut Random, list: &mut Vec<Vec<u8>>) {
    if list.is_empty() {
        return;
    }
    let (a, b) = (random.below(list.len()), random.below(list.len()));
    match random.below(5) {
        0 => list.swap(a, b),
        1 => list.insert(a, list[a].clone()),
        2 => list.insert(a, list[b].clone()),
        3 => drop(list.remove(a)),
        _ => list.insert(a, any_record(random)),
    }
}

/// A record of any kind, its body of its own length or nearly.
fn any_record(random: &mut Random) -> Vec<u8> {
    let kind = random.below(7) as u16;
    let length = body_length(kind).unwrap_or(60);
    let length = random.pick(&[length, length, length + 4, length / 2]);
    let mut bytes = [length.to_le_bytes(), kind.to_le_bytes()].concat();
    bytes.extend((0..length).map(|_| random.next() as u8));
    bytes
}

fn damage_bytes(random: &mut Random, bytes: &mut Vec<u8>) {
    let byte = random.next() as u8;
    let at = random.below(bytes.len() + 1);
    match random.below(6) {
        0 if at < bytes.len() => bytes[at] ^= 1 << random.below(8),
        1 if at < bytes.len() => bytes[at] = byte,
        2 => bytes.insert(at, byte),
        3 if at < bytes.len() => {
            let to = (at + random.between(1, 120)).min(bytes.len());
            bytes.drain(at..to);
        }
        4 => bytes.truncate(at),
        _ => bytes.extend(vec![byte; random.between(1, 9)]),
    }
}

#[cfg(test)]
mod tests {
    use super::*;
    use crate::jobs::{read, write};
    use std::collections::BTreeSet;

    #[test]
    fn every_number_of_the_reader_is_met() {
        let mut met = BTreeSet::new();
        for index in 0..400 {
            let mut random = Random::of_case(3, 1, index);
            let job = job(&mut random);
            let bytes = damaged(&mut random, &job);
            let room = any_lengths(&mut random, &job).room();
            met.insert(read(&bytes, room).map_or_else(|fault| fault.0, |_| 0));
        }
        assert_eq!(met, BTreeSet::from([0, 30, 31, 32]));
    }

    #[test]
    fn a_good_job_fits_its_exact_room_and_more_and_nothing_less() {
        for index in 0..200 {
            let mut random = Random::of_case(3, 2, index);
            let job = job(&mut random);
            let (exact, bytes) = (Lengths::exact(&job), write(&job));
            assert!(read(&bytes, exact.room()).is_ok());
            assert!(read(&bytes, exact.more(&mut random).room()).is_ok());
            for small in exact.one_too_small() {
                let number = read(&bytes, small.room()).map_err(|fault| fault.0);
                assert_eq!(number, Err(32), "{small:?}");
            }
        }
    }

    #[test]
    fn a_changed_header_is_never_taken_for_another_job() {
        for index in 0..20 {
            let job = small_job(&mut Random::of_case(3, 3, index));
            let room = Lengths::exact(&job).room();
            for bytes in changed_headers(&job) {
                let same = bytes == write(&job);
                assert_eq!(read(&bytes, room).is_ok(), same, "{bytes:?}");
            }
        }
    }
}
