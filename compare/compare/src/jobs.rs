//! Job files: `pgo_read_job` and `pgo_write_job` against the second reader and writer, with every
//! number and byte that is lent to them.

use port::Exports;
use restated::job_inputs::{
    any_lengths, changed_headers, damaged, job, many32, many64, small_job, unfit_jobs, Lengths,
};
use restated::jobs::{not_written, read, write, Job};
use restated::random::Random;

use crate::comparison::Comparison;
use crate::tally::Checked;

const FOUND: u32 = 0xDEAD_BEEF;

/// Everything lent to the reader.
#[derive(Clone, Debug, PartialEq)]
struct Lent {
    poses: Vec<u64>,
    ends: Vec<u32>,
    edges: Vec<u32>,
    fixed: Vec<u32>,
    answer: [u32; 8],
}

impl Lent {
    fn stale(random: &mut Random, lengths: Lengths) -> Self {
        Self {
            poses: many64(random, lengths.poses),
            ends: many32(random, lengths.ends),
            edges: many32(random, lengths.edges),
            fixed: many32(random, lengths.fixed),
            answer: [FOUND; 8],
        }
    }

    fn call(&mut self, port: &Exports, bytes: &[u8]) -> u32 {
        let room = port::JobRoom {
            poses: &mut self.poses,
            ends: &mut self.ends,
            edges: &mut self.edges,
            fixed: &mut self.fixed,
        };
        (port.read_job)(bytes, room, &mut self.answer)
    }

    /// What a call must give back and leave, by the second reader.
    fn expected(&self, bytes: &[u8], lengths: Lengths) -> (u32, Self) {
        let mut after = self.clone();
        match read(bytes, lengths.room()) {
            Err((number, place)) => {
                after.answer = [number, count(place), 0, 0, 0, 0, 0, 0];
                (number, after)
            }
            Ok(job) => {
                after.take(&job);
                (0, after)
            }
        }
    }

    /// The job in front, and what stands behind it as found.
    fn take(&mut self, job: &Job) {
        self.poses[..job.poses.len()].copy_from_slice(&job.poses);
        self.ends[..job.ends.len()].copy_from_slice(&job.ends);
        self.edges[..job.edges.len()].copy_from_slice(&job.edges);
        self.fixed[..job.fixed.len()].copy_from_slice(&job.fixed);
        let [limit, cost, gradient, damping] = job.settings;
        let [poses, edges, fixed] =
            [job.poses.len() / 12, job.ends.len() / 2, job.fixed.len()].map(count);
        self.answer = [limit, cost, gradient, damping, poses, edges, fixed, 0];
    }
}

/// A place or a length as an answer holds it.
fn count(n: usize) -> u32 {
    u32::try_from(n).unwrap_or(u32::MAX)
}

fn check_read(
    random: &mut Random,
    bytes: &[u8],
    lengths: Lengths,
    c: &mut Comparison,
) -> Option<String> {
    let before = Lent::stale(random, lengths);
    let mut after = before.clone();
    let status = after.call(&c.port, bytes);
    let (number, expected) = before.expected(bytes, lengths);
    c.tally.count_job_read(number);
    let agree = status == number && after == expected;
    (!agree).then(|| {
        format!("read: port {status} {after:?}, expected {number} {expected:?} of {bytes:?}")
    })
}

/// A job as the port takes it.
fn lent(job: &Job) -> port::Job<'_> {
    port::Job {
        settings: job.settings,
        poses: &job.poses,
        ends: &job.ends,
        edges: &job.edges,
        fixed: &job.fixed,
    }
}

fn stale_bytes(random: &mut Random, length: usize) -> Vec<u8> {
    (0..length).map(|_| random.next() as u8).collect()
}

fn check_write(
    random: &mut Random,
    job: &Job,
    length: usize,
    c: &mut Comparison,
) -> Option<String> {
    let before = stale_bytes(random, length);
    let (mut out, mut answer) = (before.clone(), [FOUND; 2]);
    let status = (c.port.write_job)(lent(job), &mut out, &mut answer);
    let (number, expected, said) = match not_written(job, length) {
        Some((number, place)) => (number, before, [number, count(place)]),
        None => {
            let bytes = write(job);
            let rest = &before[bytes.len()..];
            (0, [&bytes, rest].concat(), [count(bytes.len()), 0])
        }
    };
    c.tally.count_job_written(number);
    let agree = status == number && answer == said && out == expected;
    (!agree).then(|| {
        format!(
            "write: port {status} {answer:?} {out:?}, expected {number} {said:?} {expected:?} of {job:?}"
        )
    })
}

/// What the reader filled in, written by the port over such an output; none where it refuses.
fn written_again(port: &Exports, lent: &Lent, mut out: Vec<u8>) -> Option<Vec<u8>> {
    let [limit, cost, gradient, damping, poses, edges, fixed, _] = lent.answer;
    let [poses, edges, fixed] = [poses, edges, fixed].map(|n| n as usize);
    let job = port::Job {
        settings: [limit, cost, gradient, damping],
        poses: lent.poses.get(..12 * poses)?,
        ends: lent.ends.get(..2 * edges)?,
        edges: lent.edges.get(..8 * edges)?,
        fixed: lent.fixed.get(..fixed)?,
    };
    let status = (port.write_job)(job, &mut out, &mut [FOUND; 2]);
    (status == 0).then_some(out)
}

/// What the port reads, the port writes again as the same bytes.
fn check_round(
    port: &Exports,
    random: &mut Random,
    bytes: &[u8],
    lengths: Lengths,
) -> Option<String> {
    let mut lent = Lent::stale(random, lengths);
    let status = lent.call(port, bytes);
    let again = written_again(port, &lent, stale_bytes(random, bytes.len()));
    let same = status == 0 && again.as_deref() == Some(bytes);
    (!same).then(|| format!("read and written again: {again:?}, before {bytes:?}"))
}

/// A good job in rooms and outputs of every size, with numbers that fit and that do not.
pub fn check_job(random: &mut Random, c: &mut Comparison) -> Checked {
    let job = job(random);
    let bytes = write(&job);
    let exact = Lengths::exact(&job);
    let more = exact.more(random);
    let mut rooms = exact.one_too_small();
    rooms.extend([exact, more, exact.more(random), Lengths::none()]);
    let mut lines = Vec::new();
    for lengths in rooms {
        lines.extend(check_read(random, &bytes, lengths, c));
    }
    lines.extend(check_round(&c.port, random, &bytes, exact));
    lines.extend(check_round(&c.port, random, &bytes, more));
    let length = bytes.len();
    for output in [length, length + random.between(1, 99), length - 1, 0] {
        lines.extend(check_write(random, &job, output, c));
    }
    for unfit in unfit_jobs(random, &job) {
        let output = random.pick(&[0, length - 1, length, 2 * length + 100]);
        lines.extend(check_write(random, &unfit, output, c));
    }
    Checked {
        lines,
        input: format!("{job:?}"),
    }
}

/// The bytes in the job's exact room and in any other.
fn check_both(random: &mut Random, bytes: &[u8], job: &Job, c: &mut Comparison) -> Option<String> {
    let any = any_lengths(random, job);
    let exact = check_read(random, bytes, Lengths::exact(job), c);
    exact.or(check_read(random, bytes, any, c))
}

/// Every cut of a small job, and every cut with one byte behind it.
pub fn check_cuts(random: &mut Random, c: &mut Comparison) -> Checked {
    let job = small_job(random);
    let bytes = write(&job);
    let mut lines = Vec::new();
    for cut in 0..=bytes.len() {
        let mut short = bytes[..cut].to_vec();
        lines.extend(check_both(random, &short, &job, c));
        short.push(random.next() as u8);
        lines.extend(check_both(random, &short, &job, c));
    }
    Checked {
        lines,
        input: format!("{job:?}"),
    }
}

/// Every byte of every header of a small job changed to several values.
pub fn check_headers(random: &mut Random, c: &mut Comparison) -> Checked {
    let job = small_job(random);
    let mut lines = Vec::new();
    for bytes in changed_headers(&job) {
        lines.extend(check_both(random, &bytes, &job, c));
    }
    Checked {
        lines,
        input: format!("{job:?}"),
    }
}

/// A job damaged at random.
pub fn check_damage(random: &mut Random, c: &mut Comparison) -> Checked {
    let job = job(random);
    let bytes = damaged(random, &job);
    Checked {
        lines: check_both(random, &bytes, &job, c).into_iter().collect(),
        input: format!("{bytes:?} of {job:?}"),
    }
}
