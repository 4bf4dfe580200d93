//! Scans that something is wrong with: ids that repeat or are missing, every row's fault, wild numbers, poses in
//! which gravity nearly vanishes, so that rounding tips it, and views that nearly stand still.

use crate::faults::{NOT_FINITE32, NOT_FINITE64};
use crate::graphs::strayed;
use crate::places::Place;
use crate::random::Random;
use crate::scan::{step_between, Scan};
use crate::scan_inputs::{bare, ring, see, walk};

/// The rows that a scan can meet before a run begins, in their order.
pub const SCAN_ROWS: [u32; 16] = [33, 34, 1, 2, 3, 6, 8, 9, 10, 13, 14, 15, 16, 17, 18, 19];

/// One loop names an id that no keyframe has.
pub(crate) fn absent(random: &mut Random, scan: &mut Scan) {
    if scan.loops.is_empty() {
        scan.loops = vec![0; 2];
        scan.loop_poses = Place::origin().numbers().to_vec();
    }
    let near = scan.ids[random.below(scan.ids.len())].wrapping_add(1);
    let unknown = random.pick(&[near, u32::MAX, 0, near.wrapping_sub(2)]);
    let at = random.below(scan.loops.len());
    scan.loops[at] = unknown;
}

/// Loop ends among the scan's own ids, whatever they are by now.
fn name_again(random: &mut Random, scan: &mut Scan) {
    for at in 0..scan.loops.len() {
        scan.loops[at] = random.pick(&scan.ids);
    }
}

/// Repeated ids, absent ones, loops from a keyframe to itself, no loops, fewer than two keyframes.
pub(crate) fn other_ids(random: &mut Random) -> Scan {
    let (mut scan, walk) = ring(random, 0.05);
    see(random, &mut scan, &walk, 2);
    let first = scan.ids[0];
    match random.below(8) {
        0 => scan.ids.fill(first),
        1 | 2 => repeat_ids(random, &mut scan),
        3 => absent(random, &mut scan),
        4 => scan.loops[1] = scan.loops[0],
        5 => {
            scan.loops.clear();
            scan.loop_poses.clear();
        }
        6 => fewer(random, &mut scan),
        _ => scan.ids.reverse(),
    }
    scan
}

/// A few ids stand again further on, and the loops name any of them.
fn repeat_ids(random: &mut Random, scan: &mut Scan) {
    for _ in 0..random.between(1, 3) {
        let from = random.pick(&scan.ids);
        let at = random.below(scan.ids.len());
        scan.ids[at] = from;
    }
    name_again(random, scan);
}

/// No keyframe or one, with loops or without.
fn fewer(random: &mut Random, scan: &mut Scan) {
    let keyframes = random.below(2);
    scan.ids.truncate(keyframes);
    scan.poses.truncate(12 * keyframes);
    if random.one_in(2) {
        scan.loops.clear();
        scan.loop_poses.clear();
    }
    scan.fit();
}

/// A good scan with the fault of the row that the index leads to, and often further faults.
pub(crate) fn faulty(random: &mut Random, index: usize) -> Scan {
    let (mut scan, walk) = ring(random, 0.05);
    see(random, &mut scan, &walk, 1);
    if random.one_in(3) {
        let first = random.pick(&SCAN_ROWS);
        inject_row(random, &mut scan, first);
    }
    inject_row(random, &mut scan, SCAN_ROWS[index % SCAN_ROWS.len()]);
    if random.one_in(3) {
        let more = random.pick(&SCAN_ROWS);
        inject_row(random, &mut scan, more);
    }
    scan
}

fn inject_row(random: &mut Random, scan: &mut Scan, row: u32) {
    match row {
        33 => unfit(random, scan),
        2 => scan.out = random.pick(&[0, scan.out + 1, scan.out + 12, scan.out / 2]),
        3 | 13 => enlarge(random, scan, row),
        34 | 6 | 8 | 9 | 10 => inject_numbers(random, scan, row),
        14 => match random.below(4) {
            0 => scan.work32 = scan.work32.saturating_sub(1),
            1 => scan.work64 = scan.work64.saturating_sub(1),
            2 => scan.work32 = 0,
            _ => scan.work64 = 0,
        },
        _ => scan.take_fault(random, row),
    }
}

/// One of row 33's lengths, by one or by a whole pose; or too few keyframes.
fn unfit(random: &mut Random, scan: &mut Scan) {
    let by = random.pick(&[1, 11, 12]);
    match random.below(9) {
        0 => scan.ids.push(7),
        1 => drop(scan.ids.pop()),
        2 => scan.poses.extend(vec![0.5; by]),
        3 => scan.poses.truncate(scan.poses.len().saturating_sub(by)),
        4 => scan.loops.push(scan.ids.first().copied().unwrap_or(0)),
        5 => scan.loop_poses.extend(vec![0.5; by]),
        6 => scan.loop_poses.clear(),
        7 => scan.original = random.pick(&[0, scan.original + 1, scan.original / 2]),
        _ => fewer(random, scan),
    }
}

/// More than 1,024 edges by repeated loops, or more keyframes than 65 or 256 along the same way.
fn enlarge(random: &mut Random, scan: &mut Scan, row: u32) {
    if row == 3 && random.one_in(2) {
        scan.loops = scan.loops.repeat(1025);
        scan.loop_poses = scan.loop_poses.repeat(1025);
        return;
    }
    let views = match row {
        3 => random.between(257, 260),
        _ => random.between(66, 80),
    };
    let gravity = scan.gravity;
    let walk = walk(random, views, 0.01);
    *scan = bare(random, walk.reckoned());
    scan.gravity = gravity;
    see(random, scan, &walk, 3);
}

fn inject_numbers(random: &mut Random, scan: &mut Scan, row: u32) {
    if scan.ids.is_empty() || scan.loops.len() < 2 || scan.poses.is_empty() {
        return;
    }
    match row {
        34 => absent(random, scan),
        6 => {
            let at = random.below(scan.poses.len());
            scan.poses[at] = random.pick(&NOT_FINITE64);
        }
        8 => scan.loops[1] = scan.loops[0],
        9 => scan.weight = random.pick(&NOT_FINITE32),
        _ if scan.loop_poses.is_empty() => {}
        _ => {
            let at = random.below(scan.loop_poses.len());
            scan.loop_poses[at] = random.pick(&[f64::NAN, f64::INFINITY, 1e300, -1e39]);
        }
    }
}

/// Numbers of any size in poses, loops and weight, and matrices that are far from rotations.
pub(crate) fn wild(random: &mut Random) -> Scan {
    let (mut scan, walk) = ring(random, 0.05);
    see(random, &mut scan, &walk, 1);
    let high = random.pick(&[20, 30, 60, 63, 100, 126, 128, 1000]);
    let weight_too = random.one_in(3);
    match random.below(11) {
        0 => strew(random, &mut scan.poses, &[9, 10, 11], |r| {
            r.scaled(high - 8, high)
        }),
        1 => strew(random, &mut scan.poses, &[0, 4, 5, 8], |r| {
            r.scaled(-high, high)
        }),
        2 => strew(random, &mut scan.loop_poses, &[9, 10, 11], |r| {
            r.scaled(high - 8, high)
        }),
        3 => strew(random, &mut scan.loop_poses, &[1, 3, 8], |r| {
            r.scaled(-high, high)
        }),
        4 => strew(random, &mut scan.poses, &ALL, |r| r.span(3.0)),
        5 => strew(random, &mut scan.poses, &[0, 1, 2, 3, 9], |r| {
            r.scaled(-1022, -1000) / 1e9
        }),
        6 => strew(random, &mut scan.loop_poses, &ALL, Random::wild64),
        7 => strew(random, &mut scan.poses, &ALL, Random::wild64),
        8 => exact_and_heavy(random, &mut scan),
        9 => long_last_loop(random, &mut scan),
        _ => scan.weight = random.scaled(high.min(120) - 8, high.min(127)) as f32,
    }
    if weight_too {
        let any = random.wild32();
        scan.weight = random.pick(&[any, any, 0.0, -0.0, f32::from_bits(1)]);
    }
    scan
}

/// Loops that say what the poses say, with a huge weight: the cost is small and the assembly overflows.
fn exact_and_heavy(random: &mut Random, scan: &mut Scan) {
    let (loops, places) = (
        scan.loops.chunks_exact(2),
        scan.loop_poses.chunks_exact_mut(12),
    );
    for (pair, seen) in loops.zip(places) {
        let [from, to] = [pair[0], pair[1]].map(|id| {
            let view = scan.ids.iter().position(|known| *known == id).unwrap_or(0);
            &scan.poses[12 * view..12 * view + 12]
        });
        seen.copy_from_slice(&step_between(from, to));
    }
    scan.weight = random.scaled(56, 68) as f32;
}

/// A last loop so long that it can be measured but not compared.
fn long_last_loop(random: &mut Random, scan: &mut Scan) {
    let last = scan.loop_poses.len() - 1 - random.below(3);
    scan.loop_poses[last] = random.scaled(122, 127);
    scan.weight = random.pick(&[1.0, 4.0, 100.0]);
}

const ALL: [usize; 12] = [0, 1, 2, 3, 4, 5, 6, 7, 8, 9, 10, 11];

/// Some of the poses get other numbers at some of the places.
fn strew(
    random: &mut Random,
    poses: &mut [f64],
    places: &[usize],
    mut number: impl FnMut(&mut Random) -> f64,
) {
    let (of_poses, of_places) = (random.pick(&[1, 2, 6]), random.pick(&[1, 3]));
    for pose in poses.chunks_exact_mut(12) {
        let hit = random.one_in(of_poses);
        for at in places.iter().filter(|_| hit) {
            if random.one_in(of_places) {
                pose[*at] = number(random);
            }
        }
    }
}

/// The last pose's matrix is nearly blind to gravity: what is left of it is of the size of the rounding, or
/// somewhat larger. Or the last pose or the fixed one sees nothing of it, or so little that its square vanishes:
/// the cosine is then no number, or far from 1 though nothing moved.
pub(crate) fn tipped(random: &mut Random) -> Scan {
    let (mut scan, walk) = ring(random, 0.1);
    see(random, &mut scan, &walk, 1);
    let last = scan.poses.len() - 12;
    if random.one_in(3) {
        scan.gravity = Some([0.0, 0.0, -9.81]);
        let blind = random.pick(&[0, last]) + 6;
        let seen = random.pick(&[0.0, 0.0, 1e-155, 2e-162]);
        scan.poses[blind..blind + 3].fill(seen);
    } else {
        let gravity = [1.0, random.span(2.0), random.span(2.0)];
        scan.gravity = Some(gravity);
        let left = 10f64.powi(-(random.between(11, 15) as i32));
        let seen = random.span3(left);
        leave_of_gravity(&mut scan.poses[last..last + 9], gravity, seen);
    }
    scan.fit();
    scan
}

/// Changes a matrix so that it turns unit gravity into this.
fn leave_of_gravity(matrix: &mut [f64], gravity: [f64; 3], seen: [f64; 3]) {
    let length = gravity.iter().map(|x| x * x).sum::<f64>().sqrt();
    let down = gravity.map(|x| x / length);
    for (row, seen) in seen.into_iter().enumerate() {
        let along: f64 = (0..3).map(|c| matrix[3 * c + row] * down[c]).sum();
        for (column, down) in down.into_iter().enumerate() {
            matrix[3 * column + row] += (seen - along) * down;
        }
    }
}

/// Views that hardly move from a place that is askew: the sums of a step nearly cancel, so that their order can be
/// seen past the narrowing. The measures tell it.
pub(crate) fn still(random: &mut Random) -> Scan {
    let place = Place::turned(random.span3(1.0), random.span3(3.0));
    let stir = 10f64.powi(-(random.between(7, 13) as i32));
    let views = random.between(2, 9);
    let places: Vec<Place> = (0..views)
        .map(|_| strayed(random, place, stir, stir))
        .collect();
    bare(random, &places)
}
