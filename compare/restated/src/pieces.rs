//! Random graphs of several pieces, with fixed poses in some of them and bridges of every weight
//! between: row 26 turns down about half of them, the rest runs; and the longest chains that the
//! limits allow.

use crate::case::Case;
use crate::faults::inject;
use crate::graphs::{case_of, closed_pairs, lend, vary_settings, CALM};
use crate::places::ring_places;
use crate::random::Random;
use crate::table::{MAX_EDGES, MAX_FREE, MAX_POSES};

/// The weights of bridges that count, down to the least, and of those that don't.
const JOINING: [f32; 8] = [
    1.0,
    1.0,
    -0.5,
    1e-30,
    f32::MIN_POSITIVE,
    -1e-40,
    f32::from_bits(1),
    -f32::from_bits(1),
];
const VOID: [f32; 2] = [0.0, -0.0];

/// A graph without its numbers: poses are counted, edges have two ends and a weight.
#[derive(Clone, Default)]
struct Plan {
    poses: usize,
    edges: Vec<(usize, usize, f32)>,
    fixed: Vec<usize>,
}

/// Two to four pieces, poses and edges in any order; now and then up to the limits, or with a fault
/// of a later row.
pub fn islands(random: &mut Random, gravity: Option<[f64; 3]>) -> Case {
    if random.one_in(25) {
        return longest_chain(random, gravity);
    }
    let mut plan = scattered(random);
    let mut names: Vec<usize> = (0..plan.poses).collect();
    random.shuffle(&mut names);
    plan.rename(&names);
    random.shuffle(&mut plan.edges);
    let mut case = plan.case(random, gravity);
    vary_settings(random, &mut case);
    lend(random, &mut case);
    if random.one_in(6) {
        let row = random.pick(&[14, 14, 14, 14, 15, 16, 17, 18, 19]);
        inject(random, &mut case, row);
    }
    case
}

fn scattered(random: &mut Random) -> Plan {
    let mut plan = Plan::default();
    let first = random.between(2, 5);
    plan.add_piece(random, first);
    plan.fixed.push(random.below(first));
    for _ in 0..random.between(1, 3) {
        let (before, size) = (plan.poses, random.between(1, 5));
        plan.add_piece(random, size);
        plan.tie(random, before);
    }
    if random.one_in(8) {
        let cut = random.below(plan.edges.len());
        plan.edges[cut].2 = random.pick(&VOID);
    }
    if random.one_in(4) {
        plan.repeat_edge(random);
    }
    if random.one_in(14) {
        plan.fixed.clear();
    }
    if random.one_in(3) {
        plan.add_bystanders(random);
    }
    plan
}

impl Plan {
    fn join(&mut self, a: usize, b: usize, weight: f32) {
        self.edges.push((a, b, weight));
    }

    /// A ring, a line or a star.
    fn add_piece(&mut self, random: &mut Random, size: usize) {
        let pairs: Vec<_> = match random.below(3) {
            0 => closed_pairs(size),
            1 => (1..size).map(|i| (i - 1, i)).collect(),
            _ => (1..size).map(|i| (0, i)).collect(),
        };
        let first = self.poses;
        self.poses += size;
        for (a, b) in pairs {
            let weight = random.pick(&[1.0, 1.0, -1.0, 0.3, 2.5]);
            self.join(first + a, first + b, weight);
        }
    }

    /// Gives the piece that begins at `first` a fixed pose, a bridge to an earlier one, or neither.
    fn tie(&mut self, random: &mut Random, first: usize) {
        let own = random.between(first, self.poses - 1);
        let other = random.below(first);
        match random.below(16) {
            0..=4 => self.fixed.push(own),
            5..=9 => self.join(other, own, random.pick(&JOINING)),
            10 => {
                self.join(self.poses, random.pick(&self.fixed), 1.0);
                self.add_post(random, own);
            }
            11 | 12 => self.add_post(random, own),
            13 | 14 => self.join(other, own, random.pick(&VOID)),
            _ => {}
        }
    }

    /// A fixed pose of its own, joined to `pose` by a weight of any kind.
    fn add_post(&mut self, random: &mut Random, pose: usize) {
        let weight = match random.below(3) {
            0 => random.pick(&VOID),
            _ => random.pick(&JOINING),
        };
        self.join(self.poses, pose, weight);
        self.fixed.push(self.poses);
        self.poses += 1;
    }

    /// An edge once more, with another weight.
    fn repeat_edge(&mut self, random: &mut Random) {
        let (a, b, _) = random.pick(&self.edges);
        let weight = random.pick(&[1.0, 0.0, -0.0, f32::from_bits(1)]);
        self.join(a, b, weight);
    }

    /// Poses that no edge names, fixed or not, and fixed poses given again.
    fn add_bystanders(&mut self, random: &mut Random) {
        for _ in 0..random.between(1, 2) {
            if random.one_in(2) {
                self.fixed.push(self.poses);
            }
            self.poses += 1;
        }
        self.fixed.extend_from_within(..);
        random.shuffle(&mut self.fixed);
    }

    fn rename(&mut self, names: &[usize]) {
        for (a, b, _) in &mut self.edges {
            (*a, *b) = (names[*a], names[*b]);
        }
        for pose in &mut self.fixed {
            *pose = names[*pose];
        }
    }

    /// With places along a ring and measurements to suit; either end of an edge may come first.
    fn case(&self, random: &mut Random, gravity: Option<[f64; 3]>) -> Case {
        let places = ring_places(random, self.poses);
        let pairs: Vec<_> = self.edges.iter().map(|(a, b, _)| (*a, *b)).collect();
        let mut case = case_of(random, gravity, &places, &pairs, CALM);
        for (numbers, edge) in case.edges.chunks_exact_mut(8).zip(&self.edges) {
            numbers[7] = edge.2;
        }
        case.fixed = self.fixed.iter().map(|pose| *pose as u32).collect();
        case.fit();
        case
    }
}

/// Free poses one behind the other, and a fixed one at the end.
fn chain(free: usize) -> Plan {
    Plan {
        poses: free + 1,
        edges: (0..free).map(|i| (i, i + 1, 1.0)).collect(),
        fixed: vec![free],
    }
}

/// A chain at all limits at once, 64 free of 256 poses and 1,024 edges, with the weight of the edge
/// to its fixed end.
pub fn full_chain(random: &mut Random, weight: f32) -> Case {
    let mut plan = chain(MAX_FREE);
    plan.edges[MAX_FREE - 1].2 = weight;
    fill_up(random, &mut plan, MAX_FREE);
    let mut case = plan.case(random, None);
    case.limit = 1;
    case
}

/// A chain of 64 free poses, or of 65, cut at one edge or at none, with poses and edges rising,
/// falling or in any order; often among as many fixed poses and idle edges as the limits allow.
fn longest_chain(random: &mut Random, gravity: Option<[f64; 3]>) -> Case {
    let free = MAX_FREE + usize::from(random.one_in(4));
    let mut plan = chain(free);
    if random.one_in(2) {
        let cut = random.below(free);
        plan.edges[cut].2 = random.pick(&VOID);
    }
    in_order(random, &mut plan.edges);
    if random.one_in(2) {
        fill_up(random, &mut plan, free);
    }
    let mut names: Vec<usize> = (0..plan.poses).collect();
    in_order(random, &mut names);
    plan.rename(&names);
    let mut case = plan.case(random, gravity);
    case.limit = 1;
    case
}

/// As it is, turned round, or in any order.
fn in_order<T>(random: &mut Random, list: &mut [T]) {
    match random.below(3) {
        0 => {}
        1 => list.reverse(),
        _ => random.shuffle(list),
    }
}

/// Fixed poses joined to each other, and edges of weight 0 to them, up to the limits.
fn fill_up(random: &mut Random, plan: &mut Plan, free: usize) {
    plan.fixed.extend(plan.poses..MAX_POSES);
    plan.poses = MAX_POSES;
    let whole = plan.edges.len();
    while plan.edges.len() < MAX_EDGES {
        let a = random.between(free, MAX_POSES - 2);
        let b = random.between(a + 1, MAX_POSES - 1);
        let (c, d) = (random.below(free), random.between(free, MAX_POSES - 1));
        let edge = random.pick(&[(a, b, 1.0), (a, b, 1.0), (c, d, 0.0), (c, d, -0.0)]);
        plan.edges.push(edge);
    }
    if random.one_in(2) {
        plan.edges.rotate_left(whole);
    }
}

#[cfg(test)]
mod tests {
    use super::*;
    use crate::expect::expected;
    use crate::graphs::any_gravity;

    #[test]
    fn about_half_is_turned_down_and_the_rest_runs() {
        let (mut met, mut places) = ([0; 27], [0; 256]);
        let count = 400;
        for index in 0..count {
            let mut random = Random::of_case(5, 26, index);
            let gravity = random.one_in(2).then(|| any_gravity(&mut random));
            let case = islands(&mut random, gravity);
            let e = expected(&case);
            assert!(e.doubts.is_empty(), "{index}: {:?} {case:?}", e.doubts);
            met[e.answer[0] as usize] += 1;
            places[e.answer[1] as usize] += 1;
        }
        println!("{met:?}");
        let share = count * 2 / 5..count * 3 / 5;
        assert!(share.contains(&met[26]), "{met:?}");
        assert!(met[0] > count / 3 && met[13] > 0 && met[14] > 0, "{met:?}");
        let apart = places.iter().filter(|count| **count > 0).count();
        assert!(apart > 10, "{places:?}");
    }
}
