//! Random scans for `pgo_close_loops`: rings carried round by dead reckoning with loops that close well, badly or
//! not at all, and scans at the limits.

use crate::case::Case;
use crate::faults::inject;
use crate::graphs::{any_gravity, blank, strayed, vary_settings};
use crate::places::{ring_places, Place};
use crate::random::Random;
use crate::samples::ahead;
use crate::scan::Scan;
use crate::scan_faults::{absent, faulty, other_ids, still, tipped, wild};

/// The kinds of scans, each with its maker.
pub const KINDS: [(&str, Maker); 10] = [
    ("closing", |r, _| closing(r)),
    ("closing-worse", |r, _| worse(r)),
    ("closing-short", |r, _| short(r)),
    ("closing-settled", |r, _| settled(r)),
    ("closing-ids", |r, _| other_ids(r)),
    ("closing-faults", faulty),
    ("closing-wild", |r, _| wild(r)),
    ("closing-tipped", |r, _| tipped(r)),
    ("closing-still", |r, _| still(r)),
    ("closing-large", large),
];

/// A scan by the case's index.
pub type Maker = fn(&mut Random, usize) -> Scan;

/// Where the views truly are, and where dead reckoning puts them.
pub(crate) struct Walk {
    truth: Vec<Place>,
    reckoned: Vec<Place>,
}

impl Walk {
    pub(crate) fn reckoned(&self) -> &[Place] {
        &self.reckoned
    }
}

fn between(places: &[Place], from: usize, to: usize) -> Place {
    places[to].after(places[from].inverse())
}

pub(crate) fn walk(random: &mut Random, views: usize, drift: f64) -> Walk {
    let truth = ring_places(random, views);
    let mut reckoned = vec![truth[0]];
    for view in 1..views {
        let step = strayed(random, between(&truth, view - 1, view), drift, drift);
        reckoned.push(step.after(reckoned[view - 1]));
    }
    Walk { truth, reckoned }
}

/// A scan with ordinary settings and no loops.
pub(crate) fn bare(random: &mut Random, places: &[Place]) -> Scan {
    let mut id = random.below(1000) as u32;
    let mut scan = empty();
    for place in places {
        scan.ids.push(id);
        scan.poses.extend(place.numbers());
        id += random.between(1, 30) as u32;
    }
    scan.gravity = random.one_in(3).then(|| any_gravity(random));
    scan.fit();
    scan
}

/// Nothing, with the settings of any other blank run.
fn empty() -> Scan {
    let Case {
        limit,
        cost_tolerance,
        gradient_tolerance,
        damping,
        ..
    } = blank(None);
    Scan {
        ids: Vec::new(),
        poses: Vec::new(),
        loops: Vec::new(),
        loop_poses: Vec::new(),
        weight: 0.5,
        gravity: None,
        limit,
        cost_tolerance,
        gradient_tolerance,
        damping,
        work32: 0,
        work64: 0,
        original: 0,
        out: 0,
    }
}

/// Views one ahead of each other, loops by id that measure 0.25 ahead, weight 0.5.
pub fn along_a_line(ids: &[u32], loops: &[(u32, u32)]) -> Scan {
    let views = 0..ids.len();
    let mut scan = Scan {
        ids: ids.to_vec(),
        poses: views.flat_map(|view| ahead(view as f64)).collect(),
        loops: loops.iter().flat_map(|(from, to)| [*from, *to]).collect(),
        loop_poses: ahead(0.25).repeat(loops.len()),
        ..empty()
    };
    scan.fit();
    scan
}

/// So many views round a ring that drifted, and loops across its join that know better: first view to last, and so on.
pub fn ring_scan(random: &mut Random, views: usize, loops: usize) -> Scan {
    let walk = walk(random, views, 0.002);
    let mut scan = bare(random, &walk.reckoned);
    scan.gravity = None;
    for from in 0..loops {
        let to = views - 1 - from;
        scan.push_loop(from, to, between(&walk.truth, from, to));
    }
    scan.fit();
    scan
}

impl Scan {
    /// Lends exactly the work and the outputs that the scan needs.
    pub fn fit(&mut self) {
        let free = self.ids.len().saturating_sub(1);
        let n = free * if self.gravity.is_some() { 4 } else { 6 };
        self.work32 = n * (n + 3);
        self.work64 = 24 * self.ids.len();
        self.original = self.poses.len();
        self.out = self.poses.len();
    }

    /// A loop from view to view.
    pub(crate) fn push_loop(&mut self, from: usize, to: usize, seen: Place) {
        self.loops.extend([self.ids[from], self.ids[to]]);
        self.loop_poses.extend(seen.numbers());
    }

    fn vary_settings(&mut self, random: &mut Random) {
        let mut case = blank(None);
        vary_settings(random, &mut case);
        self.limit = case.limit;
        self.cost_tolerance = case.cost_tolerance;
        self.gradient_tolerance = case.gradient_tolerance;
        self.damping = case.damping;
    }

    /// The fault of a row that asks gravity or one of the settings, as any run's.
    pub(crate) fn take_fault(&mut self, random: &mut Random, row: u32) {
        let mut case = blank(Some(any_gravity(random)));
        inject(random, &mut case, row);
        match row {
            1 => self.gravity = case.gravity,
            15 | 16 => self.limit = case.limit,
            17 => self.cost_tolerance = case.cost_tolerance,
            18 => self.gradient_tolerance = case.gradient_tolerance,
            _ => self.damping = case.damping,
        }
    }
}

/// Two different views.
fn pair(random: &mut Random, views: usize) -> (usize, usize) {
    let from = random.below(views);
    (from, (from + 1 + random.below(views - 1)) % views)
}

/// Loops as they are seen, with a small error.
pub(crate) fn see(random: &mut Random, scan: &mut Scan, walk: &Walk, loops: usize) {
    for _ in 0..loops {
        let (from, to) = pair(random, scan.ids.len());
        let seen = strayed(random, between(&walk.truth, from, to), 0.001, 0.001);
        scan.push_loop(from, to, seen);
    }
}

/// The last view and the first see each other.
fn see_the_join(random: &mut Random, scan: &mut Scan, walk: &Walk) {
    let last = scan.ids.len() - 1;
    let (from, to) = random.pick(&[(0, last), (last, 0)]);
    let seen = strayed(random, between(&walk.truth, from, to), 0.001, 0.001);
    scan.push_loop(from, to, seen);
}

/// An ordinary ring whose loops tell where the views truly are.
pub(crate) fn ring(random: &mut Random, drift: f64) -> (Scan, Walk) {
    let views = random.between(3, 12);
    let walk = walk(random, views, drift);
    let mut scan = bare(random, &walk.reckoned);
    scan.weight = random.pick(&[0.5, 0.5, 1.0, 3.0, 0.1, -1.0]);
    let loops = random.below(4);
    see(random, &mut scan, &walk, loops);
    (scan, walk)
}

/// More work than is needed, now and then.
fn lent(random: &mut Random, mut scan: Scan) -> Scan {
    if random.one_in(3) {
        scan.work32 += random.between(1, 17);
        scan.work64 += random.between(1, 17);
    }
    scan
}

fn closing(random: &mut Random) -> Scan {
    let drift = random.pick(&[0.01, 0.05, 0.2]);
    let (mut scan, walk) = ring(random, drift);
    see_the_join(random, &mut scan, &walk);
    if random.one_in(4) {
        scan.vary_settings(random);
    }
    lent(random, scan)
}

/// The last loop says what dead reckoning says, so that the others, which know better, make it worse.
fn worse(random: &mut Random) -> Scan {
    let (mut scan, walk) = ring(random, 0.1);
    see_the_join(random, &mut scan, &walk);
    let (from, to) = pair(random, scan.ids.len());
    scan.push_loop(from, to, between(&walk.reckoned, from, to));
    scan.limit = 60;
    lent(random, scan)
}

/// A limit so low that the run does not converge.
fn short(random: &mut Random) -> Scan {
    let (mut scan, walk) = ring(random, 0.2);
    see_the_join(random, &mut scan, &walk);
    scan.limit = random.pick(&[1, 1, 2]);
    scan.cost_tolerance = 0.0;
    scan.gradient_tolerance = random.pick(&[0.0, 1e-9]);
    scan.damping = random.pick(&[1e-3, 1.0, 1e9]);
    lent(random, scan)
}

/// No loops, or loops that say what dead reckoning says: nothing is left to gain.
fn settled(random: &mut Random) -> Scan {
    let views = random.between(2, 12);
    let walk = walk(random, views, 0.1);
    let mut scan = bare(random, &walk.reckoned);
    for _ in 0..random.pick(&[0, 0, 1, 3]) {
        let (from, to) = pair(random, views);
        scan.push_loop(from, to, between(&walk.reckoned, from, to));
    }
    scan.gradient_tolerance = random.pick(&[1e-3, 1e-3, 1e-6, 0.0]);
    lent(random, scan)
}

/// At the limits and past them: 1,024 edges, 64 free poses, 256 poses; now and then with an earlier row's fault.
fn large(random: &mut Random, index: usize) -> Scan {
    let (views, edges) = [
        (20, 1024),
        (20, 1025),
        (65, 70),
        (66, 70),
        (256, 1024),
        (257, 256),
        (257, 1025),
        (3, 5000),
        (3000, 3010),
    ][index % 9];
    let walk = walk(random, views, 0.001);
    let mut scan = bare(random, &walk.reckoned);
    see(random, &mut scan, &walk, edges + 1 - views);
    scan.limit = random.pick(&[1, 2]);
    if views > 66 {
        (scan.work32, scan.work64) = (random.below(20), random.below(20));
    }
    match random.below(12) {
        0 => scan.out -= 1,
        1 => scan.take_fault(random, 1),
        2 => absent(random, &mut scan),
        _ => {}
    }
    scan
}
