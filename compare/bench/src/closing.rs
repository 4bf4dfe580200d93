//! Closing a scan's loops on both sides: a ring of fifty views that drifted, and loops across its join, with and without
//! gravity.

use std::cell::RefCell;
use std::hint::black_box;

use restated::all_same64;
use restated::closing::Held;
use restated::expect::flat;
use restated::random::Random;
use restated::scan::Scan;
use restated::scan_inputs::ring_scan;

use crate::timing::{medians, milliseconds, Both};

const VIEWS: usize = 50;
const LOOPS: usize = 7;

/// A scan with what is lent for it, both forms made before any clock starts.
struct Closing {
    scan: Scan,
    held: Held,
    lent: RefCell<Lent>,
}

struct Lent {
    work32: Vec<f32>,
    work64: Vec<f64>,
    original: Vec<f64>,
    out: Vec<f64>,
    answer: [u32; 9],
}

impl Closing {
    fn new(scan: Scan) -> Self {
        let lent = Lent {
            work32: vec![0.0; scan.work32],
            work64: vec![0.0; scan.work64],
            original: vec![0.0; scan.original],
            out: vec![0.0; scan.out],
            answer: [0; 9],
        };
        Self {
            held: Held::new(&scan, scan.loop_count()),
            lent: RefCell::new(lent),
            scan,
        }
    }

    fn close(&self) -> u32 {
        let scan = &self.scan;
        let inputs = port::Scan {
            ids: &scan.ids,
            poses: &scan.poses,
            loops: &scan.loops,
            loop_poses: &scan.loop_poses,
            weight: scan.weight,
            gravity: scan.gravity.as_ref().map_or(&[], |gravity| &gravity[..]),
            limit: scan.limit,
            cost_tolerance: scan.cost_tolerance,
            gradient_tolerance: scan.gradient_tolerance,
            damping: scan.damping,
        };
        let mut lent = self.lent.borrow_mut();
        let lent = &mut *lent;
        let run = port::Lent {
            work32: &mut lent.work32,
            work64: &mut lent.work64,
            out: &mut lent.out,
            answer: &mut lent.answer,
            costs: &mut [0.0; 2],
        };
        port::close_loops(inputs, run, &mut lent.original, &mut [0.0; 4])
    }

    /// Usable, iterations and poses as the original's.
    fn agrees(&self) -> bool {
        let status = self.close();
        let lent = self.lent.borrow();
        self.held.closed().is_ok_and(|original| {
            status == 0
                && lent.answer[2] as usize == original.iterations
                && (lent.answer[8] == 1) == original.usable
                && all_same64(&lent.out, &flat(&original.optimized_poses))
        })
    }
}

impl Both for Closing {
    fn port(&self) {
        assert_eq!(black_box(self.close()), 0);
    }

    fn original(&self) {
        assert!(black_box(self.held.closed()).is_ok());
    }
}

/// Prints what closing takes on either side; whether the answers agree.
pub fn bench(rounds: usize) -> bool {
    let plain = ring_scan(&mut Random::of_case(50, 1, 0), VIEWS, LOOPS);
    let mut with_gravity = plain.clone();
    with_gravity.gravity = Some([0.0, 0.0, -9.81]);
    with_gravity.fit();
    let mut agreed = true;
    for (name, scan) in [("closing", plain), ("closing, gravity", with_gravity)] {
        let thing = Closing::new(scan);
        let same = thing.agrees();
        let answer = thing.lent.borrow().answer;
        let pair = &medians(rounds, &[thing])[0];
        let [port, original] = [pair.port, pair.original].map(milliseconds);
        let (ratio, usable) = (pair.ratio(), ["no", "yes"][answer[8] as usize]);
        let said = if same {
            "as the original's"
        } else {
            "NOT AS THE ORIGINAL'S"
        };
        println!(
            "{name}: {VIEWS} views, {LOOPS} loops, iterations {}, usable {usable}, poses {said}",
            answer[2]
        );
        println!("  {:<10} port {port:>10.3} ms   original {original:>10.3} ms   port/original {ratio:.2}", "scan");
        agreed &= same;
    }
    agreed
}
