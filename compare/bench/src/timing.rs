//! Things timed on both sides, in turn, and the medians: assembly, solve and whole run, each on its case's manifold.

use std::cell::RefCell;
use std::hint::black_box;
use std::time::{Duration, Instant};

use restated::assembly::laid_out;
use restated::case::{Case, Owned};
use restated::expect::flat;
use restated::{all_same32, all_same64};

/// What is timed beside the original lasts at least so long, by as many calls as that takes.
const LEAST: Duration = Duration::from_millis(5);

pub struct Pair {
    pub port: Duration,
    pub original: Duration,
}

impl Pair {
    pub fn ratio(&self) -> f64 {
        self.port.as_secs_f64() / self.original.as_secs_f64()
    }
}

pub trait Both {
    fn port(&self);
    fn original(&self);
}

pub fn milliseconds(time: Duration) -> f64 {
    time.as_secs_f64() * 1e3
}

pub fn timed(work: impl FnOnce()) -> Duration {
    let start = Instant::now();
    work();
    start.elapsed()
}

pub fn median<T: Copy + PartialOrd>(times: &[T]) -> T {
    let mut sorted = times.to_vec();
    sorted.sort_by(|a, b| a.partial_cmp(b).expect("no time is a NaN"));
    sorted[sorted.len() / 2]
}

/// One run of each to warm up, then one in every so many turns as it comes with, the way through them changing; the times
/// of each.
pub fn in_turn(turns: usize, works: &[(usize, impl Fn())]) -> Vec<Vec<Duration>> {
    works.iter().for_each(|(_, work)| work());
    let mut times = vec![Vec::new(); works.len()];
    let mut way: Vec<usize> = (0..works.len()).collect();
    for turn in 0..turns {
        for &i in &way {
            let (every, work) = &works[i];
            if turn % every == 0 {
                times[i].push(timed(work));
            }
        }
        way.reverse();
    }
    times
}

/// One side's calls, a power of two of them, that last `LEAST` together.
struct Sample<'a, T> {
    thing: &'a T,
    side: fn(&T),
    calls: u32,
}

impl<'a, T> Sample<'a, T> {
    fn new(thing: &'a T, side: fn(&T)) -> Self {
        let calls = 1;
        let mut sample = Self { thing, side, calls };
        while timed(|| sample.run()) < LEAST {
            sample.calls *= 2;
        }
        sample
    }

    fn run(&self) {
        (0..self.calls).for_each(|_| (self.side)(self.thing));
    }
}

/// What a call of each thing takes on either side, by the median of the samples; those of all are taken in turn.
pub fn medians<T: Both>(rounds: usize, things: &[T]) -> Vec<Pair> {
    let both = |thing| [T::port, T::original].map(|side| Sample::new(thing, side));
    let samples: Vec<_> = things.iter().flat_map(both).collect();
    let works: Vec<_> = samples.iter().map(|sample| (1, || sample.run())).collect();
    let times = in_turn(rounds, &works);
    let a_call = |(sample, times): (&Sample<T>, &Vec<Duration>)| median(times) / sample.calls;
    let calls: Vec<_> = samples.iter().zip(&times).map(a_call).collect();
    let pair = |sides: &[Duration]| Pair {
        port: sides[0],
        original: sides[1],
    };
    calls.chunks_exact(2).map(pair).collect()
}

/// A case with its lent work, both forms made before any clock starts.
struct Prepared<'a> {
    case: &'a Case,
    owned: Owned,
    work32: RefCell<Vec<f32>>,
}

impl<'a> Prepared<'a> {
    fn new(case: &'a Case) -> Self {
        Self {
            case,
            owned: case.owned(),
            work32: RefCell::new(vec![0.0; case.work32]),
        }
    }

    fn assemble(&self) -> u32 {
        let inputs = port::Assembly {
            dof: self.case.dof() as u32,
            gravity: self.case.gravity.as_ref().unwrap_or(&[0.0; 3]),
            poses: &self.case.poses,
            ends: &self.case.ends,
            edges: &self.case.edges,
            fixed: &self.case.fixed,
        };
        port::assemble(inputs, &mut self.work32.borrow_mut())
    }

    fn system(&self) -> original::System {
        let blocks = original::blocks(self.owned.plain()).expect("the bench's graphs are good");
        let (poses, edges) = (&self.owned.poses, &self.owned.edges);
        let system = original::assemble(self.case.axis(), poses, edges, &blocks);
        system.expect("the bench's graphs assemble")
    }

    fn run(&self) -> Result<original::Finished, String> {
        original::optimize(self.case.axis(), self.owned.plain(), &self.case.params())
    }
}

pub struct Assembly<'a>(Prepared<'a>);

impl<'a> Assembly<'a> {
    pub fn new(case: &'a Case) -> Self {
        Self(Prepared::new(case))
    }

    /// The port's answer.
    pub fn answer(&self) -> u32 {
        self.0.assemble()
    }

    /// The port answers 0, and its Hessian and gradient are the original's to the bit.
    pub fn agrees(&self) -> bool {
        let system = self.0.system();
        let work = laid_out(self.0.case, system.blocks(), system.gradient());
        self.answer() == 0 && all_same32(&work, &self.0.work32.borrow())
    }
}

impl Both for Assembly<'_> {
    fn port(&self) {
        assert_eq!(black_box(self.answer()), 0);
    }

    fn original(&self) {
        black_box(self.0.system());
    }
}

pub struct Solve<'a> {
    prepared: Prepared<'a>,
    system: original::System,
}

impl<'a> Solve<'a> {
    pub fn new(case: &'a Case) -> Self {
        let prepared = Prepared::new(case);
        let system = prepared.system();
        assert_eq!(prepared.assemble(), 0);
        Self { prepared, system }
    }
}

impl Both for Solve<'_> {
    fn port(&self) {
        let (n, damping) = (
            self.prepared.case.unknowns() as u32,
            self.prepared.case.damping,
        );
        let status = port::solve(&mut self.prepared.work32.borrow_mut(), n, damping);
        assert_eq!(black_box(status), 0);
    }

    fn original(&self) {
        black_box(self.system.solve(self.prepared.case.damping)).expect("the system can be solved");
    }
}

pub struct Whole<'a> {
    prepared: Prepared<'a>,
    work64: RefCell<Vec<f64>>,
    out: RefCell<Vec<f64>>,
}

impl<'a> Whole<'a> {
    pub fn new(case: &'a Case) -> Self {
        Self {
            prepared: Prepared::new(case),
            work64: RefCell::new(vec![0.0; case.work64]),
            out: RefCell::new(vec![0.0; case.out]),
        }
    }

    /// The port's answer.
    pub fn answer(&self) -> (u32, [u32; 8]) {
        let case = self.prepared.case;
        self.answer_with(&case.fixed, case.limit)
    }

    /// The port's answer with other fixed poses and another limit.
    pub fn answer_with(&self, fixed: &[u32], limit: u32) -> (u32, [u32; 8]) {
        let case = self.prepared.case;
        let (mut answer, mut costs) = ([0; 8], [0.0; 2]);
        let inputs = port::Inputs {
            poses: &case.poses,
            ends: &case.ends,
            edges: &case.edges,
            fixed,
            limit,
            cost_tolerance: case.cost_tolerance,
            gradient_tolerance: case.gradient_tolerance,
            damping: case.damping,
        };
        let lent = port::Lent {
            work32: &mut self.prepared.work32.borrow_mut(),
            work64: &mut self.work64.borrow_mut(),
            out: &mut self.out.borrow_mut(),
            answer: &mut answer,
            costs: &mut costs,
        };
        let number = match case.gravity {
            None => port::optimize(inputs, lent),
            Some(gravity) => port::optimize_with_gravity(gravity, inputs, lent),
        };
        (number, answer)
    }
}

impl Whole<'_> {
    /// After `answer`: the poses written are the original's to the bit.
    pub fn agrees(&self) -> bool {
        match self.prepared.run() {
            Ok(run) => all_same64(&flat(&run.poses), &self.out.borrow()),
            Err(_) => false,
        }
    }
}

impl Both for Whole<'_> {
    fn port(&self) {
        black_box(self.answer());
    }

    fn original(&self) {
        let _ = black_box(self.prepared.run());
    }
}

#[cfg(test)]
mod tests {
    use std::cell::Cell;
    use std::thread::sleep;

    use super::*;
    use crate::graphs::{both_manifolds, ring_of_fifty};

    #[test]
    fn sides_agree_on_both_manifolds_and_a_difference_is_seen() {
        for case in &both_manifolds(ring_of_fifty()) {
            let (mut assembly, mut whole) = (Assembly::new(case), Whole::new(case));
            assert_eq!(whole.answer().0, 0);
            assert!(assembly.agrees() && whole.agrees());
            assembly.0.owned.poses.swap(1, 2);
            whole.prepared.owned.poses.swap(1, 2);
            assert!(!assembly.agrees() && !whole.agrees());
        }
    }

    #[test]
    fn calls_of_a_sample_double_until_they_last() {
        let last_is_long: fn(&Cell<u32>) = |count| {
            count.set(count.get() + 1);
            if count.get() == 1 + 2 + 4 {
                sleep(LEAST);
            }
        };
        assert_eq!(Sample::new(&Cell::new(0), last_is_long).calls, 4);
    }
}
