//! Document 01's run, stated over the original's own pieces (cost, assembly, solve, retraction): the decisions are
//! the machine's, the numbers the original's, and every event is kept.

use kornia_3d::pose::Pose3d;
use original_hooked as rust;

use crate::case::{Case, Owned};
use crate::decide::{Event, List, Machine};
use crate::table::Refusal;

const STEP_TOLERANCE: f32 = 1e-6;

/// What happened in a run that passed rows 1 to 19 and 26.
pub struct Told {
    /// The machine as it ended; none where the first cost can't be had.
    pub machine: Result<Machine, Refusal>,
    pub poses: Vec<Pose3d>,
    pub events: Vec<Event>,
    pub assemblies: usize,
    pub dampings: Vec<f32>,
    pub trials: Vec<rust::Trial>,
    /// Errors that document 01 says can't occur.
    pub impossible: Vec<String>,
}

struct Runner<'a> {
    case: &'a Case,
    owned: &'a Owned,
    blocks: &'a [Option<usize>],
    forced: rust::Forced,
    system: Option<rust::System>,
    trial: Vec<Pose3d>,
    told: Told,
}

/// The length of a list of numbers, in f64.
pub fn norm(values: &[f32]) -> f64 {
    let square = |x: &f32| f64::from(*x) * f64::from(*x);
    values.iter().map(square).fold(0.0, |sum, x| sum + x).sqrt()
}

/// The first edge at which a prefix of the edges fails; a longer prefix then fails too.
pub(crate) fn first_bad(edges: usize, fails: impl Fn(usize) -> bool) -> u32 {
    let (mut low, mut high) = (0, edges);
    while low + 1 < high {
        let middle = (low + high) / 2;
        if fails(middle) {
            high = middle;
        } else {
            low = middle;
        }
    }
    low as u32
}

pub fn run(case: &Case, owned: &Owned, blocks: &[Option<usize>], forced: &rust::Forced) -> Told {
    let mut runner = Runner {
        case,
        owned,
        blocks,
        forced: forced.clone(),
        system: None,
        trial: Vec::new(),
        told: empty(owned),
    };
    runner.told.machine = runner.play();
    runner.told
}

fn empty(owned: &Owned) -> Told {
    Told {
        machine: Err(Refusal {
            number: 20,
            place: 0,
        }),
        poses: owned.poses.clone(),
        events: Vec::new(),
        assemblies: 0,
        dampings: Vec::new(),
        trials: Vec::new(),
        impossible: Vec::new(),
    }
}

impl Runner<'_> {
    fn play(&mut self) -> Result<Machine, Refusal> {
        let c = self.case;
        let cost = self.first_cost()?;
        let mut machine = Machine::start(c.limit, c.cost_tolerance, cost, c.damping);
        while machine.ending.is_none() {
            let event = self.next_event(&machine);
            let accepted = machine.accepted;
            machine.hear(event);
            self.told.events.push(event);
            self.keep(event, &machine, machine.accepted > accepted);
        }
        Ok(machine)
    }

    fn first_cost(&self) -> Result<f32, Refusal> {
        let (poses, edges) = (&self.owned.poses, &self.owned.edges);
        rust::cost(poses, edges, self.blocks).map_err(|_| {
            let fails = |k: usize| rust::cost(poses, &edges[..k], self.blocks).is_err();
            Refusal {
                number: 20,
                place: first_bad(edges.len(), fails),
            }
        })
    }

    /// Keeps the record of a trial, and its poses where accepted.
    fn keep(&mut self, event: Event, machine: &Machine, accepted: bool) {
        let numerical_failure = matches!(event, Event::RetractionFailed | Event::CostFailed);
        if numerical_failure || matches!(event, Event::Trial { .. }) {
            self.told.trials.push(rust::Trial {
                damping: machine.damping,
                accepted,
                numerical_failure,
            });
        }
        if accepted {
            self.told.poses = std::mem::take(&mut self.trial);
        }
    }

    fn next_event(&mut self, machine: &Machine) -> Event {
        if machine.assembly_due {
            if let Some(event) = self.assemble() {
                return event;
            }
        }
        self.told.dampings.push(machine.damping);
        match self.solve(machine.damping) {
            None => Event::SolveFailed,
            Some(step) if norm(&step) < f64::from(STEP_TOLERANCE) => Event::StepSmall,
            Some(step) => self.try_step(&step),
        }
    }

    /// None where the system is there and is to be solved.
    fn assemble(&mut self) -> Option<Event> {
        let (axis, edges) = (self.case.axis(), &self.owned.edges);
        let poses = &self.told.poses;
        let assembled = |k: usize| rust::assemble(axis, poses, &edges[..k], self.blocks);
        match assembled(edges.len()) {
            Err(_) => Some(Event::AssemblyRefused {
                edge: first_bad(edges.len(), |k| assembled(k).is_err()),
            }),
            Ok(system) => {
                self.told.assemblies += 1;
                let below = norm(system.gradient()) < f64::from(self.case.gradient_tolerance);
                self.system = Some(system);
                below.then_some(Event::GradientBelow)
            }
        }
    }

    /// The step, with what the hooks force.
    fn solve(&mut self, damping: f32) -> Option<Vec<f32>> {
        if self.forced.factorization_failures > 0 {
            self.forced.factorization_failures -= 1;
            return None;
        }
        let system = self.system.as_ref().expect("assembled before");
        let step = match system.solve(damping) {
            Ok(step) => step,
            Err(text) => {
                self.note_impossible(text);
                return None;
            }
        };
        if self.forced.solve_breakdowns > 0 {
            self.forced.solve_breakdowns -= 1;
            return None;
        }
        Some(self.forced.step.take().unwrap_or(step))
    }

    fn note_impossible(&mut self, text: String) {
        if !text.starts_with("sparse Cholesky factorization failed") {
            self.told.impossible.push(text);
        }
    }

    fn try_step(&mut self, step: &[f32]) -> Event {
        match self.retracted(step) {
            None => Event::RetractionFailed,
            Some(poses) => {
                let cost = rust::cost(&poses, &self.owned.edges, self.blocks);
                self.trial = poses;
                match cost {
                    Ok(cost) => Event::Trial { cost },
                    Err(_) => Event::CostFailed,
                }
            }
        }
    }

    fn retracted(&self, step: &[f32]) -> Option<Vec<Pose3d>> {
        let poses = self.told.poses.iter().zip(self.blocks);
        poses
            .map(|(pose, block)| match block {
                None => Some(*pose),
                Some(block) => self.retract(pose, &step[block * self.case.dof()..]),
            })
            .collect()
    }

    fn retract(&self, pose: &Pose3d, step: &[f32]) -> Option<Pose3d> {
        match self.case.axis() {
            None => rust::retract(pose, step[..6].try_into().ok()?).ok(),
            Some(axis) => {
                let unit = rust::unit_gravity(axis).ok()?;
                rust::retract_with_gravity(unit, pose, step[..4].try_into().ok()?).ok()
            }
        }
    }
}

impl Told {
    /// The events as a prepared list, where the run came to have any.
    pub fn list(&self, case: &Case) -> Option<List> {
        let machine = self.machine.as_ref().ok()?;
        Some(List {
            limit: case.limit,
            tolerance: case.cost_tolerance,
            cost: machine.first_cost,
            damping: case.damping,
            events: self.events.clone(),
        })
    }
}
