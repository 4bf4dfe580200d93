//! The run's decisions from document 01, apart from its numerics: a machine that hears events one by one,
//! and the driver over a prepared list that `pgo_decide` is held against.

use crate::table::{refused_decisions, Refusal, MAX_DAMPING};

#[derive(Copy, Clone, Debug, PartialEq)]
pub enum Stop {
    Budget = 1,
    Gradient = 2,
    Step = 3,
    Cost = 4,
    Damping = 5,
}

#[derive(Copy, Clone, Debug, PartialEq)]
pub enum Ending {
    Stopped(Stop),
    Refused(Refusal),
}

#[derive(Copy, Clone, Debug, PartialEq)]
pub enum Event {
    AssemblyRefused { edge: u32 },
    GradientBelow,
    SolveFailed,
    StepSmall,
    Trial { cost: f32 },
    RetractionFailed,
    CostFailed,
}

#[derive(Copy, Clone, Debug)]
pub struct Machine {
    limit: u32,
    tolerance: f32,
    pub first_cost: f32,
    pub cost: f32,
    pub damping: f32,
    pub accepted: u32,
    pub rejected: u32,
    pub failed: u32,
    pub assembly_due: bool,
    pub ending: Option<Ending>,
}

pub const DAMPING_FLOOR: f32 = 1e-10;

impl Machine {
    pub fn start(limit: u32, tolerance: f32, cost: f32, damping: f32) -> Self {
        let mut machine = Self {
            limit,
            tolerance,
            first_cost: cost,
            cost,
            damping,
            accepted: 0,
            rejected: 0,
            failed: 0,
            assembly_due: true,
            ending: None,
        };
        machine.top();
        machine
    }

    pub fn iterations(&self) -> u32 {
        self.accepted + self.rejected
    }

    fn stop(&mut self, stop: Stop) {
        self.ending = Some(Ending::Stopped(stop));
    }

    fn refuse(&mut self, number: u32, place: u32) {
        self.ending = Some(Ending::Refused(Refusal { number, place }));
    }

    fn top(&mut self) {
        self.assembly_due = true;
        if self.iterations() >= self.limit {
            self.stop(Stop::Budget);
        }
    }

    /// Takes one event; those of an assembly are passed over where none is due.
    pub fn hear(&mut self, event: Event) {
        let due = self.assembly_due;
        match event {
            Event::AssemblyRefused { edge } if due => self.refuse(21, edge),
            Event::GradientBelow if due => self.stop(Stop::Gradient),
            Event::AssemblyRefused { .. } | Event::GradientBelow => {}
            Event::SolveFailed => self.solve_failed(),
            Event::StepSmall => self.stop(Stop::Step),
            Event::Trial { cost } if cost.is_finite() && cost < self.cost => self.accept(cost),
            Event::Trial { .. } | Event::RetractionFailed | Event::CostFailed => self.reject(),
        }
    }

    fn solve_failed(&mut self) {
        self.assembly_due = false;
        self.failed += 1;
        self.damping *= 10.0;
        if self.damping > MAX_DAMPING {
            self.refuse(22, 0);
        }
    }

    fn accept(&mut self, cost: f32) {
        let drop = relative_drop(self.cost, cost);
        self.accepted += 1;
        self.cost = cost;
        let lowered = self.damping / 10.0;
        self.damping = if lowered < DAMPING_FLOOR {
            DAMPING_FLOOR
        } else {
            lowered
        };
        if drop < self.tolerance {
            self.stop(Stop::Cost);
        } else {
            self.top();
        }
    }

    fn reject(&mut self) {
        self.assembly_due = false;
        self.rejected += 1;
        self.damping *= 10.0;
        if self.damping > MAX_DAMPING {
            self.stop(Stop::Damping);
        } else if self.iterations() >= self.limit {
            self.stop(Stop::Budget);
        }
    }

    /// The eight numbers of an answer that has ended.
    pub fn answer(&self) -> Option<[u32; 8]> {
        self.ending.map(|ending| match ending {
            Ending::Refused(refusal) => refusal_answer(refusal),
            Ending::Stopped(stop) => [
                0,
                0,
                self.iterations(),
                matches!(stop, Stop::Gradient | Stop::Step | Stop::Cost) as u32,
                self.accepted,
                self.rejected,
                self.failed,
                stop as u32,
            ],
        })
    }
}

/// As the Rust has it: a cost that is not above 0 is not divided by.
fn relative_drop(cost: f32, new: f32) -> f32 {
    if cost > 0.0 {
        (cost - new) / cost
    } else {
        cost - new
    }
}

pub fn refusal_answer(refusal: Refusal) -> [u32; 8] {
    [refusal.number, refusal.place, 0, 0, 0, 0, 0, 0]
}

/// A prepared list with its settings.
#[derive(Clone, Debug)]
pub struct List {
    pub limit: u32,
    pub tolerance: f32,
    pub cost: f32,
    pub damping: f32,
    pub events: Vec<Event>,
}

/// What comes back, and what is written; nothing written means that answer and costs stay as found.
#[derive(Clone, Debug, PartialEq)]
pub struct Decided {
    pub status: u32,
    pub answer: Option<[u32; 8]>,
    pub costs: Option<[f32; 2]>,
}

impl List {
    /// Each event's number and price; refusal 21 has place 0 here, so the edge is dropped.
    pub fn flat(&self) -> (Vec<u32>, Vec<f32>) {
        self.events.iter().map(|e| number_and_price(*e)).unzip()
    }

    pub fn decided(&self) -> Decided {
        if let Some(refusal) = refused_decisions(self.limit, self.tolerance, self.damping) {
            return Decided::refused(refusal);
        }
        let mut machine = Machine::start(self.limit, self.tolerance, self.cost, self.damping);
        for event in &self.events {
            if machine.ending.is_none() {
                machine.hear(*event);
            }
        }
        Decided::of(&machine)
    }
}

impl Decided {
    fn refused(refusal: Refusal) -> Self {
        Self {
            status: refusal.number,
            answer: Some(refusal_answer(Refusal {
                place: 0,
                ..refusal
            })),
            costs: None,
        }
    }

    fn of(machine: &Machine) -> Self {
        match machine.ending {
            Some(Ending::Refused(refusal)) => Self::refused(refusal),
            Some(Ending::Stopped(_)) => Self {
                status: 0,
                answer: machine.answer(),
                costs: Some([machine.first_cost, machine.cost]),
            },
            None => Self {
                status: 1,
                answer: None,
                costs: None,
            },
        }
    }
}

fn number_and_price(event: Event) -> (u32, f32) {
    match event {
        Event::AssemblyRefused { .. } => (0, 0.0),
        Event::GradientBelow => (1, 0.0),
        Event::SolveFailed => (2, 0.0),
        Event::StepSmall => (3, 0.0),
        Event::Trial { cost } => (4, cost),
        Event::RetractionFailed => (5, 0.0),
        Event::CostFailed => (6, 0.0),
    }
}

#[cfg(test)]
mod tests {
    use super::*;

    fn list(limit: u32, damping: f32, events: Vec<Event>) -> Decided {
        let (tolerance, cost) = (1e-6, 1.0);
        List {
            limit,
            tolerance,
            cost,
            damping,
            events,
        }
        .decided()
    }

    /// How many failed solves it takes until refusal 22, the one that passes 1e10 among them.
    fn raises(damping: f32) -> usize {
        (0..100)
            .find(|count| list(1, damping, vec![Event::SolveFailed; *count]).status == 22)
            .unwrap()
    }

    #[test]
    fn damping_samples_of_document_01() {
        assert_eq!(raises(1.0), 11);
        assert_eq!(raises(1e9), 2);
        assert_eq!(raises(1e10), 1);
        assert_eq!(raises(f32::from_bits(1)), 55);
        let mut machine = Machine::start(5, 0.0, 1.0, 1e-20);
        machine.hear(Event::Trial { cost: 0.5 });
        assert_eq!(machine.damping, 1e-10);
    }

    #[test]
    fn an_equal_cost_is_rejected_and_a_failed_solve_spends_nothing() {
        let events = vec![Event::SolveFailed, Event::Trial { cost: 1.0 }];
        assert_eq!(list(1, 1.0, events).answer, Some([0, 0, 1, 0, 0, 1, 1, 1]));
    }

    #[test]
    fn damping_is_named_before_the_budget() {
        let answer = list(1, 1e10, vec![Event::CostFailed]).answer;
        assert_eq!(answer, Some([0, 0, 1, 0, 0, 1, 0, 5]));
    }

    #[test]
    fn a_list_that_ends_first_writes_nothing() {
        let decided = list(3, 1.0, vec![Event::Trial { cost: 0.5 }]);
        assert_eq!((decided.status, decided.answer), (1, None));
    }

    #[test]
    fn events_of_an_assembly_that_is_not_due_are_passed_over() {
        let events = vec![
            Event::RetractionFailed,
            Event::GradientBelow,
            Event::AssemblyRefused { edge: 3 },
            Event::StepSmall,
        ];
        assert_eq!(list(9, 1.0, events).answer, Some([0, 0, 1, 1, 0, 1, 0, 3]));
    }
}
