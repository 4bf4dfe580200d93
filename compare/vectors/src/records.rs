//! Which cases go into the file, and how each is laid out.

use std::collections::BTreeSet;

use restated::assembly::assembled;
use restated::case::Case;
use restated::decide::{Decided, Event, List};
use restated::expect::{expected, expected_forced};
use restated::faults::faulty;
use restated::forced::forced;
use restated::graphs::{any_gravity, far, grid, ring};
use restated::layer_inputs::layer;
use restated::layers::{Layer, Outcome, System, NAMES};
use restated::pieces::islands;
use restated::random::Random;
use restated::samples::samples;
use restated::table::{refused, IN_THE_RUN, ORDER};
use restated::wild::wild;

use crate::format::{Body, File};

/// The one seed of the file.
const SEED: u64 = 20_261_029;

type Maker = fn(&mut Random, Option<[f64; 3]>) -> Case;
const MAKERS: [Maker; 4] = [ring, grid, far, wild];

const OF_EACH_KIND: u64 = 20;
const OF_EACH_ROW: u64 = 4;
/// Graphs of several pieces: so many that run, and so many that row 26 turns down.
const ISLANDS: usize = 6;
const ASSEMBLIES: u64 = 16;
const ISLAND_ASSEMBLIES: usize = 2;
const FORCED_LISTS: u64 = 40;
const RANDOM_LISTS: u64 = 60;
const OF_EACH_LAYER: u64 = 40;

/// The first small case of a maker that the index leads to.
fn small(salt: u64, index: u64, most: usize, make: impl Fn(&mut Random) -> Case) -> Case {
    (0..)
        .map(|try_| make(&mut Random::of_case(SEED, salt, index * 1000 + try_)))
        .find(|case| case.pose_count() <= most && case.edge_count() <= most + 2)
        .expect("the makers make small ones")
}

fn graph(salt: u64, index: u64, most: usize) -> Case {
    let make = MAKERS[(index % 4) as usize];
    let with_gravity = index / 4 % 2 == 1;
    small(salt, index, most, |random| {
        let gravity = with_gravity.then(|| any_gravity(random));
        make(random, gravity)
    })
}

/// The runs, each row and success among their answers.
pub fn runs(file: &mut File) -> Result<(), String> {
    let mut met = BTreeSet::new();
    for case in run_cases() {
        met.insert(run(file, &case)?);
    }
    let mut rows = [0].iter().chain(&ORDER).chain(&IN_THE_RUN);
    match rows.find(|row| !met.contains(row)) {
        None => Ok(()),
        Some(row) => Err(format!("no run of the list is answered by {row}")),
    }
}

fn run_cases() -> Vec<Case> {
    let samples = samples().into_iter().map(|(case, _)| case);
    let mut cases: Vec<Case> = samples.filter(|case| case.pose_count() <= 8).collect();
    for index in 0..8 * OF_EACH_KIND {
        let most = if index % 16 < 8 { 5 } else { 8 };
        cases.push(graph(1, index, most));
    }
    for (number, late) in [(21, false), (21, true), (22, false), (22, true)] {
        cases.extend(refused_in_the_run(number, late));
    }
    for (at, row) in ORDER.into_iter().enumerate() {
        cases.extend(faulty_cases(at, row));
    }
    for number in [0, 26] {
        cases.extend(pieces(7, ISLANDS, 6, number));
    }
    cases
}

/// Graphs of several pieces that the table answers by that number, with gravity and without.
fn pieces(salt: u64, count: usize, most: usize, number: u32) -> Vec<Case> {
    let case = |index: u64| {
        small(salt, index, most, |random| {
            let gravity = (index % 2 == 1).then(|| any_gravity(random));
            islands(random, gravity)
        })
    };
    let answered = |case: &Case| refused(case).map_or(0, |refusal| refusal.number) == number;
    (0..).map(case).filter(answered).take(count).collect()
}

/// Wild runs refused by that number, late ones after a trial.
fn refused_in_the_run(number: u32, late: bool) -> Vec<Case> {
    let refused = |case: &Case| {
        let e = expected(case);
        let mut events = e.list.iter().flat_map(|list| &list.events);
        let tried = events.any(|event| matches!(event, Event::Trial { .. }));
        e.answer[0] == number && tried == late
    };
    let cases = (0..).map(|index| small(6, index, 6, |random| wild(random, None)));
    cases.filter(refused).take(OF_EACH_ROW as usize).collect()
}

/// Faulty inputs of the row at that position of the order; fewer of 13, since more than 64 free
/// poses need room.
fn faulty_cases(at: usize, row: u32) -> Vec<Case> {
    let (count, most) = match row {
        13 => (2, 100),
        _ => (OF_EACH_ROW, 6),
    };
    let indices = (0..count).map(|index| index * ORDER.len() as u64 + at as u64);
    indices
        .map(|index| small(2, index, most, |random| faulty(random, at)))
        .collect()
}

/// Puts a run into the file and tells its number.
fn run(file: &mut File, case: &Case) -> Result<u32, String> {
    let e = expected(case);
    if let Some(doubt) = e.doubts.first() {
        return Err(format!("original and document 01 disagree: {doubt}"));
    }
    let mut body = Body::default();
    inputs(&mut body, case);
    body.u32s(&e.answer);
    body.f32s(&e.costs.unwrap_or([0.0; 2]));
    body.f64s(e.poses.as_deref().unwrap_or(&[]));
    file.push(1, body);
    Ok(e.answer[0])
}

fn inputs(body: &mut Body, c: &Case) {
    body.u32(c.dof() as u32);
    body.f64s(&c.gravity.unwrap_or([0.0; 3]));
    let counts = [c.poses.len(), c.ends.len(), c.edges.len(), c.fixed.len()];
    body.u32s(&counts.map(|n| n as u32));
    body.u32(c.limit);
    body.f32s(&[c.cost_tolerance, c.gradient_tolerance, c.damping]);
    body.u32s(&[c.work32, c.work64, c.out].map(|n| n as u32));
    body.f64s(&c.poses);
    body.u32s(&c.ends);
    body.f32s(&c.edges);
    body.u32s(&c.fixed);
}

pub fn assemblies(file: &mut File) {
    let mut cases: Vec<Case> = (0..ASSEMBLIES).map(|index| graph(3, index, 3)).collect();
    for number in [0, 26] {
        cases.extend(pieces(8, ISLAND_ASSEMBLIES, 4, number));
    }
    for mut case in cases {
        case.fit();
        let mut body = Body::default();
        inputs(&mut body, &case);
        match assembled(&case) {
            Ok(work) => {
                body.u32s(&[0, work.len() as u32]);
                body.f32s(&work);
            }
            Err(number) => body.u32s(&[number, 0]),
        }
        file.push(2, body);
    }
}

pub fn lists(file: &mut File) -> Result<(), String> {
    for index in 0..FORCED_LISTS {
        let (case, forced) = forced(&mut Random::of_case(SEED, 4, index));
        let e = expected_forced(&case, Some(&forced));
        if let Some(doubt) = e.doubts.first() {
            return Err(format!("hooked original and document 01 disagree: {doubt}"));
        }
        e.list.iter().for_each(|list| push_list(file, list));
    }
    for index in 0..RANDOM_LISTS {
        push_list(
            file,
            &restated::lists::list(&mut Random::of_case(SEED, 5, index)),
        );
    }
    Ok(())
}

fn push_list(file: &mut File, list: &List) {
    let (events, prices) = list.flat();
    let Decided {
        status,
        answer,
        costs,
    } = list.decided();
    let written = u32::from(answer.is_some()) + u32::from(costs.is_some());
    let mut body = Body::default();
    body.u32(list.limit);
    body.f32s(&[list.tolerance, list.cost, list.damping]);
    body.u32(events.len() as u32);
    body.u32s(&events);
    body.f32s(&prices);
    body.u32s(&[status, written]);
    body.u32s(&answer.unwrap_or([0; 8]));
    body.f32s(&costs.unwrap_or([0.0; 2]));
    file.push(3, body);
}

pub fn layers(file: &mut File) {
    for number in 0..NAMES.len() {
        let item = |index| {
            let salt = 16 + number as u64;
            let layer = layer(&mut Random::of_case(SEED, salt, index), number);
            item(&layer)
        };
        let items: Vec<Body> = (0..OF_EACH_LAYER).map(item).collect();
        file.push_items(16 + number as u32, &items);
    }
}

/// One layer's input and outcome.
fn item(layer: &Layer) -> Body {
    let mut body = Body::default();
    match layer {
        Layer::Narrow(x) | Layer::Sqrt64(x) => body.f64(*x),
        Layer::Sqrt32(x) => body.f32(*x),
        Layer::QuaternionOfMatrix(m) => body.f32s(m),
        Layer::Product(a, b) => body.f32s(&[a.as_slice(), b].concat()),
        Layer::Inverse(a) | Layer::Log(a) => body.f32s(a),
        Layer::Exp(d) => body.f32s(d),
        Layer::Retract(p, d) => {
            body.f64s(p);
            body.f32s(d);
        }
        Layer::RetractWithGravity(g, p, d) => {
            body.f64s(&[g.as_slice(), p].concat());
            body.f32s(d);
        }
        Layer::Residual(a, b, e) => {
            body.f64s(&[a.as_slice(), b].concat());
            body.f32s(e);
        }
        Layer::Solve(system) => solve_inputs(&mut body, system),
    }
    outcome(&mut body, layer);
    body
}

fn solve_inputs(body: &mut Body, system: &System) {
    body.u32(system.n as u32);
    body.f32(system.damping);
    body.f32s(&system.work);
}

fn outcome(body: &mut Body, layer: &Layer) {
    match layer.outcome() {
        Outcome::Number32(x) => body.f32(x),
        Outcome::Number64(x) => body.f64(x),
        Outcome::Written32(out) => {
            body.u32(0);
            body.f32s(&out);
        }
        Outcome::Written64(out) => {
            body.u32(0);
            body.f64s(&out);
        }
        Outcome::Work(status, work) => {
            body.u32(status);
            body.f32s(&work);
        }
        Outcome::Fails => fails(body, layer),
    }
}

/// Status 1 and outputs of +0.
fn fails(body: &mut Body, layer: &Layer) {
    body.u32(1);
    match layer {
        Layer::Exp(_) => body.f32s(&[0.0; 7]),
        Layer::Residual(..) => body.f32s(&[0.0; 6]),
        _ => body.f64s(&[0.0; 12]),
    }
}
