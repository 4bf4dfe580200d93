//! The kinds of cases, how many of each an N asks for, and how one is checked.

use restated::case::Case;
use restated::faults::faulty;
use restated::forced::forced;
use restated::graphs::{any_gravity, far, grid, large, ring};
use restated::layers::NAMES;
use restated::limits::limits;
use restated::pieces::islands;
use restated::random::Random;
use restated::samples::samples;
use restated::scan_inputs::KINDS;
use restated::wild::wild;

use crate::assembly::check_assembly;
use crate::closing::check_closing;
use crate::comparison::Comparison;
use crate::decide::check_random;
use crate::jobs::{check_cuts, check_damage, check_headers, check_job};
use crate::layers::check_layer;
use crate::lengths::check_lengths;
use crate::runs::{check_forced, check_run};
use crate::tally::Checked;
use crate::texts::{check_texts, CASES};

pub struct Kind {
    pub name: &'static str,
    pub count: fn(usize) -> usize,
    /// The index is below the count.
    pub check: fn(&mut Random, usize, &mut Comparison) -> Checked,
}

const fn kind(
    name: &'static str,
    count: fn(usize) -> usize,
    check: fn(&mut Random, usize, &mut Comparison) -> Checked,
) -> Kind {
    Kind { name, count, check }
}

/// One kind for each layer: the layer's number is the const.
fn layered<const NUMBER: usize>(r: &mut Random, _: usize, c: &mut Comparison) -> Checked {
    check_layer(&c.port, r, NUMBER)
}

/// New kinds go last: a kind's place is part of its cases' seed.
pub fn kinds() -> Vec<Kind> {
    let mut list = run_kinds();
    list.extend(piece_kinds());
    list.extend(layer_kinds());
    list.push(kind("lengths", |_| 1, |_, _, c| check_lengths(&c.port)));
    list.push(kind(
        "large",
        |n| n / 20 + 1,
        |r, _, c| graph(r, c, large, false),
    ));
    list.push(kind(
        "gravity-large",
        |n| n / 20 + 1,
        |r, _, c| graph(r, c, large, true),
    ));
    list.extend(island_kinds());
    list.extend(job_kinds());
    list.extend(closing_kinds());
    list.push(kind("texts", |_| CASES, check_texts));
    list.push(kind("assembly-faulty", |n| n, faulty_assembly));
    list
}

fn run_kinds() -> Vec<Kind> {
    vec![
        kind("ring", |n| n, |r, _, c| graph(r, c, ring, false)),
        kind("grid", |n| n, |r, _, c| graph(r, c, grid, false)),
        kind("far", |n| n, |r, _, c| graph(r, c, far, false)),
        kind("wild", |n| n, |r, _, c| graph(r, c, wild, false)),
        kind("faulty", |n| n, fault),
        kind("gravity-ring", |n| n, |r, _, c| graph(r, c, ring, true)),
        kind("gravity-grid", |n| n, |r, _, c| graph(r, c, grid, true)),
        kind("gravity-far", |n| n, |r, _, c| graph(r, c, far, true)),
        kind("gravity-wild", |n| n, |r, _, c| graph(r, c, wild, true)),
        kind("samples", |_| samples().len(), sample),
        kind(
            "limits",
            |_| limits(&mut Random::of_case(1, 1, 1)).len(),
            limit,
        ),
    ]
}

fn island_kinds() -> Vec<Kind> {
    vec![
        kind("islands", |n| n, |r, _, c| graph(r, c, islands, false)),
        kind(
            "gravity-islands",
            |n| n,
            |r, _, c| graph(r, c, islands, true),
        ),
    ]
}

/// All cuts of a small job are one case, and all its changed headers too.
fn job_kinds() -> Vec<Kind> {
    vec![
        kind("jobs", |n| n, |r, _, c| check_job(r, c)),
        kind("job-cuts", |n| n, |r, _, c| check_cuts(r, c)),
        kind("job-headers", |n| n, |r, _, c| check_headers(r, c)),
        kind("job-damage", |n| 20 * n, |r, _, c| check_damage(r, c)),
    ]
}

/// One kind for each kind of scans: its number is the const.
fn scanned<const NUMBER: usize>(r: &mut Random, index: usize, c: &mut Comparison) -> Checked {
    check_closing(r, NUMBER, index, c)
}

/// The scans at the limits come last and are few.
fn closing_kinds() -> Vec<Kind> {
    let each: fn(usize) -> usize = |n| n;
    vec![
        kind(KINDS[0].0, each, scanned::<0>),
        kind(KINDS[1].0, each, scanned::<1>),
        kind(KINDS[2].0, each, scanned::<2>),
        kind(KINDS[3].0, each, scanned::<3>),
        kind(KINDS[4].0, each, scanned::<4>),
        kind(KINDS[5].0, each, scanned::<5>),
        kind(KINDS[6].0, each, scanned::<6>),
        kind(KINDS[7].0, each, scanned::<7>),
        kind(KINDS[8].0, each, scanned::<8>),
        kind(KINDS[9].0, |n| n / 20 + 1, scanned::<9>),
    ]
}

fn piece_kinds() -> Vec<Kind> {
    vec![
        kind("hooks", |n| n, hook),
        kind("decide", |n| 20 * n, |r, _, c| check_random(r, c)),
        kind("assembly", |n| n, assembly),
    ]
}

fn layer_kinds() -> Vec<Kind> {
    let many: fn(usize) -> usize = |n| 20 * n;
    vec![
        kind(NAMES[0], many, layered::<0>),
        kind(NAMES[1], many, layered::<1>),
        kind(NAMES[2], many, layered::<2>),
        kind(NAMES[3], many, layered::<3>),
        kind(NAMES[4], many, layered::<4>),
        kind(NAMES[5], many, layered::<5>),
        kind(NAMES[6], many, layered::<6>),
        kind(NAMES[7], many, layered::<7>),
        kind(NAMES[8], many, layered::<8>),
        kind(NAMES[9], many, layered::<9>),
        kind(NAMES[10], many, layered::<10>),
        kind(NAMES[11], many, layered::<11>),
    ]
}

fn fault(r: &mut Random, index: usize, c: &mut Comparison) -> Checked {
    let case = faulty(r, index);
    check_run(r, &case, c)
}

fn hook(r: &mut Random, _: usize, c: &mut Comparison) -> Checked {
    let (case, forced) = forced(r);
    check_forced(&case, &forced, c)
}

type Maker = fn(&mut Random, Option<[f64; 3]>) -> Case;

fn graph(r: &mut Random, c: &mut Comparison, make: Maker, gravity: bool) -> Checked {
    let gravity = gravity.then(|| any_gravity(r));
    let case = make(r, gravity);
    check_run(r, &case, c)
}

/// A sample of the documents, also against what the page itself says.
fn sample(r: &mut Random, index: usize, c: &mut Comparison) -> Checked {
    let (case, said) = samples().swap_remove(index);
    let mut checked = check_run(r, &case, c);
    let e = restated::expect::expected(&case);
    let differs = |said: Option<u32>, got: u32| said.is_some_and(|said| said != got);
    let cost = said.first_cost.map(f32::to_bits);
    if differs(said.number, e.answer[0])
        || differs(said.place, e.answer[1])
        || differs(said.iterations, e.answer[2])
        || differs(said.stop, e.answer[7])
        || cost.is_some_and(|cost| e.costs.is_none_or(|costs| costs[0].to_bits() != cost))
    {
        checked
            .lines
            .push(format!("the page says {said:?}, got {:?}", e.answer));
    }
    checked
}

fn limit(r: &mut Random, index: usize, c: &mut Comparison) -> Checked {
    let (case, number) = limits(&mut Random::of_case(1, 1, 1)).swap_remove(index);
    let mut checked = check_run(r, &case, c);
    let refused = restated::table::refused(&case).map_or(0, |refusal| refusal.number);
    if refused != number {
        checked
            .lines
            .push(format!("the limit asks {number}, the table says {refused}"));
    }
    checked
}

/// Graphs of every kind, faulty ones among them, for assembly alone.
fn assembly(r: &mut Random, index: usize, c: &mut Comparison) -> Checked {
    let gravity = r.one_in(2).then(|| any_gravity(r));
    let case = match r.below(6) {
        0 => ring(r, gravity),
        1 => grid(r, gravity),
        2 => far(r, gravity),
        3 => wild(r, gravity),
        4 => islands(r, gravity),
        _ => faulty(r, index),
    };
    check_assembly(r, case, c)
}

/// Every row that assembly alone asks, so often that each is met.
fn faulty_assembly(r: &mut Random, index: usize, c: &mut Comparison) -> Checked {
    let case = faulty(r, index);
    check_assembly(r, case, c)
}
