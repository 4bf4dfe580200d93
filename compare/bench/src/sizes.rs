//! Times assembly beside the original where the edges grow in number and the poses do not, on both manifolds.

use std::time::Duration;

use restated::case::Case;

use crate::graphs::{both_manifolds, ring_of_sixty_five};
use crate::timing::{medians, milliseconds, Assembly, Pair};

const EDGES: [usize; 4] = [125, 250, 500, 1000];

/// Prints a line for each manifold and number of edges; whether every Hessian and gradient has the original's bits.
pub fn bench(rounds: usize) -> bool {
    println!("assembly by number of edges (65 poses, 64 free)");
    let graphs = EDGES.map(ring_of_sixty_five).map(both_manifolds);
    let by_manifold = [0, 1].map(|i| graphs.each_ref().map(|both| &both[i]));
    let cases = by_manifold.as_flattened();
    let assemblies: Vec<_> = cases.iter().map(|case| Assembly::new(case)).collect();
    if !assemblies.iter().all(Assembly::agrees) {
        println!("  A HESSIAN OR A GRADIENT DIFFERS FROM THE ORIGINAL'S");
        return false;
    }
    for (case, pair) in cases.iter().zip(medians(rounds, &assemblies)) {
        line(case, pair);
    }
    true
}

fn line(case: &Case, pair: Pair) {
    let (dof, edges) = (case.dof(), case.edge_count());
    let text = |time: Duration| {
        let an_edge = 1e6 * time.as_secs_f64() / edges as f64;
        format!("{:>7.3} ms, {an_edge:>5.2} us an edge", milliseconds(time))
    };
    let [port, original] = [pair.port, pair.original].map(text);
    let ratio = pair.ratio();
    println!("  DOF {dof} {edges:>5} edges   port {port}   original {original}   port/original {ratio:.2}");
}
