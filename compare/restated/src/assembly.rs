//! What assembly alone must give: the refusal's number, or the needed work in the layout of a solve's
//! (crates/solve/specs/Work.antt).

use std::collections::BTreeMap;

use original_hooked as rust;

use crate::case::Case;
use crate::table::refused_graph;

/// The number of rows 1 to 14, 26 or 21, or the needed work as it must be.
pub fn assembled(case: &Case) -> Result<Vec<f32>, u32> {
    if let Some(refusal) = refused_graph(case) {
        return Err(refusal.number);
    }
    let owned = case.owned();
    let blocks = rust::blocks(owned.hooked()).expect("what the table lets pass, the original does");
    let system = rust::assemble(case.axis(), &owned.poses, &owned.edges, &blocks);
    system
        .map(|system| laid_out(case, system.blocks(), system.gradient()))
        .map_err(|_| 21)
}

/// A system's blocks, by row and column, and its gradient in the needed work: H(i,j), j ≤ i, at j·n+i; the gradient at
/// n·n+n+i; the rest +0.
pub fn laid_out(
    case: &Case,
    blocks: &BTreeMap<(usize, usize), Vec<f32>>,
    gradient: &[f32],
) -> Vec<f32> {
    let (dof, n) = (case.dof(), case.unknowns());
    let mut work = vec![0.0; n * (n + 3)];
    for ((block_row, block_column), block) in blocks {
        for (at, value) in block.iter().enumerate() {
            let i = block_row * dof + at / dof;
            let j = block_column * dof + at % dof;
            if j <= i {
                work[j * n + i] = *value;
            }
        }
    }
    work[n * n + n..n * n + 2 * n].copy_from_slice(gradient);
    work
}
