//! One scan as `pgo_close_loops` takes it (document 02, Wish 2): rows 33 and 34, and the graph that is
//! built of it, written from the pages on flat numbers.

use crate::case::{se3, transform_numbers, Case};
use crate::table::Refusal;

/// Everything lent; of the work and the two outputs only the lengths.
#[derive(Clone, Debug)]
pub struct Scan {
    pub ids: Vec<u32>,
    pub poses: Vec<f64>,
    /// Candidate and query of each loop, by id.
    pub loops: Vec<u32>,
    /// The query seen from the candidate, twelve numbers a loop.
    pub loop_poses: Vec<f64>,
    pub weight: f32,
    pub gravity: Option<[f64; 3]>,
    pub limit: u32,
    pub cost_tolerance: f32,
    pub gradient_tolerance: f32,
    pub damping: f32,
    pub work32: usize,
    pub work64: usize,
    pub original: usize,
    pub out: usize,
}

/// A matrix's number in a pose's twelve: by columns.
const fn entry(row: usize, column: usize) -> usize {
    3 * column + row
}

/// later · earlier⁻¹: the inverse is (Rᵀ, −(Rᵀt)), the product (R_b R, (R_b t) + t_b), each sum (x+y)+z.
pub fn step_between(earlier: &[f64], later: &[f64]) -> [f64; 12] {
    let mut back = [0.0; 12];
    for row in 0..3 {
        for column in 0..3 {
            back[entry(row, column)] = earlier[entry(column, row)];
        }
    }
    let turned = |m: &[f64], row: usize, v: [f64; 3]| {
        (m[entry(row, 0)] * v[0] + m[entry(row, 1)] * v[1]) + m[entry(row, 2)] * v[2]
    };
    let shift = [earlier[9], earlier[10], earlier[11]];
    for row in 0..3 {
        back[9 + row] = -turned(&back, row, shift);
    }
    let mut step = [0.0; 12];
    for row in 0..3 {
        for column in 0..3 {
            let at = 3 * column;
            step[entry(row, column)] = turned(later, row, [back[at], back[at + 1], back[at + 2]]);
        }
        step[9 + row] = turned(later, row, [back[9], back[10], back[11]]) + later[9 + row];
    }
    step
}

impl Scan {
    /// Row 33's lengths: twelve numbers a keyframe and a loop, two ids a loop, room for the originals.
    pub fn lengths_fit(&self) -> bool {
        self.poses.len() == 12 * self.ids.len()
            && self.loops.len() % 2 == 0
            && self.loop_poses.len() == 6 * self.loops.len()
            && self.original == self.poses.len()
    }

    /// The node that an id means: the last of those that have it.
    pub fn node(&self, id: u32) -> Option<usize> {
        self.ids.iter().rposition(|known| *known == id)
    }

    pub fn loop_count(&self) -> usize {
        self.loops.len() / 2
    }

    /// Chain edges and loop edges together, of two keyframes and more.
    pub fn edge_count(&self) -> usize {
        self.ids.len() - 1 + self.loop_count()
    }

    /// Rows 33 and 34, before all of document 01's.
    pub fn refused(&self) -> Option<Refusal> {
        if self.ids.len() < 2 || !self.lengths_fit() {
            return Some(Refusal {
                number: 33,
                place: 0,
            });
        }
        let absent = |pair: &[u32]| pair.iter().any(|id| self.node(*id).is_none());
        let place = self.loops.chunks_exact(2).position(absent)?;
        Some(Refusal {
            number: 34,
            place: place as u32,
        })
    }

    /// The graph of a scan that rows 33 and 34 let pass: chain edges of weight 1, then the loops; pose 0 fixed.
    pub fn graph(&self) -> Case {
        let mut case = Case {
            gravity: self.gravity,
            poses: self.poses.clone(),
            ends: Vec::new(),
            edges: Vec::new(),
            fixed: vec![0],
            limit: self.limit,
            cost_tolerance: self.cost_tolerance,
            gradient_tolerance: self.gradient_tolerance,
            damping: self.damping,
            work32: self.work32,
            work64: self.work64,
            out: self.out,
        };
        let poses: Vec<&[f64]> = self.poses.chunks_exact(12).collect();
        for (k, pair) in poses.windows(2).enumerate() {
            push(&mut case, [k, k + 1], &step_between(pair[0], pair[1]), 1.0);
        }
        let loops = self.loops.chunks_exact(2);
        for (pair, measured) in loops.zip(self.loop_poses.chunks_exact(12)) {
            let [from, to] = [pair[0], pair[1]].map(|id| self.node(id).expect("row 34 passed"));
            push(&mut case, [from, to], measured, self.weight);
        }
        case
    }
}

/// One more edge, measured by a pose that is narrowed as `pose_to_se3` does.
fn push(case: &mut Case, ends: [usize; 2], measured: &[f64], weight: f32) {
    case.ends.extend(ends.map(|end| end as u32));
    case.edges.extend(transform_numbers(&se3(measured)));
    case.edges.push(weight);
}

#[cfg(test)]
mod tests {
    use super::*;
    use crate::samples::ahead;
    use crate::scan_inputs::along_a_line;

    fn told(scan: &Scan) -> (u32, u32) {
        scan.refused()
            .map_or((0, 0), |refusal| (refusal.number, refusal.place))
    }

    #[test]
    fn chain_edges_come_first_and_loops_follow_in_order() {
        let case = along_a_line(&[10, 20, 30], &[(30, 10), (10, 20)]).graph();
        assert_eq!(case.ends, [0, 1, 1, 2, 2, 0, 0, 1]);
        assert_eq!(case.edges[0..8], [0.0, 0.0, 0.0, 1.0, 1.0, 0.0, 0.0, 1.0]);
        assert_eq!(case.edges[8..16], case.edges[0..8]);
        let loop_edge = [0.0, 0.0, 0.0, 1.0, 0.25, 0.0, 0.0, 0.5];
        assert_eq!(case.edges[16..24], loop_edge);
        assert_eq!(case.edges[24..32], loop_edge);
        assert_eq!(case.fixed, [0]);
    }

    #[test]
    fn a_step_is_the_later_pose_after_the_earlier_ones_inverse() {
        let quarter = [0.0, 1.0, 0.0, -1.0, 0.0, 0.0, 0.0, 0.0, 1.0, 5.0, 7.0, 0.0];
        let step = step_between(&quarter, &ahead(2.0));
        let back = [0.0, -1.0, 0.0, 1.0, 0.0, 0.0, 0.0, 0.0, 1.0];
        assert_eq!(step[..9], back);
        assert_eq!(step[9..], [2.0 - 7.0, 5.0, 0.0]);
        let there = step_between(&ahead(2.0), &quarter);
        assert_eq!(there[..9], quarter[..9]);
        assert_eq!(there[9..], [5.0, 7.0 - 2.0, 0.0]);
    }

    #[test]
    fn of_equal_ids_the_last_is_meant() {
        let case = along_a_line(&[7, 8, 7, 9], &[(7, 9), (8, 7)]).graph();
        assert_eq!(case.ends[6..], [2, 3, 1, 2]);
    }

    #[test]
    fn fewer_than_two_keyframes_and_unfit_lengths_are_33() {
        assert_eq!(told(&along_a_line(&[], &[])), (33, 0));
        assert_eq!(told(&along_a_line(&[1], &[])), (33, 0));
        assert_eq!(told(&along_a_line(&[1, 2], &[])), (0, 0));
        let changes: [fn(&mut Scan); 7] = [
            |s| s.poses.truncate(23),
            |s| s.ids.push(4),
            |s| s.loops.push(1),
            |s| s.loop_poses.truncate(11),
            |s| s.loop_poses.clear(),
            |s| s.original += 1,
            |s| s.original = 0,
        ];
        for (i, change) in changes.iter().enumerate() {
            let mut scan = along_a_line(&[1, 2], &[(1, 2)]);
            change(&mut scan);
            assert_eq!(told(&scan), (33, 0), "{i}");
        }
        let mut output = along_a_line(&[1, 2], &[(1, 2)]);
        output.out = 0;
        assert_eq!(told(&output), (0, 0));
    }

    #[test]
    fn an_absent_id_is_34_at_its_loop() {
        assert_eq!(told(&along_a_line(&[1, 2], &[(1, 2), (2, 1)])), (0, 0));
        assert_eq!(told(&along_a_line(&[1, 2], &[(1, 2), (3, 1)])), (34, 1));
        assert_eq!(told(&along_a_line(&[1, 2], &[(1, 0), (3, 1)])), (34, 0));
        assert_eq!(told(&along_a_line(&[1], &[(3, 1)])), (33, 0));
    }
}
