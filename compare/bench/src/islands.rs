//! Row 26's search, transcribed from the port's crate checks so that its renamings can be counted.

use restated::case::Case;

/// The label of a pose that is not free, and in the end of every pose with a path to a fixed one.
const NONE: u32 = u32::MAX;

pub struct Search {
    labels: [u32; 256],
    /// How many labels each renaming changed.
    pub renamed: Vec<usize>,
}

/// Free poses are labelled 0, 1, 2 in pose order.
fn blocks(case: &Case) -> [u32; 256] {
    let free = |x: &u32| case.ends.contains(x) && !case.fixed.contains(x);
    let mut labels = [NONE; 256];
    for (block, x) in (0..256).filter(free).enumerate() {
        labels[x as usize] = block as u32;
    }
    labels
}

impl Search {
    pub fn new(case: &Case) -> Self {
        let mut search = Self {
            labels: blocks(case),
            renamed: Vec::new(),
        };
        for (ends, edge) in case.ends.chunks_exact(2).zip(case.edges.chunks_exact(8)) {
            if edge[7] != 0.0 {
                search.join(ends[0] as usize, ends[1] as usize);
            }
        }
        search
    }

    fn join(&mut self, a: usize, b: usize) {
        let (p, q) = (self.labels[a], self.labels[b]);
        if p != q {
            self.relabel(p.min(q), p.max(q));
        }
    }

    fn relabel(&mut self, old: u32, new: u32) {
        let of_old = self.labels.iter_mut().filter(|label| **label == old);
        self.renamed.push(of_old.map(|label| *label = new).count());
    }
}

#[cfg(test)]
mod tests {
    use restated::random::Random;

    use super::*;
    use crate::graphs::{best_order, bystanders, worst_order, EDGES, FREE, POSES};
    use crate::timing::Whole;

    fn limits() -> [Case; 3] {
        [worst_order(), best_order(), bystanders()]
    }

    /// The same edges in another order, a part of them without weight.
    fn shuffled(random: &mut Random, case: &Case, weightless: f64) -> Case {
        let mut order: Vec<usize> = (0..EDGES).collect();
        random.shuffle(&mut order);
        let mut other = case.clone();
        for (k, from) in order.into_iter().enumerate() {
            other.ends[2 * k..][..2].copy_from_slice(&case.ends[2 * from..][..2]);
            other.edges[8 * k..][..8].copy_from_slice(&case.edges[8 * from..][..8]);
            if random.unit() < weightless {
                other.edges[8 * k + 7] = random.pick(&[0.0, -0.0]);
            }
        }
        other
    }

    #[test]
    fn graphs_are_at_the_limits() {
        for case in limits() {
            let sizes = (case.pose_count(), case.edge_count(), case.free_count());
            assert_eq!(sizes, (POSES, EDGES, FREE));
            assert_eq!(case.fixed.len(), POSES - FREE);
        }
    }

    #[test]
    fn renamings_are_as_many_in_any_order_and_largest_in_the_worst() {
        let all: Vec<usize> = (1..=FREE).collect();
        assert_eq!(Search::new(&worst_order()).renamed, all);
        assert_eq!(Search::new(&best_order()).renamed, [1; FREE]);
        assert_eq!(Search::new(&bystanders()).renamed, [1; FREE]);
        let mut random = Random::of_case(5, 0, 0);
        for case in limits().iter().cycle().take(300) {
            let renamed = Search::new(&shuffled(&mut random, case, 0.0)).renamed;
            assert_eq!(renamed.len(), FREE);
            assert!(renamed.iter().zip(&all).all(|(n, most)| n <= most));
        }
    }

    /// The limit 0 is refused by 15, after the search.
    #[test]
    fn search_finds_the_pose_that_the_port_finds() {
        let mut random = Random::of_case(5, 1, 0);
        let (mut refused, mut passed) = (0, 0);
        for case in limits().iter().cycle().take(300) {
            let weightless = random.pick(&[0.0, 0.001, 0.5, 0.9, 0.95, 0.98, 0.99]);
            let case = shuffled(&mut random, case, weightless);
            let (number, answer) = Whole::new(&case).answer_with(&case.fixed, 0);
            let labels = Search::new(&case).labels;
            match labels.iter().position(|label| *label != NONE) {
                Some(pose) => {
                    assert_eq!((number, answer[1]), (26, pose as u32));
                    refused += 1;
                }
                None => {
                    assert_eq!(number, 15);
                    passed += 1;
                }
            }
        }
        assert!(refused > 50 && passed > 50, "{refused} {passed}");
    }
}
