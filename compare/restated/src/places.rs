//! True places of a random graph, in f64: along a ring or over a grid.

use kornia_algebra::{Quaternion, Vec3F64};

use crate::case::vector;
use crate::random::Random;

/// A pose in f64 by quaternion and translation.
#[derive(Copy, Clone)]
pub struct Place {
    pub q: Quaternion,
    pub t: Vec3F64,
}

impl Place {
    pub fn origin() -> Self {
        Self::turned([0.0; 3], [0.0; 3])
    }

    pub fn turned(omega: [f64; 3], t: [f64; 3]) -> Self {
        let q = Quaternion::exp(vector(&omega)).expect("generated turns are small");
        Self { q, t: vector(&t) }
    }

    pub fn after(self, b: Self) -> Self {
        Self {
            q: self.q.product(b.q),
            t: self.q.matrix() * b.t + self.t,
        }
    }

    pub fn inverse(self) -> Self {
        let q = self.q.conjugate();
        Self {
            q,
            t: -(q.matrix() * self.t),
        }
    }

    pub fn numbers(self) -> [f64; 12] {
        let m = self.q.matrix();
        let (a, b, c, t) = (m.x_axis, m.y_axis, m.z_axis, self.t);
        [a.x, a.y, a.z, b.x, b.y, b.z, c.x, c.y, c.z, t.x, t.y, t.z]
    }

    /// As a measurement: quaternion and translation narrowed.
    pub fn measured(self) -> [f32; 7] {
        let (v, t) = (self.q.v, self.t);
        [v.x, v.y, v.z, self.q.w, t.x, t.y, t.z].map(|x| x as f32)
    }
}

/// Places along a closed ring of `n` views.
pub fn ring_places(random: &mut Random, n: usize) -> Vec<Place> {
    let turn = 2.0 * std::f64::consts::PI / n as f64;
    let mut places = vec![Place::origin()];
    while places.len() < n {
        let tilt = random.span3(0.05);
        let step = Place::turned(
            [tilt[0], tilt[1], turn],
            [1.0, random.span(0.1), random.span(0.1)],
        );
        places.push(step.after(places[places.len() - 1]));
    }
    places
}

pub fn grid_places(random: &mut Random, wide: usize, high: usize) -> Vec<Place> {
    let mut places = Vec::new();
    for row in 0..high {
        for column in 0..wide {
            let shift = [column as f64, row as f64, random.span(0.3)];
            places.push(Place::turned(random.span3(0.4), shift));
        }
    }
    places
}
