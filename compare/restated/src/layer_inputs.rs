//! Random inputs for each layer: ordinary ones, those at a border, and any numbers at all.

use kornia_algebra::{Quaternion, Vec3F64};

use crate::case::{se3, transform_numbers, vector};
use crate::layers::{Layer, System};
use crate::random::Random;

/// A random input of the layer with that number in `NAMES`.
pub fn layer(random: &mut Random, number: usize) -> Layer {
    match number {
        0 => Layer::Narrow(number_to_narrow(random)),
        1 => Layer::Sqrt32(number_to_root32(random)),
        2 => Layer::Sqrt64(number_to_root64(random)),
        3 => Layer::QuaternionOfMatrix(matrix(random)),
        4..=7 if random.one_in(2) => cancelling(random, number),
        4 => Layer::Product(motion(random), motion(random)),
        5 => Layer::Inverse(motion(random)),
        6 => Layer::Exp(delta(random)),
        7 => Layer::Log(motion(random)),
        8 => Layer::Retract(any_pose(random), delta(random)),
        9 => {
            let d = delta(random);
            Layer::RetractWithGravity(axis(random), any_pose(random), [d[0], d[1], d[2], d[3]])
        }
        10 => residual_layer(random),
        _ => Layer::Solve(system(random)),
    }
}

/// Bits at random, and numbers at or beside a tie between two f32.
fn number_to_narrow(random: &mut Random) -> f64 {
    if random.one_in(2) {
        return random.wild64();
    }
    let low = f32::from_bits(random.next() as u32 & 0x7F7F_FFFF);
    let high = f32::from_bits(low.to_bits() + 1);
    let top = if high.is_finite() {
        f64::from(high)
    } else {
        340282366920938463463374607431768211456.0
    };
    let tie = (f64::from(low) + top) / 2.0;
    let beside = random.pick(&[-1i64, 0, 0, 1]);
    let x = f64::from_bits(tie.to_bits().wrapping_add_signed(beside));
    if random.one_in(2) {
        x
    } else {
        -x
    }
}

/// Any number, and squares and their neighbours.
fn number_to_root32(random: &mut Random) -> f32 {
    if random.one_in(2) {
        return random.wild32();
    }
    let root = f32::from_bits(random.next() as u32 & 0x5F7F_F000);
    let beside = random.pick(&[-1i32, 0, 1]);
    f32::from_bits((root * root).to_bits().wrapping_add_signed(beside))
}

fn number_to_root64(random: &mut Random) -> f64 {
    if random.one_in(2) {
        return random.wild64();
    }
    let root = f64::from_bits(random.next() & 0x5FEF_FFFF_FC00_0000);
    let beside = random.pick(&[-1i64, 0, 1]);
    f64::from_bits((root * root).to_bits().wrapping_add_signed(beside))
}

/// A unit quaternion of any turn, whole turns and half turns among them.
fn unit_quaternion(random: &mut Random) -> Quaternion {
    let size = random.pick(&[1e-6, 0.02, 0.0625, 0.5, 2.0, 3.2, 6.3]);
    let q = Quaternion::exp(vector(&random.span3(size))).expect("small enough");
    match random.below(8) {
        0 => Quaternion::new(1.0, 0.0, 0.0, random.span(1e-7)),
        1 => Quaternion::new(0.0, 0.6, 0.8, -0.0),
        2 => Quaternion { v: -q.v, w: -q.w },
        _ => q,
    }
}

/// A transform: mostly a motion, sometimes any numbers.
fn motion(random: &mut Random) -> [f32; 7] {
    let q = unit_quaternion(random);
    let size = random.pick(&[0.0, 1.0, 100.0, 1e6]);
    let t = random.span3(size);
    let mut numbers = [q.v.x, q.v.y, q.v.z, q.w, t[0], t[1], t[2]].map(|x| x as f32);
    match random.below(5) {
        0 => numbers = std::array::from_fn(|_| random.wild32()),
        1 => numbers[random.below(7)] = random.wild32(),
        _ => {}
    }
    numbers
}

/// A matrix: of a rotation, beside one, or any numbers.
fn matrix(random: &mut Random) -> [f32; 9] {
    let m = unit_quaternion(random).matrix();
    let (a, b, c) = (m.x_axis, m.y_axis, m.z_axis);
    let mut numbers = [a.x, a.y, a.z, b.x, b.y, b.z, c.x, c.y, c.z].map(|x| x as f32);
    match random.below(5) {
        0 => numbers = std::array::from_fn(|_| random.wild32()),
        1 => numbers[random.below(9)] = random.wild32(),
        2 => numbers = numbers.map(|x| x + random.span(0.1) as f32),
        _ => {}
    }
    numbers
}

/// Inputs whose answer is nearly nothing in one component, so that the last bits of the f64 arithmetic, and with
/// them the order of operations, show through the narrowing.
fn cancelling(random: &mut Random, number: usize) -> Layer {
    match number {
        4 => cancelling_product(random),
        5 => {
            let q = any_scale(random);
            let m = q.conjugate().matrix();
            Layer::Inverse(joined(q, null(random, |t| m * t)))
        }
        6 => cancelling_exp(random),
        _ => {
            let q = rounded(unit_quaternion(random));
            let (up, omega) = (q.upright(), q.upright().log());
            Layer::Log(joined(q, null(random, |t| up.log_translation(omega, t))))
        }
    }
}

fn cancelling_exp(random: &mut Random) -> Layer {
    let size = random.pick(&[0.02, 0.06, 0.0625, 0.3, 2.0, 7.0, 30.0]);
    let mut omega = random.span3(size).map(|x| f64::from(x as f32));
    if random.one_in(3) {
        omega = [0.0; 3];
        omega[random.below(3)] = random.pick(&[0.0625, -0.0625, 0.0624, 6.2831855]);
    }
    let omega = vector(&omega);
    let q = Quaternion::exp(omega).expect("small enough");
    let t = null(random, |t| q.exp_translation(omega, t));
    let turn = [omega.x, omega.y, omega.z].map(|x| x as f32);
    Layer::Exp([t[0], t[1], t[2], turn[0], turn[1], turn[2]])
}

/// One component of the quaternion and the whole translation nearly cancel.
fn cancelling_product(random: &mut Random) -> Layer {
    let (p, mut q) = (any_scale(random), any_scale(random));
    let part = random.below(4);
    let unit = |i: usize| {
        let e = |j: usize| if i == j { 1.0 } else { 0.0 };
        quaternion_parts(p.product(Quaternion::new(e(0), e(1), e(2), e(3))))[part]
    };
    let parts = quaternion_parts(q);
    let others: f64 = (0..3).map(|i| unit(i) * parts[i]).sum();
    q.w = f64::from((-others / unit(3)) as f32);
    let t = random.span3(4.0).map(|x| x as f32);
    let back = -(p.matrix() * vector(&t.map(f64::from)));
    let back = [back.x, back.y, back.z].map(|x| x as f32);
    Layer::Product(joined(p, back), joined(q, t))
}

fn quaternion_parts(q: Quaternion) -> [f64; 4] {
    [q.v.x, q.v.y, q.v.z, q.w]
}

fn joined(q: Quaternion, t: [f32; 3]) -> [f32; 7] {
    let [x, y, z, w] = quaternion_parts(q).map(|x| x as f32);
    [x, y, z, w, t[0], t[1], t[2]]
}

/// The same quaternion as narrowing leaves it.
fn rounded(q: Quaternion) -> Quaternion {
    let [x, y, z, w] = quaternion_parts(q).map(|x| f64::from(x as f32));
    Quaternion::new(x, y, z, w)
}

/// A quaternion whose parts are of different sizes, each an f32.
fn any_scale(random: &mut Random) -> Quaternion {
    let mut part = || random.scaled(-9, 2);
    rounded(Quaternion::new(part(), part(), part(), part()))
}

/// A translation that the linear map sends nearly to 0 in one component.
fn null(random: &mut Random, map: impl Fn(Vec3F64) -> Vec3F64) -> [f32; 3] {
    let mut t = [(); 3].map(|()| random.scaled(-4, 4) as f32);
    let (part, free) = (random.below(3), random.below(3));
    let factor = |i: usize| {
        let mut e = [0.0; 3];
        e[i] = 1.0;
        let v = map(vector(&e));
        [v.x, v.y, v.z][part]
    };
    let others = (0..3).filter(|i| *i != free);
    let sum: f64 = others.map(|i| factor(i) * f64::from(t[i])).sum();
    let solved = (-sum / factor(free)) as f32;
    if solved.is_finite() {
        t[free] = solved;
    }
    t
}

/// Translation first; turns around the small-angle border and the limit 64 among them.
fn delta(random: &mut Random) -> [f32; 6] {
    let turn = random.pick(&[0.0, 1e-3, 0.036, 0.0625, 1.0, 3.2, 36.9, 37.1, 64.0, 80.0]);
    let shift = random.pick(&[0.0, 1e-3, 1.0, 1e6]);
    let (t, omega) = (random.span3(shift), random.span3(turn));
    let mut numbers = [t[0], t[1], t[2], omega[0], omega[1], omega[2]].map(|x| x as f32);
    match random.below(8) {
        0 => numbers = std::array::from_fn(|_| random.wild32()),
        1 => numbers[random.below(6)] = random.wild32(),
        2 => {
            numbers = [
                0.0,
                1.0,
                0.0,
                0.0,
                random.pick(&[0.0625, 64.0, -64.0, 64.00001]),
                0.0,
            ]
        }
        3 => numbers = jacobian_delta(random),
        _ => {}
    }
    numbers
}

/// One component ±0.001, as in a Jacobian column.
fn jacobian_delta(random: &mut Random) -> [f32; 6] {
    let mut numbers = [0.0; 6];
    numbers[random.below(6)] = random.pick(&[1e-3, -1e-3]);
    numbers
}

fn any_pose(random: &mut Random) -> [f64; 12] {
    let m = unit_quaternion(random).matrix();
    let size = random.pick(&[0.0, 1.0, 100.0, 1e7]);
    let t = random.span3(size);
    let (a, b, c) = (m.x_axis, m.y_axis, m.z_axis);
    let mut numbers = [
        a.x, a.y, a.z, b.x, b.y, b.z, c.x, c.y, c.z, t[0], t[1], t[2],
    ];
    match random.below(6) {
        0 => numbers = std::array::from_fn(|_| random.wild64()),
        1 => numbers[random.below(12)] = random.wild64(),
        2 => numbers = numbers.map(|x| x * random.pick(&[1.0, 1.0, 1e19, 1e-20])),
        _ => {}
    }
    numbers
}

fn axis(random: &mut Random) -> [f64; 3] {
    let g = vector(&random.span3(1.0));
    let unit = g / g.length();
    match random.below(5) {
        0 => [0.0, 0.0, -1.0],
        1 => std::array::from_fn(|_| random.wild64()),
        _ => [unit.x, unit.y, unit.z],
    }
}

/// Two poses and an edge: near what they say, far from it, or with a measured matrix that row 10 refuses.
fn residual_layer(random: &mut Random) -> Layer {
    let (a, mut b) = (any_pose(random), any_pose(random));
    let mut measured = motion(random);
    let mut weight = 1.0 + random.span(0.9) as f32;
    match random.below(8) {
        0 => weight = random.wild32(),
        1 => weight = 0.0,
        2..=4 => measured = transform_numbers(&(se3(&b) * se3(&a).inverse())),
        5 => return overflowing_measurement(random, weight),
        6 => b = a,
        _ => {}
    }
    Layer::Residual(a, b, with_weight(measured, weight))
}

fn with_weight(m: [f32; 7], weight: f32) -> [f32; 8] {
    [m[0], m[1], m[2], m[3], m[4], m[5], m[6], weight]
}

/// Finite in all but the narrowed matrix: the original refuses the measurement.
fn overflowing_measurement(random: &mut Random, weight: f32) -> Layer {
    let pose = [1.0, 0.0, 0.0, 0.0, 1.0, 0.0, 0.0, 0.0, 1.0, 0.0, 0.0, 0.0];
    let mut measured = [0.0, 0.0, 0.0, 1.0, 0.0, 0.0, 0.0];
    measured[random.below(3)] = random.pick(&[1e20, -2e19, 1.4e19, 1.3e19, 1e19]);
    Layer::Residual(pose, pose, with_weight(measured, weight))
}

/// A positive definite system, sparse or full, a singular or indefinite one, or any numbers.
fn system(random: &mut Random) -> System {
    let n = random.between(1, 14);
    let mut work: Vec<f32> = (0..n * (n + 3)).map(|_| random.wild32()).collect();
    let size = random.pick(&[1.0, 1.0, 1e-3, 1e6, 1e15]);
    let rank = random.between(1, n + 2);
    let spread = random.between(1, n);
    let rows = factor_rows(random, n, rank, spread, size);
    for i in 0..n {
        for j in 0..=i {
            work[j * n + i] = rows.iter().map(|row| row[i] * row[j]).sum();
        }
        work[n * n + n + i] = random.span(size) as f32;
    }
    if random.one_in(8) {
        let at = random.below(n * n);
        work[at] = random.wild32();
    }
    let damping = random.pick(&[0.0, 1e-10, 1e-3, 1.0, 1e5, 1e10]);
    System { n, damping, work }
}

/// Rows of which the system is the sum of squares; each reaches over `spread` unknowns.
fn factor_rows(
    random: &mut Random,
    n: usize,
    rank: usize,
    spread: usize,
    size: f64,
) -> Vec<Vec<f32>> {
    let row = |_| {
        let start = random.below(n);
        let near = |i: &usize| *i >= start && *i < start + spread;
        let numbers: Vec<f32> = (0..n).map(|_| random.span(size) as f32).collect();
        (0..n)
            .map(|i| if near(&i) { numbers[i] } else { 0.0 })
            .collect()
    };
    (0..rank + n / 2).map(row).collect()
}
