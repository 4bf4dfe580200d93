//! The file's format. All numbers are little-endian: u32 and f32 in 4 bytes, f64 in 8; floats by their bits.
//!
//! File: the four bytes `PGOV`, u32 version (1), u32 count of records, then the records.
//! Record: u32 kind, u32 length of the body in bytes, the body. No body is longer than 16,384 bytes.
//!
//! Kind 1, a run. Body:
//!   inputs: u32 dof (6, or 4 for a gravity run); f64 gravity x, y, z (+0 for dof 6);
//!     u32 p, count of pose numbers; u32 e, of ends; u32 f, of edge floats; u32 x, of fixed entries;
//!     u32 limit; f32 cost tolerance, gradient tolerance, first damping;
//!     u32 length of the f32 work, of the f64 work, of the output;
//!     p f64 poses; e u32 ends; f f32 edges; x u32 fixed;
//!   answer: u32 number, place, iterations, converged, A, R, F, stop; f32 first and last cost (+0 where refused);
//!   where number is 0: p f64 poses.
//! Kind 2, assembly alone. Body: inputs as in kind 1 (limit to damping, f64 work and output say nothing here);
//!   u32 number; u32 w (0 where refused); w f32, the needed work: H(i,j), j ≤ i, at j·n+i, gradient at n·n+n+i.
//! Kind 3, the decisions over a prepared list. Body: u32 limit; f32 tolerance, cost, damping; u32 n;
//!   n u32 events; n f32 prices; u32 status; u32 written (0 nothing, 1 the answer, 2 answer and costs);
//!   8 u32 answer; 2 f32 costs (+0 where not written).
//! Kinds 16 to 27, the layers. Body: u32 count, then that many items:
//!   16 narrow: f64 in, f32 out. 17 sqrt32: f32, f32. 18 sqrt64: f64, f64.
//!   19 quaternion_of_matrix: 9 f32; then status and 4 f32. 20 product: 7 f32, 7 f32; 7 f32.
//!   21 inverse: 7 f32; 7 f32. 22 exp: 6 f32; 7 f32. 23 log: 7 f32; 6 f32.
//!   24 retract: 12 f64, 6 f32; 12 f64. 25 retract_with_gravity: 3 f64, 12 f64, 4 f32; 12 f64.
//!   26 residual: 12 f64, 12 f64, 8 f32; 6 f32.
//!   From 19 to 26 a u32 status stands between inputs and outputs: 0 done, 1 fails (outputs are then +0 here).
//!   27 solve: u32 n, f32 damping, n(n+3) f32 before; u32 status; n(n+3) f32 after.
//!
//! A NaN stands for any NaN. Where a call is refused or fails, what was lent stays as it was found.

/// The longest body.
const LONGEST: usize = 16_384;

#[derive(Default)]
pub struct Body(Vec<u8>);

impl Body {
    pub fn u32(&mut self, n: u32) {
        self.0.extend(n.to_le_bytes());
    }

    pub fn f32(&mut self, x: f32) {
        let x = if x.is_nan() { f32::NAN } else { x };
        self.0.extend(x.to_le_bytes());
    }

    pub fn f64(&mut self, x: f64) {
        let x = if x.is_nan() { f64::NAN } else { x };
        self.0.extend(x.to_le_bytes());
    }

    pub fn u32s(&mut self, list: &[u32]) {
        list.iter().for_each(|n| self.u32(*n));
    }

    pub fn f32s(&mut self, list: &[f32]) {
        list.iter().for_each(|x| self.f32(*x));
    }

    pub fn f64s(&mut self, list: &[f64]) {
        list.iter().for_each(|x| self.f64(*x));
    }

    pub fn len(&self) -> usize {
        self.0.len()
    }

    pub fn append(&mut self, other: &Self) {
        self.0.extend(&other.0);
    }

    pub fn fits(&self) -> bool {
        self.len() <= LONGEST
    }
}

#[derive(Default)]
pub struct File {
    records: Vec<(u32, Body)>,
}

impl File {
    pub fn push(&mut self, kind: u32, body: Body) {
        assert!(body.fits(), "a body of kind {kind} is too long");
        self.records.push((kind, body));
    }

    /// Items of one layer, in as many records as their lengths ask for.
    pub fn push_items(&mut self, kind: u32, items: &[Body]) {
        let mut rest = items;
        while !rest.is_empty() {
            let mut length = 4;
            let count = rest
                .iter()
                .take_while(|item| {
                    length += item.len();
                    length <= LONGEST
                })
                .count();
            let mut body = Body::default();
            body.u32(count as u32);
            rest[..count].iter().for_each(|item| body.append(item));
            self.push(kind, body);
            rest = &rest[count..];
        }
    }

    pub fn bytes(&self) -> Vec<u8> {
        let mut bytes = Body(b"PGOV".to_vec());
        bytes.u32s(&[1, self.records.len() as u32]);
        for (kind, body) in &self.records {
            bytes.u32s(&[*kind, body.len() as u32]);
            bytes.append(body);
        }
        bytes.0
    }

    pub fn summary(&self) -> String {
        let count = |kind: u32| {
            self.records
                .iter()
                .filter(|record| record.0 == kind)
                .count()
        };
        let [runs, assemblies, lists] = [1, 2, 3].map(count);
        let layers = self.records.len() - runs - assemblies - lists;
        format!("{runs} runs, {assemblies} assemblies, {lists} lists, {layers} records of layers")
    }
}
