//! Document 01's solve in f32: Cholesky row by row, k rising; forward substitution, then back substitution
//! with k rising too (C14).

/// L by rows, the diagonal included.
#[derive(Clone, Debug)]
pub struct Factor {
    rows: Vec<Vec<f32>>,
}

/// The row whose pivot, before its root, is not above 0 or not finite.
#[derive(Copy, Clone, Debug, PartialEq)]
pub struct BadPivot {
    pub row: usize,
}

/// `start` less the products of the two rows' first numbers, k rising.
fn less_products(start: f32, a: &[f32], b: &[f32]) -> f32 {
    a.iter().zip(b).fold(start, |sum, (x, y)| sum - x * y)
}

impl Factor {
    /// Factors the matrix given by the rows of its lower triangle.
    pub fn of(lower: Vec<Vec<f32>>) -> Result<Self, BadPivot> {
        let mut rows: Vec<Vec<f32>> = Vec::with_capacity(lower.len());
        for entries in lower {
            let row = next_row(&rows, &entries)?;
            rows.push(row);
        }
        Ok(Self { rows })
    }

    pub fn solve(&self, rhs: &mut [f32]) {
        self.forward(rhs);
        self.backward(rhs);
    }

    fn forward(&self, rhs: &mut [f32]) {
        for (i, row) in self.rows.iter().enumerate() {
            rhs[i] = less_products(rhs[i], &row[..i], &rhs[..i]) / row[i];
        }
    }

    fn backward(&self, rhs: &mut [f32]) {
        let n = self.rows.len();
        for i in (0..n).rev() {
            let less = |sum: f32, k: usize| sum - self.rows[k][i] * rhs[k];
            rhs[i] = (i + 1..n).fold(rhs[i], less) / self.rows[i][i];
        }
    }
}

/// Row i of L from the rows above it and row i of the matrix.
fn next_row(above: &[Vec<f32>], entries: &[f32]) -> Result<Vec<f32>, BadPivot> {
    let i = above.len();
    let mut row: Vec<f32> = Vec::with_capacity(i + 1);
    for (j, upper) in above.iter().enumerate() {
        let value = less_products(entries[j], &row[..j], &upper[..j]) / upper[j];
        row.push(value);
    }
    let pivot = less_products(entries[i], &row, &row);
    if pivot > 0.0 && pivot.is_finite() {
        row.push(pivot.sqrt());
        Ok(row)
    } else {
        Err(BadPivot { row: i })
    }
}

#[cfg(test)]
mod tests {
    use super::*;

    #[test]
    fn solves_a_small_system() {
        let factor = Factor::of(vec![vec![4.0], vec![2.0, 5.0], vec![0.0, 4.0, 13.0]]).unwrap();
        assert_eq!(factor.rows[2], vec![0.0, 2.0, 3.0]);
        let mut x = vec![8.0, 24.0, 47.0];
        factor.solve(&mut x);
        assert_eq!(x, vec![1.0, 2.0, 3.0]);
    }

    #[test]
    fn a_bad_pivot_fails() {
        for pivot in [0.0, -1.0, f32::NAN, f32::INFINITY] {
            assert_eq!(
                Factor::of(vec![vec![pivot]]).unwrap_err(),
                BadPivot { row: 0 }
            );
        }
        let singular = vec![vec![1.0], vec![1.0, 1.0]];
        assert_eq!(Factor::of(singular).unwrap_err(), BadPivot { row: 1 });
    }
}
