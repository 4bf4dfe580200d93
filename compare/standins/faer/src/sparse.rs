//! A sparse matrix by columns, made from triplets, and the solver's names over it.
//! The symbolic part keeps only the pattern: the factor itself is dense.

use std::fmt;

#[derive(Copy, Clone, Debug)]
pub struct Triplet<R, C, T> {
    pub row: R,
    pub col: C,
    pub val: T,
}

impl<R, C, T> Triplet<R, C, T> {
    pub const fn new(row: R, col: C, val: T) -> Self {
        Self { row, col, val }
    }
}

#[derive(Clone, Debug)]
pub struct SymbolicSparseColMat<I> {
    size: usize,
    col_ptr: Vec<I>,
    row_idx: Vec<I>,
}

#[derive(Clone, Debug)]
pub struct SparseColMat<I, T> {
    symbolic: SymbolicSparseColMat<I>,
    values: Vec<T>,
}

#[derive(Copy, Clone, Debug)]
pub enum CreationError {
    NotSquare,
    OutOfRange,
    Repeated,
}

impl fmt::Display for CreationError {
    fn fmt(&self, f: &mut fmt::Formatter<'_>) -> fmt::Result {
        write!(f, "{self:?}")
    }
}

impl<I> SymbolicSparseColMat<I> {
    pub fn col_ptr(&self) -> &[I] {
        &self.col_ptr
    }

    pub fn row_idx(&self) -> &[I] {
        &self.row_idx
    }
}

impl SparseColMat<usize, f32> {
    pub fn try_new_from_triplets(
        rows: usize,
        columns: usize,
        triplets: &[Triplet<usize, usize, f32>],
    ) -> Result<Self, CreationError> {
        if rows != columns {
            return Err(CreationError::NotSquare);
        }
        if triplets.iter().any(|t| t.row >= rows || t.col >= rows) {
            return Err(CreationError::OutOfRange);
        }
        let mut sorted = triplets.to_vec();
        sorted.sort_by_key(|t| (t.col, t.row));
        if sorted
            .windows(2)
            .any(|w| (w[0].col, w[0].row) == (w[1].col, w[1].row))
        {
            return Err(CreationError::Repeated);
        }
        Ok(Self::from_sorted(rows, &sorted))
    }

    fn from_sorted(size: usize, sorted: &[Triplet<usize, usize, f32>]) -> Self {
        let before = |column: usize| sorted.partition_point(|t| t.col < column);
        Self {
            symbolic: SymbolicSparseColMat {
                size,
                col_ptr: (0..=size).map(before).collect(),
                row_idx: sorted.iter().map(|t| t.row).collect(),
            },
            values: sorted.iter().map(|t| t.val).collect(),
        }
    }

    pub fn symbolic(&self) -> &SymbolicSparseColMat<usize> {
        &self.symbolic
    }

    #[allow(clippy::should_implement_trait)]
    pub fn as_ref(&self) -> &Self {
        self
    }

    /// The rows of the lower triangle; what no triplet named is +0.
    fn lower_rows(&self) -> Vec<Vec<f32>> {
        let pattern = &self.symbolic;
        let mut rows: Vec<Vec<f32>> = (0..pattern.size).map(|i| vec![0.0; i + 1]).collect();
        for column in 0..pattern.size {
            for at in pattern.col_ptr[column]..pattern.col_ptr[column + 1] {
                rows[pattern.row_idx[at]][column] = self.values[at];
            }
        }
        rows
    }
}

pub mod linalg {
    pub mod solvers {
        //! The Cholesky solver's two halves.

        use std::convert::Infallible;

        use super::super::{SparseColMat, SymbolicSparseColMat};
        use crate::dense::{BadPivot, Factor};
        use crate::prelude::Solve;
        use crate::{Mat, Side};

        #[derive(Clone, Debug)]
        pub struct SymbolicLlt<I> {
            pattern: SymbolicSparseColMat<I>,
        }

        #[derive(Clone, Debug)]
        pub struct Llt {
            factor: Factor,
        }

        /// A pattern that is not the one analysed, or a pivot that fails.
        #[derive(Copy, Clone, Debug)]
        pub enum LltError {
            OtherPattern,
            Pivot(BadPivot),
        }

        impl SymbolicLlt<usize> {
            pub fn try_new(
                pattern: &SymbolicSparseColMat<usize>,
                _side: Side,
            ) -> Result<Self, Infallible> {
                Ok(Self {
                    pattern: pattern.clone(),
                })
            }
        }

        impl Llt {
            pub fn try_new_with_symbolic(
                symbolic: SymbolicLlt<usize>,
                matrix: &SparseColMat<usize, f32>,
                _side: Side,
            ) -> Result<Self, LltError> {
                if symbolic.pattern.row_idx != matrix.symbolic.row_idx {
                    return Err(LltError::OtherPattern);
                }
                match Factor::of(matrix.lower_rows()) {
                    Ok(factor) => Ok(Self { factor }),
                    Err(pivot) => Err(LltError::Pivot(pivot)),
                }
            }
        }

        impl Solve<Mat<f32>> for Llt {
            fn solve_in_place(&self, rhs: &mut Mat<f32>) {
                for column in rhs.columns_mut() {
                    self.factor.solve(column);
                }
            }
        }
    }
}
