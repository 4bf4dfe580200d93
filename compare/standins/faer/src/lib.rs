//! Stands in for faer: the sparse types that sparse_pgo.rs names, with document 01's dense Cholesky behind them.

mod dense;
mod matrix;
pub mod sparse;

pub use matrix::Mat;

/// Which triangle of a symmetric matrix is given.
#[derive(Copy, Clone, Debug, PartialEq)]
pub enum Side {
    Lower,
}

pub mod prelude {
    //! The trait that brings a factor's solve into scope.

    pub trait Solve<R> {
        fn solve_in_place(&self, rhs: &mut R);
    }
}
