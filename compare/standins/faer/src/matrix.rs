//! A small dense matrix, enough to hold a right-hand side.

use std::ops::{Index, IndexMut};

#[derive(Clone, Debug)]
pub struct Mat<T> {
    rows: usize,
    numbers: Vec<T>,
}

impl<T> Mat<T> {
    /// Filled column by column.
    pub fn from_fn(rows: usize, columns: usize, mut f: impl FnMut(usize, usize) -> T) -> Self {
        let mut numbers = Vec::with_capacity(rows * columns);
        for column in 0..columns {
            for row in 0..rows {
                numbers.push(f(row, column));
            }
        }
        Self { rows, numbers }
    }

    /// The columns one after the other.
    pub(crate) fn columns_mut(&mut self) -> std::slice::ChunksExactMut<'_, T> {
        self.numbers.chunks_exact_mut(self.rows)
    }
}

impl<T> Index<(usize, usize)> for Mat<T> {
    type Output = T;
    fn index(&self, (row, column): (usize, usize)) -> &T {
        &self.numbers[column * self.rows + row]
    }
}

impl<T> IndexMut<(usize, usize)> for Mat<T> {
    fn index_mut(&mut self, (row, column): (usize, usize)) -> &mut T {
        &mut self.numbers[column * self.rows + row]
    }
}
