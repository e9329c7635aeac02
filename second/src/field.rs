//! The rectangular grid: where its points stand and which share each corner
//! of a cell has in a place.

use crate::units::STEP;

#[derive(Clone, Copy, Debug, PartialEq, Eq)]
pub struct Shape {
    pub nx: usize,
    pub ny: usize,
}

impl Shape {
    pub fn points(&self) -> usize {
        self.nx * self.ny
    }

    pub fn index(&self, i: usize, j: usize) -> usize {
        j * self.nx + i
    }

    /// The position of the last column and of the last row.
    pub fn far_corner(&self) -> (i64, i64) {
        (STEP * (self.nx as i64 - 1), STEP * (self.ny as i64 - 1))
    }

    /// Whether a place is on the grid. On its border is on it.
    pub fn holds(&self, x: i32, y: i32) -> bool {
        self.holds_within(x, y, 0)
    }

    /// Whether a place is off the grid by at most this on each axis, or on it.
    pub fn holds_within(&self, x: i32, y: i32, border: i64) -> bool {
        let (last_x, last_y) = self.far_corner();
        (-border..=last_x + border).contains(&i64::from(x))
            && (-border..=last_y + border).contains(&i64::from(y))
    }

    /// The nearest place on the grid: each axis brought to its bound.
    pub fn nearest(&self, x: i32, y: i32) -> (i32, i32) {
        let (last_x, last_y) = self.far_corner();
        (x.clamp(0, last_x as i32), y.clamp(0, last_y as i32))
    }

    /// The corners of the cell around a place on the grid: each point's index
    /// and its share, in 4096ths.
    pub fn corners(&self, x: i32, y: i32) -> [(usize, i64); 4] {
        let (m, a) = cell(x, self.nx);
        let (n, b) = cell(y, self.ny);
        [
            (self.index(m, n), (STEP - a) * (STEP - b)),
            (self.index(m + 1, n), a * (STEP - b)),
            (self.index(m, n + 1), (STEP - a) * b),
            (self.index(m + 1, n + 1), a * b),
        ]
    }

    /// The interpolation sum at a place on the grid, not divided yet.
    pub fn interpolation_sum(&self, field: &[i32], x: i32, y: i32) -> i64 {
        self.corners(x, y).iter().map(|(point, share)| share * i64::from(field[*point])).sum()
    }
}

/// The lower point of the cell along one axis and the distance past it. The
/// last point has no cell of its own: it is the far end of the last cell.
fn cell(position: i32, points: usize) -> (usize, i64) {
    let position = i64::from(position);
    let lower = (position / STEP).min(points as i64 - 2);
    (lower as usize, position - STEP * lower)
}
