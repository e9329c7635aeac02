//! Ways to smooth wrongly, which a smoothing in place is likely to have. Fields
//! are counted by the slips that they would show, and tests have subjects that
//! make them.

use crate::field::Shape;
use crate::scan::{pattern_sum, smoothed, PATTERN_SUM};
use crate::units::rounded;

#[derive(Clone, Copy, Debug, PartialEq, Eq)]
pub enum Slip {
    /// The row above is the new one, or the value to the left.
    NewRowAbove,
    NewLeft,
    /// The row above is one row too old, or never moved on from the first.
    RowTooOld,
    RowNeverMoved,
    /// Points on one side of the border are smoothed too, with that side
    /// repeated outside.
    FirstRow,
    LastRow,
    FirstColumn,
    LastColumn,
    /// The first and the last column are smoothed too, with the end of the row
    /// before and the start of the row after as their neighbours.
    ColumnsOfOtherRows,
    /// Rows as long as columns, one point shorter, or one longer.
    SidesExchanged,
    RowsOneShort,
    RowsOneLong,
    HalvesTowardZero,
    HalvesUp,
    HalvesDown,
    /// The quotient is cut, or goes down to the next whole number.
    Cut,
    Floor,
    /// The sum has 28 bits. It needs 29, so this is the widest that overflows.
    SumIn28Bits,
    SumAsFloat,
}

use Slip::*;

pub const ALL: [Slip; 19] = [
    NewRowAbove,
    NewLeft,
    RowTooOld,
    RowNeverMoved,
    FirstRow,
    LastRow,
    FirstColumn,
    LastColumn,
    ColumnsOfOtherRows,
    SidesExchanged,
    RowsOneShort,
    RowsOneLong,
    HalvesTowardZero,
    HalvesUp,
    HalvesDown,
    Cut,
    Floor,
    SumIn28Bits,
    SumAsFloat,
];

/// The field smoothed with a slip.
pub fn smoothed_with(slip: Slip, shape: Shape, old: &[i32]) -> Vec<i32> {
    let rows_of = |nx: usize| Shape { nx, ny: old.len() / nx };
    match slip {
        SidesExchanged => smoothed(rows_of(shape.ny), old),
        RowsOneShort => smoothed(rows_of(shape.nx - 1), old),
        RowsOneLong => smoothed(rows_of(shape.nx + 1), old),
        _ => point_by_point(slip, shape, old),
    }
}

fn point_by_point(slip: Slip, shape: Shape, old: &[i32]) -> Vec<i32> {
    let border = |smoothed_too: bool| usize::from(!smoothed_too);
    let all_columns = slip == ColumnsOfOtherRows;
    let rows = border(slip == FirstRow)..shape.ny - border(slip == LastRow);
    let first = border(slip == FirstColumn || all_columns);
    let columns = first..shape.nx - border(slip == LastColumn || all_columns);
    let mut new = old.to_vec();
    for j in rows {
        for i in columns.clone() {
            let sum = pattern_sum(|di, dj| neighbour(slip, shape, [old, &new], [i, j], [di, dj]));
            new[shape.index(i, j)] = quotient(slip, sum);
        }
    }
    new
}

/// One of the nine values round the point (i, j); (1, 1) is the point itself.
fn neighbour(
    slip: Slip,
    shape: Shape,
    [old, new]: [&[i32]; 2],
    [i, j]: [usize; 2],
    [di, dj]: [usize; 2],
) -> i32 {
    let (column, row) = ((i + di).clamp(1, shape.nx) - 1, (j + dj).clamp(1, shape.ny) - 1);
    let point = shape.index(column, row);
    match (slip, di, dj) {
        (NewRowAbove, _, 0) | (NewLeft, 0, 1) => new[point],
        (RowTooOld, _, 0) => old[shape.index(column, row.saturating_sub(1))],
        (RowNeverMoved, _, 0) => old[column],
        (ColumnsOfOtherRows, _, _) => {
            let in_order = (shape.index(i, row) + di).saturating_sub(1);
            old[in_order.min(old.len() - 1)]
        }
        _ => old[point],
    }
}

fn quotient(slip: Slip, sum: i64) -> i32 {
    let half = PATTERN_SUM / 2;
    let given = match slip {
        HalvesTowardZero => sum.signum() * ((sum.abs() + half - 1) / PATTERN_SUM),
        HalvesUp => (sum + half).div_euclid(PATTERN_SUM),
        HalvesDown => (sum + half - 1).div_euclid(PATTERN_SUM),
        Cut => sum / PATTERN_SUM,
        Floor => sum.div_euclid(PATTERN_SUM),
        SumIn28Bits => rounded(i64::from((sum as i32) << 4 >> 4), PATTERN_SUM),
        SumAsFloat => rounded(i64::from(sum as f32 as i32), PATTERN_SUM),
        _ => rounded(sum, PATTERN_SUM),
    };
    given as i32
}
