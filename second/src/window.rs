//! The window query, answered from the whole analysis, and beside it the cut
//! by the reach, which demand 3 says must agree.

use crate::call::{Analysis, Call, Refusal, Window, WindowAnswer};
use crate::field::Shape;
use crate::refusals::check_window;
use crate::scheme::run;
use crate::units::{BORDER, STEP};

pub fn window(call: &Call, window: &Window) -> Result<WindowAnswer, Refusal> {
    Ok(pick(call.shape(), &whole(call, window)?, window))
}

/// The whole grid's analysis behind an accepted window query.
pub fn whole(call: &Call, window: &Window) -> Result<Analysis, Refusal> {
    check_window(call, window)?;
    Ok(run(call))
}

/// The window's points out of the whole grid's.
pub fn pick(shape: Shape, analysis: &Analysis, window: &Window) -> WindowAnswer {
    let mut answer = WindowAnswer {
        grid: Vec::with_capacity(window.area()),
        support: Vec::with_capacity(window.area()),
    };
    for j in window.top..=window.bottom {
        for i in window.left..=window.right {
            let point = shape.index(i as usize, j as usize);
            answer.grid.push(analysis.grid[point]);
            answer.support.push(analysis.support[point]);
        }
    }
    answer
}

/// How far, in grid steps, a point's answer can depend on others. With the buddy check
/// on, "R + B stands for R".
pub fn reach(call: &Call) -> u32 {
    let farther = call.check().map_or(0, |check| check.radius.unsigned_abs());
    let radii = &call.radius[..call.scans as usize];
    radii
        .iter()
        .map(|radius| radius.unsigned_abs() + farther)
        .map(|radius| radius.div_ceil(STEP as u32) + u32::from(call.smooth))
        .sum()
}

/// The window grown by some steps on each side, within the grid.
pub fn widened(call: &Call, window: &Window, steps: u32) -> Window {
    Window {
        left: window.left.saturating_sub(steps),
        right: (window.right + steps).min(call.nx - 1),
        top: window.top.saturating_sub(steps),
        bottom: (window.bottom + steps).min(call.ny - 1),
    }
}

/// The rows of the stations that belong to a part of the grid, edges included:
/// those on the grid by where they stand, posts by their nearest place on the
/// whole grid.
pub fn rows_on(call: &Call, part: &Window) -> Vec<usize> {
    let columns = STEP * i64::from(part.left)..=STEP * i64::from(part.right);
    let lines = STEP * i64::from(part.top)..=STEP * i64::from(part.bottom);
    let belongs = |row: &usize| {
        let (x, y) = (call.x[*row], call.y[*row]);
        let place = call.shape().nearest(x, y);
        call.shape().holds_within(x, y, BORDER)
            && columns.contains(&i64::from(place.0))
            && lines.contains(&i64::from(place.1))
    };
    (0..call.x.len()).filter(belongs).collect()
}

/// The part of an accepted request as a request of its own: positions count
/// from its lower corner, the plan and the minutes stay. A post of the whole
/// grid is one of the part, with the same nearest place; a station on the grid
/// beside the part is not in it.
pub fn cut(call: &Call, part: &Window) -> Call {
    cut_with(call, part, &rows_on(call, part))
}

/// The part with the stations of some rows, whether or not they belong to it.
pub fn cut_with(call: &Call, part: &Window, rows: &[usize]) -> Call {
    let (dx, dy) = (64 * part.left as i32, 64 * part.top as i32);
    let first_guess = (part.top..=part.bottom)
        .flat_map(|j| (part.left..=part.right).map(move |i| (i as usize, j as usize)))
        .map(|(i, j)| call.first_guess[call.shape().index(i, j)])
        .collect();
    let mut cut = Call {
        nx: part.right - part.left + 1,
        ny: part.bottom - part.top + 1,
        first_guess,
        x: rows.iter().map(|row| call.x[*row] - dx).collect(),
        y: rows.iter().map(|row| call.y[*row] - dy).collect(),
        value: rows.iter().map(|row| call.value[*row]).collect(),
        observed: rows.iter().map(|row| call.observed[*row]).collect(),
        from: rows.iter().map(|row| call.from[*row]).collect(),
        until: rows.iter().map(|row| call.until[*row]).collect(),
        winds: call.winds.as_ref().map(|winds| winds.of_rows(rows)),
        ..call.clone()
    };
    cut.fit_results();
    cut
}
