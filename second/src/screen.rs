//! The screen, item 2 of document 02: "The growers' screen shows up to sixteen
//! blocks and asks a window for each. One call should take all of them and write
//! results one after the other. The answers equal those of single queries in
//! that order."

use crate::call::{Analysis, Call, Refusal, Screen, Window, WindowAnswer};
use crate::refusals::{check_request, check_result, check_shape, demand, is_on_grid, Checked};
use crate::scheme::run;
use crate::units::MOST_WINDOWS;
use crate::window::pick;

/// The place of refusal 2 where the columns are at fault and no window is.
pub const OF_THE_COLUMNS: usize = 16;

pub fn screen(call: &Call, screen: &Screen) -> Result<WindowAnswer, Refusal> {
    Ok(one_after_the_other(call, &whole(call, screen)?, screen))
}

/// The whole grid's analysis behind an accepted screen. No window changes it,
/// so the one serves all the single queries.
pub fn whole(call: &Call, screen: &Screen) -> Result<Analysis, Refusal> {
    check_screen(call, screen)?;
    Ok(run(call))
}

/// The answers of the single queries in the order of their windows. "Zero
/// windows is allowed and writes nothing."
pub fn one_after_the_other(call: &Call, analysis: &Analysis, screen: &Screen) -> WindowAnswer {
    let mut all = WindowAnswer { grid: Vec::new(), support: Vec::new() };
    for window in screen.windows() {
        let single = pick(call.shape(), analysis, &window);
        all.grid.extend(single.grid);
        all.support.extend(single.support);
    }
    all
}

/// Refusals of a screen: those of the window query, with this for its 2 and 3:
/// "windows come as four equal columns; unequal or over sixteen is 2 with place
/// 16, first within 2; then 2 names the first bad window by its index from 0; 3
/// measures all windows together; one refusal means nothing is written." With
/// zero windows every test is run, and the results must be empty.
pub fn check_screen(call: &Call, screen: &Screen) -> Checked {
    check_shape(call.nx, call.ny, call.first_guess.len())?;
    check_columns(screen)?;
    for (index, window) in screen.windows().iter().enumerate() {
        demand(is_on_grid(call, window), 2, index)?;
    }
    let asked = points(&screen.windows());
    check_result(call.grid_len, asked)?;
    check_result(call.support_len, asked)?;
    check_request(call)
}

fn check_columns(screen: &Screen) -> Checked {
    let windows = screen.left.len();
    let equal = screen.columns().iter().all(|column| column.len() == windows);
    demand(equal && windows <= MOST_WINDOWS, 2, OF_THE_COLUMNS)
}

/// The points of good windows together: at most 16 times 4,096.
pub fn points(windows: &[Window]) -> usize {
    windows.iter().map(Window::area).sum()
}
