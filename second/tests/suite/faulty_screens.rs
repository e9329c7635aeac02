//! Subjects with one planted fault each in the call for a whole screen.

use crate::faulty::moved_away;
use second::call::{Call, Refusal, Screen, Window, WindowAnswer};
use second::compare::{Answer, Results, Subject};
use second::refusals::{check_request, is_on_grid};
use second::scheme::run;
use second::screen::{check_screen, one_after_the_other, points, screen};
use second::window::{cut, cut_with, pick, reach, rows_on, widened};

#[derive(Clone, Copy, Debug, PartialEq, Eq)]
pub enum ScreenFault {
    AnotherOrder,
    SecondAtTheFirstsPlace,
    LastLeftOut,
    CutOfTheOneBefore,
    StationsOfTheOneBefore,
    FieldOfTheOneBefore,
    RejectedByTheOneBefore,
    RightAndTopExchanged,
    IndexFromOne,
    LastBadNamed,
    WindowsBeforeColumns,
    ShapeAfterWindows,
    LengthsBeforeWindows,
    SumOfTheLast,
    SumOfTheFirst,
    SumInSixteenBits,
    SupportUnmeasured,
    FifteenAtMost,
    SeventeenAtMost,
    ShortestColumn,
    LeftAndRightMeasured,
    NoneRefused,
    NoneUntested,
    WritesWhenRefused,
    WritesUpToTheBad,
}

use ScreenFault::*;

pub const OF_ANSWERS: [ScreenFault; 8] = [
    AnotherOrder,
    SecondAtTheFirstsPlace,
    LastLeftOut,
    CutOfTheOneBefore,
    StationsOfTheOneBefore,
    FieldOfTheOneBefore,
    RejectedByTheOneBefore,
    RightAndTopExchanged,
];

pub const OF_REFUSALS: [ScreenFault; 17] = [
    IndexFromOne,
    LastBadNamed,
    WindowsBeforeColumns,
    ShapeAfterWindows,
    LengthsBeforeWindows,
    SumOfTheLast,
    SumOfTheFirst,
    SumInSixteenBits,
    SupportUnmeasured,
    FifteenAtMost,
    SeventeenAtMost,
    ShortestColumn,
    LeftAndRightMeasured,
    NoneRefused,
    NoneUntested,
    WritesWhenRefused,
    WritesUpToTheBad,
];

pub struct FaultyScreen(pub ScreenFault);

impl Subject for FaultyScreen {
    fn windows(&self, call: &Call, screen: &Screen, results: Results) -> Answer<u32> {
        let refused = faulty_check(call, screen, self.0);
        let windows = screen.windows();
        let answer = match (refused, self.0) {
            (None, _) => faulty_answer(call, &windows, self.0),
            (Some(_), WritesWhenRefused) => WindowAnswer { grid: vec![0], support: vec![0] },
            (Some(Refusal { number: 2, place }), WritesUpToTheBad) if place < 16 => {
                before_the_bad(call, &windows[..place as usize])
            }
            _ => WindowAnswer { grid: Vec::new(), support: Vec::new() },
        };
        // A faulty test may let results of another length pass.
        results.grid.iter_mut().zip(answer.grid).for_each(|(to, value)| *to = value);
        results.support.iter_mut().zip(answer.support).for_each(|(to, value)| *to = value);
        Ok(refused.map_or(0, |refusal| refusal.code()))
    }
}

/// The windows before a bad one, if the request is good.
fn before_the_bad(call: &Call, windows: &[Window]) -> WindowAnswer {
    let answer = screen(&fitted(call, windows), &Screen::new(windows));
    answer.unwrap_or(WindowAnswer { grid: Vec::new(), support: Vec::new() })
}

/// The call with results that fit some windows.
fn fitted(call: &Call, windows: &[Window]) -> Call {
    let (grid_len, support_len) = (points(windows), points(windows));
    Call { grid_len, support_len, ..call.clone() }
}

fn faulty_check(call: &Call, screen: &Screen, fault: ScreenFault) -> Option<Refusal> {
    let right = check_screen(call, screen).err();
    let (number, place) = right.map_or((0, 0), |refusal| (refusal.number, refusal.place));
    let windows = screen.windows();
    let bad = || windows.iter().position(|window| !is_on_grid(call, window));
    let last_bad = || windows.iter().rposition(|window| !is_on_grid(call, window));
    let named = |place: Option<usize>| place.map(|place| Refusal::new(2, place as u32));
    let is_empty = screen.columns().iter().all(|column| column.is_empty());
    match fault {
        IndexFromOne if number == 2 && place < 16 => Some(Refusal::new(2, place + 1)),
        LastBadNamed if number == 2 && place < 16 => named(last_bad()),
        WindowsBeforeColumns if number == 2 => named(bad()).or(right),
        ShapeAfterWindows if number == 1 => of_columns(screen).or(right),
        LengthsBeforeWindows if number == 2 && !fits_wrapped(call, &windows) => {
            Some(Refusal::new(3, 0))
        }
        FifteenAtMost if number != 1 && windows.len() == 16 => Some(Refusal::new(2, 16)),
        NoneRefused if number == 0 && is_empty => Some(Refusal::new(2, 16)),
        NoneUntested if number > 2 && is_empty => None,
        SeventeenAtMost | ShortestColumn | LeftAndRightMeasured if number == 2 => {
            with_other_columns(call, screen, fault)
        }
        SumOfTheLast | SumOfTheFirst | SumInSixteenBits | SupportUnmeasured => {
            with_other_lengths(call, screen, fault)
        }
        _ => right,
    }
}

/// Whether the results are as long as what the areas wrap to.
fn fits_wrapped(call: &Call, windows: &[Window]) -> bool {
    let wrapped = windows.iter().map(Window::wrapped_area).fold(0, u32::wrapping_add);
    call.grid_len == wrapped as usize && call.support_len == wrapped as usize
}

fn of_columns(screen: &Screen) -> Option<Refusal> {
    let windows = screen.left.len();
    let equal = screen.columns().iter().all(|column| column.len() == windows);
    (!equal || windows > 16).then_some(Refusal::new(2, 16))
}

/// Columns that somebody takes for good who measures too little.
fn with_other_columns(call: &Call, screen: &Screen, fault: ScreenFault) -> Option<Refusal> {
    let windows = screen.windows();
    let lengths = screen.columns().map(Vec::len);
    let taken = match fault {
        SeventeenAtMost => lengths == [17; 4],
        ShortestColumn => windows.len() <= 16,
        _ => lengths[0] == lengths[1] && windows.len() <= 16,
    };
    if !taken {
        return check_screen(call, screen).err();
    }
    if let Some(bad) = windows.iter().position(|window| !is_on_grid(call, window)) {
        return Some(Refusal::new(2, bad as u32));
    }
    let asked = points(&windows);
    let fits = call.grid_len == asked && call.support_len == asked;
    if fits {
        check_request(call).err()
    } else {
        Some(Refusal::new(3, 0))
    }
}

/// Results measured by something else than all windows together.
fn with_other_lengths(call: &Call, screen: &Screen, fault: ScreenFault) -> Option<Refusal> {
    let windows = screen.windows();
    if let Some(refusal) = check_screen(call, screen).err().filter(|refusal| refusal.number < 3) {
        return Some(refusal);
    }
    let asked = points(&windows);
    let (grid, support) = match fault {
        SumOfTheLast => (windows.last().map_or(0, Window::area), call.support_len),
        SumOfTheFirst => (windows.first().map_or(0, Window::area), call.support_len),
        SumInSixteenBits => (asked % 65_536, asked % 65_536),
        _ => (asked, call.support_len),
    };
    let fits = call.grid_len == grid && call.support_len == support;
    if fits {
        check_request(call).err()
    } else {
        Some(Refusal::new(3, 0))
    }
}

fn faulty_answer(call: &Call, windows: &[Window], fault: ScreenFault) -> WindowAnswer {
    let mut windows = windows.to_vec();
    match fault {
        AnotherOrder => windows.reverse(),
        RightAndTopExchanged => windows.iter_mut().for_each(|window| *window = exchanged(*window)),
        _ => (),
    }
    // Whoever tests too little may be here with a request that is none.
    let good = windows.iter().all(|window| is_on_grid(call, window));
    if !good || windows.is_empty() {
        return WindowAnswer { grid: Vec::new(), support: Vec::new() };
    }
    let right = one_after_the_other(call, &run(call), &Screen::new(&windows));
    match fault {
        SecondAtTheFirstsPlace if windows.len() > 1 => second_first(call, &windows, right),
        LastLeftOut if windows.len() > 1 => {
            one_after_the_other(call, &run(call), &Screen::new(&windows[..windows.len() - 1]))
        }
        CutOfTheOneBefore
        | StationsOfTheOneBefore
        | FieldOfTheOneBefore
        | RejectedByTheOneBefore => after_one_another(call, &windows, fault),
        _ => right,
    }
}

fn exchanged(window: Window) -> Window {
    Window::new(window.left, window.top, window.right, window.bottom)
}

fn second_first(call: &Call, windows: &[Window], mut right: WindowAnswer) -> WindowAnswer {
    let second = pick(call.shape(), &run(call), &windows[1]);
    right.grid.splice(..second.grid.len(), second.grid);
    right.support.splice(..second.support.len(), second.support);
    right
}

/// Each window with something that is left of the one before it.
fn after_one_another(call: &Call, windows: &[Window], fault: ScreenFault) -> WindowAnswer {
    let mut all = WindowAnswer { grid: Vec::new(), support: Vec::new() };
    for (at, window) in windows.iter().enumerate() {
        let before = &windows[at.saturating_sub(1)];
        let single = match fault {
            CutOfTheOneBefore => from_cut(call, window, before),
            StationsOfTheOneBefore => {
                let rows = rows_on(call, &widened(call, before, reach(call)));
                from_rows(call, window, &rows)
            }
            FieldOfTheOneBefore if at > 0 => {
                let moved = Call { first_guess: run(call).grid, ..call.clone() };
                pick(call.shape(), &run(&moved), window)
            }
            RejectedByTheOneBefore if at > 0 => {
                let verdict = run(call).verdict;
                pick(call.shape(), &run(&moved_away(call, |row| verdict[row] > 10)), window)
            }
            _ => pick(call.shape(), &run(call), window),
        };
        all.grid.extend(single.grid);
        all.support.extend(single.support);
    }
    all
}

/// A window's points out of the cut of another; a point outside it has the
/// first guess.
fn from_cut(call: &Call, window: &Window, other: &Window) -> WindowAnswer {
    let part = widened(call, other, reach(call));
    let cut = cut(call, &part);
    let analysis = run(&cut);
    let mut answer = WindowAnswer { grid: Vec::new(), support: Vec::new() };
    for j in window.top..=window.bottom {
        for i in window.left..=window.right {
            let inside =
                (part.left..=part.right).contains(&i) && (part.top..=part.bottom).contains(&j);
            let (grid, support) = if inside {
                let point = cut.shape().index((i - part.left) as usize, (j - part.top) as usize);
                (analysis.grid[point], analysis.support[point])
            } else {
                (call.first_guess[call.shape().index(i as usize, j as usize)], 0)
            };
            answer.grid.push(grid);
            answer.support.push(support);
        }
    }
    answer
}

/// A window's points out of its own cut, with the stations of some rows.
fn from_rows(call: &Call, window: &Window, rows: &[usize]) -> WindowAnswer {
    let part = widened(call, window, reach(call));
    let own = rows_on(call, &part);
    let rows: Vec<usize> = rows.iter().copied().filter(|row| own.contains(row)).collect();
    let cut = cut_with(call, &part, &rows);
    let (left, top) = (window.left - part.left, window.top - part.top);
    let (right, bottom) = (window.right - part.left, window.bottom - part.top);
    pick(cut.shape(), &run(&cut), &Window::new(left, right, top, bottom))
}
