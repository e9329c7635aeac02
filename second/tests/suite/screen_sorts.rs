//! The sorts of screens are told apart, and each has its floor.

use crate::lone_station;
use crate::sorts::{held, numbers};
use second::call::{Call, Screen, Window};
use second::scheme::run;
use second::screen::{check_screen, points};
use second::screen_sorts::{floors, of_accepted, of_refused, real_floors};
use second::sorts::Sort;

fn windows_of(ends: &[[u32; 4]]) -> Vec<Window> {
    ends.iter().map(|e| Window::new(e[0], e[1], e[2], e[3])).collect()
}

/// A call on a grid of 9 by 8 with a station in a corner of it; the reach is 2.
fn call() -> Call {
    lone_station(9, 8, 640, 0, 0, 700)
}

/// The sorts of an accepted screen of that call.
fn sorts(ends: &[[u32; 4]]) -> Vec<Sort> {
    of_accepted(&call(), &Screen::new(&windows_of(ends)), &run(&call()))
}

#[test]
fn windows_are_told_apart_by_number_and_by_one_another() {
    let lie = |ends: &[[u32; 4]]| {
        let sorts = sorts(ends);
        ["accepted screen of so", "accepted screen with", "accepted screen of two", "window of the"]
            .map(|name| numbers(&sorts, name))
    };
    assert_eq!(lie(&[]), [vec![0], vec![], vec![], vec![]]);
    assert_eq!(lie(&[[0, 8, 0, 7]]), [vec![1], vec![], vec![], vec![]]);
    let (one, far) = ([1, 2, 1, 2], [5, 6, 5, 6]);
    assert_eq!(lie(&[one, one]), [vec![2], vec![0], vec![4], vec![]], "equal");
    assert_eq!(lie(&[one, [2, 3, 2, 3]]), [vec![2], vec![1], vec![], vec![0, 1]], "overlapping");
    assert_eq!(lie(&[one, [0, 2, 1, 2]]), [vec![2], vec![2], vec![], vec![]], "one inside");
    assert_eq!(lie(&[one, far]), [vec![2], vec![3], vec![], vec![0, 1]], "apart");
    assert_eq!(lie(&[one, far, one]), [vec![3], vec![0, 3], vec![], vec![0, 1]]);
    assert_eq!(lie(&[[1, 1, 0, 1], [4, 4, 3, 3]])[2], [1], "one column each");
    assert_eq!(lie(&[[1, 1, 0, 0], [4, 4, 3, 3]])[2], [3], "one point each");
    assert_eq!(lie(&[[1, 3, 0, 0], [4, 4, 3, 3]])[2], [2], "one row each");
    assert_eq!(lie(&[[0, 8, 0, 7]; 16])[2], [0, 4], "all points each");
    assert_eq!(numbers(&sorts(&[[0, 8, 0, 7]; 16]), "all points sixteen"), [0]);
    assert_eq!(numbers(&sorts(&[[0, 8, 0, 7]; 15]), "all points sixteen"), [0; 0]);
}

#[test]
fn cuts_are_counted_together() {
    let cuts = |ends: &[[u32; 4]]| {
        let sorts = sorts(ends);
        ["cuts of two", "cuts of sixteen", "cut of one"].map(|name| numbers(&sorts, name))
    };
    assert_eq!(cuts(&[]), [const { vec![] }; 3]);
    assert_eq!(cuts(&[[0, 6, 0, 7]]), [vec![], vec![], vec![1]], "the cut is all the grid");
    assert_eq!(cuts(&[[0, 5, 0, 7]]), [vec![], vec![], vec![0]]);
    // Cuts of 4 and 5 columns by 8 rows, of 3 by 3 points, and of 8 by 8.
    let (four, five, corner) = ([0, 1, 0, 7], [6, 8, 0, 7], [0, 0, 0, 0]);
    assert_eq!(cuts(&[four, five]), [vec![2], vec![], vec![]], "72 points as the grid has");
    assert_eq!(cuts(&[five, five]), [vec![4], vec![], vec![]]);
    assert_eq!(cuts(&[corner, [0, 5, 0, 7]]), [vec![3], vec![], vec![]], "9 and 64 are 73");
    // 25 and 15 and 16 and 15 are 71.
    let inner = [3, 3, 3, 3];
    let wide = [[0, 0, 3, 3], [0, 1, 0, 1], [3, 3, 0, 0]];
    assert_eq!(cuts(&[&[inner][..], &wide].concat()), [vec![1], vec![], vec![]]);
    assert_eq!(cuts(&[corner, inner]), [vec![0], vec![], vec![]]);
    assert_eq!(cuts(&[corner; 16]), [vec![4], vec![1], vec![]]);
    let narrow = Call { nx: 60, ny: 8, first_guess: vec![0; 480], ..call() };
    let corners = Screen::new(&windows_of(&[corner; 16]));
    let sorts = of_accepted(&narrow, &corners, &run(&narrow));
    assert_eq!(numbers(&sorts, "cuts of sixteen"), [0]);
}

#[test]
fn windows_are_also_told_apart_by_themselves() {
    let sorts = sorts(&[[0, 0, 0, 0], [0, 0, 0, 0], [8, 8, 0, 7], [3, 4, 3, 4]]);
    assert_eq!(numbers(&sorts, "window on a corner"), [0, 1, 3], "each counted once");
    assert_eq!(numbers(&sorts, "window of ("), [1, 2, 4]);
}

/// The sorts of a screen with something changed, which is refused.
fn refused(ends: &[[u32; 4]], change: impl FnOnce(&mut Call, &mut Screen)) -> Vec<Sort> {
    let (mut call, mut screen) = (call(), Screen::new(&windows_of(ends)));
    (call.grid_len, call.support_len) = (0, 0);
    if ends.iter().all(|e| e[0] <= e[1] && e[2] <= e[3] && e[1] < 9 && e[3] < 8) {
        (call.grid_len, call.support_len) = (points(&screen.windows()), points(&screen.windows()));
    }
    change(&mut call, &mut screen);
    let refusal = check_screen(&call, &screen).expect_err("refused");
    of_refused(&call, &screen, &refusal)
}

const GOOD: [u32; 4] = [1, 2, 1, 2];

#[test]
fn unequal_columns_are_told_apart() {
    let told = |lengths: [usize; 4]| {
        let sorts = refused(&[GOOD; 3], |_, screen| {
            for (column, length) in screen.columns_mut().into_iter().zip(lengths) {
                column.resize(length, 2);
            }
        });
        assert_eq!(numbers(&sorts, "refusal 2 at"), [16]);
        let ways = ["one short", "one long", "short by more", "long by more", "empty"];
        ways.map(|way| numbers(&sorts, &format!("one column of ends {way}")))
    };
    let none = || Vec::<u32>::new();
    assert_eq!(told([2, 3, 3, 3]), [vec![0], none(), none(), none(), none()]);
    assert_eq!(told([3, 4, 3, 3]), [none(), vec![1], none(), none(), none()]);
    assert_eq!(told([3, 3, 1, 3]), [none(), none(), vec![2], none(), none()]);
    assert_eq!(told([3, 3, 3, 9]), [none(), none(), none(), vec![3], none()]);
    assert_eq!(told([0, 3, 3, 3]), [none(), none(), vec![0], none(), vec![0]]);
    assert_eq!(told([1, 1, 0, 1]), [vec![2], none(), none(), none(), vec![2]]);
    assert_eq!(told([0, 1, 0, 0]), [none(), vec![1], none(), none(), none()]);
    assert_eq!(told([2, 2, 3, 3]), [const { vec![] }; 5], "two and two");
    let many = |windows| {
        let sorts = refused(&vec![GOOD; windows], |_, screen| screen.left[0] = 9);
        ["four equal columns", "refused columns with"].map(|name| numbers(&sorts, name))
    };
    assert_eq!((many(17), many(18)), ([vec![0], vec![1]], [vec![1], vec![1]]));
    let unequal = refused(&[GOOD; 2], |_, screen| {
        screen.left[0] = 9;
        screen.right.pop();
    });
    assert_eq!(numbers(&unequal, "refused columns with"), [0]);
}

#[test]
fn bad_windows_of_a_screen_are_told_apart() {
    let told = |ends: &[[u32; 4]]| {
        let sorts = refused(ends, |_, _| ());
        let names =
            ["refusal 2 at", "one bad window", "two bad", "bad window (", "bad window with"];
        names.map(|name| numbers(&sorts, name))
    };
    let (bad, past) = ([2, 1, 0, 0], [0, 9, 0, 0]);
    let none = || Vec::<u32>::new();
    assert_eq!(told(&[bad]), [vec![0], vec![0], none(), vec![0], vec![0]], "no points");
    assert_eq!(told(&[past]), [vec![0], vec![0], none(), vec![2], none()]);
    assert_eq!(told(&[bad, GOOD]), [vec![0], vec![1], none(), vec![0], none()]);
    assert_eq!(told(&[GOOD, past, GOOD]), [vec![1], vec![2], none(), vec![2], none()]);
    assert_eq!(told(&[GOOD, past]), [vec![1], vec![3], none(), vec![2], none()]);
    assert_eq!(told(&[past, bad]), [vec![0], none(), vec![0], vec![2], none()]);
    assert_eq!(told(&[GOOD, bad, past]), [vec![1], none(), vec![1], vec![0], none()]);
    let too = refused(&[GOOD, past], |call, _| call.scans = 9);
    assert_eq!(numbers(&too, "refusal 2 with a fault"), [5]);
}

#[test]
fn wrong_results_of_a_screen_are_told_apart() {
    // Two windows of 4 and 3 points.
    let ends = [GOOD, [3, 5, 0, 0]];
    let told = |grid, support| {
        let sorts = refused(&ends, |call, _| (call.grid_len, call.support_len) = (grid, support));
        ["results of the wrong", "results as long"].map(|name| numbers(&sorts, name))
    };
    assert_eq!(told(6, 7), [vec![0], vec![]]);
    assert_eq!(told(8, 7), [vec![1], vec![]]);
    assert_eq!(told(7, 6), [vec![2], vec![]]);
    assert_eq!(told(7, 8), [vec![3], vec![]]);
    assert_eq!(told(6, 6), [vec![4], vec![]]);
    assert_eq!(told(8, 8), [vec![5], vec![]]);
    assert_eq!(told(4, 7), [vec![], vec![0]]);
    assert_eq!(told(3, 7), [vec![], vec![1]]);
    assert_eq!(told(7, 4), [vec![], vec![2]]);
    assert_eq!(told(7, 3), [vec![], vec![3]]);
    assert_eq!(told(4, 4), [vec![], vec![4]]);
    assert_eq!(told(3, 3), [vec![], vec![5]]);
    assert_eq!(told(4, 3), [vec![], vec![]], "one of each");
    let none = |grid, support| {
        let sorts = refused(&[], |call, _| (call.grid_len, call.support_len) = (grid, support));
        ["results of zero", "refusal of zero"].map(|name| numbers(&sorts, name))
    };
    assert_eq!(none(1, 0), [vec![0], vec![3]]);
    assert_eq!(none(0, 5), [vec![1], vec![3]]);
    assert_eq!(none(2, 2), [vec![2], vec![3]]);
}

#[test]
fn refusals_before_and_after_the_windows_are_told_apart() {
    let shape = |ends: &[[u32; 4]], change: fn(&mut Screen)| {
        let sorts = refused(ends, |call, screen| {
            call.nx = 1;
            change(screen);
        });
        ["refusal 1 with", "refusal of zero"].map(|name| numbers(&sorts, name))
    };
    assert_eq!(shape(&[GOOD], |_| ()), [vec![], vec![]]);
    assert_eq!(shape(&[], |_| ()), [vec![], vec![1]]);
    assert_eq!(shape(&[GOOD], |screen| screen.top.clear()), [vec![0], vec![]]);
    assert_eq!(shape(&[GOOD; 17], |_| ()), [vec![1], vec![]]);
    assert_eq!(shape(&[GOOD], |screen| screen.top[0] = 3), [vec![2], vec![]]);
    let stations = refused(&[], |call, _| call.x.clear());
    assert_eq!(numbers(&stations, "refusal of zero"), [4]);
}

#[test]
fn every_sort_of_a_screen_has_a_floor() {
    let accepted = 17 + 4 + 5 + 2 + 5 + 2 + 2 + 2;
    let refused = 17 + 5 * 4 + 2 + 2 + 4 + 2 + 1 + 5 + 6 + 6 + 3 + 7 + 3;
    let of_windows = 6 * 4 + 5 + 1 + 5 + 2 * 4 + 2 * 4 + 2 * 8 + 5;
    assert_eq!(held(floors()), accepted + refused + of_windows, "each once, and none left out");
    assert_eq!(real_floors().len(), 8);
}
