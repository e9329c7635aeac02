//! The sorts of single fields and of requests that smooth are told apart, and
//! each has its floor.

use crate::lone_station;
use crate::sorts::{held, numbers};
use second::call::{Field, Window};
use second::field_sorts::{floors, of_accepted, of_refused};
use second::smoothing::smooth;
use second::smoothing_sorts;
use second::sorts::Sort;

const MOST: i32 = 13_000_000;

fn field(nx: u32, ny: u32, value: impl Fn(usize) -> i32) -> Field {
    Field { nx, ny, values: (0..(nx * ny) as usize).map(value).collect() }
}

fn told(field: &Field) -> Vec<Sort> {
    of_accepted(field, &smooth(field).expect("accepted"))
}

#[test]
fn sides_of_fields_are_told_apart() {
    let sides = |nx, ny| {
        let sorts = told(&field(nx, ny, |_| 0));
        ["accepted field of", "accepted field with inner points and other"]
            .map(|name| numbers(&sorts, name))
    };
    assert_eq!(sides(2, 5), [vec![0], vec![]]);
    assert_eq!(sides(5, 2), [vec![1], vec![]]);
    assert_eq!(sides(3, 5), [vec![2], vec![1]]);
    assert_eq!(sides(5, 3), [vec![3], vec![0]]);
    assert_eq!(sides(2, 2), [vec![0, 1, 4], vec![]]);
    assert_eq!(sides(3, 3), [vec![2, 3, 5], vec![]]);
    assert_eq!(sides(64, 5), [vec![6], vec![0]]);
    assert_eq!(sides(64, 64), [vec![6, 7, 8], vec![]]);
}

#[test]
fn extremes_are_told_apart() {
    let extremes = |value: &dyn Fn(usize) -> i32| {
        let sorts = told(&field(3, 4, value));
        ["accepted field with inner points (", "lone inner"].map(|name| numbers(&sorts, name))
    };
    assert_eq!(extremes(&|_| MOST), [vec![0], vec![]]);
    assert_eq!(extremes(&|_| -MOST), [vec![1], vec![]]);
    let checks = |point: usize| if point.is_multiple_of(2) { MOST } else { -MOST };
    assert_eq!(extremes(&checks), [vec![2], vec![]]);
    assert_eq!(extremes(&|point| checks(point / 3)), [const { vec![] }; 2], "stripes");
    assert_eq!(extremes(&|point| if point == 4 { -MOST } else { 9 }), [vec![3], vec![]]);
    assert_eq!(extremes(&|point| if point == 5 { MOST } else { 9 }), [vec![4], vec![]]);
    let lone =
        |value: i32, at: usize| extremes(&|point| if point == at { value } else { 0 })[1].clone();
    assert_eq!((lone(16, 4), lone(2, 7), lone(-2, 4)), (vec![0], vec![1], vec![2]));
    assert_eq!((lone(16, 3), lone(3, 4)), (vec![], vec![]), "on the border, another");
}

#[test]
fn sums_are_told_apart() {
    // A corner has a share of 1, so it is the sum.
    let sums = |corner: i32| {
        let sorts = told(&field(3, 3, |point| if point == 8 { corner } else { 0 }));
        ["sum of an inner point (", "sum of an inner point that"].map(|name| numbers(&sorts, name))
    };
    assert_eq!(sums(8), [vec![0], vec![]]);
    assert_eq!(sums(-24), [vec![1], vec![]]);
    assert_eq!(sums(23), [vec![2], vec![]]);
    assert_eq!(sums(-7), [vec![3], vec![]]);
    assert_eq!(sums(9), [vec![4], vec![]]);
    assert_eq!(sums(-9), [vec![5], vec![]]);
    assert_eq!(sums(16), [const { vec![] }; 2]);
    assert_eq!(sums(0), [vec![], vec![0]]);
    let all = |value| numbers(&told(&field(3, 3, |_| value)), "sum of an inner point (");
    assert_eq!((all(MOST), all(-MOST), all(MOST - 1)), (vec![6], vec![7], vec![]));
    let checks = |point: usize| if point.is_multiple_of(2) { 5 } else { -5 };
    assert_eq!(numbers(&told(&field(3, 3, checks)), "sum of an inner point that"), [1]);
}

#[test]
fn slips_that_would_show_are_told_apart() {
    let shown = |nx, ny, value: &dyn Fn(usize) -> i32| {
        numbers(&told(&field(nx, ny, value)), "field that would show")
    };
    assert_eq!(shown(5, 5, &|_| 0), [0; 0]);
    assert_eq!(shown(2, 2, &|point| point as i32), [0; 0], "no slip changes a grid of 2 by 2");
    assert_eq!(shown(3, 3, &|point| if point == 4 { 2 } else { 0 }), [10, 11, 12, 14, 15, 16]);
    assert_eq!(shown(3, 3, &|point| if point == 4 { -2 } else { 0 }), [10, 11, 12, 13, 15]);
    assert_eq!(shown(5, 5, &|_| MOST), [17]);
    // The old rows are alike, and the new ones too, but they are not the old ones.
    let columns = shown(4, 5, &|point| 1_600 * (point as i32 % 4).pow(3));
    assert_eq!(columns[..4], [0, 1, 4, 5], "no row is too old");
}

#[test]
fn refused_fields_are_told_apart() {
    let refused = |change: &dyn Fn(&mut Field)| {
        let mut field = field(4, 3, |point| 16 * (point % 5) as i32);
        change(&mut field);
        assert_eq!(smooth(&field), None);
        let sorts = of_refused(&field);
        let names = ["refused nx", "refused ny", "refused length", "refused value"];
        let others = ["refused sides that", "refused sides whose", "one refused", "refused field"];
        [names, others].concat().iter().map(|name| numbers(&sorts, name)).collect::<Vec<_>>()
    };
    let only = |told: &[(usize, &[u32])]| {
        let mut all = vec![Vec::new(); 8];
        told.iter().for_each(|(at, numbers)| all[*at] = numbers.to_vec());
        all
    };
    assert_eq!(refused(&|f| f.nx = 0), only(&[(0, &[0])]));
    assert_eq!(refused(&|f| (f.nx, f.ny) = (12, 1)), only(&[(1, &[1]), (4, &[1])]));
    assert_eq!(refused(&|f| f.ny = u32::MAX), only(&[(1, &[3])]));
    assert_eq!(refused(&|f| (f.nx, f.ny) = ((1 << 30) + 3, 4)), only(&[(5, &[0])]));
    let past = |f: &mut Field| *f = field(65, 3, |point| 16 * (point % 5) as i32);
    assert_eq!(refused(&past), only(&[(0, &[2]), (4, &[2]), (7, &[0])]));
    assert_eq!(refused(&|f| f.values.truncate(11)), only(&[(2, &[0])]));
    assert_eq!(refused(&|f| f.values.push(0)), only(&[(2, &[1]), (7, &[1])]));
    assert_eq!(refused(&|f| f.values.clear()), only(&[(2, &[2])]));
    assert_eq!(refused(&|f| f.values.truncate(8)), only(&[(2, &[3])]));
    let value = |at: usize, value: i32| refused(&|f| f.values[at] = value);
    assert_eq!(value(0, MOST + 1), only(&[(3, &[0]), (6, &[0]), (7, &[2])]));
    assert_eq!(value(11, -MOST - 1), only(&[(3, &[1]), (6, &[1]), (7, &[2])]));
    assert_eq!(value(5, i32::MAX), only(&[(3, &[2]), (6, &[2]), (7, &[2])]));
    assert_eq!(value(3, i32::MIN), only(&[(3, &[3]), (7, &[2])]));
}

#[test]
fn requests_that_smooth_are_told_apart() {
    let grid = |nx, ny, smooth| {
        let mut call = lone_station(nx, ny, 640, 0, 0, 700);
        call.smooth = smooth;
        numbers(&smoothing_sorts::of_accepted(&call), "accepted request")
    };
    assert_eq!((grid(2, 9, true), grid(9, 2, true)), (vec![0], vec![1]));
    assert_eq!((grid(3, 9, true), grid(9, 3, true)), (vec![2], vec![3]));
    assert_eq!((grid(3, 3, true), grid(3, 3, false)), (vec![2, 3, 4], vec![]));
    let cut = |ends: [u32; 4], smooth| {
        let mut call = lone_station(9, 8, 640, 0, 0, 700);
        (call.radius, call.smooth) = (vec![64], smooth);
        let window = Window::new(ends[0], ends[1], ends[2], ends[3]);
        let sorts = smoothing_sorts::of_window(&call, &window);
        ["cut that is smoothed with", "cut that is smoothed and"].map(|name| numbers(&sorts, name))
    };
    // The reach is 2.
    assert_eq!(cut([3, 5, 3, 4], true), [vec![0, 1, 2, 3, 4], vec![]]);
    assert_eq!(cut([3, 5, 3, 4], false), [const { vec![] }; 2]);
    assert_eq!(cut([2, 6, 2, 5], true), [const { vec![] }; 2], "the whole grid");
    assert_eq!(cut([0, 0, 7, 7], true), [vec![1, 2], vec![0, 1]]);
    assert_eq!(cut([0, 8, 0, 0], true), [vec![3], vec![1]]);
}

#[test]
fn every_sort_of_a_field_has_a_floor() {
    let accepted = 9 + 2 + 5 + 3 + 8 + 2 + 19;
    assert_eq!(held(floors()), 1 + accepted + 4 + 4 + 3 + 1 + 5 + 4 + 3 + 3);
    assert_eq!(held(smoothing_sorts::floors()), 5);
    assert_eq!(held(smoothing_sorts::window_floors(1)), 5 + 5 + 2);
}
