//! The sorts of windows, posts, readings and summaries are told apart, and each
//! has its floor.

use crate::lone_station;
use second::call::{Call, Query, Window};
use second::compare::read;
use second::post_sorts::{
    call_floors, of_accepted as of_posts, of_window, real_floors, screen_floors, text_floors,
    window_floors,
};
use second::query_sorts::{of_reading, of_summary, reading_floors, summary_floors};
use second::scheme::run;
use second::sorts::{floors, of_accepted, of_bad, Sort};
use second::tally::{Floor, Tally};

/// The numbers under the one name that begins so.
pub fn numbers(sorts: &[Sort], name: &str) -> Vec<u32> {
    sorts.iter().filter(|sort| sort.0.starts_with(name)).map(|sort| sort.1).collect()
}

/// The sorts of a window of a grid of 9 by 8, with a station at (x, y); the
/// reach is 2.
fn sorts(ends: [u32; 4], x: i32, y: i32) -> Vec<Sort> {
    let call = lone_station(9, 8, 640, x, y, 700);
    let window = Window::new(ends[0], ends[1], ends[2], ends[3]);
    of_accepted(&call, &window, &run(&call).verdict)
}

#[test]
fn places_and_shapes_are_told_apart() {
    let lies = |ends| {
        let sorts = sorts(ends, 0, 0);
        let [corner, edge] = ["window on a", "window on one"].map(|name| numbers(&sorts, name));
        (corner, edge, numbers(&sorts, "window of"))
    };
    assert_eq!(lies([0, 8, 0, 7]), (vec![], vec![], vec![0]), "the whole grid");
    assert_eq!(lies([1, 7, 1, 6]), (vec![], vec![], vec![1]), "all but the border");
    assert_eq!(lies([0, 2, 0, 1]), (vec![0], vec![], vec![]));
    assert_eq!(lies([7, 8, 6, 7]), (vec![3], vec![], vec![]));
    assert_eq!(lies([0, 8, 0, 0]), (vec![0, 1], vec![], vec![3]), "the top row");
    assert_eq!(lies([8, 8, 7, 7]), (vec![3], vec![], vec![4]), "a corner alone");
    assert_eq!(lies([0, 0, 1, 6]), (vec![], vec![0], vec![2]));
    assert_eq!(lies([3, 4, 5, 7]), (vec![], vec![3], vec![]));
    assert_eq!(lies([0, 8, 2, 3]), (vec![], vec![], vec![]), "from side to side");
}

#[test]
fn stations_by_the_cut_are_told_apart() {
    // The cut of this window is columns 2 .. 6 and rows 0 .. 5.
    let by = |x, y| {
        let sorts = sorts([4, 4, 2, 3], x, y);
        assert_eq!(numbers(&sorts, "cut's edge inside"), [0, 1, 3], "the top is the grid's border");
        ["station on the", "station one unit inside", "station one unit outside"]
            .map(|name| numbers(&sorts, name))
    };
    assert_eq!(by(128, 100), [vec![0], vec![], vec![]]);
    assert_eq!(by(129, 100), [vec![], vec![0], vec![]]);
    assert_eq!(by(127, 100), [vec![], vec![], vec![0]]);
    assert_eq!(by(384, 320), [vec![1, 3], vec![], vec![]], "on a corner of the cut");
    assert_eq!(by(385, 320), [vec![], vec![], vec![1]], "on the bottom's line, but outside");
    assert_eq!(by(200, 319), [vec![], vec![3], vec![]]);
    assert_eq!(by(200, 0), [const { vec![] }; 3], "a border is no edge of a cut");
    assert_eq!(by(128, -1), [const { vec![] }; 3], "a post is counted apart");
}

#[test]
fn bad_windows_are_told_apart() {
    let bad = |ends: [u32; 4]| {
        let call = Call { nx: 9, ny: 8, grid_len: 0, support_len: 0, ..Call::default() };
        let sorts = of_bad(&call, &Window::new(ends[0], ends[1], ends[2], ends[3]));
        ["bad window (", "bad window by one", "end at", "bad window with"]
            .map(|name| numbers(&sorts, name))
    };
    assert_eq!(bad([3, 2, 0, 0]), [vec![0], vec![0], vec![], vec![0]], "no column, area 0");
    assert_eq!(bad([0, 0, 7, 2]), [vec![1], vec![], vec![], vec![]]);
    assert_eq!(bad([0, 9, 0, 0]), [vec![2], vec![2], vec![], vec![]]);
    assert_eq!(bad([0, 0, 0, u32::MAX]), [vec![3], vec![], vec![3], vec![0]], "2^32 rows wrap");
    assert_eq!(bad([0, 9, 0, 8]), [vec![4], vec![], vec![], vec![]], "both past, by one each");
    assert_eq!(bad([0, 0, u32::MAX, 2]), [vec![1], vec![], vec![2], vec![]]);
}

/// The sorts of a lone station of value 700 and D = 60, under two limits, on a
/// grid of 9 by 8.
fn post_sorts(x: i32, y: i32, limit: [i32; 2]) -> Vec<Sort> {
    let mut call = lone_station(9, 8, 640, x, y, 700);
    (call.scans, call.radius, call.limit) = (2, vec![96; 2], limit.to_vec());
    of_posts(&call, &run(&call).verdict)
}

#[test]
fn distances_of_posts_are_told_apart() {
    let beyond = |x, y| {
        let sorts = post_sorts(x, y, [200, 200]);
        ["station beyond a side", "station beyond a corner"].map(|name| numbers(&sorts, name))
    };
    assert_eq!(beyond(0, 5), [const { vec![] }; 2], "on the grid");
    assert_eq!(beyond(-1, 5), [vec![0], vec![]]);
    assert_eq!(beyond(512 + 256, 5), [vec![4 + 2], vec![]]);
    assert_eq!(beyond(0, -255), [vec![8 + 1], vec![]]);
    assert_eq!(beyond(512, 448 + 257), [vec![12 + 3], vec![]], "too far out");
    assert_eq!(beyond(-2, 5), [const { vec![] }; 2]);
    assert_eq!(beyond(-256, -1), [vec![], vec![4 * 2]]);
    assert_eq!(beyond(513, -257), [vec![], vec![16 + 3]]);
    assert_eq!(beyond(-257, 448 + 256), [vec![], vec![32 + 4 * 3 + 2]]);
    assert_eq!(beyond(512 + 255, 448 + 255), [vec![], vec![48 + 4 + 1]]);
}

#[test]
fn outcomes_of_posts_are_told_apart() {
    let outcome = |x, limit| {
        let sorts = post_sorts(x, 5, limit);
        ["post accepted (", "post rejected", "post with D", "post accepted in two"]
            .map(|name| numbers(&sorts, name))
    };
    assert_eq!(outcome(-9, [200, 200]), [vec![0, 1], vec![], vec![], vec![0]]);
    assert_eq!(outcome(-99, [200, 200]), [vec![0], vec![], vec![], vec![0]], "heard nowhere");
    assert_eq!(outcome(-9, [199, 200]), [vec![0, 1], vec![], vec![], vec![1]]);
    assert_eq!(outcome(-9, [200, 60]), [vec![0, 1], vec![], vec![0], vec![2]]);
    assert_eq!(outcome(-9, [58, 200]), [vec![], vec![0], vec![], vec![]]);
    assert_eq!(outcome(-9, [60, 59]), [vec![], vec![1], vec![1], vec![]]);
    assert_eq!(outcome(9, [200, 200]), [const { vec![] }; 4], "on the grid");
    assert_eq!(outcome(-257, [200, 200]), [const { vec![] }; 4], "too far out");
}

#[test]
fn posts_by_the_cut_are_told_apart() {
    // The cut of this window is columns 0 .. 4 and rows 2 .. 7: it shares the
    // left side and the bottom with the grid.
    let by = |x, y| {
        let call = lone_station(9, 8, 640, x, y, 700);
        let sorts = of_window(&call, &Window::new(1, 2, 4, 5), &run(&call).verdict);
        let places = ["inside the cut", "on the cut's", "one unit outside"];
        let [inside, on, outside] =
            places.map(|place| numbers(&sorts, &format!("post with its place {place}")));
        let [corner, heard] = ["post beyond", "post heard"].map(|name| numbers(&sorts, name));
        [inside, on, outside, corner, heard]
    };
    let none = || Vec::<u32>::new();
    assert_eq!(by(-1, 300), [vec![0], none(), none(), none(), vec![0]]);
    assert_eq!(by(-90, 300), [vec![0], none(), none(), none(), none()], "not heard");
    assert_eq!(by(-1, 129), [vec![0], none(), none(), none(), none()]);
    assert_eq!(by(-1, 128), [none(), vec![0], none(), none(), none()]);
    assert_eq!(by(-1, 127), [none(), none(), vec![0], none(), none()]);
    assert_eq!(by(-1, 448), [vec![0], none(), none(), none(), none()], "the grid's border");
    assert_eq!(by(256, 449), [none(), vec![7], none(), none(), none()]);
    assert_eq!(by(257, 700), [none(), none(), vec![7], none(), none()]);
    assert_eq!(by(-1, 449), [vec![0, 3], none(), none(), vec![2], none()]);
    assert_eq!(by(-1, -1), [const { vec![] }; 5], "beyond a corner that is not in the cut");
    assert_eq!(by(513, 300), [const { vec![] }; 5], "beyond another side");
    assert_eq!(by(-257, 300), [const { vec![] }; 5], "too far out");
    assert_eq!(by(257, 300), [const { vec![] }; 5], "on the grid, beside the cut");
}

/// A reading of a field of 3 by 2, all its corners backed.
fn reading_at(x: i32, y: i32) -> Query {
    Query { nx: 3, ny: 2, field: vec![7, -9, 0, 5, 9, 0], support: vec![1; 6], x, y }
}

fn told(query: &Query) -> Vec<Sort> {
    of_reading(query, &read(query))
}

#[test]
fn places_of_readings_are_told_apart() {
    let lies = |x, y| {
        let sorts = told(&reading_at(x, y));
        ["place (", "place on an edge", "place on a corner"].map(|name| numbers(&sorts, name))
    };
    assert_eq!(lies(70, 1), [vec![0], vec![], vec![]]);
    assert_eq!(lies(64, 1), [vec![1], vec![], vec![]]);
    assert_eq!(lies(70, 0), [vec![2], vec![2], vec![]]);
    assert_eq!(lies(64, 64), [vec![3], vec![3], vec![]]);
    assert_eq!(lies(128, 63), [vec![1], vec![1], vec![]]);
    assert_eq!(lies(128, 64), [vec![3], vec![], vec![3]]);
    assert_eq!(lies(0, 64), [vec![3], vec![], vec![2]]);
    let off = |x, y| {
        let sorts = told(&reading_at(x, y));
        ["place off the grid by", "place off the grid where", "place at"]
            .map(|name| numbers(&sorts, name))
    };
    assert_eq!(off(-1, 64), [vec![0], vec![0], vec![]]);
    assert_eq!(off(129, 0), [vec![1], vec![1], vec![]]);
    assert_eq!(off(128, 65), [vec![3], vec![3], vec![]]);
    assert_eq!(off(129, 65), [vec![], vec![4], vec![]], "off on both axes");
    assert_eq!(off(64, -256), [vec![], vec![2], vec![]]);
    assert_eq!(off(64, -257), [const { vec![] }; 3]);
    assert_eq!(off(-256, 321), [const { vec![] }; 3]);
    assert_eq!(off(i32::MIN, i32::MAX), [vec![], vec![], vec![0, 3]]);
}

#[test]
fn corners_of_readings_are_told_apart() {
    let sorts = |change: fn(&mut Query), x, y| {
        let mut query = reading_at(x, y);
        change(&mut query);
        let sorts = told(&query);
        ["corners that count", "bare corner", "first guess by", "value"]
            .map(|name| numbers(&sorts, name))
    };
    assert_eq!(sorts(|_| (), 1, 1), [vec![], vec![], vec![], vec![3]]);
    assert_eq!(sorts(|_| (), 128, 64), [vec![], vec![], vec![], vec![1]]);
    assert_eq!(sorts(|q| q.field[0] = 9, 32, 0), [vec![], vec![], vec![], vec![2]]);
    assert_eq!(sorts(|q| q.support[3] = 0, 1, 1), [vec![], vec![], vec![0], vec![3]]);
    assert_eq!(sorts(|q| q.support[3] = 0, 1, 0), [vec![], vec![0], vec![], vec![3]]);
    assert_eq!(sorts(|q| q.support[1] = 0, 63, 0), [vec![], vec![], vec![1], vec![0]]);
    assert_eq!(sorts(|q| q.support.fill(0), 64, 0), [vec![], vec![], vec![2], vec![0]]);
    let low = |q: &mut Query| q.field.fill(i32::MIN);
    assert_eq!(sorts(low, 1, 1), [vec![0, 3], vec![], vec![], vec![0]]);
    assert_eq!(sorts(low, 1, 0), [vec![0], vec![], vec![], vec![0]]);
}

#[test]
fn refused_readings_are_told_apart() {
    let refused = |change: fn(&mut Query)| {
        let mut query = reading_at(0, 0);
        change(&mut query);
        let sorts = told(&query);
        ["refused by (", "refused by one", "refused without"].map(|name| numbers(&sorts, name))
    };
    assert_eq!(refused(|q| q.nx = 1), [vec![0], vec![], vec![]]);
    assert_eq!(refused(|q| q.ny = 65), [vec![1], vec![], vec![]]);
    assert_eq!(refused(|q| q.field.push(0)), [vec![2], vec![0], vec![]]);
    assert_eq!(refused(|q| q.field.clear()), [vec![3], vec![], vec![0]]);
    assert_eq!(refused(|q| q.support.truncate(5)), [vec![5], vec![3], vec![]]);
    assert_eq!(refused(|q| q.support.clear()), [vec![5], vec![], vec![]]);
}

#[test]
fn summaries_are_told_apart() {
    let told = |field: [i32; 6]| {
        let query = Query { field: field.to_vec(), ..reading_at(0, 0) };
        let sorts = of_summary(&query, false);
        ["lowest", "highest", "field with", "field ("].map(|name| numbers(&sorts, name))
    };
    assert_eq!(told([-1, 2, 3, 2, 1, 4]), [vec![0], vec![1], vec![], vec![2]]);
    assert_eq!(told([3, 1, 5, 5, 5, 2]), [vec![2], vec![2], vec![], vec![1]]);
    assert_eq!(told([1, 1, 3, 3, 3, 2]), [vec![], vec![2], vec![], vec![1]], "first, not alone");
    assert_eq!(told([0; 6]), [vec![], vec![], vec![], vec![3, 4]]);
    let ends = [i32::MAX, 0, 0, 0, 0, i32::MIN];
    assert_eq!(told(ends), [vec![1], vec![0], vec![0, 1, 2], vec![2]]);
}

#[test]
fn every_sort_has_a_floor() {
    assert_eq!(held(floors()), 7 * 4 + 5 + 2 * 4 + 3, "each once, and none left out");
    assert_eq!(held(reading_floors()), 6 * 4 + 5 + 2 + 2 * 4 + 6 + 4 + 1);
    assert_eq!(held(summary_floors()), 3 * 3 + 5 + 4 + 4 + 2 + 1 + 2);
    let of_posts = 3 * 2 + 3 + 4 * 4 + 4 * 16;
    assert_eq!([call_floors(), text_floors(), screen_floors()].map(held), [of_posts; 3]);
    assert_eq!((held(window_floors(50)), real_floors().len()), (2 * 4 + 2 * 8 + 5, 4));
}

/// Sees that every floor is one that can be missed and be held, and gives
/// their number.
pub fn held(floors: Vec<Floor>) -> usize {
    let mut tally = Tally { count: 20_000, ..Tally::default() };
    for floor in floors {
        assert!(floor.least > 0 && tally.missed(&[floor]).is_some(), "{floor:?}");
        (0..floor.least).for_each(|_| tally.add(floor.name, floor.number));
        assert_eq!(tally.missed(&[floor]), None);
    }
    tally.seen.len()
}
