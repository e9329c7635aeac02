//! Edge cases of the point reading and of the summary.

use second::reading::{reading, Reading};
use second::summary::summarise;

#[test]
fn the_edges_of_the_grid_are_on_it() {
    let field = [0, 64, 128, 192, 256, 320];
    let read = |x, y| reading(3, 2, &field, &[1; 6], x, y);
    assert_eq!(read(128, 64), Reading::Backed(5.0));
    assert_eq!(read(128, 0), Reading::Backed(2.0));
    assert_eq!(read(0, 64), Reading::Backed(3.0));
    assert_eq!(read(96, 32), Reading::Backed(3.0));
    let by_one = [(-1, 0), (0, -1), (129, 0), (0, 65)];
    let posts = [(-256, 0), (384, 64), (128, -255), (-256, 320)];
    for (x, y) in [by_one, posts, [(i32::MIN, 0), (0, i32::MAX), (-257, 0), (0, 321)]].concat() {
        let off = read(x, y);
        assert_eq!((off, off.kind(), off.value().to_bits()), (Reading::OffGrid, 0, 0));
    }
}

#[test]
fn corners_without_a_share_do_not_count() {
    let read = |support: &[u8], x, y| reading(2, 2, &[64; 4], support, x, y);
    assert_eq!(read(&[9, 0, 0, 0], 0, 0), Reading::Backed(1.0));
    assert_eq!(read(&[9, 0, 0, 0], 1, 0), Reading::FirstGuess(1.0));
    assert_eq!(read(&[1, 32, 0, 0], 63, 0), Reading::Backed(1.0));
    assert_eq!(read(&[0, 0, 0, 255], 64, 64), Reading::Backed(1.0));
    assert_eq!(read(&[1, 1, 1, 0], 63, 63), Reading::FirstGuess(1.0));
}

#[test]
fn any_field_reads_exactly() {
    let low = [i32::MIN; 4];
    assert_eq!(reading(2, 2, &low, &[1; 4], 31, 7), Reading::Backed(-33_554_432.0));
    let mixed = [i32::MIN, i32::MAX, i32::MAX, i32::MIN];
    assert_eq!(reading(2, 2, &mixed, &[0; 4], 32, 32), Reading::FirstGuess(-1.0 / 128.0));
    let zero = reading(2, 2, &[-1, 1, 0, 0], &[0; 4], 32, 0).value();
    assert_eq!(zero.to_bits(), 0, "positive zero");
}

#[test]
fn a_reading_is_refused_by_its_shape_and_lengths() {
    let refused = |nx, ny, points, supports| {
        let answer = reading(nx, ny, &vec![64; points], &vec![1; supports], 0, 0);
        let value = if answer.kind() == 3 { 0.0_f64 } else { 1.0 };
        assert_eq!(answer.value().to_bits(), value.to_bits());
        answer.kind() == 3
    };
    assert!(!refused(2, 3, 6, 6));
    for (nx, ny, points, supports) in [
        (2, 3, 5, 5),
        (2, 3, 7, 6),
        (2, 3, 6, 5),
        (2, 3, 6, 7),
        (1, 6, 6, 6),
        (65, 2, 130, 130),
        (0, 0, 0, 0),
        (u32::MAX, u32::MAX, 1, 1),
    ] {
        assert!(refused(nx, ny, points, supports), "{nx} {ny} {points} {supports}");
    }
}

#[test]
fn the_summary_is_exact() {
    let summary = summarise(2, 2, &[i32::MIN, i32::MAX, 0, 1]);
    assert_eq!((summary.refusal, summary.place), (0, 0));
    assert_eq!((summary.lowest, summary.highest), (-33_554_432.0, 33_554_431.984_375));
    assert_eq!(summary.span, 67_108_863.984_375);
    let flat = summarise(2, 2, &[-96; 4]);
    assert_eq!((flat.lowest, flat.highest, flat.span.to_bits()), (-1.5, -1.5, 0));
    for (nx, ny, points) in [(2, 2, 3), (1, 4, 4), (65, 2, 130), (u32::MAX, 2, 4), (0, 0, 0)] {
        let refused = summarise(nx, ny, &vec![5; points]);
        let bits = [refused.lowest, refused.highest, refused.span].map(f64::to_bits);
        assert_eq!((refused.refusal, refused.place, bits), (1, 0, [0; 3]));
    }
}
