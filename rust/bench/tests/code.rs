//! The plain code beside the reference.

use bench::plain::code as plain;
use lomvuze_reference::code;
use lomvuze_trials::Random;

#[test]
fn codewords() {
    let mut random = Random::new(1);
    for k in [2, 4, 8, 16, 32, 64] {
        let w = random.elements(k);
        let expected: Vec<u32> =
            code::codeword(&code::built_in_points(k), &w).iter().map(|value| value.number()).collect();
        let w: Vec<u32> = w.iter().map(|element| element.number()).collect();
        let points: Vec<u32> = plain::POINTS.iter().copied().step_by(64 / k).collect();
        let (mut transform, mut sums) = (vec![0; 4 * k], vec![0; 4 * k]);
        plain::codeword(&w, &mut transform);
        plain::codeword_at(&w, &points, &mut sums);
        assert_eq!([&transform, &sums], [&expected; 2], "k = {k}");
    }
}
