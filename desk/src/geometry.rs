//! Points, lines and directions of a picture.

use std::f64::consts::TAU;

#[derive(Clone, Copy, PartialEq, Debug, Default)]
pub struct Point {
    pub x: f64,
    pub y: f64,
}

impl Point {
    /// The point at a distance from this one, in a direction.
    pub fn towards(self, angle: f64, distance: f64) -> Point {
        Point { x: self.x + distance * angle.cos(), y: self.y + distance * angle.sin() }
    }

    /// The direction in which another point lies.
    pub fn angle(self, other: Point) -> f64 {
        (other.y - self.y).atan2(other.x - self.x)
    }

    pub fn distance(self, other: Point) -> f64 {
        (other.x - self.x).hypot(other.y - self.y)
    }

    /// How far it is to the nearest point of the way from one point to another.
    pub fn distance_to_line(self, from: Point, to: Point) -> f64 {
        let (dx, dy) = (to.x - from.x, to.y - from.y);
        let along = (self.x - from.x) * dx + (self.y - from.y) * dy;
        let part = (along / (dx * dx + dy * dy).max(0.001)).clamp(0.0, 1.0);
        self.distance(from.between(to, part))
    }

    /// The point that divides the way to another one.
    pub fn between(self, other: Point, part: f64) -> Point {
        Point { x: self.x + part * (other.x - self.x), y: self.y + part * (other.y - self.y) }
    }
}

/// Whether two lines cross between their ends.
pub fn crosses(a: Point, b: Point, c: Point, d: Point) -> bool {
    let side = |from: Point, to: Point, point: Point| {
        (to.x - from.x) * (point.y - from.y) - (to.y - from.y) * (point.x - from.x)
    };
    side(a, b, c) * side(a, b, d) < 0.0 && side(c, d, a) * side(c, d, b) < 0.0
}

pub fn middle(points: &[Point]) -> Point {
    let count = points.len().max(1) as f64;
    let sum = |of: fn(&Point) -> f64| points.iter().map(of).sum::<f64>() / count;
    Point { x: sum(|point| point.x), y: sum(|point| point.y) }
}

/// Turns directions so that no two are nearer to each other than `apart`, where so many
/// fit into a circle; their order stays.
pub fn spread(wanted: &[f64], apart: f64) -> Vec<f64> {
    const ROUNDS: usize = 400;
    let mut angles: Vec<f64> = wanted.iter().map(|angle| angle.rem_euclid(TAU)).collect();
    let mut order: Vec<usize> = (0..angles.len()).collect();
    order.sort_by(|&a, &b| angles[a].total_cmp(&angles[b]));
    let (Some(&first), Some(&last)) = (order.first(), order.last()) else { return angles };
    // From the last to the first it is once round.
    let mut pairs: Vec<(usize, usize, f64)> =
        order.windows(2).map(|pair| (pair[0], pair[1], 0.0)).collect();
    if first != last {
        pairs.push((last, first, TAU));
    }
    for &(before, behind, round) in std::iter::repeat_n(&pairs, ROUNDS).flatten() {
        let missing = apart - (angles[behind] + round - angles[before]);
        if missing > 0.0 {
            angles[before] -= missing / 2.0;
            angles[behind] += missing / 2.0;
        }
    }
    angles
}

#[cfg(test)]
mod tests {
    use super::*;

    #[test]
    fn directions_are_spread_and_keep_their_order() {
        let spread = spread(&[0.0, 0.01, 0.02, 3.0], 0.6);
        for (a, b) in [(0, 1), (1, 2), (2, 3)] {
            assert!(spread[b] - spread[a] > 0.59, "{spread:?}");
        }
        assert!((spread[3] - 3.0).abs() < 0.01, "{spread:?}");
    }

    #[test]
    fn eight_directions_alike_fill_the_circle() {
        let mut spread: Vec<f64> =
            spread(&[1.0; 8], 0.7).iter().map(|angle| angle.rem_euclid(TAU)).collect();
        spread.sort_by(f64::total_cmp);
        for pair in spread.windows(2) {
            assert!(pair[1] - pair[0] > 0.6, "{spread:?}");
        }
    }

    #[test]
    fn few_directions_stay() {
        assert_eq!(spread(&[], 0.7), Vec::<f64>::new());
        assert_eq!(spread(&[2.0], 0.7), vec![2.0]);
        assert_eq!(spread(&[2.0, 4.0], 0.7), vec![2.0, 4.0]);
    }
}
