//! What a move costs.

/// A price for standing at a place when another was wanted.
pub trait Measure {
    /// The cost of standing at `place`.
    fn cost(wanted: i64, weight: i64, place: i64) -> i64;

    /// The cost at `place + 1` less the cost at `place`.
    fn rise(wanted: i64, weight: i64, place: i64) -> i64;
}

/// The weight times the square of the distance.
pub struct Squared;

/// The weight times the distance.
pub struct Plain;

impl Measure for Squared {
    fn cost(wanted: i64, weight: i64, place: i64) -> i64 {
        let distance = place - wanted;
        weight * distance * distance
    }

    fn rise(wanted: i64, weight: i64, place: i64) -> i64 {
        weight * (2 * (place - wanted) + 1)
    }
}

impl Measure for Plain {
    fn cost(wanted: i64, weight: i64, place: i64) -> i64 {
        weight * (place - wanted).abs()
    }

    fn rise(wanted: i64, weight: i64, place: i64) -> i64 {
        if place >= wanted { weight } else { -weight }
    }
}
