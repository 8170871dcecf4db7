//! Lights at step 1 whose reading or coordinate is exactly a half, or just beside it.

use super::fraction::Fraction;
use super::grid::Grid;
use super::random::Random;
use super::rows::LARGEST_SAMPLE;
use crate::tables::{self, FIRST};

/// How often an unlucky choice is tried again.
const TRIES: usize = 1000;

/// The largest divisor to walk over: a walk then has 100,000 steps or so.
const FAR: u128 = 100_000 * LARGEST_SAMPLE as u128;

/// A light of two samples, as 136,491 at 555 and 184,750 at 382, if one is found.
pub fn reading(random: &mut Random, fraction: &Fraction) -> Option<Vec<u32>> {
    let samples = (0..TRIES).find_map(|_| half(random, fraction))?;
    Some(nudged(random, samples))
}

/// With samples v and u at two places the reading is (v·m + u·n)/d, once what the three have in
/// common is taken out. It is a half where v·m + u·n is d/2 more than a multiple of d. To each u
/// belongs one such v below d, and the walk over u ends where v is small enough for a sample.
fn half(random: &mut Random, fraction: &Fraction) -> Option<Vec<u32>> {
    let Fraction { adds, denominator } = fraction;
    let (first, second) = (random.below(adds.len()), random.below(adds.len()));
    if first == second || adds[second] == 0 {
        return None;
    }
    let common = gcd(gcd(adds[first], adds[second]), *denominator);
    let [m, n, d] = [adds[first], adds[second], *denominator].map(|each| each / common);
    if d % 2 == 1 || d > FAR {
        return None;
    }
    let inverse = inverse(m, d)?;
    let turn = d - n % d * inverse % d;
    let from = random.within(0..=LARGEST_SAMPLE);
    let mut v = (d / 2 * inverse + u128::from(from) * turn) % d;
    for u in from..=LARGEST_SAMPLE {
        if let Some(v) = small(v) {
            let mut samples = vec![0; adds.len()];
            (samples[first], samples[second]) = (v, u);
            return Some(samples);
        }
        v = (v + turn) % d;
    }
    None
}

/// How often X, Y and Z count in a coordinate's numerator, and in its divisor.
#[derive(Clone, Copy)]
struct Coordinate {
    numerator: [i128; 3],
    divisor: [i128; 3],
}

/// x, y, u' and v'.
const COORDINATES: [Coordinate; 4] = [
    Coordinate {
        numerator: [1, 0, 0],
        divisor: [1, 1, 1],
    },
    Coordinate {
        numerator: [0, 1, 0],
        divisor: [1, 1, 1],
    },
    Coordinate {
        numerator: [4, 0, 0],
        divisor: [1, 15, 3],
    },
    Coordinate {
        numerator: [0, 9, 0],
        divisor: [1, 15, 3],
    },
];

/// A light of two samples one of whose coordinates ends in a half, if one is found.
pub fn coordinate(random: &mut Random, grid: &Grid, observer: u32) -> Option<Vec<u32>> {
    let coordinate = random.pick(&COORDINATES);
    let samples = (0..TRIES).find_map(|_| sixty_fourths(random, grid, observer, coordinate))?;
    Some(nudged(random, samples))
}

/// A light of two samples whose coordinate is an odd number of sixty-fourths, so 1562.5 times it.
fn sixty_fourths(
    random: &mut Random,
    grid: &Grid,
    observer: u32,
    coordinate: Coordinate,
) -> Option<Vec<u32>> {
    let odd = i128::from(2 * random.within(0..=31) + 1);
    // How far a unit of the sample pulls the coordinate from odd/64.
    let pull = |wavelength: u32| {
        let weights = weights(observer, wavelength);
        64 * counted(coordinate.numerator, weights) - odd * counted(coordinate.divisor, weights)
    };
    // Round wavelengths have short weights, whose pulls cancel at small samples.
    let [first, second] = [(); 2].map(|()| 10 * random.within(36..=83));
    let (up, down) = (pull(first), pull(second));
    if up <= 0 || down >= 0 {
        return None;
    }
    let (up, down) = (up.unsigned_abs(), down.unsigned_abs());
    let common = gcd(up, down);
    // A sample at an end is carried, so it pulls at other wavelengths too.
    let inner = |wavelength| {
        grid.place(wavelength)
            .filter(|place| (1..grid.count - 1).contains(place))
    };
    let mut samples = vec![0; grid.count];
    samples[inner(first)?] = small(down / common)?;
    samples[inner(second)?] = small(up / common)?;
    Some(samples)
}

/// The observer's three weights at a wavelength.
fn weights(observer: u32, wavelength: u32) -> [i128; 3] {
    let functions = match observer {
        2 => [&tables::X, &tables::Y, &tables::Z],
        _ => [&tables::X10, &tables::Y10, &tables::Z10],
    };
    functions.map(|table| i128::from(table[(wavelength - FIRST) as usize]))
}

/// Each so often.
fn counted(often: [i128; 3], each: [i128; 3]) -> i128 {
    (0..3).map(|i| often[i] * each[i]).sum()
}

fn small(sample: u128) -> Option<u32> {
    let sample = u32::try_from(sample).ok()?;
    (sample <= LARGEST_SAMPLE).then_some(sample)
}

/// One time in three a unit is taken off, which puts the reading just beside the half.
fn nudged(random: &mut Random, mut samples: Vec<u32>) -> Vec<u32> {
    if random.one_in(3) {
        if let Some(sample) = samples.iter_mut().find(|sample| **sample > 0) {
            *sample -= 1;
        }
    }
    samples
}

fn gcd(a: u128, b: u128) -> u128 {
    if b == 0 {
        a
    } else {
        gcd(b, a % b)
    }
}

/// What a is multiplied by to leave 1 over a multiple of d, if they have nothing in common.
fn inverse(a: u128, d: u128) -> Option<u128> {
    let (mut left, mut right) = ((d, 0), (a % d, 1));
    while right.0 > 0 {
        let quotient = left.0 / right.0;
        let factor = (left.1 + (d - quotient % d) * right.1) % d;
        (left, right) = (right, (left.0 % right.0, factor));
    }
    (left.0 == 1).then_some(left.1)
}

#[cfg(test)]
mod tests {
    use super::*;
    use crate::generate::fraction::{self, Settings};

    #[test]
    fn the_halves_of_readings_are_exact() {
        let mut random = Random::new(1);
        let mut found = 0;
        for _ in 0..200 {
            let grid = Grid::of_step(&mut random, 1);
            let settings = Settings {
                k: 500,
                observer: random.pick(&[2, 10]),
                cone_observer: random.pick(&[32, 40]),
            };
            let fraction = fraction::of_light(&mut random, &grid, &settings);
            let Some(samples) = (0..TRIES).find_map(|_| half(&mut random, &fraction)) else {
                continue;
            };
            let products = fraction.adds.iter().zip(&samples);
            let sum: u128 = products
                .map(|(add, &sample)| add * u128::from(sample))
                .sum();
            assert_eq!(2 * sum % (2 * fraction.denominator), fraction.denominator);
            found += 1;
        }
        assert!(found > 150, "only {found} of 200");
    }

    #[test]
    fn the_halves_of_coordinates_are_exact() {
        let mut random = Random::new(1);
        for coordinate in COORDINATES {
            let mut found = 0;
            for turn in 0..200 {
                let grid = Grid::of_step(&mut random, 1);
                let observer = [2, 10][turn % 2];
                let light = (0..TRIES)
                    .find_map(|_| sixty_fourths(&mut random, &grid, observer, coordinate));
                let Some(samples) = light else {
                    continue;
                };
                let mut sums = [0; 3];
                for (place, &sample) in samples.iter().enumerate().filter(|(_, &lit)| lit > 0) {
                    let weights = weights(observer, grid.start + place as u32);
                    sums = [0, 1, 2].map(|i| sums[i] + i128::from(sample) * weights[i]);
                }
                let divisor = counted(coordinate.divisor, sums);
                let doubled = 200_000 * counted(coordinate.numerator, sums);
                assert_eq!(doubled % (2 * divisor), divisor);
                found += 1;
            }
            assert!(found > 150, "only {found} of 200");
        }
    }
}
