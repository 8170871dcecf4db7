//! T, the weighted sums W and the rounding: what lights and panels are read with.

use super::refusal::{Refusal, DARK, OBSERVER};
use crate::tables::{self, Table, FIRST};

/// The three functions of the observer asked for, or 6.
pub fn functions(observer: u32) -> Result<[&'static Table; 3], Refusal> {
    match observer {
        2 => Ok([&tables::X, &tables::Y, &tables::Z]),
        10 => Ok([&tables::X10, &tables::Y10, &tables::Z10]),
        _ => Err(OBSERVER),
    }
}

/// T at each whole nanometre from 360 to 830, of a grid that was checked: the first sample is
/// carried down to 360 and the last one up to 830.
pub fn line<T: Copy + Into<u64>>(start: u32, step: u32, samples: &[T]) -> Table {
    let mut line = [0; tables::WAVELENGTHS];
    let s = u64::from(step);
    line[..start.saturating_sub(FIRST) as usize].fill(s * samples[0].into());
    let mut wavelength = start;
    for pair in samples.windows(2) {
        let (this, next): (u64, u64) = (pair[0].into(), pair[1].into());
        for d in 0..s {
            if wavelength >= FIRST {
                line[(wavelength - FIRST) as usize] = (s - d) * this + d * next;
            }
            wavelength += 1;
        }
    }
    // Here the wavelength is the last one, 780 at least.
    line[(wavelength - FIRST) as usize..].fill(s * samples[samples.len() - 1].into());
    line
}

/// W: the sum over 360 to 830 of weight times line.
pub fn weigh(weights: &Table, line: &Table) -> u128 {
    let products = weights
        .iter()
        .zip(line)
        .map(|(&weight, &t)| u128::from(weight) * u128::from(t));
    products.sum()
}

/// The nearest whole number, halves up.
pub fn nearest(numerator: u128, denominator: u128) -> u32 {
    let nearest = (2 * numerator + denominator) / (2 * denominator);
    u32::try_from(nearest).expect("no accepted input has a reading past 32 bits")
}

/// The number and the values of x and y, where dark ones are 9 and no refusal of the whole.
pub fn xy_or_dark(sums: [u128; 3]) -> (u32, [u32; 2]) {
    xy_coordinates(sums).map_or_else(|dark| (dark.number, [0, 0]), |coordinates| (0, coordinates))
}

/// x and y from the three exact sums, or 9.
pub fn xy_coordinates([x, y, z]: [u128; 3]) -> Result<[u32; 2], Refusal> {
    over([x, y], x + y + z)
}

/// u' and v' from the three exact sums, or 9.
pub fn uv_coordinates([x, y, z]: [u128; 3]) -> Result<[u32; 2], Refusal> {
    over([4 * x, 9 * y], x + 15 * y + 3 * z)
}

/// Two parts of a divisor in hundred-thousandths, or 9 where it is 0.
fn over(parts: [u128; 2], divisor: u128) -> Result<[u32; 2], Refusal> {
    match divisor {
        0 => Err(DARK),
        _ => Ok(parts.map(|part| nearest(100_000 * part, divisor))),
    }
}
