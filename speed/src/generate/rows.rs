//! Rows of samples and of reflectances without faults: dark, lone, largest, at random, lamps and paints.

use super::grid::Grid;
use super::random::Random;

pub const LARGEST_SAMPLE: u32 = 1_000_000;
pub const LARGEST_REFLECTANCE: u32 = 10_000;

/// A light's row.
pub fn samples(random: &mut Random, grid: &Grid) -> Vec<u32> {
    row(random, grid, LARGEST_SAMPLE)
}

/// A panel's row.
pub fn reflectances(random: &mut Random, grid: &Grid) -> Vec<u16> {
    narrow(row(random, grid, LARGEST_REFLECTANCE))
}

/// The longest row, of 531 samples that all differ.
pub fn longest() -> Vec<u32> {
    (0..531).map(|place| 1883 * place).collect()
}

/// A row of any kind.
fn row(random: &mut Random, grid: &Grid, largest: u32) -> Vec<u32> {
    let only = |lit: &dyn Fn(u32) -> bool, random: &mut Random| {
        let value = |place| match lit(grid.wavelength(place)) {
            true => random.within(1..=largest),
            false => 0,
        };
        (0..grid.count).map(value).collect()
    };
    match random.below(12) {
        0 => vec![0; grid.count],
        1 => vec![largest; grid.count],
        2 => vec![random.within(0..=largest); grid.count],
        3 => only(&|wavelength| wavelength < 360, random),
        // The scotopic weight is 0 there.
        4 => only(&|wavelength| !(380..=780).contains(&wavelength), random),
        5 => lone(random, grid, largest),
        6 | 7 => only(&|_| true, random),
        _ => humps(random, grid, largest),
    }
}

/// One sample, anywhere or at an end, of a telling size.
fn lone(random: &mut Random, grid: &Grid, largest: u32) -> Vec<u32> {
    let mut row = vec![0; grid.count];
    let place = match random.below(4) {
        0 => random.pick(&[0, grid.count - 1]),
        _ => random.below(grid.count),
    };
    row[place] = match random.below(3) {
        0 => random.within(1..=largest),
        _ => random.pick(&[1, 2, largest - 1, largest]),
    };
    row
}

/// The samples of a lamp: a few smooth humps.
pub fn lamp(random: &mut Random, start: u32, step: u32, count: usize) -> Vec<u32> {
    humps(random, &Grid { start, step, count }, LARGEST_SAMPLE)
}

/// The reflectances of a paint: a few smooth humps.
pub fn paint(random: &mut Random, start: u32, step: u32, count: usize) -> Vec<u16> {
    narrow(humps(
        random,
        &Grid { start, step, count },
        LARGEST_REFLECTANCE,
    ))
}

/// One to four humps, each peak · w² / (w² + (λ − c)²), together at most the largest.
fn humps(random: &mut Random, grid: &Grid, largest: u32) -> Vec<u32> {
    let number = random.within(1..=4);
    let mut row = vec![0; grid.count];
    for _ in 0..number {
        let peak = u64::from(random.within(0..=largest / number));
        let centre = random.within(300..=830);
        let square = u64::from(random.within(3..=150)).pow(2);
        for (place, sample) in row.iter_mut().enumerate() {
            let away = u64::from(grid.wavelength(place).abs_diff(centre)).pow(2);
            *sample += (peak * square / (square + away)) as u32;
        }
    }
    row
}

/// A few faulty entries, up to the end of their type, at random places.
pub fn spoil(random: &mut Random, row: &mut [u32], largest: u32, end: u32) {
    if row.is_empty() {
        return;
    }
    for _ in 0..random.pick(&[1, 1, 1, 2, 3]) {
        let place = match random.below(8) {
            0 => 0,
            1 => row.len() - 1,
            _ => random.below(row.len()),
        };
        row[place] = match random.below(4) {
            0 => end,
            1 => random.within(largest + 1..=end),
            _ => largest + 1,
        };
    }
}

/// A few faulty reflectances at random places.
pub fn spoil_reflectances(random: &mut Random, row: &mut Vec<u16>) {
    let mut wide: Vec<u32> = row.iter().copied().map(u32::from).collect();
    spoil(random, &mut wide, LARGEST_REFLECTANCE, u16::MAX.into());
    *row = narrow(wide);
}

pub fn narrow(row: Vec<u32>) -> Vec<u16> {
    row.into_iter().map(|entry| entry as u16).collect()
}
