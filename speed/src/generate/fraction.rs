//! A reading as a fraction, for inputs that are aimed at its rounding.

use super::grid::Grid;
use super::random::Random;
use crate::tables::{self, at_reference, Table, FIRST};

/// A reading at step 1: what a unit of each sample adds to the numerator, and the denominator.
pub struct Fraction {
    pub adds: Vec<u128>,
    pub denominator: u128,
}

/// What a light's readings take besides the light: k, the observer of a colour, and that of a research figure.
pub struct Settings {
    pub k: u32,
    pub observer: u32,
    pub cone_observer: u32,
}

/// One of a light's readings, with the settings of each.
pub fn of_light(random: &mut Random, grid: &Grid, settings: &Settings) -> Fraction {
    let k = u128::from(settings.k);
    let functions = match settings.observer {
        2 => [&tables::X, &tables::Y, &tables::Z],
        _ => [&tables::X10, &tables::Y10, &tables::Z10],
    };
    let (y, scotopic) = (&tables::Y, &tables::V_PRIME);
    let cones = match settings.cone_observer {
        32 => &tables::V_F,
        _ => &tables::V_F10,
    };
    match random.below(6) {
        0 => illuminance(grid, scotopic),
        1 => illuminance(grid, cones),
        2 => Fraction {
            adds: each(grid, |row| {
                683 * (k * at(y, row) + (1000 - k) * at(scotopic, row))
            }),
            denominator: k * at_reference(y) + (1000 - k) * at_reference(scotopic),
        },
        _ => {
            let function = random.pick(&functions);
            Fraction {
                adds: each(grid, |row| 683 * at(function, row)),
                denominator: at_reference(functions[1]),
            }
        }
    }
}

fn illuminance(grid: &Grid, curve: &Table) -> Fraction {
    Fraction {
        adds: each(grid, |row| 683 * at(curve, row)),
        denominator: at_reference(curve),
    }
}

/// X, Y or Z of a panel.
pub fn of_panel(random: &mut Random, grid: &Grid, observer: u32, illuminant: u32) -> Fraction {
    let functions = match observer {
        2 => [&tables::X, &tables::Y, &tables::Z],
        _ => [&tables::X10, &tables::Y10, &tables::Z10],
    };
    let illuminant = match illuminant {
        1 => &tables::A,
        _ => &tables::D65,
    };
    let function = random.pick(&functions);
    let white = (0..tables::WAVELENGTHS).map(|row| at(functions[1], row) * at(illuminant, row));
    Fraction {
        adds: each(grid, |row| 10 * at(function, row) * at(illuminant, row)),
        denominator: white.sum(),
    }
}

fn at(table: &Table, row: usize) -> u128 {
    u128::from(table[row])
}

/// What each place adds: nothing below 360, and an end also what lies beyond it, from 360 to 830.
fn each(grid: &Grid, adds: impl Fn(usize) -> u128) -> Vec<u128> {
    let last = grid.wavelength(grid.count - 1);
    let mut of_place = vec![0; grid.count];
    for row in 0..tables::WAVELENGTHS {
        let measured = (FIRST + row as u32).clamp(grid.start, last);
        of_place[(measured - grid.start) as usize] += adds(row);
    }
    of_place
}
