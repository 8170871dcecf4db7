//! Start, step and count: good ones, and each made faulty at and around its limits.

use super::random::Random;

pub const STEPS: [u32; 4] = [1, 2, 5, 10];

#[derive(Clone, Copy, Debug)]
pub struct Grid {
    pub start: u32,
    pub step: u32,
    pub count: usize,
}

impl Grid {
    pub fn random(random: &mut Random) -> Self {
        let step = random.pick(&STEPS);
        Grid::of_step(random, step)
    }

    /// A good grid, at the limits of start and count as often as between them.
    pub fn of_step(random: &mut Random, step: u32) -> Self {
        let start = match random.below(4) {
            0 => random.pick(&[300, 359, 360, 380]),
            _ => random.within(300..=380),
        };
        let (least, most) = (least(start, step), most(start, step));
        let count = match random.below(4) {
            0 => least,
            1 => most,
            _ => least + random.below(most - least + 1),
        };
        Grid { start, step, count }
    }

    pub fn wavelength(&self, place: usize) -> u32 {
        self.start + self.step * place as u32
    }

    /// The place of a wavelength that this grid samples.
    pub fn place(&self, wavelength: u32) -> Option<usize> {
        (0..self.count).find(|&place| self.wavelength(place) == wavelength)
    }
}

/// The count whose last wavelength is the first from 780 on.
fn least(start: u32, step: u32) -> usize {
    (780 - start).div_ceil(step) as usize + 1
}

/// The count whose last wavelength is the last up to 830.
fn most(start: u32, step: u32) -> usize {
    ((830 - start) / step) as usize + 1
}

/// A count that a good start and step refuse.
pub fn faulty_count(random: &mut Random, start: u32, step: u32) -> usize {
    let (least, most) = (least(start, step), most(start, step));
    match random.below(16) {
        0 => 1,
        1 | 2 => 0,
        3..6 => least - 1,
        6..9 => most + 1,
        9 | 10 => 532,
        11..13 => random.below(least),
        13..15 => most + 1 + random.below(600),
        // A good count once it is cut to 16 bits.
        _ => 65_536 + least,
    }
}

pub fn faulty_step(random: &mut Random) -> u32 {
    match random.below(3) {
        0 => random.within(11..=u32::MAX),
        1 => random.pick(&[0, 3, 4, 6, 7, 8, 9, 11, 20, 257, 65_537, u32::MAX]),
        _ => 3,
    }
}

pub fn faulty_start(random: &mut Random) -> u32 {
    match random.below(4) {
        0 => random.within(0..=299),
        1 => random.within(381..=u32::MAX),
        _ => random.pick(&[299, 381, 0, 65_536 + 380, u32::MAX - 399, u32::MAX]),
    }
}
