//! Lights: a spectrum, the settings of its readings, and the room for its record.

use super::fraction::Settings;
use super::grid::{faulty_count, faulty_start, faulty_step, Grid};
use super::random::Random;
use super::rows::{self, LARGEST_SAMPLE};
use super::{fraction, halves, near};

#[derive(Debug)]
pub struct Light {
    pub k: u32,
    pub observer: u32,
    /// The observer of the research figure.
    pub cone_observer: u32,
    pub start: u32,
    pub step: u32,
    pub samples: Vec<u32>,
    /// How many bytes are lent for the record.
    pub room: usize,
}

#[derive(Clone, Copy)]
enum Fault {
    Count,
    Sample,
    Room,
    Step,
    Start,
    Mesopic,
    Observer,
}

/// Count comes first, since it goes by the good start and step.
const FAULTS: [Fault; 7] = [
    Fault::Count,
    Fault::Sample,
    Fault::Room,
    Fault::Step,
    Fault::Start,
    Fault::Mesopic,
    Fault::Observer,
];

impl Light {
    /// The longest light, with each room in turn from none to more than its record needs.
    pub fn with_room(turn: usize) -> Self {
        Light {
            k: turn as u32 % 1001,
            observer: 2,
            cone_observer: [32, 40][turn % 2],
            start: 300,
            step: 1,
            samples: rows::longest(),
            room: turn % 1335,
        }
    }

    pub fn random(random: &mut Random) -> Self {
        let mut light = Light::good(random);
        for fault in random.faults(&FAULTS) {
            light.spoil(random, fault);
        }
        light
    }

    /// Half of them are aimed at the rounding of some reading.
    fn good(random: &mut Random) -> Self {
        let (observer, cone_observer) = (random.pick(&[2, 10]), random.pick(&[32, 40]));
        let k = match random.below(2) {
            0 => random.pick(&[0, 1, 100, 250, 500, 750, 999, 1000]),
            _ => random.within(0..=1000),
        };
        let settings = Settings {
            k,
            observer,
            cone_observer,
        };
        let aim = random.below(6);
        let grid = match aim {
            0..3 => Grid::of_step(random, 1),
            _ => Grid::random(random),
        };
        let aimed = match aim {
            0 => {
                let fraction = fraction::of_light(random, &grid, &settings);
                halves::reading(random, &fraction)
            }
            1 => halves::coordinate(random, &grid, observer),
            2 => {
                let fraction = fraction::of_light(random, &grid, &settings);
                Some(near::row(random, &fraction, LARGEST_SAMPLE))
            }
            _ => None,
        };
        let samples = aimed.unwrap_or_else(|| rows::samples(random, &grid));
        Light {
            k,
            observer,
            cone_observer,
            start: grid.start,
            step: grid.step,
            room: record_length(samples.len()) + random.pick(&[0, 0, 0, 1, 2, 100]),
            samples,
        }
    }

    fn spoil(&mut self, random: &mut Random, fault: Fault) {
        match fault {
            Fault::Count => {
                let count = faulty_count(random, self.start, self.step);
                self.samples.resize(count, LARGEST_SAMPLE);
                self.room = record_length(count);
            }
            Fault::Sample => rows::spoil(random, &mut self.samples, LARGEST_SAMPLE, u32::MAX),
            Fault::Room => self.room = random.below(record_length(self.samples.len())),
            Fault::Step => self.step = faulty_step(random),
            Fault::Start => self.start = faulty_start(random),
            Fault::Mesopic => self.k = random.pick(&[1001, 1002, 65_536, u32::MAX]),
            Fault::Observer => {
                self.observer = random.pick(&[0, 1, 3, 9, 11, 32, 40, 258, u32::MAX]);
                self.cone_observer = random.pick(&[0, 2, 10, 31, 33, 39, 41, 288, u32::MAX]);
            }
        }
    }
}

/// 3 + 5n/2 bytes, rounded up.
pub fn record_length(count: usize) -> usize {
    3 + (5 * count).div_ceil(2)
}
