//! Panels: reflectances and the settings of their readings.

use super::grid::{faulty_count, faulty_start, faulty_step, Grid};
use super::random::Random;
use super::rows::{self, LARGEST_REFLECTANCE};
use super::{fraction, near};

#[derive(Debug)]
pub struct Panel {
    pub observer: u32,
    pub illuminant: u32,
    pub start: u32,
    pub step: u32,
    pub reflectances: Vec<u16>,
}

#[derive(Clone, Copy)]
enum Fault {
    Count,
    Reflectance,
    Step,
    Start,
    Observer,
    Illuminant,
}

/// Count comes first, since it goes by the good start and step.
const FAULTS: [Fault; 6] = [
    Fault::Count,
    Fault::Reflectance,
    Fault::Step,
    Fault::Start,
    Fault::Observer,
    Fault::Illuminant,
];

impl Panel {
    pub fn random(random: &mut Random) -> Self {
        let mut panel = Panel::good(random);
        for fault in random.faults(&FAULTS) {
            panel.spoil(random, fault);
        }
        panel
    }

    /// A few of them are aimed at the rounding of X, Y or Z.
    fn good(random: &mut Random) -> Self {
        let (observer, illuminant) = (random.pick(&[2, 10]), random.pick(&[1, 2]));
        let aimed = random.one_in(4);
        let grid = match aimed {
            true => Grid::of_step(random, 1),
            false => Grid::random(random),
        };
        let reflectances = if aimed {
            let fraction = fraction::of_panel(random, &grid, observer, illuminant);
            rows::narrow(near::row(random, &fraction, LARGEST_REFLECTANCE))
        } else {
            rows::reflectances(random, &grid)
        };
        Panel {
            observer,
            illuminant,
            start: grid.start,
            step: grid.step,
            reflectances,
        }
    }

    fn spoil(&mut self, random: &mut Random, fault: Fault) {
        match fault {
            Fault::Count => {
                let count = faulty_count(random, self.start, self.step);
                self.reflectances.resize(count, LARGEST_REFLECTANCE as u16);
            }
            Fault::Reflectance => rows::spoil_reflectances(random, &mut self.reflectances),
            Fault::Step => self.step = faulty_step(random),
            Fault::Start => self.start = faulty_start(random),
            Fault::Observer => {
                self.observer = random.pick(&[0, 1, 3, 9, 11, 32, 40, 258, u32::MAX])
            }
            Fault::Illuminant => self.illuminant = random.pick(&[0, 3, 4, 257, u32::MAX]),
        }
    }
}
