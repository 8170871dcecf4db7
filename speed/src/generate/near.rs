//! Rows at step 1 that bring a reading so near to a half that a unit in a table turns its rounding.

use super::fraction::Fraction;
use super::random::Random;

/// Of so many rows the nearest is taken.
const TRIES: usize = 40;

/// How many samples are used to come near the half.
const TUNERS: usize = 16;

/// From how many of the least the finest of them is picked.
const FINE: usize = 10;

pub fn row(random: &mut Random, fraction: &Fraction, largest: u32) -> Vec<u32> {
    let tries = (0..TRIES).map(|_| tuned(random, fraction, largest));
    let (_, row) = tries.min_by_key(|(away, _)| *away).expect("some tries");
    row
}

/// A random row, tuned, and how far its numerator is away from a half.
fn tuned(random: &mut Random, fraction: &Fraction, largest: u32) -> (u128, Vec<u32>) {
    let Fraction { adds, denominator } = fraction;
    let mut row: Vec<u32> = adds.iter().map(|_| random.within(0..=largest)).collect();
    let tuners = tuners(random, adds);
    for &place in &tuners {
        row[place] = 0;
    }
    let products = adds
        .iter()
        .zip(&row)
        .map(|(add, &entry)| add * u128::from(entry));
    let part = products.sum::<u128>() % denominator;
    // From below, with ever finer samples.
    let mut away = (denominator + denominator / 2 - part) % denominator;
    for &place in &tuners {
        let entry = (away / adds[place]).min(largest.into());
        row[place] = entry as u32;
        away -= entry * adds[place];
    }
    // Half of the rows go one step of the finest sample further, just above the half.
    let finest = tuners[tuners.len() - 1];
    if random.one_in(2) && row[finest] < largest {
        row[finest] += 1;
        away = away.abs_diff(adds[finest]);
    }
    (away, row)
}

/// Random places that add something, one of them among those that add least, from the most to the
/// least. It isn't always the very least: the samples that aren't tuned are the telling ones.
fn tuners(random: &mut Random, adds: &[u128]) -> Vec<usize> {
    let mut adding: Vec<usize> = (0..adds.len()).filter(|&place| adds[place] > 0).collect();
    adding.sort_by_key(|&place| adds[place]);
    let mut tuners = vec![random.pick(&adding[..FINE])];
    tuners.extend((0..TUNERS).map(|_| random.pick(&adding)));
    tuners.sort_by_key(|&place| std::cmp::Reverse(adds[place]));
    tuners.dedup();
    tuners
}
