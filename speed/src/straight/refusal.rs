//! The refusals: their numbers, and the checks that lights and panels share.

/// A refusal's number and, for 4 and 8, the place of the first faulty sample; else place 0.
pub struct Refusal {
    pub number: u32,
    pub place: u32,
}

pub const STEP: Refusal = refusal(1);
pub const START: Refusal = refusal(2);
pub const COUNT: Refusal = refusal(3);
pub const SAMPLE: Refusal = refusal(4);
pub const MESOPIC: Refusal = refusal(5);
pub const OBSERVER: Refusal = refusal(6);
pub const ILLUMINANT: Refusal = refusal(7);
pub const REFLECTANCE: Refusal = refusal(8);
pub const DARK: Refusal = refusal(9);
pub const EDITION: Refusal = refusal(10);
pub const RESERVED: Refusal = refusal(11);
pub const LENGTH: Refusal = refusal(12);
pub const PADDING: Refusal = refusal(13);
pub const ROOM: Refusal = refusal(14);

const LARGEST_SAMPLE: u32 = 1_000_000;

const fn refusal(number: u32) -> Refusal {
    Refusal { number, place: 0 }
}

/// 1, 2 or 3.
pub fn check_grid(start: u32, step: u32, count: usize) -> Result<(), Refusal> {
    if ![1, 2, 5, 10].contains(&step) {
        return Err(STEP);
    }
    if !(300..=380).contains(&start) {
        return Err(START);
    }
    if count == 0 {
        return Err(COUNT);
    }
    // u128, since the sum may not wrap however long the row is.
    let last = u128::from(start) + u128::from(step) * (count as u128 - 1);
    if !(780..=830).contains(&last) {
        return Err(COUNT);
    }
    Ok(())
}

/// 4, with the first place.
pub fn check_samples(samples: &[u32]) -> Result<(), Refusal> {
    check_each(samples, LARGEST_SAMPLE, SAMPLE)
}

/// The given refusal, with the first place, if an entry is above the largest.
pub fn check_each<T: Copy + Ord>(row: &[T], largest: T, refusal: Refusal) -> Result<(), Refusal> {
    match row.iter().position(|&entry| entry > largest) {
        Some(place) => Err(Refusal {
            place: place as u32,
            ..refusal
        }),
        None => Ok(()),
    }
}
