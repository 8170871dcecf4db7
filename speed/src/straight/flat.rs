//! Answers laid flat, as the C boundary has them: a refusal gives its number and place, else 0.

use super::line::{uv_coordinates, xy_coordinates};
use super::refusal::Refusal;
use crate::answers::{ChartAnswer, Reading, UvAnswer, XyAnswer, XyzAnswer};

pub fn reading(answer: Result<u32, Refusal>) -> Reading {
    match answer {
        Ok(value) => Reading {
            value,
            ..Default::default()
        },
        Err(Refusal { number, place }) => Reading {
            number,
            place,
            ..Default::default()
        },
    }
}

pub fn xyz_answer(answer: Result<[u32; 3], Refusal>) -> XyzAnswer {
    match answer {
        Ok([x, y, z]) => XyzAnswer {
            x,
            y,
            z,
            ..Default::default()
        },
        Err(Refusal { number, place }) => XyzAnswer {
            number,
            place,
            ..Default::default()
        },
    }
}

pub fn xy_answer(answer: Result<[u32; 2], Refusal>) -> XyAnswer {
    match answer {
        Ok([x, y]) => XyAnswer {
            x,
            y,
            ..Default::default()
        },
        Err(Refusal { number, place }) => XyAnswer {
            number,
            place,
            ..Default::default()
        },
    }
}

pub fn uv_answer(answer: Result<[u32; 2], Refusal>) -> UvAnswer {
    match answer {
        Ok([u, v]) => UvAnswer {
            u,
            v,
            ..Default::default()
        },
        Err(Refusal { number, place }) => UvAnswer {
            number,
            place,
            ..Default::default()
        },
    }
}

/// The chart answer from the three exact sums: refused as x and y are, 9 where dark.
pub fn chart_answer(sums: Result<[u128; 3], Refusal>) -> ChartAnswer {
    match sums.and_then(four_coordinates) {
        Ok(coordinates) => {
            let [x, y, u, v] = coordinates.map(|each| f64::from(each) / 100000.0);
            ChartAnswer {
                x,
                y,
                u,
                v,
                ..Default::default()
            }
        }
        Err(Refusal { number, place }) => ChartAnswer {
            number,
            place,
            ..Default::default()
        },
    }
}

/// x, y, u' and v' from the three exact sums, or 9.
fn four_coordinates(sums: [u128; 3]) -> Result<[u32; 4], Refusal> {
    let ([x, y], [u, v]) = (xy_coordinates(sums)?, uv_coordinates(sums)?);
    Ok([x, y, u, v])
}
