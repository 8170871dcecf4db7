//! The readings of a light.

use super::flat::{chart_answer, reading, uv_answer, xy_answer, xyz_answer};
use super::line::{functions, line, nearest, uv_coordinates, weigh, xy_coordinates, xy_or_dark};
use super::refusal::{check_grid, check_samples, Refusal, MESOPIC, OBSERVER};
use crate::answers::{ChartAnswer, FiguresAnswer, Reading, UvAnswer, XyAnswer, XyzAnswer};
use crate::tables::{at_reference, Table, V_F, V_F10, V_PRIME, Y, Y10};

pub fn photopic(start: u32, step: u32, samples: &[u32]) -> Reading {
    reading(illuminance(&Y, start, step, samples))
}

pub fn scotopic(start: u32, step: u32, samples: &[u32]) -> Reading {
    reading(illuminance(&V_PRIME, start, step, samples))
}

pub fn photopic_10(start: u32, step: u32, samples: &[u32]) -> Reading {
    reading(illuminance(&Y10, start, step, samples))
}

pub fn mesopic(k: u32, start: u32, step: u32, samples: &[u32]) -> Reading {
    reading(mixed(k, start, step, samples))
}

pub fn research(observer: u32, start: u32, step: u32, samples: &[u32]) -> Reading {
    reading(cone_curve(observer).and_then(|curve| illuminance(curve, start, step, samples)))
}

pub fn xyz(observer: u32, start: u32, step: u32, samples: &[u32]) -> XyzAnswer {
    xyz_answer(tristimulus(observer, start, step, samples))
}

pub fn xy(observer: u32, start: u32, step: u32, samples: &[u32]) -> XyAnswer {
    xy_answer(sums(observer, start, step, samples).and_then(xy_coordinates))
}

pub fn uv(observer: u32, start: u32, step: u32, samples: &[u32]) -> UvAnswer {
    uv_answer(sums(observer, start, step, samples).and_then(uv_coordinates))
}

pub fn chart(observer: u32, start: u32, step: u32, samples: &[u32]) -> ChartAnswer {
    chart_answer(sums(observer, start, step, samples))
}

/// The seven figures of the report, observer 2, with one T for all.
pub fn figures(start: u32, step: u32, samples: &[u32]) -> FiguresAnswer {
    seven(start, step, samples).unwrap_or_else(|Refusal { number, place }| FiguresAnswer {
        number,
        place,
        ..Default::default()
    })
}

fn seven(start: u32, step: u32, samples: &[u32]) -> Result<FiguresAnswer, Refusal> {
    let functions = functions(2)?;
    let line = checked_line(start, step, samples)?;
    let sums = functions.map(|weights| weigh(weights, &line));
    let [x, y, z] = sums.map(|sum| millilux(sum, functions[1], step));
    let scotopic = millilux(weigh(&V_PRIME, &line), &V_PRIME, step);
    let (xy_number, [chart_x, chart_y]) = xy_or_dark(sums);
    Ok(FiguresAnswer {
        number: 0,
        place: 0,
        photopic: y, // V is ȳ
        scotopic,
        X: x,
        Y: y,
        Z: z,
        xy_number,
        x: chart_x,
        y: chart_y,
    })
}

/// T of a light, or the first of 1, 2, 3, 4.
fn checked_line(start: u32, step: u32, samples: &[u32]) -> Result<Table, Refusal> {
    check_grid(start, step, samples.len())?;
    check_samples(samples)?;
    Ok(line(start, step, samples))
}

/// A sum with the efficacy of V, V10 or V', which is 683 over the value at 555.017 nm, since that at
/// the peak is 1, or of a cone-fundamental curve, which has no peak factor. Weights at 10^13 to one
/// times samples in millionths, over the thousandths of the reading, are at 10^16 to one as that
/// value is.
fn millilux(sum: u128, curve: &Table, step: u32) -> u32 {
    nearest(683 * sum, u128::from(step) * at_reference(curve))
}

/// The cone-fundamental curve of 2° or of 10°, or 6.
fn cone_curve(observer: u32) -> Result<&'static Table, Refusal> {
    match observer {
        32 => Ok(&V_F),
        40 => Ok(&V_F10),
        _ => Err(OBSERVER),
    }
}

fn illuminance(curve: &Table, start: u32, step: u32, samples: &[u32]) -> Result<u32, Refusal> {
    let line = checked_line(start, step, samples)?;
    Ok(millilux(weigh(curve, &line), curve, step))
}

fn mixed(k: u32, start: u32, step: u32, samples: &[u32]) -> Result<u32, Refusal> {
    if k > 1000 {
        return Err(MESOPIC);
    }
    let line = checked_line(start, step, samples)?;
    let k = u128::from(k);
    let mixture = k * weigh(&Y, &line) + (1000 - k) * weigh(&V_PRIME, &line);
    let bracket = k * at_reference(&Y) + (1000 - k) * at_reference(&V_PRIME);
    Ok(nearest(683 * mixture, u128::from(step) * bracket))
}

fn tristimulus(observer: u32, start: u32, step: u32, samples: &[u32]) -> Result<[u32; 3], Refusal> {
    let [_, y_weights, _] = functions(observer)?;
    let sums = sums(observer, start, step, samples)?;
    Ok(sums.map(|sum| millilux(sum, y_weights, step)))
}

/// The light's exact X, Y and Z sums, or the first of 6, 1, 2, 3, 4.
fn sums(observer: u32, start: u32, step: u32, samples: &[u32]) -> Result<[u128; 3], Refusal> {
    let functions = functions(observer)?;
    let line = checked_line(start, step, samples)?;
    Ok(functions.map(|weights| weigh(weights, &line)))
}
