//! The readings of a panel.

use super::flat::{chart_answer, uv_answer, xy_answer, xyz_answer};
use super::line::{functions, line, nearest, uv_coordinates, weigh, xy_coordinates, xy_or_dark};
use super::refusal::{check_each, check_grid, Refusal, ILLUMINANT, REFLECTANCE};
use crate::answers::{ChartAnswer, PanelFiguresAnswer, UvAnswer, XyAnswer, XyzAnswer};
use crate::tables::{Table, A, D65};

const LARGEST_REFLECTANCE: u16 = 10_000;

pub fn panel_xyz(
    observer: u32,
    illuminant: u32,
    start: u32,
    step: u32,
    reflectances: &[u16],
) -> XyzAnswer {
    xyz_answer(tristimulus(observer, illuminant, start, step, reflectances))
}

pub fn panel_xy(
    observer: u32,
    illuminant: u32,
    start: u32,
    step: u32,
    reflectances: &[u16],
) -> XyAnswer {
    let sums = sums(observer, illuminant, start, step, reflectances);
    xy_answer(sums.and_then(xy_coordinates))
}

pub fn panel_uv(
    observer: u32,
    illuminant: u32,
    start: u32,
    step: u32,
    reflectances: &[u16],
) -> UvAnswer {
    let sums = sums(observer, illuminant, start, step, reflectances);
    uv_answer(sums.and_then(uv_coordinates))
}

pub fn panel_chart(
    observer: u32,
    illuminant: u32,
    start: u32,
    step: u32,
    reflectances: &[u16],
) -> ChartAnswer {
    chart_answer(sums(observer, illuminant, start, step, reflectances))
}

/// X, Y, Z and x, y of one panel: T is made once, and both come from the same three sums.
pub fn panel_figures(
    observer: u32,
    illuminant: u32,
    start: u32,
    step: u32,
    reflectances: &[u16],
) -> PanelFiguresAnswer {
    five(observer, illuminant, start, step, reflectances).unwrap_or_else(
        |Refusal { number, place }| PanelFiguresAnswer {
            number,
            place,
            ..Default::default()
        },
    )
}

fn five(
    observer: u32,
    illuminant: u32,
    start: u32,
    step: u32,
    reflectances: &[u16],
) -> Result<PanelFiguresAnswer, Refusal> {
    let sums = sums(observer, illuminant, start, step, reflectances)?;
    let [x, y, z] = thousandths(observer, illuminant, step, sums)?;
    let (xy_number, [chart_x, chart_y]) = xy_or_dark(sums);
    Ok(PanelFiguresAnswer {
        number: 0,
        place: 0,
        X: x,
        Y: y,
        Z: z,
        xy_number,
        x: chart_x,
        y: chart_y,
    })
}

fn tristimulus(
    observer: u32,
    illuminant: u32,
    start: u32,
    step: u32,
    reflectances: &[u16],
) -> Result<[u32; 3], Refusal> {
    let sums = sums(observer, illuminant, start, step, reflectances)?;
    thousandths(observer, illuminant, step, sums)
}

/// X, Y and Z from the panel's sums, over the white's.
fn thousandths(
    observer: u32,
    asked_illuminant: u32,
    step: u32,
    sums: [u128; 3],
) -> Result<[u32; 3], Refusal> {
    let [_, y_weights, _] = functions(observer)?;
    // The white runs over 360 to 830 whatever the panel's own range.
    let white = weigh(y_weights, illuminant(asked_illuminant)?);
    Ok(sums.map(|sum| nearest(10 * sum, u128::from(step) * white)))
}

/// The panel's exact X, Y and Z sums, or the first of 6, 7, 1, 2, 3, 8.
fn sums(
    observer: u32,
    asked_illuminant: u32,
    start: u32,
    step: u32,
    reflectances: &[u16],
) -> Result<[u128; 3], Refusal> {
    let functions = functions(observer)?;
    let illuminant = illuminant(asked_illuminant)?;
    check_grid(start, step, reflectances.len())?;
    check_each(reflectances, LARGEST_REFLECTANCE, REFLECTANCE)?;
    let mut lit = line(start, step, reflectances);
    for (t, light) in lit.iter_mut().zip(illuminant) {
        *t *= light;
    }
    Ok(functions.map(|weights| weigh(weights, &lit)))
}

/// The illuminant asked for, or 7.
fn illuminant(asked: u32) -> Result<&'static Table, Refusal> {
    match asked {
        1 => Ok(&A),
        2 => Ok(&D65),
        _ => Err(ILLUMINANT),
    }
}
