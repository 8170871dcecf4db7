//! Plain f64 dot products for the seven figures and for a panel: not exact, for the speed table only.

use crate::tables::{self, Table, FIRST, WAVELENGTHS};

type Weights = [f64; WAVELENGTHS];

static X: Weights = floats(&tables::X, 1e13);
static Y: Weights = floats(&tables::Y, 1e13);
static Z: Weights = floats(&tables::Z, 1e13);
static V_PRIME: Weights = floats(&tables::V_PRIME, 1e13);
static D65: Weights = floats(&tables::D65, 1e5);

/// At 555.017 nm.
const V_AT_REFERENCE: f64 = 0.9999975639;
const V_PRIME_AT_REFERENCE: f64 = 0.4017348;

const fn floats(table: &Table, one: f64) -> Weights {
    let mut floats = [0.0; WAVELENGTHS];
    let mut i = 0;
    while i < WAVELENGTHS {
        floats[i] = table[i] as f64 / one;
        i += 1;
    }
    floats
}

/// Photopic (which is Y), scotopic, X, Z in millilux, then x and y, of a light without faults.
pub fn figures(start: u32, step: u32, samples: &[u32]) -> [f64; 6] {
    let line = line(start, step, samples);
    let (mut x, mut y, mut z, mut scotopic) = (0.0, 0.0, 0.0, 0.0);
    // One loop: the four sums don't wait for each other.
    for (i, t) in line.iter().enumerate() {
        x += X[i] * t;
        y += Y[i] * t;
        z += Z[i] * t;
        scotopic += V_PRIME[i] * t;
    }
    let [chart_x, chart_y] = [x, y].map(|each| each / (x + y + z));
    let [x, y, z] = [x, y, z].map(|sum| 0.683 / V_AT_REFERENCE * sum);
    let scotopic = 0.683 / V_PRIME_AT_REFERENCE * scotopic;
    [y, scotopic, x, z, chart_x, chart_y]
}

/// X, Y, Z in thousandths, then x and y, of a panel without faults under D65, observer 2.
pub fn panel(start: u32, step: u32, reflectances: &[u16]) -> [f64; 5] {
    let line = line(start, step, reflectances);
    let (mut x, mut y, mut z, mut white) = (0.0, 0.0, 0.0, 0.0);
    for (i, t) in line.iter().enumerate() {
        x += X[i] * D65[i] * t;
        y += Y[i] * D65[i] * t;
        z += Z[i] * D65[i] * t;
        white += Y[i] * D65[i];
    }
    let [chart_x, chart_y] = [x, y].map(|each| each / (x + y + z));
    let [x, y, z] = [x, y, z].map(|sum| 10.0 * sum / white);
    [x, y, z, chart_x, chart_y]
}

/// The spectrum at each whole nanometre from 360 to 830, with its ends carried there.
fn line<T: Copy + Into<f64>>(start: u32, step: u32, samples: &[T]) -> Weights {
    let mut line = [0.0; WAVELENGTHS];
    line[..start.saturating_sub(FIRST) as usize].fill(samples[0].into());
    let mut wavelength = start;
    for pair in samples.windows(2) {
        let (this, next): (f64, f64) = (pair[0].into(), pair[1].into());
        for d in 0..step {
            if wavelength >= FIRST {
                let part = f64::from(d) / f64::from(step);
                line[(wavelength - FIRST) as usize] = this + part * (next - this);
            }
            wavelength += 1;
        }
    }
    // Here the wavelength is the last one, 780 at least.
    line[(wavelength - FIRST) as usize..].fill(samples[samples.len() - 1].into());
    line
}
