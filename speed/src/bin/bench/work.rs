//! What is timed: the items of a run, and one round of each task over all of them.

use quailribbon_bench::answers::*;
use quailribbon_bench::generate::{lamp, paint, Random};
use quailribbon_bench::{dot, ffi, straight};
use std::hint::black_box;

/// How many records, lights and panels one round goes through.
pub const ITEMS: usize = 2000;

const OBSERVER: u32 = 2;
const D65: u32 = 2;

/// The functions that are timed, of the library or of its straightforward twin.
pub struct Library {
    read_record: fn(&[u8], &mut [u32]) -> RecordAnswer,
    write_record: fn(u32, u32, &[u32], &mut [u8]) -> Written,
    figures: fn(u32, u32, &[u32]) -> FiguresAnswer,
    chart: fn(u32, u32, u32, &[u32]) -> ChartAnswer,
    report: fn(&[u8], &mut [u8]) -> Written,
    panel_figures: fn(u32, u32, u32, u32, &[u16]) -> PanelFiguresAnswer,
}

pub const OURS: Library = Library {
    read_record: ffi::read_record,
    write_record: ffi::write_record,
    figures: ffi::figures,
    chart: ffi::chart,
    report: ffi::report,
    panel_figures: ffi::panel_figures,
};

pub const STRAIGHT: Library = Library {
    read_record: straight::read_record,
    write_record: straight::write_record,
    figures: straight::figures,
    chart: straight::chart,
    report: straight::report,
    panel_figures: straight::panel_figures,
};

/// The straightforward twin where it takes two samples of a record at a time, as the library does.
pub const PAIRS: Library = Library {
    read_record: straight::pairs::read_record,
    write_record: straight::pairs::write_record,
    ..STRAIGHT
};

/// Lights, their records, and panels, all on one grid.
pub struct Work {
    start: u32,
    step: u32,
    lights: Vec<Vec<u32>>,
    records: Vec<Vec<u8>>,
    panels: Vec<Vec<u16>>,
}

impl Work {
    pub fn new(start: u32, step: u32, count: usize) -> Self {
        let mut random = Random::new(401);
        let lights = (0..ITEMS).map(|_| lamp(&mut random, start, step, count));
        let lights: Vec<Vec<u32>> = lights.collect();
        let records = lights.iter().map(|light| record(start, step, light));
        let panels = (0..ITEMS).map(|_| paint(&mut random, start, step, count));
        Work {
            start,
            step,
            records: records.collect(),
            panels: panels.collect(),
            lights,
        }
    }
}

fn record(start: u32, step: u32, samples: &[u32]) -> Vec<u8> {
    let mut record = vec![0; 1331];
    let written = straight::write_record(start, step, samples, &mut record);
    record.truncate(written.length as usize);
    record
}

/// One round of a task over all items.
pub struct Task {
    pub name: &'static str,
    pub says: &'static str,
    /// At most this part of the straightforward time.
    pub target: Option<f64>,
    /// At most this part of the time of the twin that takes pairs, for a task in which there are some.
    pub pairs_target: Option<f64>,
    pub round: fn(&Library, &Work),
    pub dot: Option<fn(&Work)>,
}

pub static TASKS: [Task; 6] = [READING, WRITING, FIGURES, CHART, REPORT, PANEL];

pub const READING: Task = Task {
    name: "reading",
    says: "reading a record",
    target: Some(1.00),
    pairs_target: Some(0.80),
    round: |library, work| {
        let mut row = [0; 531];
        for record in &work.records {
            black_box((library.read_record)(black_box(record), &mut row));
            black_box(&row);
        }
    },
    dot: None,
};

const WRITING: Task = Task {
    name: "writing",
    says: "writing a record",
    target: Some(1.00),
    pairs_target: Some(0.70),
    round: |library, work| {
        let mut record = [0; 1331];
        for light in &work.lights {
            let (start, step) = black_box((work.start, work.step));
            black_box((library.write_record)(start, step, light, &mut record));
            black_box(&record);
        }
    },
    dot: None,
};

pub const FIGURES: Task = Task {
    name: "figures",
    says: "seven figures of a spectrum",
    target: Some(0.60),
    pairs_target: None,
    round: |library, work| {
        for light in &work.lights {
            let (start, step) = black_box((work.start, work.step));
            black_box((library.figures)(start, step, light));
        }
    },
    dot: Some(|work| {
        for light in &work.lights {
            let (start, step) = black_box((work.start, work.step));
            black_box(dot::figures(start, step, light));
        }
    }),
};

/// Four coordinates from one set of sums, in both.
const CHART: Task = Task {
    name: "chart",
    says: "a point on the chart",
    target: None,
    pairs_target: None,
    round: |library, work| {
        for light in &work.lights {
            let (start, step) = black_box((work.start, work.step));
            black_box((library.chart)(OBSERVER, start, step, light));
        }
    },
    dot: None,
};

pub const REPORT: Task = Task {
    name: "report",
    says: "the report of a record",
    target: None,
    pairs_target: None,
    round: |library, work| {
        let mut text = [0; 200];
        for record in &work.records {
            black_box((library.report)(black_box(record), &mut text));
            black_box(&text);
        }
    },
    dot: None,
};

/// One call each. The straightforward one makes T once, takes both X, Y, Z and x, y from the same
/// three sums, and adds up the white in every call.
const PANEL: Task = Task {
    name: "panel",
    says: "a panel, X, Y, Z and x, y",
    target: Some(0.60),
    pairs_target: None,
    round: |library, work| {
        for panel in &work.panels {
            let (start, step) = black_box((work.start, work.step));
            black_box((library.panel_figures)(OBSERVER, D65, start, step, panel));
        }
    },
    dot: Some(|work| {
        for panel in &work.panels {
            let (start, step) = black_box((work.start, work.step));
            black_box(dot::panel(start, step, panel));
        }
    }),
};
