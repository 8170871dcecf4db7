//! The functions of libquailribbon, as safe functions on slices.

use crate::answers::*;

/// The declarations of quailribbon.h, in its order.
mod c {
    use super::*;

    extern "C" {
        pub fn qr_photopic(start: u32, step: u32, samples: *const u32, count: usize) -> Reading;
        pub fn qr_scotopic(start: u32, step: u32, samples: *const u32, count: usize) -> Reading;
        pub fn qr_photopic_10(start: u32, step: u32, samples: *const u32, count: usize) -> Reading;
        pub fn qr_mesopic(
            k: u32,
            start: u32,
            step: u32,
            samples: *const u32,
            count: usize,
        ) -> Reading;
        pub fn qr_research(
            observer: u32,
            start: u32,
            step: u32,
            samples: *const u32,
            count: usize,
        ) -> Reading;
        pub fn qr_xyz(
            observer: u32,
            start: u32,
            step: u32,
            samples: *const u32,
            count: usize,
        ) -> XyzAnswer;
        pub fn qr_xy(
            observer: u32,
            start: u32,
            step: u32,
            samples: *const u32,
            count: usize,
        ) -> XyAnswer;
        pub fn qr_uv(
            observer: u32,
            start: u32,
            step: u32,
            samples: *const u32,
            count: usize,
        ) -> UvAnswer;
        pub fn qr_chart(
            observer: u32,
            start: u32,
            step: u32,
            samples: *const u32,
            count: usize,
        ) -> ChartAnswer;
        pub fn qr_panel_xyz(
            observer: u32,
            illuminant: u32,
            start: u32,
            step: u32,
            reflectances: *const u16,
            count: usize,
        ) -> XyzAnswer;
        pub fn qr_panel_xy(
            observer: u32,
            illuminant: u32,
            start: u32,
            step: u32,
            reflectances: *const u16,
            count: usize,
        ) -> XyAnswer;
        pub fn qr_panel_uv(
            observer: u32,
            illuminant: u32,
            start: u32,
            step: u32,
            reflectances: *const u16,
            count: usize,
        ) -> UvAnswer;
        pub fn qr_panel_chart(
            observer: u32,
            illuminant: u32,
            start: u32,
            step: u32,
            reflectances: *const u16,
            count: usize,
        ) -> ChartAnswer;
        pub fn qr_figures(
            start: u32,
            step: u32,
            samples: *const u32,
            count: usize,
        ) -> FiguresAnswer;
        pub fn qr_panel_figures(
            observer: u32,
            illuminant: u32,
            start: u32,
            step: u32,
            reflectances: *const u16,
            count: usize,
        ) -> PanelFiguresAnswer;
        pub fn qr_read_record(
            bytes: *const u8,
            length: usize,
            samples: *mut u32,
            room: usize,
        ) -> RecordAnswer;
        pub fn qr_write_record(
            start: u32,
            step: u32,
            samples: *const u32,
            count: usize,
            bytes: *mut u8,
            room: usize,
        ) -> Written;
        pub fn qr_report(bytes: *const u8, length: usize, text: *mut u8, room: usize) -> Written;
    }
}

// SAFETY, for every call below: the library reads or writes at most the lent slice, whose address
// and length are passed together, and keeps no address after the call.

pub fn photopic(start: u32, step: u32, samples: &[u32]) -> Reading {
    unsafe { c::qr_photopic(start, step, samples.as_ptr(), samples.len()) }
}

pub fn scotopic(start: u32, step: u32, samples: &[u32]) -> Reading {
    unsafe { c::qr_scotopic(start, step, samples.as_ptr(), samples.len()) }
}

pub fn photopic_10(start: u32, step: u32, samples: &[u32]) -> Reading {
    unsafe { c::qr_photopic_10(start, step, samples.as_ptr(), samples.len()) }
}

pub fn mesopic(k: u32, start: u32, step: u32, samples: &[u32]) -> Reading {
    unsafe { c::qr_mesopic(k, start, step, samples.as_ptr(), samples.len()) }
}

pub fn research(observer: u32, start: u32, step: u32, samples: &[u32]) -> Reading {
    unsafe { c::qr_research(observer, start, step, samples.as_ptr(), samples.len()) }
}

pub fn xyz(observer: u32, start: u32, step: u32, samples: &[u32]) -> XyzAnswer {
    unsafe { c::qr_xyz(observer, start, step, samples.as_ptr(), samples.len()) }
}

pub fn xy(observer: u32, start: u32, step: u32, samples: &[u32]) -> XyAnswer {
    unsafe { c::qr_xy(observer, start, step, samples.as_ptr(), samples.len()) }
}

pub fn uv(observer: u32, start: u32, step: u32, samples: &[u32]) -> UvAnswer {
    unsafe { c::qr_uv(observer, start, step, samples.as_ptr(), samples.len()) }
}

pub fn chart(observer: u32, start: u32, step: u32, samples: &[u32]) -> ChartAnswer {
    unsafe { c::qr_chart(observer, start, step, samples.as_ptr(), samples.len()) }
}

pub fn panel_xyz(
    observer: u32,
    illuminant: u32,
    start: u32,
    step: u32,
    reflectances: &[u16],
) -> XyzAnswer {
    let (row, count) = (reflectances.as_ptr(), reflectances.len());
    unsafe { c::qr_panel_xyz(observer, illuminant, start, step, row, count) }
}

pub fn panel_xy(
    observer: u32,
    illuminant: u32,
    start: u32,
    step: u32,
    reflectances: &[u16],
) -> XyAnswer {
    let (row, count) = (reflectances.as_ptr(), reflectances.len());
    unsafe { c::qr_panel_xy(observer, illuminant, start, step, row, count) }
}

pub fn panel_uv(
    observer: u32,
    illuminant: u32,
    start: u32,
    step: u32,
    reflectances: &[u16],
) -> UvAnswer {
    let (row, count) = (reflectances.as_ptr(), reflectances.len());
    unsafe { c::qr_panel_uv(observer, illuminant, start, step, row, count) }
}

pub fn panel_chart(
    observer: u32,
    illuminant: u32,
    start: u32,
    step: u32,
    reflectances: &[u16],
) -> ChartAnswer {
    let (row, count) = (reflectances.as_ptr(), reflectances.len());
    unsafe { c::qr_panel_chart(observer, illuminant, start, step, row, count) }
}

pub fn figures(start: u32, step: u32, samples: &[u32]) -> FiguresAnswer {
    unsafe { c::qr_figures(start, step, samples.as_ptr(), samples.len()) }
}

pub fn panel_figures(
    observer: u32,
    illuminant: u32,
    start: u32,
    step: u32,
    reflectances: &[u16],
) -> PanelFiguresAnswer {
    let (row, count) = (reflectances.as_ptr(), reflectances.len());
    unsafe { c::qr_panel_figures(observer, illuminant, start, step, row, count) }
}

pub fn read_record(record: &[u8], samples: &mut [u32]) -> RecordAnswer {
    let (row, room) = (samples.as_mut_ptr(), samples.len());
    unsafe { c::qr_read_record(record.as_ptr(), record.len(), row, room) }
}

pub fn write_record(start: u32, step: u32, samples: &[u32], record: &mut [u8]) -> Written {
    let (bytes, room) = (record.as_mut_ptr(), record.len());
    unsafe { c::qr_write_record(start, step, samples.as_ptr(), samples.len(), bytes, room) }
}

pub fn report(record: &[u8], text: &mut [u8]) -> Written {
    let (bytes, room) = (text.as_mut_ptr(), text.len());
    unsafe { c::qr_report(record.as_ptr(), record.len(), bytes, room) }
}
