//! Compares every function of the library with the straightforward implementation on many inputs.
//!
//!     compare [COUNT]    100,000 inputs if no count is given
//!
//! It prints how often each refusal was seen, or the first difference in full, with exit status 1.

mod check;
mod guarded;
mod tally;

use check::{Check, Difference};
use guarded::Guarded;
use quailribbon_bench::generate::{self, Input, Light, Panel, Record};
use quailribbon_bench::{ffi, straight};
use std::env;
use std::process::ExitCode;
use tally::Tally;

fn main() -> ExitCode {
    let count = match env::args().nth(1).map(|count| count.parse()) {
        None => 100_000,
        Some(Ok(count)) => count,
        Some(Err(_)) => {
            eprintln!("compare [COUNT]");
            return ExitCode::from(2);
        }
    };
    let mut tally = Tally::default();
    if let Err(difference) = compare(count, &mut tally) {
        println!("{difference}");
        return ExitCode::FAILURE;
    }
    print!("{tally}");
    println!("{count} inputs, all equal");
    ExitCode::SUCCESS
}

fn compare(count: usize, tally: &mut Tally) -> Result<(), Difference> {
    for input in generate::inputs().take(count) {
        let check = Check {
            input: &input,
            tally,
        };
        match &input {
            Input::Light(light) => compare_light(check, light)?,
            Input::Panel(panel) => compare_panel(check, panel)?,
            Input::Record(record) => compare_record(check, record)?,
        }
    }
    compare_overlong()
}

fn compare_light(mut check: Check, light: &Light) -> Result<(), Difference> {
    let &Light {
        k,
        observer,
        cone_observer,
        start,
        step,
        ..
    } = light;
    let samples = &light.samples[..];
    let lent = Guarded::holding(samples);
    macro_rules! same {
        ($name:literal, $function:ident($($setting:expr),*)) => {{
            let ours = ffi::$function($($setting,)* lent.lent());
            let theirs = straight::$function($($setting,)* samples);
            check.answer($name, &lent, samples, ours, theirs)?;
        }};
    }
    same!("qr_photopic", photopic(start, step));
    same!("qr_scotopic", scotopic(start, step));
    same!("qr_photopic_10", photopic_10(start, step));
    same!("qr_mesopic", mesopic(k, start, step));
    same!("qr_research", research(cone_observer, start, step));
    same!("qr_xyz", xyz(observer, start, step));
    same!("qr_xy", xy(observer, start, step));
    same!("qr_uv", uv(observer, start, step));
    same!("qr_chart", chart(observer, start, step));
    same!("qr_figures", figures(start, step));
    compare_write(check, light, &lent)
}

fn compare_write(mut check: Check, light: &Light, lent: &Guarded<u32>) -> Result<(), Difference> {
    let (start, step, samples) = (light.start, light.step, &light.samples[..]);
    let mut record = Guarded::with_room(light.room);
    let ours = ffi::write_record(start, step, lent.lent(), record.lent_mut());
    let mut expected = vec![0; light.room];
    let theirs = straight::write_record(start, step, samples, &mut expected);
    check.answer("qr_write_record", lent, samples, ours, theirs)?;
    // A refusal has length 0: then nothing may be written.
    check.written(
        "qr_write_record",
        &record,
        &expected[..theirs.length as usize],
    )
}

fn compare_panel(mut check: Check, panel: &Panel) -> Result<(), Difference> {
    let &Panel {
        observer,
        illuminant,
        start,
        step,
        ..
    } = panel;
    let reflectances = &panel.reflectances[..];
    let lent = Guarded::holding(reflectances);
    macro_rules! same {
        ($name:literal, $function:ident) => {{
            let ours = ffi::$function(observer, illuminant, start, step, lent.lent());
            let theirs = straight::$function(observer, illuminant, start, step, reflectances);
            check.answer($name, &lent, reflectances, ours, theirs)?;
        }};
    }
    same!("qr_panel_xyz", panel_xyz);
    same!("qr_panel_xy", panel_xy);
    same!("qr_panel_uv", panel_uv);
    same!("qr_panel_chart", panel_chart);
    same!("qr_panel_figures", panel_figures);
    Ok(())
}

fn compare_record(mut check: Check, record: &Record) -> Result<(), Difference> {
    let bytes = &record.bytes[..];
    let lent = Guarded::holding(bytes);

    let mut row = Guarded::with_room(record.row_room);
    let ours = ffi::read_record(lent.lent(), row.lent_mut());
    let mut expected = vec![0; record.row_room];
    let theirs = straight::read_record(bytes, &mut expected);
    check.answer("qr_read_record", &lent, bytes, ours, theirs)?;
    check.written("qr_read_record", &row, &expected[..theirs.count as usize])?;

    let mut text = Guarded::with_room(record.text_room);
    let ours = ffi::report(lent.lent(), text.lent_mut());
    let mut expected = vec![0; record.text_room];
    let theirs = straight::report(bytes, &mut expected);
    check.answer("qr_report", &lent, bytes, ours, theirs)?;
    check.written("qr_report", &text, &expected[..theirs.length as usize])
}

/// A row so long that its last wavelength, cut to 32 bits, is 784: refused 3 all the same.
fn compare_overlong() -> Result<(), Difference> {
    const COUNT: usize = (1 << 32) / 10 + 42;
    let (start, step) = (380, 10);
    // Zeroed memory that nobody touches takes no room.
    let samples = vec![0_u32; COUNT];
    let numbers = [
        ffi::photopic(start, step, &samples).number,
        ffi::scotopic(start, step, &samples).number,
        ffi::photopic_10(start, step, &samples).number,
        ffi::mesopic(500, start, step, &samples).number,
        ffi::research(32, start, step, &samples).number,
        ffi::xyz(2, start, step, &samples).number,
        ffi::xy(2, start, step, &samples).number,
        ffi::uv(2, start, step, &samples).number,
        ffi::chart(2, start, step, &samples).number,
        ffi::figures(start, step, &samples).number,
        ffi::write_record(start, step, &samples, &mut [0; 2000]).number,
    ];
    drop(samples);
    let reflectances = vec![0_u16; COUNT];
    let panel_numbers = [
        ffi::panel_xyz(2, 1, start, step, &reflectances).number,
        ffi::panel_xy(2, 1, start, step, &reflectances).number,
        ffi::panel_uv(2, 1, start, step, &reflectances).number,
        ffi::panel_chart(2, 1, start, step, &reflectances).number,
        ffi::panel_figures(2, 1, start, step, &reflectances).number,
    ];
    if numbers != [3; 11] || panel_numbers != [3; 5] {
        return Err(format!(
            "{COUNT} samples at step 10 are not refused 3 everywhere: {numbers:?} {panel_numbers:?}"
        ));
    }
    Ok(())
}
