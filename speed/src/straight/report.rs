//! The report's text of a record.

use super::light::figures;
use super::record::{read_record, LARGEST_COUNT};
use super::refusal::{ROOM, SAMPLE};
use crate::answers::Written;

/// Writes the text of the report, which a refused record has too, or answers 14.
pub fn report(record: &[u8], text: &mut [u8]) -> Written {
    let page = page(record);
    match text.get_mut(..page.len()) {
        Some(lent) => {
            lent.copy_from_slice(page.as_bytes());
            Written {
                length: page.len() as u32,
                ..Default::default()
            }
        }
        None => Written {
            number: ROOM.number,
            ..Default::default()
        },
    }
}

fn page(record: &[u8]) -> String {
    let mut row = [0; LARGEST_COUNT];
    let read = read_record(record, &mut row);
    if read.number != 0 {
        return refused(read.number, read.place);
    }
    let light = figures(read.start, read.step, &row[..read.count as usize]);
    if light.number != 0 {
        return refused(light.number, light.place);
    }
    format!(
        "photopic {}\nscotopic {}\nX {}\nY {}\nZ {}\nx {}\ny {}\n",
        light.photopic,
        light.scotopic,
        light.X,
        light.Y,
        light.Z,
        coordinate(light.xy_number, light.x),
        coordinate(light.xy_number, light.y),
    )
}

fn refused(number: u32, place: u32) -> String {
    if number == SAMPLE.number {
        format!("refused {number} at {place}\n")
    } else {
        format!("refused {number}\n")
    }
}

fn coordinate(number: u32, hundred_thousandths: u32) -> String {
    if number != 0 {
        return "-".to_string();
    }
    let (whole, rest) = (hundred_thousandths / 100_000, hundred_thousandths % 100_000);
    format!("{whole}.{rest:05}")
}
