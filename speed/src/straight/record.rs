//! The packed record, read and written sample by sample, or by whatever unpacks and packs its samples.

use super::refusal::*;
use crate::answers::{RecordAnswer, Written};

const STEPS: [u32; 4] = [1, 2, 5, 10];
pub const LARGEST_COUNT: usize = 531;

pub fn read_record(record: &[u8], samples: &mut [u32]) -> RecordAnswer {
    read(record, samples, unpack)
}

pub fn write_record(start: u32, step: u32, samples: &[u32], record: &mut [u8]) -> Written {
    write(start, step, samples, record, pack)
}

/// The answer of reading, where `unpack` takes the samples out of the bytes behind the header.
pub fn read(
    record: &[u8],
    samples: &mut [u32],
    unpack: impl Fn(&[u8], &mut [u32]),
) -> RecordAnswer {
    accepted(record, samples, unpack).unwrap_or_else(|Refusal { number, place }| RecordAnswer {
        number,
        place,
        ..Default::default()
    })
}

/// The answer of writing, where `pack` puts the samples into the bytes behind the header.
pub fn write(
    start: u32,
    step: u32,
    samples: &[u32],
    record: &mut [u8],
    pack: impl Fn(&[u32], &mut [u8]),
) -> Written {
    match written(start, step, samples, record, pack) {
        Ok(length) => Written {
            length: length as u32,
            ..Default::default()
        },
        Err(Refusal { number, place }) => Written {
            number,
            place,
            length: 0,
        },
    }
}

/// 3 + 5n/2 bytes, rounded up.
fn length(count: usize) -> usize {
    3 + (5 * count).div_ceil(2)
}

/// The first of 12, 10, 11, 2, 3, 12, 13, 4, 14, or the samples put into the lent row.
fn accepted(
    record: &[u8],
    samples: &mut [u32],
    unpack: impl Fn(&[u8], &mut [u32]),
) -> Result<RecordAnswer, Refusal> {
    if record.len() < 3 {
        return Err(LENGTH);
    }
    let header = u32::from_be_bytes([0, record[0], record[1], record[2]]);
    if header >> 20 != 1 {
        return Err(EDITION);
    }
    if header & 1 != 0 {
        return Err(RESERVED);
    }
    let step = STEPS[(header >> 18 & 0b11) as usize];
    let start = 300 + (header >> 11 & 0b111_1111);
    let count = (header >> 1 & 0b11_1111_1111) as usize;
    check_grid(start, step, count)?;
    if record.len() != length(count) {
        return Err(LENGTH);
    }
    if count % 2 == 1 && record[record.len() - 1] & 0b1111 != 0 {
        return Err(PADDING);
    }
    // An own row first: a refusal leaves the lent one as it is.
    let mut row = [0; LARGEST_COUNT];
    unpack(&record[3..], &mut row[..count]);
    check_samples(&row[..count])?;
    samples
        .get_mut(..count)
        .ok_or(ROOM)?
        .copy_from_slice(&row[..count]);
    Ok(RecordAnswer {
        number: 0,
        place: 0,
        start,
        step,
        count: count as u32,
    })
}

fn unpack(body: &[u8], row: &mut [u32]) {
    for (i, sample) in row.iter_mut().enumerate() {
        *sample = sample_at(body, i);
    }
}

/// Sample i: 20 bits that lie in three bytes, from the first or from the middle of the first.
fn sample_at(body: &[u8], i: usize) -> u32 {
    let at = 5 * i / 2;
    let three = &body[at..at + 3];
    let bits = u32::from_be_bytes([0, three[0], three[1], three[2]]);
    if i % 2 == 0 {
        bits >> 4
    } else {
        bits & 0xF_FFFF
    }
}

/// The first of 1, 2, 3, 4, 14, or the length of the record put into the lent bytes.
fn written(
    start: u32,
    step: u32,
    samples: &[u32],
    record: &mut [u8],
    pack: impl Fn(&[u32], &mut [u8]),
) -> Result<usize, Refusal> {
    check_grid(start, step, samples.len())?;
    check_samples(samples)?;
    let length = length(samples.len());
    let record = record.get_mut(..length).ok_or(ROOM)?;
    let code = STEPS.iter().position(|&each| each == step).ok_or(STEP)? as u32;
    let header = 1 << 20 | code << 18 | (start - 300) << 11 | (samples.len() as u32) << 1;
    record[..3].copy_from_slice(&header.to_be_bytes()[1..]);
    pack(samples, &mut record[3..]);
    Ok(length)
}

fn pack(samples: &[u32], body: &mut [u8]) {
    for (i, &sample) in samples.iter().enumerate() {
        let at = 5 * i / 2;
        let three = &mut body[at..at + 3];
        if i % 2 == 0 {
            three[0] = (sample >> 12) as u8;
            three[1] = (sample >> 4) as u8;
            three[2] = (sample << 4) as u8;
        } else {
            three[0] |= (sample >> 16) as u8;
            three[1] = (sample >> 8) as u8;
            three[2] = sample as u8;
        }
    }
}
