//! The packed record, read and written two samples at a time: of their five bytes, four are one number. The checks are those
//! of the twin that takes one at a time, which looks for a fault at each sample by itself.

use super::record::{read, write};
use crate::answers::{RecordAnswer, Written};

pub fn read_record(record: &[u8], samples: &mut [u32]) -> RecordAnswer {
    read(record, samples, unpack)
}

pub fn write_record(start: u32, step: u32, samples: &[u32], record: &mut [u8]) -> Written {
    write(start, step, samples, record, pack)
}

fn unpack(body: &[u8], row: &mut [u32]) {
    let mut pairs = row.chunks_exact_mut(2);
    let mut fives = body.chunks_exact(5);
    for (pair, five) in pairs.by_ref().zip(fives.by_ref()) {
        let number = u32::from_be_bytes(five[..4].try_into().unwrap());
        pair[0] = number >> 12;
        pair[1] = (number & 0xFFF) << 8 | u32::from(five[4]);
    }
    if let ([last], &[a, b, c]) = (pairs.into_remainder(), fives.remainder()) {
        *last = u32::from_be_bytes([0, a, b, c]) >> 4;
    }
}

fn pack(samples: &[u32], body: &mut [u8]) {
    let mut pairs = samples.chunks_exact(2);
    let mut fives = body.chunks_exact_mut(5);
    for (pair, five) in pairs.by_ref().zip(fives.by_ref()) {
        let number = pair[0] << 12 | pair[1] >> 8;
        five[..4].copy_from_slice(&number.to_be_bytes());
        five[4] = pair[1] as u8;
    }
    if let &[last] = pairs.remainder() {
        fives
            .into_remainder()
            .copy_from_slice(&(last << 4).to_be_bytes()[1..]);
    }
}
