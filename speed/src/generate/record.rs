//! Records, good and damaged, with the rooms for their samples and their report.

use super::grid::{faulty_count, Grid, STEPS};
use super::random::Random;
use super::rows::{self, LARGEST_SAMPLE};

#[derive(Debug)]
pub struct Record {
    pub bytes: Vec<u8>,
    /// How many samples are lent for reading it.
    pub row_room: usize,
    /// How many bytes are lent for its report.
    pub text_room: usize,
}

/// The largest sample that 20 bits can hold.
const LARGEST_FIELD: u32 = (1 << 20) - 1;

/// Longer than any report.
const LONG_TEXT: usize = 120;

#[derive(Clone, Copy)]
enum Fault {
    Count,
    Sample,
    Start,
    Edition,
    Reserved,
    Padding,
    Length,
    Flip,
    Room,
}

const FAULTS: [Fault; 9] = [
    Fault::Count,
    Fault::Sample,
    Fault::Start,
    Fault::Edition,
    Fault::Reserved,
    Fault::Padding,
    Fault::Length,
    Fault::Flip,
    Fault::Room,
];

/// What a record is packed from; nothing here need be good.
struct Fields {
    edition: u32,
    code: u32,
    start_code: u32,
    count: usize,
    reserved: u32,
    samples: Vec<u32>,
    padding: u32,
}

impl Record {
    /// The longest record, with each room in turn from none to more than its samples need.
    pub fn with_room(turn: usize) -> Self {
        let fields = Fields {
            edition: 1,
            code: 0,
            start_code: 0,
            count: 531,
            reserved: 0,
            samples: rows::longest(),
            padding: 0,
        };
        Record {
            bytes: fields.pack(),
            row_room: turn % 533,
            text_room: turn % LONG_TEXT,
        }
    }

    pub fn random(random: &mut Random) -> Self {
        if random.one_in(32) {
            return Record::of_noise(random);
        }
        let mut fields = Fields::good(random);
        let faults = random.faults(&FAULTS);
        for &fault in &faults {
            fields.spoil(random, fault);
        }
        let mut record = Record {
            bytes: fields.pack(),
            row_room: fields.count + random.pick(&[0, 0, 0, 1, 2, 100]),
            text_room: LONG_TEXT,
        };
        for fault in faults {
            record.spoil(random, fault);
        }
        record
    }

    /// A few bytes that mean nothing, or none, behind a good edition half the time.
    fn of_noise(random: &mut Random) -> Self {
        let length = random.pick(&[0, 1, 2, 3, 4, 106, 1331, 1332, 1333, 4000]);
        let mut bytes: Vec<u8> = (0..length).map(|_| random.draw() as u8).collect();
        if let (Some(first), true) = (bytes.first_mut(), random.one_in(2)) {
            *first = 0x10 | *first & 0x0F;
        }
        Record {
            bytes,
            row_room: random.below(600),
            text_room: random.below(LONG_TEXT),
        }
    }

    /// The faults that befall the packed bytes and the lent rooms.
    fn spoil(&mut self, random: &mut Random, fault: Fault) {
        match fault {
            Fault::Length => self.spoil_length(random),
            Fault::Flip if !self.bytes.is_empty() => {
                // Half of them in the header, where a bit decides most.
                let end = random.pick(&[self.bytes.len(), self.bytes.len().min(3)]);
                self.bytes[random.below(end)] ^= 1 << random.below(8);
            }
            Fault::Room => {
                self.row_room = random.below(self.row_room.max(1));
                self.text_room = random.below(LONG_TEXT);
            }
            _ => {}
        }
    }

    fn spoil_length(&mut self, random: &mut Random) {
        let length = self.bytes.len();
        let spoiled = match random.below(8) {
            0 => random.below(4),
            1 => 1332 + random.below(4),
            2 | 3 => random.below(length),
            4 | 5 => length - 1,
            6 => length + 1,
            _ => length + 1 + random.below(1500),
        };
        self.bytes.resize(spoiled, 0);
    }
}

impl Fields {
    fn good(random: &mut Random) -> Self {
        let grid = Grid::random(random);
        let code = STEPS.iter().position(|&step| step == grid.step);
        Fields {
            edition: 1,
            code: code.expect("a good step") as u32,
            start_code: grid.start - 300,
            count: grid.count,
            reserved: 0,
            samples: rows::samples(random, &grid),
            padding: 0,
        }
    }

    /// The faults that can be packed.
    fn spoil(&mut self, random: &mut Random, fault: Fault) {
        match fault {
            Fault::Count => {
                let step = STEPS[self.code as usize];
                let count = faulty_count(random, 300 + self.start_code, step);
                self.count = count.min(1023);
                // The body follows the header's count or stays as it was.
                if random.one_in(2) {
                    self.samples.resize(self.count, LARGEST_SAMPLE);
                }
            }
            Fault::Sample => rows::spoil(random, &mut self.samples, LARGEST_SAMPLE, LARGEST_FIELD),
            Fault::Start => self.start_code = random.within(81..=127),
            Fault::Edition => self.edition = random.pick(&[0, 2, 3, 5, 9, 15]),
            Fault::Reserved => self.reserved = 1,
            Fault::Padding => self.padding = random.pick(&[1, 2, 4, 8, 15]),
            _ => {}
        }
    }

    /// The fields in their order, most significant bit first.
    fn pack(&self) -> Vec<u8> {
        let mut bits = Bits::default();
        bits.push(self.edition, 4);
        bits.push(self.code, 2);
        bits.push(self.start_code, 7);
        bits.push(self.count as u32, 10);
        bits.push(self.reserved, 1);
        for &sample in &self.samples {
            bits.push(sample, 20);
        }
        if self.samples.len() % 2 == 1 {
            bits.push(self.padding, 4);
        }
        bits.bytes
    }
}

/// Bytes filled bit by bit.
#[derive(Default)]
struct Bits {
    bytes: Vec<u8>,
    used: usize,
}

impl Bits {
    fn push(&mut self, value: u32, width: u32) {
        for bit in (0..width).rev() {
            if self.used % 8 == 0 {
                self.bytes.push(0);
            }
            self.bytes[self.used / 8] |= ((value >> bit & 1) as u8) << (7 - self.used % 8);
            self.used += 1;
        }
    }
}
