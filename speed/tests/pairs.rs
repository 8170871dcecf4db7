//! Two samples at a time give what one at a time does, of good and bad lights and records.

use quailribbon_bench::generate::{inputs, Input};
use quailribbon_bench::straight::{self, pairs};

#[test]
fn the_same_answers_rows_and_bytes() {
    // How many were accepted, of an even and of an odd number of samples.
    let (mut written_lights, mut read_records) = ([0; 2], [0; 2]);
    for input in inputs().take(20_000) {
        match input {
            Input::Light(light) => {
                let (start, step) = (light.start, light.step);
                let (mut one, mut two) = (vec![7; light.room], vec![7; light.room]);
                let written = straight::write_record(start, step, &light.samples, &mut one);
                let pairwise = pairs::write_record(start, step, &light.samples, &mut two);
                assert_eq!((written, one), (pairwise, two));
                written_lights[light.samples.len() % 2] += u32::from(written.number == 0);
            }
            Input::Record(record) => {
                let (mut one, mut two) = (vec![7; record.row_room], vec![7; record.row_room]);
                let read = straight::read_record(&record.bytes, &mut one);
                let pairwise = pairs::read_record(&record.bytes, &mut two);
                assert_eq!((read, one), (pairwise, two));
                read_records[read.count as usize % 2] += u32::from(read.number == 0);
            }
            Input::Panel(_) => {}
        }
    }
    for accepted in [written_lights, read_records].concat() {
        assert!(accepted > 1_000);
    }
}
