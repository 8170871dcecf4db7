//! A small stated generator of inputs, good and bad: splitmix64 from a fixed seed.

mod fraction;
mod grid;
mod halves;
mod light;
mod near;
mod panel;
mod random;
mod record;
mod rows;

pub use light::Light;
pub use panel::Panel;
pub use random::Random;
pub use record::Record;
pub use rows::{lamp, paint};

/// One input, for every function that takes such a thing.
#[derive(Debug)]
pub enum Input {
    Light(Light),
    Panel(Panel),
    Record(Record),
}

/// The same endless row of inputs in every run.
pub fn inputs() -> impl Iterator<Item = Input> {
    let mut random = Random::new(2026);
    (0_usize..).map(move |i| match i % 16 {
        // Two in sixteen lend every room in turn, so that every shortness is met.
        0 => Input::Light(Light::with_room(i / 16)),
        1 => Input::Record(Record::with_room(i / 16)),
        2..7 => Input::Light(Light::random(&mut random)),
        7..10 => Input::Panel(Panel::random(&mut random)),
        _ => Input::Record(Record::random(&mut random)),
    })
}
