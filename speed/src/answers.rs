//! The answers of the C boundary, laid out as in quailribbon.h.
//!
//! Number 0 means that the values are given, but for those that have a number of their own beside
//! them; else it is the refusal's number, and what a refusal doesn't give is 0.

/// What every answer has.
pub trait Answer: PartialEq + std::fmt::Debug {
    fn number(&self) -> u32;
}

#[repr(C)]
#[derive(Clone, Copy, Debug, Default, PartialEq)]
pub struct Reading {
    pub number: u32,
    pub place: u32,
    pub value: u32,
}

#[repr(C)]
#[derive(Clone, Copy, Debug, Default, PartialEq)]
pub struct XyzAnswer {
    pub number: u32,
    pub place: u32,
    pub x: u32,
    pub y: u32,
    pub z: u32,
}

#[repr(C)]
#[derive(Clone, Copy, Debug, Default, PartialEq)]
pub struct XyAnswer {
    pub number: u32,
    pub place: u32,
    pub x: u32,
    pub y: u32,
}

#[repr(C)]
#[derive(Clone, Copy, Debug, Default, PartialEq)]
pub struct UvAnswer {
    pub number: u32,
    pub place: u32,
    pub u: u32,
    pub v: u32,
}

#[repr(C)]
#[derive(Clone, Copy, Debug, Default)]
pub struct ChartAnswer {
    pub number: u32,
    pub place: u32,
    pub x: f64,
    pub y: f64,
    pub u: f64,
    pub v: f64,
}

/// Floats are compared by bits, so that 0.0 isn't -0.0.
impl PartialEq for ChartAnswer {
    fn eq(&self, other: &Self) -> bool {
        let whole = |answer: &Self| (answer.number, answer.place);
        let bits = |answer: &Self| [answer.x, answer.y, answer.u, answer.v].map(f64::to_bits);
        whole(self) == whole(other) && bits(self) == bits(other)
    }
}

#[repr(C)]
#[derive(Clone, Copy, Debug, Default, PartialEq)]
pub struct RecordAnswer {
    pub number: u32,
    pub place: u32,
    pub start: u32,
    pub step: u32,
    pub count: u32,
}

#[repr(C)]
#[derive(Clone, Copy, Debug, Default, PartialEq)]
pub struct Written {
    pub number: u32,
    pub place: u32,
    pub length: u32,
}

/// X, Y, Z and x, y are different readings, so the letters' case counts.
#[allow(non_snake_case)]
#[repr(C)]
#[derive(Clone, Copy, Debug, Default, PartialEq)]
pub struct FiguresAnswer {
    pub number: u32,
    pub place: u32,
    pub photopic: u32,
    pub scotopic: u32,
    pub X: u32,
    pub Y: u32,
    pub Z: u32,
    pub xy_number: u32,
    pub x: u32,
    pub y: u32,
}

/// As for the figures of a light.
#[allow(non_snake_case)]
#[repr(C)]
#[derive(Clone, Copy, Debug, Default, PartialEq)]
pub struct PanelFiguresAnswer {
    pub number: u32,
    pub place: u32,
    pub X: u32,
    pub Y: u32,
    pub Z: u32,
    pub xy_number: u32,
    pub x: u32,
    pub y: u32,
}

macro_rules! answers {
    ($($name:ident),*) => {
        $(impl Answer for $name {
            fn number(&self) -> u32 {
                self.number
            }
        })*
    };
}

answers!(
    Reading,
    XyzAnswer,
    XyAnswer,
    UvAnswer,
    ChartAnswer,
    RecordAnswer,
    Written,
    FiguresAnswer,
    PanelFiguresAnswer
);
