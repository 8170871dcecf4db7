//! What the comparison and the bench share: the library, its straightforward twin, and inputs for both.

pub mod answers;
pub mod dot;
pub mod ffi;
pub mod generate;
pub mod straight;
pub mod tables;
