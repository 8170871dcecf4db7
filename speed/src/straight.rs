//! The straightforward implementation: the rules' words, one after another, with u128 sums.
//!
//! It is what the library is compared with, in its answers and in its speed. Its functions have
//! the library's names and answers; those of records have a twin that takes two samples at a time.

mod flat;
mod light;
mod line;
pub mod pairs;
mod panel;
mod record;
mod refusal;
mod report;

pub use light::{chart, figures, mesopic, photopic, photopic_10, research, scotopic, uv, xy, xyz};
pub use panel::{panel_chart, panel_figures, panel_uv, panel_xy, panel_xyz};
pub use record::{read_record, write_record};
pub use report::report;
