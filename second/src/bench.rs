//! Timings: the proved engines, the plain one, the script and a pass that only sums the bytes, on the same traces in
//! one run; the proved writer of folded stacks, the proved forecasts and the proved compactor beside plain ones; sites
//! declared on the way beside sites at the start; traces with instructions behind every cost; lines that are asked why
//! they are not on the span; and traces of asyncs and finishes.

pub mod asking;
pub mod carrying;
pub mod clock;
pub mod compacting;
pub mod declaring;
pub mod engines;
pub mod finishing;
pub mod folding;
pub mod forecasting;
pub mod table;
pub mod timing;
pub mod traces;
