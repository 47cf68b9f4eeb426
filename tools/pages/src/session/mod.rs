//! A logged session as a page: the log is read, its events are given to a station of the library,
//! and what was recorded stands beside what was given.

mod chart;
mod details;
mod difference;
mod lanes;
pub mod log;
mod page;
mod refused;
pub mod replay;

pub use page::page;
