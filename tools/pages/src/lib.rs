//! Pages that a browser opens from a file: a logged session as a sequence chart, and cars and
//! stations of the library on one line. Each page is one file, which fetches nothing.

pub mod frames;
pub mod html;
pub mod messages;
pub mod park;
pub mod session;
