//! Cars and stations of the library on one line, as a page: a plan of the bays, who hears whom how
//! well, and who joined whom.

mod arguments;
mod attenuation;
mod bay;
mod heat;
mod line;
mod page;
mod plan;
mod profile;
mod random;
mod story;
mod text;
mod timeline;

pub use arguments::{Options, USAGE};
pub use line::run;
pub use page::page;
pub use text::text;
