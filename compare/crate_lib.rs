//! Replaces the crate's own lib.rs, which names a driver that is not among the available files. The modules are otherwise the same; `util` is public, so that
//! a camera type of this comparison can implement the crate's sealed trait.
pub mod calculations;
pub mod common;
pub mod error;
pub mod mlx90640;
pub mod mlx90641;
pub mod register;
pub mod util;

pub use common::{Address, CalibrationData, MelexisCamera};
pub use error::{Error, LibraryError};
pub use register::*;
