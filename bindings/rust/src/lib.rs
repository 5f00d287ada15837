//! Heat cameras MLX90641 (16 by 12 pixels) and MLX90640 (32 by 24): loads a calibration card, and turns frames into infrared values and temperatures. The
//! library is Loamchalice, whose calls are proved against contracts. Names follow crate mlx9064x. Modules [`mlx90641`] and [`mlx90640`] have the same shape,
//! and the trait [`Camera`] is for code that serves either. The MLX90641's names are at the root too.
//!
//! ```
//! use loamchalice::{Calibration, RamData, Settings, Subpage, ALL_PIXELS};
//!
//! let card = include_bytes!("../cards/sound.bin");
//! let camera = Calibration::from_data(card)?;
//! let ram = RamData { t_a_v_be: 19442, t_a_ptat: 1711, v_dd_pixel: -13115, gain: 6391, compensation_pixel: -105 };
//! let pixels = [0xFD, 0x94].repeat(192); // each reads -620
//! let mut picture = [0f32; 192];
//! let frame = camera.raw_pixels_to_temperatures(&Settings::default(), ram, Subpage::Zero, &pixels, &ALL_PIXELS, &mut picture)?;
//! assert_eq!(frame.lost, 0);
//! assert!((38.0..41.0).contains(&frame.t_a));
//! assert!(picture.iter().all(|t| (15.0..35.0).contains(t)));
//! # Ok::<(), loamchalice::Refusal>(())
//! ```
//!
//! Temperatures are in degrees Celsius, supplies in volts; RAM words and infrared values are in counts.
//!
//! The calls assume the default floating-point environment (round to nearest, no flush to zero). So a lamp controller must not run if
//! [`environment_is_default`] returns false, nor if `settings_warning` or `gain_warning` of its calibration returns a warning; and it drops the lamp on any
//! [`Refusal`] and any lost pixel.
#![no_std]
#![deny(missing_docs, clippy::missing_errors_doc)]
mod accessors;
mod border;
mod burning;
mod camera;
mod card;
mod environment;
mod filter;
mod frame;
pub mod mlx90640;
pub mod mlx90641;
mod reader;
mod refusal;
mod scrubbing;
mod settings;
#[cfg(loamchalice_dist)]
mod shipped;
mod words;
mod words640;

pub use camera::{Camera, Reading};
pub use environment::environment_is_default;
pub use filter::Filter;
pub use frame::{Frame, RamData, Subpage};
pub use mlx90641::{
    add_checksum, alpha_row, burn, check_word, next_step, scrub, subpage_offsets, validate_checksum, Burnt, Calibration, Card, Checked, Mended, Reader,
    Scrubbed, Step, ALL_PIXELS, BASIC_RANGE,
};
pub use refusal::Refusal;
pub use settings::{resolution_correction, Settings};

/// Returns the fourth root: two square roots, each rounded to the nearest f32. Both infinities give infinity, a number below zero gives NaN.
///
/// ```
/// assert_eq!(loamchalice::fourth_root(81.0), 3.0);
/// ```
pub fn fourth_root(x: f32) -> f32 {
    f32::from_bits(border::root(x))
}
