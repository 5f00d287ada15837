//! What the frames of both cameras share.
use crate::{border, Refusal};

/// One of the two subpages that a camera reads in turn. Each of the MLX90641's covers all pixels, each of the MLX90640's half of them, by the
/// [`Pattern`](crate::mlx90640::Pattern).
#[derive(Clone, Copy, Debug, PartialEq, Eq)]
pub enum Subpage {
    /// The first.
    Zero,
    /// The second.
    One,
}

/// The words of the camera's RAM that a frame needs besides its pixels, in counts.
#[derive(Clone, Copy, Debug, PartialEq, Eq)]
pub struct RamData {
    /// V_BE, which with PTAT gives the ambient temperature.
    pub t_a_v_be: i16,
    /// PTAT, which grows with the ambient temperature.
    pub t_a_ptat: i16,
    /// The supply reading.
    pub v_dd_pixel: i16,
    /// The gain reading.
    pub gain: i16,
    /// The reading of the compensation pixel of the frame's subpage.
    pub compensation_pixel: i16,
}

impl RamData {
    pub(crate) fn lent(self) -> border::Ram {
        let RamData { t_a_v_be, t_a_ptat, v_dd_pixel, gain, compensation_pixel } = self;
        border::Ram { t_a_v_be, t_a_ptat, v_dd_pixel, gain, compensation_pixel }
    }

    // Returns a warning if this gain is far from a card's.
    pub(crate) fn gain_warning(self, card: f32) -> Option<&'static str> {
        let read = f32::from(self.gain);
        let near = card.is_finite() && card > 0.0 && read >= 0.75 * card && read <= 1.25 * card;
        (!near).then_some("the gain in RAM is far from the card's")
    }
}

/// What a frame call returns besides the pixels.
#[derive(Clone, Copy, Debug, PartialEq)]
pub struct Frame {
    /// The ambient temperature, that of the camera itself, in degrees Celsius.
    pub t_a: f32,
    /// The number of pixels that this call wrote: those that the mask asks for.
    pub written: usize,
    /// The number of them written as NaN.
    pub lost: usize,
}

impl Frame {
    // The result of a call with this mask, from the C answer.
    pub(crate) fn of<const PIXELS: usize>(answer: border::Answer, valid_pixels: &[bool]) -> Result<Self, Refusal> {
        Refusal::check(answer.told)?;
        let written = valid_pixels.iter().take(PIXELS).filter(|asked| **asked).count();
        Ok(Frame { t_a: f32::from_bits(answer.t_a), written, lost: answer.lost })
    }
}

pub(crate) fn average(given: Option<f32>) -> border::Average {
    border::Average { average: given.unwrap_or(0.0), ready: given.is_some().into() }
}

// A bool is a byte, 0 or 1.
pub(crate) fn as_bytes(mask: &[bool]) -> &[u8] {
    unsafe { core::slice::from_raw_parts(mask.as_ptr().cast(), mask.len()) }
}

// An f32 is passed as its bits; every u32 is valid.
pub(crate) fn as_bits(numbers: &mut [f32]) -> &mut [u32] {
    unsafe { core::slice::from_raw_parts_mut(numbers.as_mut_ptr().cast(), numbers.len()) }
}
