use crate::{Frame, Mended, RamData, Refusal, Settings, Subpage};
use core::fmt::Debug;

/// The inputs of one frame, as read from a camera for one subpage. `P` is the camera's [`Camera::Pattern`].
#[derive(Clone, Copy, Debug)]
pub struct Reading<'a, P = ()> {
    /// The words of RAM, in counts.
    pub ram: RamData,
    /// The average of this subpage's own [`Filter`](crate::Filter), in counts; with `None` the compensation pixel in `ram` is used.
    pub average: Option<f32>,
    /// Which subpage was read.
    pub subpage: Subpage,
    /// How the camera divides its pixels into subpages; `()` for the MLX90641.
    pub pattern: P,
    /// All pixels, row by row, two bytes each with the upper first.
    pub pixels: &'a [u8],
}

/// What code for either camera needs; both calibrations implement it. The MLX90641's subpages cover all pixels each, so its pattern is `()`.
///
/// ```
/// use loamchalice::{mlx90640, mlx90641, Camera, RamData, Reading, Refusal, Subpage};
///
/// // The hottest pixel of a subpage, in degrees Celsius, or None if a pixel is lost.
/// fn hottest<C: Camera>(card: &[u8], ram: RamData, pixels: &[u8]) -> Result<Option<f32>, Refusal> {
///     let camera = C::from_data(card)?;
///     let reading = Reading { ram, average: None, subpage: Subpage::Zero, pattern: C::Pattern::default(), pixels };
///     let mask = C::subpage_mask(reading.subpage, reading.pattern);
///     let mut picture = vec![f32::NEG_INFINITY; C::NUM_PIXELS];
///     let frame = camera.pixels_to_temperatures(&camera.settings(2), &reading, mask.as_ref(), &mut picture)?;
///     Ok((frame.lost == 0).then(|| picture.into_iter().fold(f32::MIN, f32::max)))
/// }
///
/// let ram = RamData { t_a_v_be: 19442, t_a_ptat: 1711, v_dd_pixel: -13115, gain: 6391, compensation_pixel: -105 };
/// let room = hottest::<mlx90641::Calibration>(include_bytes!("../cards/sound.bin"), ram, &[0xFD, 0x94].repeat(192))?;
/// assert!((15.0..35.0).contains(&room.unwrap()));
/// let ram = RamData { gain: 6273, compensation_pixel: -54, ..ram };
/// let lamp = hottest::<mlx90640::Calibration>(include_bytes!("../cards/bigger.bin"), ram, &[0x02, 0x61].repeat(768))?;
/// assert!((94.0..96.0).contains(&lamp.unwrap()));
/// # Ok::<(), Refusal>(())
/// ```
pub trait Camera: Sized {
    /// The number of pixels in a row.
    const WIDTH: usize;
    /// The number of rows.
    const HEIGHT: usize;
    /// The number of pixels.
    const NUM_PIXELS: usize = Self::WIDTH * Self::HEIGHT;
    /// The number of bytes of a frame's pixels.
    const PIXEL_BYTES: usize = 2 * Self::NUM_PIXELS;
    /// The camera's basic temperature range.
    const BASIC_RANGE: usize;
    /// The number of temperature ranges of a card.
    const RANGES: usize;
    /// The degrees by which the camera is warmer inside than its surroundings.
    const SELF_HEATING: f32;
    /// How pixels are divided into subpages; the default is the camera's own after power-on.
    type Pattern: Copy + Debug + Default + PartialEq;
    /// An array with a bool for each pixel.
    type Mask: AsRef<[bool]> + AsMut<[bool]> + Clone + Debug;

    /// Loads a card's image with the camera's basic range.
    ///
    /// # Errors
    ///
    /// Those of the camera's `from_data`.
    fn from_data(image: &[u8]) -> Result<Self, Refusal> {
        Self::from_data_in(image, Self::BASIC_RANGE)
    }

    /// Loads a card's image with another basic range.
    ///
    /// # Errors
    ///
    /// Those of the camera's `from_data_in`.
    fn from_data_in(image: &[u8], basic_range: usize) -> Result<Self, Refusal>;

    /// The words that were mended in loading; `None` if the camera's words have no check bits.
    fn mended_words(&self) -> Option<Mended>;

    /// The resolution that the card was written at, 0 to 3.
    fn resolution(&self) -> u8;

    /// Returns settings for this card and the camera's current resolution, 0 to 3.
    fn settings(&self, current_resolution: u8) -> Settings;

    /// Returns what looks wrong in settings for this card.
    fn settings_warning(&self, settings: &Settings) -> Option<&'static str>;

    /// Returns a warning if the gain in a frame's RAM is far from this card's.
    fn gain_warning(&self, ram: RamData) -> Option<&'static str>;

    /// Returns the mask of a subpage's pixels.
    fn subpage_mask(subpage: Subpage, pattern: Self::Pattern) -> Self::Mask;

    /// Pixels to infrared values, in counts.
    ///
    /// # Errors
    ///
    /// [`Refusal::ShortFrame`] (10), [`Refusal::SupplyRange`] (7), [`Refusal::ZeroDivisor`] (8).
    fn pixels_to_ir_data(
        &self,
        settings: &Settings,
        reading: &Reading<Self::Pattern>,
        valid_pixels: &[bool],
        destination: &mut [f32],
    ) -> Result<Frame, Refusal>;

    /// A subpage's infrared values to temperatures in degrees Celsius, in place, for the ambient temperature that the infrared call returned.
    ///
    /// # Errors
    ///
    /// [`Refusal::ShortFrame`] (10), [`Refusal::BasicRange`] (6), [`Refusal::ZeroDivisor`] (8).
    fn ir_to_temperatures(&self, settings: &Settings, subpage: Subpage, t_a: f32, valid_pixels: &[bool], destination: &mut [f32]) -> Result<Frame, Refusal>;

    /// Pixels to temperatures in degrees Celsius, in one pass.
    ///
    /// # Errors
    ///
    /// [`Refusal::ShortFrame`] (10), [`Refusal::BasicRange`] (6), [`Refusal::SupplyRange`] (7), [`Refusal::ZeroDivisor`] (8).
    fn pixels_to_temperatures(
        &self,
        settings: &Settings,
        reading: &Reading<Self::Pattern>,
        valid_pixels: &[bool],
        destination: &mut [f32],
    ) -> Result<Frame, Refusal>;

    /// The second pass, for scenes beyond the basic range.
    ///
    /// # Errors
    ///
    /// [`Refusal::ShortFrame`] (10), [`Refusal::BasicRange`] (6), [`Refusal::SupplyRange`] (7), [`Refusal::ZeroDivisor`] (8),
    /// [`Refusal::UnorderedCorners`] (12).
    fn pixels_to_ranged_temperatures(
        &self,
        settings: &Settings,
        reading: &Reading<Self::Pattern>,
        valid_pixels: &[bool],
        destination: &mut [f32],
    ) -> Result<Frame, Refusal>;
}
