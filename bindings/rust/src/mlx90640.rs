//! The MLX90640, the bigger camera of 32 by 24 pixels: its card, its frames, and how words of its card are split.
//!
//! **Its card has no check bits.** Every word is accepted as it is, and nothing is mended or counted. Only a number of a pixel outside 16 bits stops a load
//! ([`Refusal::LargePixel`]), as on a blank card. So **the other camera's card may load here**: check [`Calibration::gain_warning`] with each frame. There is
//! no reader of pieces either: collect 1,664 bytes, and load them.
//!
//! **A picture is two frames.** A subpage has half of the pixels, by the [`Pattern`], its own words in RAM, and its own [`Filter`](crate::Filter).
//! [`Calibration::picture`] takes both halves. If you call for each subpage yourself, fill the picture with infinity before each picture, and not before each
//! subpage, or else half of it is always infinite.
//!
//! ```
//! use loamchalice::mlx90640::{Calibration, Half, Pattern};
//! use loamchalice::{Filter, RamData, Subpage};
//!
//! let camera = Calibration::from_data(include_bytes!("../cards/bigger.bin"))?;
//! let settings = camera.settings(2); // bits 10 and 11 of the control register
//! let ram = RamData { t_a_v_be: 19442, t_a_ptat: 1711, v_dd_pixel: -13115, gain: 6273, compensation_pixel: -54 };
//! assert!(camera.settings_warning(&settings).is_none() && camera.gain_warning(ram).is_none());
//! let mut filters = [Filter::new(); 2]; // of the compensation pixel, one for each subpage
//! let pixels = [0x02, 0x61].repeat(768).try_into().unwrap(); // each reads 609
//! let halves = [Subpage::Zero, Subpage::One].map(|subpage| {
//!     filters[subpage as usize].push(ram.compensation_pixel);
//!     Half { ram, average: filters[subpage as usize].average(), pixels: &pixels }
//! });
//! let (picture, frames) = camera.picture(&settings, Pattern::Chess, halves)?;
//! assert_eq!(frames.map(|frame| (frame.written, frame.lost)), [(384, 0); 2]);
//! assert_eq!(picture[0].to_bits(), 0x42BE11C0); // 95.03 degrees
//! # Ok::<(), loamchalice::Refusal>(())
//! ```
use crate::accessors::accessors;
use crate::border::{self, Answer, Record640};
use crate::frame::{as_bits, as_bytes, average};
use crate::{Camera, Frame, Mended, RamData, Reading, Refusal, Settings, Subpage};

pub use crate::words640::{access_pattern_corrections, chessboard_entry, interleave_entry, word_6_10_split, word_to_i4s, word_to_u4s, AccessPattern};

/// The number of pixels in a row.
pub const WIDTH: usize = 32;
/// The number of rows.
pub const HEIGHT: usize = 24;
/// The number of pixels.
pub const NUM_PIXELS: usize = WIDTH * HEIGHT;
/// The number of bytes of a frame's pixels: two each, the upper first.
pub const PIXEL_BYTES: usize = 2 * NUM_PIXELS;
/// The number of temperature ranges of a card.
pub const RANGES: usize = 4;
/// The camera's basic temperature range, as in mlx9064x.
pub const BASIC_RANGE: usize = 1;
/// The degrees by which the camera is warmer inside than its surroundings, as in mlx9064x.
pub const SELF_HEATING: f32 = 8.0;
/// A mask that asks for every pixel, of both subpages; for one subpage use [`subpage_mask`].
pub const ALL_PIXELS: [bool; NUM_PIXELS] = [true; NUM_PIXELS];

/// How the camera divides its pixels into subpages: bit 12 of its control register.
#[derive(Clone, Copy, Debug, Default, PartialEq, Eq)]
pub enum Pattern {
    /// Every other row; 0 in the register.
    Interleave = 0,
    /// One colour of a chessboard; 1 in the register, and the camera's default after power-on.
    #[default]
    Chess = 1,
}

/// Returns the mask of a subpage's pixels. Each pixel belongs to exactly one subpage.
///
/// ```
/// use loamchalice::mlx90640::{subpage_mask, Pattern};
/// use loamchalice::Subpage;
/// let [zero, one] = [Subpage::Zero, Subpage::One].map(|subpage| subpage_mask(subpage, Pattern::Chess));
/// assert!(zero[0] && zero[33] && one[1] && one[32]);
/// assert!(zero.iter().zip(one).all(|(a, b)| *a != b));
/// assert_eq!(subpage_mask(Subpage::One, Pattern::Interleave)[..64], [[false; 32], [true; 32]].concat());
/// ```
pub fn subpage_mask(subpage: Subpage, pattern: Pattern) -> [bool; NUM_PIXELS] {
    let mut mask = [0; NUM_PIXELS];
    // A mask of this length is not refused.
    border::mlx90640_subpage_mask(subpage as u8, pattern as u8, &mut mask);
    mask.map(|byte| byte != 0)
}

/// The inputs of one half of a picture, those of one subpage.
#[derive(Clone, Copy, Debug)]
pub struct Half<'a> {
    /// The words of RAM, in counts.
    pub ram: RamData,
    /// The average of this subpage's own [`Filter`](crate::Filter), in counts; with `None` the compensation pixel in `ram` is used.
    pub average: Option<f32>,
    /// All 768 pixels, two bytes each with the upper first; those of the other subpage are not used.
    pub pixels: &'a [u8; PIXEL_BYTES],
}

/// The tables of a card.
#[derive(Clone, Debug)]
struct Tables {
    offsets: [i32; NUM_PIXELS],
    alpha: [f32; NUM_PIXELS],
    k_ta: [f32; NUM_PIXELS],
}

/// A card's record and tables, and the basic range that it was loaded with.
#[derive(Clone, Debug)]
pub struct Calibration {
    record: Record640,
    basic_range: usize,
    tables: Tables,
}

accessors!();

impl Calibration {
    /// Loads a card's image of 1,664 bytes with the camera's [`BASIC_RANGE`]; bytes past them are ignored.
    ///
    /// # Errors
    ///
    /// [`Refusal::ShortImage`] (1), [`Refusal::LargePixel`] (5).
    ///
    /// ```
    /// use loamchalice::{mlx90640::Calibration, Refusal};
    /// assert_eq!(Calibration::from_data(&[0; 1663]).err(), Some(Refusal::ShortImage { length: 1663 }));
    /// let blank = Calibration::from_data(&[0xFF; 1664]); // as from a bus that is stuck
    /// assert_eq!(blank.err(), Some(Refusal::LargePixel { pixel: 0 }));
    /// ```
    pub fn from_data(image: &[u8]) -> Result<Self, Refusal> {
        Self::from_data_in(image, BASIC_RANGE)
    }

    /// The same with another basic range, 0 to 3, at which the range coefficients are 1.
    ///
    /// # Errors
    ///
    /// [`Refusal::ShortImage`] (1), [`Refusal::LargePixel`] (5), [`Refusal::BasicRange`] (6).
    ///
    /// ```
    /// use loamchalice::{mlx90640::Calibration, Refusal};
    /// let card = include_bytes!("../cards/bigger.bin");
    /// assert_eq!(Calibration::from_data_in(card, 2)?.range_coefficients()[2], 1.0);
    /// assert_eq!(Calibration::from_data_in(card, 4).err(), Some(Refusal::BasicRange { range: 4 }));
    /// # Ok::<(), Refusal>(())
    /// ```
    pub fn from_data_in(image: &[u8], basic_range: usize) -> Result<Self, Refusal> {
        let mut tables = Tables { offsets: [0; NUM_PIXELS], alpha: [0.0; NUM_PIXELS], k_ta: [0.0; NUM_PIXELS] };
        let Tables { offsets, alpha, k_ta } = &mut tables;
        let loaded = border::mlx90640_load(image, basic_range, offsets, alpha, k_ta);
        Refusal::check(loaded.told)?;
        Ok(Calibration { record: loaded.calibration, basic_range, tables })
    }

    /// Returns settings for this card: the basic range that it was loaded with, and the resolution correction for the camera's current resolution, 0 to 3,
    /// which is in bits 10 and 11 of its control register (2 after power-on). The card has no emissivity: it is 1 here, as in mlx9064x's driver, for you to
    /// change.
    ///
    /// ```
    /// use loamchalice::mlx90640::{Calibration, SELF_HEATING};
    /// let camera = Calibration::from_data(include_bytes!("../cards/bigger.bin"))?;
    /// let settings = camera.settings(3);
    /// assert_eq!((settings.emissivity, settings.resolution_correction), (1.0, 0.5));
    /// assert_eq!((settings.basic_range, settings.self_heating), (1, SELF_HEATING));
    /// # Ok::<(), loamchalice::Refusal>(())
    /// ```
    pub fn settings(&self, current_resolution: u8) -> Settings {
        let resolution_correction = crate::resolution_correction(self.resolution(), current_resolution);
        Settings { resolution_correction, basic_range: self.basic_range, self_heating: SELF_HEATING, ..Settings::default() }
    }

    /// Returns a warning if the gain in a frame's RAM differs from this card's by more than a quarter, as with another camera's card. No call refuses this,
    /// so check it with each frame.
    ///
    /// ```
    /// use loamchalice::{mlx90640::Calibration, RamData};
    /// let camera = Calibration::from_data(include_bytes!("../cards/bigger.bin"))?; // a gain of 6383
    /// let ram = RamData { t_a_v_be: 19442, t_a_ptat: 1711, v_dd_pixel: -13115, gain: 6273, compensation_pixel: -54 };
    /// assert_eq!(camera.gain_warning(ram), None);
    /// assert!(camera.gain_warning(RamData { gain: 627, ..ram }).is_some());
    /// # Ok::<(), loamchalice::Refusal>(())
    /// ```
    pub fn gain_warning(&self, ram: RamData) -> Option<&'static str> {
        ram.gain_warning(self.gain())
    }

    /// The compensation pixel's offset, in counts.
    pub fn offset_reference_cp(&self, subpage: Subpage) -> i16 {
        self.record.offset_reference_cp[subpage as usize]
    }

    /// The compensation pixel's sensitivity, in counts per kelvin to the fourth.
    pub fn alpha_cp(&self, subpage: Subpage) -> f32 {
        self.record.alpha_cp[subpage as usize]
    }

    /// The offsets of the pixels, in counts.
    pub fn offset_reference_pixels(&self) -> &[i32; NUM_PIXELS] {
        &self.tables.offsets
    }

    /// K_V of the pixels, per volt: four entries; [`chessboard_entry`] gives the index of a pixel's.
    pub fn k_v_pattern(&self) -> &[f32; 4] {
        &self.record.k_v
    }

    /// The access terms of the pixels, in counts: six entries; [`interleave_entry`] gives the index of a pixel's. `None` in chess.
    pub fn access_pattern_compensation_pixels(&self, pattern: Pattern) -> Option<&[f32; 6]> {
        (pattern == Pattern::Interleave).then_some(&self.record.access_pattern)
    }

    /// The access term of the compensation pixel, in counts; `None` except in interleave and subpage 1.
    pub fn access_pattern_compensation_cp(&self, subpage: Subpage, pattern: Pattern) -> Option<f32> {
        (subpage == Subpage::One && pattern == Pattern::Interleave).then_some(self.record.access_cp)
    }

    /// Computes both halves of a picture in one pass, that of subpage 0 first. Returns the temperatures of all 768 pixels, in degrees Celsius, and each
    /// half's [`Frame`]; or else a refusal and no picture.
    ///
    /// # Errors
    ///
    /// [`Refusal::BasicRange`] (6), [`Refusal::SupplyRange`] (7), [`Refusal::ZeroDivisor`] (8), of the first half that is refused.
    pub fn picture(&self, settings: &Settings, pattern: Pattern, halves: [Half<'_>; 2]) -> Result<([f32; NUM_PIXELS], [Frame; 2]), Refusal> {
        let mut picture = [f32::INFINITY; NUM_PIXELS];
        let mut half = |subpage: Subpage| {
            let Half { ram, average, pixels } = halves[subpage as usize];
            self.filtered_pixels_to_temperatures(settings, ram, average, subpage, pattern, pixels, &subpage_mask(subpage, pattern), &mut picture)
        };
        let frames = [half(Subpage::Zero)?, half(Subpage::One)?];
        Ok((picture, frames))
    }

    /// Pixels, two bytes each with the upper first, to infrared values, in counts. A pixel whose mask is false is unchanged. [`subpage_mask`] makes the mask
    /// of the subpage; another mask is not refused.
    ///
    /// # Errors
    ///
    /// [`Refusal::ShortFrame`] (10), [`Refusal::SupplyRange`] (7), [`Refusal::ZeroDivisor`] (8). 10 cannot happen with arrays of 1,536 bytes, 768 bools and
    /// 768 numbers.
    ///
    /// ```
    /// use loamchalice::mlx90640::{subpage_mask, Calibration, Pattern};
    /// use loamchalice::{RamData, Subpage};
    /// let camera = Calibration::from_data(include_bytes!("../cards/bigger.bin"))?;
    /// let ram = RamData { t_a_v_be: 19442, t_a_ptat: 1711, v_dd_pixel: -13115, gain: 6273, compensation_pixel: -54 };
    /// let (settings, pattern, mask) = (camera.settings(2), Pattern::Chess, subpage_mask(Subpage::Zero, Pattern::Chess));
    /// let mut picture = [f32::INFINITY; 768];
    /// let frame = camera.raw_pixels_to_ir_data(&settings, ram, Subpage::Zero, pattern, &[0x02, 0x61].repeat(768), &mask, &mut picture)?;
    /// assert_eq!((frame.written, picture[0].to_bits()), (384, 0x44278A4C)); // 670.2 counts
    /// camera.raw_ir_to_temperatures(&settings, Subpage::Zero, frame.t_a, &mask, &mut picture)?;
    /// assert_eq!(picture[0].to_bits(), 0x42BE11C0); // 95.03 degrees
    /// # Ok::<(), loamchalice::Refusal>(())
    /// ```
    #[allow(clippy::too_many_arguments)]
    pub fn raw_pixels_to_ir_data(
        &self,
        settings: &Settings,
        ram: RamData,
        subpage: Subpage,
        pattern: Pattern,
        pixels: &[u8],
        valid_pixels: &[bool],
        destination: &mut [f32],
    ) -> Result<Frame, Refusal> {
        self.infrared(border::mlx90640_raw_pixels_to_ir_data, input(settings, ram, subpage, pattern), pixels, valid_pixels, destination)
    }

    /// A subpage's infrared values to temperatures in degrees Celsius, in place, for the ambient temperature that the infrared call returned. A pixel whose
    /// mask is false is unchanged.
    ///
    /// # Errors
    ///
    /// [`Refusal::ShortFrame`] (10), [`Refusal::BasicRange`] (6), [`Refusal::ZeroDivisor`] (8).
    pub fn raw_ir_to_temperatures(
        &self,
        settings: &Settings,
        subpage: Subpage,
        t_a: f32,
        valid_pixels: &[bool],
        destination: &mut [f32],
    ) -> Result<Frame, Refusal> {
        let mask = as_bytes(valid_pixels);
        let answer = border::mlx90640_raw_ir_to_temperatures(self.record, settings.lent(), subpage as u8, t_a, &self.tables.alpha, mask, as_bits(destination));
        Frame::of::<NUM_PIXELS>(answer, valid_pixels)
    }

    /// Pixels to temperatures in degrees Celsius, in one pass. A pixel whose mask is false is unchanged.
    ///
    /// # Errors
    ///
    /// [`Refusal::ShortFrame`] (10), [`Refusal::BasicRange`] (6), [`Refusal::SupplyRange`] (7), [`Refusal::ZeroDivisor`] (8).
    ///
    /// ```
    /// use loamchalice::mlx90640::{subpage_mask, Calibration, Pattern};
    /// use loamchalice::{RamData, Subpage};
    /// let camera = Calibration::from_data(include_bytes!("../cards/bigger.bin"))?;
    /// let ram = RamData { t_a_v_be: 19442, t_a_ptat: 1711, v_dd_pixel: -13115, gain: 6273, compensation_pixel: -54 };
    /// let pixels = [0x02, 0x61].repeat(768);
    /// let mut picture = [f32::INFINITY; 768]; // before both subpages
    /// for subpage in [Subpage::Zero, Subpage::One] {
    ///     let mask = subpage_mask(subpage, Pattern::Chess);
    ///     camera.raw_pixels_to_temperatures(&camera.settings(2), ram, subpage, Pattern::Chess, &pixels, &mask, &mut picture)?;
    /// }
    /// assert!(picture.iter().all(|t| (94.0..96.0).contains(t)));
    /// # Ok::<(), loamchalice::Refusal>(())
    /// ```
    #[allow(clippy::too_many_arguments)]
    pub fn raw_pixels_to_temperatures(
        &self,
        settings: &Settings,
        ram: RamData,
        subpage: Subpage,
        pattern: Pattern,
        pixels: &[u8],
        valid_pixels: &[bool],
        destination: &mut [f32],
    ) -> Result<Frame, Refusal> {
        self.pass(border::mlx90640_raw_pixels_to_temperatures, input(settings, ram, subpage, pattern), pixels, valid_pixels, destination)
    }

    /// The second pass, for scenes beyond the basic range: computes each pixel's basic temperature as one pass does, and from it the pixel's temperature with
    /// the numbers of the range that holds the basic one. The range coefficients are those of the basic range that the card was loaded with;
    /// [`Calibration::settings`] has the same one.
    ///
    /// # Errors
    ///
    /// [`Refusal::ShortFrame`] (10), [`Refusal::BasicRange`] (6), [`Refusal::SupplyRange`] (7), [`Refusal::ZeroDivisor`] (8),
    /// [`Refusal::UnorderedCorners`] (12).
    ///
    /// ```
    /// use loamchalice::mlx90640::{subpage_mask, Calibration, Pattern};
    /// use loamchalice::{RamData, Subpage};
    /// let camera = Calibration::from_data(include_bytes!("../cards/bigger.bin"))?;
    /// let ram = RamData { t_a_v_be: 19442, t_a_ptat: 1711, v_dd_pixel: -13115, gain: 6273, compensation_pixel: -54 };
    /// let (settings, pattern, mask) = (camera.settings(2), Pattern::Chess, subpage_mask(Subpage::One, Pattern::Chess));
    /// let [mut basic, mut ranged] = [[f32::INFINITY; 768]; 2];
    /// let hot = [0x17; 1536];
    /// camera.raw_pixels_to_temperatures(&settings, ram, Subpage::One, pattern, &hot, &mask, &mut basic)?;
    /// camera.raw_pixels_to_ranged_temperatures(&settings, ram, Subpage::One, pattern, &hot, &mask, &mut ranged)?;
    /// assert!(basic[1] > 160.0 && ranged[1] > 160.0 && basic[1] != ranged[1]); // the basic range is 0 to 160
    /// # Ok::<(), loamchalice::Refusal>(())
    /// ```
    #[allow(clippy::too_many_arguments)]
    pub fn raw_pixels_to_ranged_temperatures(
        &self,
        settings: &Settings,
        ram: RamData,
        subpage: Subpage,
        pattern: Pattern,
        pixels: &[u8],
        valid_pixels: &[bool],
        destination: &mut [f32],
    ) -> Result<Frame, Refusal> {
        self.pass(border::mlx90640_raw_pixels_to_ranged_temperatures, input(settings, ram, subpage, pattern), pixels, valid_pixels, destination)
    }

    /// [`Calibration::raw_pixels_to_ir_data`] with the average of the subpage's own [`Filter`](crate::Filter); with `None` it equals that call. An average
    /// that is NaN is not refused: if the card has a gradient, every pixel that the mask asks for is then lost.
    ///
    /// # Errors
    ///
    /// [`Refusal::ShortFrame`] (10), [`Refusal::SupplyRange`] (7), [`Refusal::ZeroDivisor`] (8).
    #[allow(clippy::too_many_arguments)]
    pub fn filtered_pixels_to_ir_data(
        &self,
        settings: &Settings,
        ram: RamData,
        average: Option<f32>,
        subpage: Subpage,
        pattern: Pattern,
        pixels: &[u8],
        valid_pixels: &[bool],
        destination: &mut [f32],
    ) -> Result<Frame, Refusal> {
        self.infrared(border::mlx90640_filtered_pixels_to_ir_data, filtered(settings, ram, average, subpage, pattern), pixels, valid_pixels, destination)
    }

    /// [`Calibration::raw_pixels_to_temperatures`] with the average of the subpage's own [`Filter`](crate::Filter); with `None` it equals that call.
    ///
    /// # Errors
    ///
    /// [`Refusal::ShortFrame`] (10), [`Refusal::BasicRange`] (6), [`Refusal::SupplyRange`] (7), [`Refusal::ZeroDivisor`] (8).
    #[allow(clippy::too_many_arguments)]
    pub fn filtered_pixels_to_temperatures(
        &self,
        settings: &Settings,
        ram: RamData,
        average: Option<f32>,
        subpage: Subpage,
        pattern: Pattern,
        pixels: &[u8],
        valid_pixels: &[bool],
        destination: &mut [f32],
    ) -> Result<Frame, Refusal> {
        self.pass(border::mlx90640_filtered_pixels_to_temperatures, filtered(settings, ram, average, subpage, pattern), pixels, valid_pixels, destination)
    }

    /// [`Calibration::raw_pixels_to_ranged_temperatures`] with the average of the subpage's own [`Filter`](crate::Filter); with `None` it equals that call.
    ///
    /// # Errors
    ///
    /// [`Refusal::ShortFrame`] (10), [`Refusal::BasicRange`] (6), [`Refusal::SupplyRange`] (7), [`Refusal::ZeroDivisor`] (8),
    /// [`Refusal::UnorderedCorners`] (12).
    #[allow(clippy::too_many_arguments)]
    pub fn filtered_pixels_to_ranged_temperatures(
        &self,
        settings: &Settings,
        ram: RamData,
        average: Option<f32>,
        subpage: Subpage,
        pattern: Pattern,
        pixels: &[u8],
        valid_pixels: &[bool],
        destination: &mut [f32],
    ) -> Result<Frame, Refusal> {
        let input = filtered(settings, ram, average, subpage, pattern);
        self.pass(border::mlx90640_filtered_pixels_to_ranged_temperatures, input, pixels, valid_pixels, destination)
    }

    // Makes a C call from pixels to infrared values, with this card.
    fn infrared<I>(&self, call: Infrared<I>, input: I, pixels: &[u8], valid_pixels: &[bool], destination: &mut [f32]) -> Result<Frame, Refusal> {
        let Tables { offsets, k_ta, .. } = &self.tables;
        let answer = call(self.record, input, offsets, k_ta, pixels, as_bytes(valid_pixels), as_bits(destination));
        Frame::of::<NUM_PIXELS>(answer, valid_pixels)
    }

    // Makes a C call from pixels to temperatures, with this card.
    fn pass<I>(&self, call: Pass<I>, input: I, pixels: &[u8], valid_pixels: &[bool], destination: &mut [f32]) -> Result<Frame, Refusal> {
        let Tables { offsets, alpha, k_ta } = &self.tables;
        let answer = call(self.record, input, offsets, alpha, k_ta, pixels, as_bytes(valid_pixels), as_bits(destination));
        Frame::of::<NUM_PIXELS>(answer, valid_pixels)
    }
}

type Infrared<I> = fn(Record640, I, &[i32], &[f32], &[u8], &[u8], &mut [u32]) -> Answer;
type Pass<I> = fn(Record640, I, &[i32], &[f32], &[f32], &[u8], &[u8], &mut [u32]) -> Answer;

fn input(settings: &Settings, ram: RamData, subpage: Subpage, pattern: Pattern) -> border::Input640 {
    border::Input640 { settings: settings.lent(), ram: ram.lent(), subpage: subpage as u8, pattern: pattern as u8 }
}

fn filtered(settings: &Settings, ram: RamData, given: Option<f32>, subpage: Subpage, pattern: Pattern) -> border::Filtered640 {
    border::Filtered640 { input: input(settings, ram, subpage, pattern), compensation: average(given) }
}

impl Camera for Calibration {
    const WIDTH: usize = WIDTH;
    const HEIGHT: usize = HEIGHT;
    const BASIC_RANGE: usize = BASIC_RANGE;
    const RANGES: usize = RANGES;
    const SELF_HEATING: f32 = SELF_HEATING;
    type Pattern = Pattern;
    type Mask = [bool; NUM_PIXELS];

    fn from_data_in(image: &[u8], basic_range: usize) -> Result<Self, Refusal> {
        Calibration::from_data_in(image, basic_range)
    }

    fn mended_words(&self) -> Option<Mended> {
        None
    }

    fn resolution(&self) -> u8 {
        self.resolution()
    }

    fn settings(&self, current_resolution: u8) -> Settings {
        self.settings(current_resolution)
    }

    fn settings_warning(&self, settings: &Settings) -> Option<&'static str> {
        self.settings_warning(settings)
    }

    fn gain_warning(&self, ram: RamData) -> Option<&'static str> {
        self.gain_warning(ram)
    }

    fn subpage_mask(subpage: Subpage, pattern: Pattern) -> Self::Mask {
        subpage_mask(subpage, pattern)
    }

    fn pixels_to_ir_data(&self, settings: &Settings, reading: &Reading<Pattern>, valid_pixels: &[bool], destination: &mut [f32]) -> Result<Frame, Refusal> {
        let Reading { ram, average, subpage, pattern, pixels } = *reading;
        self.filtered_pixels_to_ir_data(settings, ram, average, subpage, pattern, pixels, valid_pixels, destination)
    }

    fn ir_to_temperatures(&self, settings: &Settings, subpage: Subpage, t_a: f32, valid_pixels: &[bool], destination: &mut [f32]) -> Result<Frame, Refusal> {
        self.raw_ir_to_temperatures(settings, subpage, t_a, valid_pixels, destination)
    }

    fn pixels_to_temperatures(
        &self,
        settings: &Settings,
        reading: &Reading<Pattern>,
        valid_pixels: &[bool],
        destination: &mut [f32],
    ) -> Result<Frame, Refusal> {
        let Reading { ram, average, subpage, pattern, pixels } = *reading;
        self.filtered_pixels_to_temperatures(settings, ram, average, subpage, pattern, pixels, valid_pixels, destination)
    }

    fn pixels_to_ranged_temperatures(
        &self,
        settings: &Settings,
        reading: &Reading<Pattern>,
        valid_pixels: &[bool],
        destination: &mut [f32],
    ) -> Result<Frame, Refusal> {
        let Reading { ram, average, subpage, pattern, pixels } = *reading;
        self.filtered_pixels_to_ranged_temperatures(settings, ram, average, subpage, pattern, pixels, valid_pixels, destination)
    }
}
