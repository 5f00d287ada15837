//! The MLX90641, the camera of 16 by 12 pixels: its card, whose words are checked, and its frames. Each subpage covers all pixels. Its types and calls are at
//! the crate's root too.
use crate::accessors::accessors;
use crate::border::{self, Answer, Record};
use crate::frame::{as_bits, as_bytes, average};
use crate::{Camera, Frame, RamData, Reading, Refusal, Settings, Subpage};

pub use crate::burning::{burn, next_step, Burnt, Step};
pub use crate::card::Card;
pub use crate::reader::Reader;
pub use crate::scrubbing::{scrub, Scrubbed};
pub use crate::words::{add_checksum, alpha_row, check_word, subpage_offsets, validate_checksum, Checked, Mended};

/// The number of pixels in a row.
pub const WIDTH: usize = 16;
/// The number of rows.
pub const HEIGHT: usize = 12;
/// The number of pixels.
pub const NUM_PIXELS: usize = WIDTH * HEIGHT;
/// The number of bytes of a frame's pixels: two each, the upper first.
pub const PIXEL_BYTES: usize = 2 * NUM_PIXELS;
/// The number of temperature ranges of a card.
pub const RANGES: usize = 8;
/// The camera's basic temperature range, as in mlx9064x.
pub const BASIC_RANGE: usize = 2;
/// The degrees by which the camera is warmer inside than its surroundings, as in mlx9064x.
pub const SELF_HEATING: f32 = 5.0;
/// A mask that asks for every pixel.
pub const ALL_PIXELS: [bool; NUM_PIXELS] = [true; NUM_PIXELS];

/// The tables of a card.
#[derive(Clone, Debug)]
pub(crate) struct Tables {
    pub offsets: [[i32; NUM_PIXELS]; 2],
    pub alpha: [f32; NUM_PIXELS],
    pub k_v: [f32; NUM_PIXELS],
    pub k_ta: [f32; NUM_PIXELS],
}

impl Tables {
    pub fn new() -> Self {
        Tables { offsets: [[0; NUM_PIXELS]; 2], alpha: [0.0; NUM_PIXELS], k_v: [0.0; NUM_PIXELS], k_ta: [0.0; NUM_PIXELS] }
    }
}

/// A card's record and tables, and the basic range that it was loaded with.
#[derive(Clone, Debug)]
pub struct Calibration {
    record: Record,
    mended: Mended,
    basic_range: usize,
    tables: Tables,
}

accessors!();

impl Calibration {
    /// Loads a card's image of 1,664 bytes with the camera's [`BASIC_RANGE`]; bytes past them are ignored.
    ///
    /// # Errors
    ///
    /// [`Refusal::ShortImage`] (1), [`Refusal::DamagedWord`] (3), [`Refusal::OffsetScale`] (4).
    ///
    /// ```
    /// use loamchalice::{Calibration, Refusal};
    /// let short = Calibration::from_data(&[0; 1663]);
    /// assert_eq!(short.err(), Some(Refusal::ShortImage { length: 1663 }));
    /// ```
    pub fn from_data(image: &[u8]) -> Result<Self, Refusal> {
        Self::from_data_in(image, BASIC_RANGE)
    }

    /// The same with another basic range, 0 to 7, at which the range coefficients are 1.
    ///
    /// # Errors
    ///
    /// [`Refusal::ShortImage`] (1), [`Refusal::DamagedWord`] (3), [`Refusal::OffsetScale`] (4), [`Refusal::BasicRange`] (6), [`Refusal::ZeroFactor`] (13).
    ///
    /// ```
    /// use loamchalice::{Calibration, Refusal};
    /// let card = include_bytes!("../cards/sound.bin");
    /// assert_eq!(Calibration::from_data_in(card, 3)?.range_coefficients()[3], 1.0);
    /// assert_eq!(Calibration::from_data_in(card, 8).err(), Some(Refusal::BasicRange { range: 8 }));
    /// # Ok::<(), Refusal>(())
    /// ```
    pub fn from_data_in(image: &[u8], basic_range: usize) -> Result<Self, Refusal> {
        let mut tables = Tables::new();
        let Tables { offsets: [zero, one], alpha, k_v, k_ta } = &mut tables;
        let loaded = border::load(image, basic_range, zero, one, alpha, k_v, k_ta);
        Self::of(loaded, basic_range, tables)
    }

    // The result of a load with this basic range, from the C answer and the tables that it has filled.
    pub(crate) fn of(loaded: border::Load, basic_range: usize, tables: Tables) -> Result<Self, Refusal> {
        Refusal::check(loaded.told)?;
        let mended = Mended { count: loaded.mended, last: (loaded.mended != 0).then_some(loaded.last_mended) };
        Ok(Calibration { record: loaded.calibration, mended, basic_range, tables })
    }

    /// The words that were mended in loading. A card whose count grows is going bad.
    pub fn mended(&self) -> Mended {
        self.mended
    }

    /// Returns settings for this card: its own emissivity, the basic range that it was loaded with, and the resolution correction for the camera's current
    /// resolution, 0 to 3, which is in bits 10 and 11 of its control register (2 after power-on).
    ///
    /// ```
    /// use loamchalice::Calibration;
    /// let camera = Calibration::from_data_in(include_bytes!("../cards/sound.bin"), 3)?;
    /// let settings = camera.settings(2);
    /// assert_eq!(settings.emissivity, camera.emissivity());
    /// assert_eq!(settings.basic_range, 3);
    /// assert_eq!(settings.resolution_correction, loamchalice::resolution_correction(camera.resolution(), 2));
    /// # Ok::<(), loamchalice::Refusal>(())
    /// ```
    pub fn settings(&self, current_resolution: u8) -> Settings {
        let resolution_correction = crate::resolution_correction(self.resolution(), current_resolution);
        Settings { emissivity: self.emissivity(), resolution_correction, basic_range: self.basic_range, self_heating: SELF_HEATING, ..Settings::default() }
    }

    /// Returns a warning if the gain in a frame's RAM differs from this card's by more than a quarter, as with a half-burnt card or another camera's card. No
    /// call refuses this, so check it with each frame.
    ///
    /// ```
    /// use loamchalice::{Calibration, RamData};
    /// let ram = RamData { t_a_v_be: 19442, t_a_ptat: 1711, v_dd_pixel: -13115, gain: 6391, compensation_pixel: -105 };
    /// let sound = Calibration::from_data(include_bytes!("../cards/sound.bin"))?; // a gain of 6383
    /// assert_eq!(sound.gain_warning(ram), None);
    /// let half = Calibration::from_data(include_bytes!("../cards/half.bin"))?; // a gain of 16
    /// assert!(half.gain_warning(ram).is_some());
    /// # Ok::<(), loamchalice::Refusal>(())
    /// ```
    pub fn gain_warning(&self, ram: RamData) -> Option<&'static str> {
        ram.gain_warning(self.gain())
    }

    /// The card's emissivity, a ratio. The calls use that of the settings.
    pub fn emissivity(&self) -> f32 {
        self.record.emissivity
    }

    /// The compensation pixel's offset, in counts.
    pub fn offset_reference_cp(&self) -> i16 {
        self.record.offset_reference_cp
    }

    /// The compensation pixel's sensitivity, in counts per kelvin to the fourth.
    pub fn alpha_cp(&self) -> f32 {
        self.record.alpha_cp
    }

    /// K_V of the pixels, per volt.
    pub fn k_v_pixels(&self) -> &[f32; NUM_PIXELS] {
        &self.tables.k_v
    }

    /// The offsets of a subpage, in counts.
    pub fn offset_reference_pixels(&self, subpage: Subpage) -> &[i32; NUM_PIXELS] {
        &self.tables.offsets[subpage as usize]
    }

    /// Pixels, two bytes each with the upper first, to infrared values, in counts. A pixel whose mask is false is unchanged.
    ///
    /// # Errors
    ///
    /// [`Refusal::ShortFrame`] (10), [`Refusal::SupplyRange`] (7), [`Refusal::ZeroDivisor`] (8). 10 cannot happen with arrays of 384 bytes, 192 bools and 192
    /// numbers.
    pub fn raw_pixels_to_ir_data(
        &self,
        settings: &Settings,
        ram: RamData,
        subpage: Subpage,
        pixels: &[u8],
        valid_pixels: &[bool],
        destination: &mut [f32],
    ) -> Result<Frame, Refusal> {
        self.infrared(border::raw_pixels_to_ir_data, input(settings, ram, subpage), pixels, valid_pixels, destination)
    }

    /// Infrared values to temperatures in degrees Celsius, in place, for the ambient temperature that the infrared call returned. A pixel whose mask is false
    /// is unchanged.
    ///
    /// # Errors
    ///
    /// [`Refusal::ShortFrame`] (10), [`Refusal::BasicRange`] (6), [`Refusal::ZeroDivisor`] (8).
    pub fn raw_ir_to_temperatures(&self, settings: &Settings, t_a: f32, valid_pixels: &[bool], destination: &mut [f32]) -> Result<Frame, Refusal> {
        let mask = as_bytes(valid_pixels);
        let answer = border::raw_ir_to_temperatures(self.record, settings.lent(), t_a, &self.tables.alpha, mask, as_bits(destination));
        Frame::of::<NUM_PIXELS>(answer, valid_pixels)
    }

    /// Computes a whole frame in one pass: the temperatures of all 192 pixels, in degrees Celsius.
    ///
    /// # Errors
    ///
    /// [`Refusal::BasicRange`] (6), [`Refusal::SupplyRange`] (7), [`Refusal::ZeroDivisor`] (8).
    ///
    /// ```
    /// use loamchalice::{Calibration, RamData, Settings, Subpage};
    /// let camera = Calibration::from_data(include_bytes!("../cards/sound.bin"))?;
    /// let ram = RamData { t_a_v_be: 19442, t_a_ptat: 1711, v_dd_pixel: -13115, gain: 6391, compensation_pixel: -105 };
    /// let (picture, frame) = camera.picture(&Settings::default(), ram, Subpage::Zero, &[0xFD; 384])?;
    /// assert_eq!((picture.len(), frame.lost), (192, 0));
    /// # Ok::<(), loamchalice::Refusal>(())
    /// ```
    pub fn picture(&self, settings: &Settings, ram: RamData, subpage: Subpage, pixels: &[u8; PIXEL_BYTES]) -> Result<([f32; NUM_PIXELS], Frame), Refusal> {
        let mut picture = [f32::INFINITY; NUM_PIXELS];
        let frame = self.raw_pixels_to_temperatures(settings, ram, subpage, pixels, &ALL_PIXELS, &mut picture)?;
        Ok((picture, frame))
    }

    /// Pixels to temperatures in degrees Celsius, in one pass. A pixel whose mask is false is unchanged.
    ///
    /// # Errors
    ///
    /// [`Refusal::ShortFrame`] (10), [`Refusal::BasicRange`] (6), [`Refusal::SupplyRange`] (7), [`Refusal::ZeroDivisor`] (8).
    pub fn raw_pixels_to_temperatures(
        &self,
        settings: &Settings,
        ram: RamData,
        subpage: Subpage,
        pixels: &[u8],
        valid_pixels: &[bool],
        destination: &mut [f32],
    ) -> Result<Frame, Refusal> {
        self.pass(border::raw_pixels_to_temperatures, input(settings, ram, subpage), pixels, valid_pixels, destination)
    }

    /// The second pass, for scenes beyond the basic range: computes each pixel's basic temperature as one pass does, and from it the pixel's temperature with
    /// the numbers of the range that holds the basic one. The range coefficients are those of the basic range that the card was loaded with;
    /// [`Calibration::settings`] has the same one.
    ///
    /// # Errors
    ///
    /// [`Refusal::ShortFrame`] (10), [`Refusal::BasicRange`] (6), [`Refusal::SupplyRange`] (7), [`Refusal::ZeroDivisor`] (8),
    /// [`Refusal::UnorderedCorners`] (12).
    ///
    /// ```
    /// use loamchalice::{Calibration, RamData, Settings, Subpage, ALL_PIXELS};
    /// let camera = Calibration::from_data(include_bytes!("../cards/sound.bin"))?;
    /// let ram = RamData { t_a_v_be: 19442, t_a_ptat: 1711, v_dd_pixel: -13115, gain: 6391, compensation_pixel: -105 };
    /// let (mut basic, mut ranged) = ([0f32; 192], [0f32; 192]);
    /// let hot = [0x7F; 384];
    /// camera.raw_pixels_to_temperatures(&Settings::default(), ram, Subpage::Zero, &hot, &ALL_PIXELS, &mut basic)?;
    /// camera.raw_pixels_to_ranged_temperatures(&Settings::default(), ram, Subpage::Zero, &hot, &ALL_PIXELS, &mut ranged)?;
    /// assert!(basic[0] > 80.0 && basic != ranged);
    /// # Ok::<(), loamchalice::Refusal>(())
    /// ```
    pub fn raw_pixels_to_ranged_temperatures(
        &self,
        settings: &Settings,
        ram: RamData,
        subpage: Subpage,
        pixels: &[u8],
        valid_pixels: &[bool],
        destination: &mut [f32],
    ) -> Result<Frame, Refusal> {
        self.pass(border::raw_pixels_to_ranged_temperatures, input(settings, ram, subpage), pixels, valid_pixels, destination)
    }

    /// [`Calibration::raw_pixels_to_ir_data`] with the average of a [`Filter`](crate::Filter); with `None` it equals that call. An average that is NaN is not
    /// refused: if the card has a gradient, every pixel that the mask asks for is then lost.
    ///
    /// # Errors
    ///
    /// [`Refusal::ShortFrame`] (10), [`Refusal::SupplyRange`] (7), [`Refusal::ZeroDivisor`] (8).
    #[allow(clippy::too_many_arguments)]
    pub fn filtered_pixels_to_ir_data(
        &self,
        settings: &Settings,
        ram: RamData,
        average: Option<f32>,
        subpage: Subpage,
        pixels: &[u8],
        valid_pixels: &[bool],
        destination: &mut [f32],
    ) -> Result<Frame, Refusal> {
        self.infrared(border::filtered_pixels_to_ir_data, filtered(settings, ram, average, subpage), pixels, valid_pixels, destination)
    }

    /// [`Calibration::raw_pixels_to_temperatures`] with the average of a [`Filter`](crate::Filter); with `None` it equals that call.
    ///
    /// # Errors
    ///
    /// [`Refusal::ShortFrame`] (10), [`Refusal::BasicRange`] (6), [`Refusal::SupplyRange`] (7), [`Refusal::ZeroDivisor`] (8).
    ///
    /// ```
    /// use loamchalice::{Calibration, Filter, RamData, Settings, Subpage, ALL_PIXELS};
    /// let camera = Calibration::from_data(include_bytes!("../cards/sound.bin"))?;
    /// let ram = RamData { t_a_v_be: 19442, t_a_ptat: 1711, v_dd_pixel: -13115, gain: 6391, compensation_pixel: -105 };
    /// let mut filter = Filter::new(); // of this subpage
    /// filter.push(ram.compensation_pixel);
    /// let mut picture = [0f32; 192];
    /// camera.filtered_pixels_to_temperatures(&Settings::default(), ram, filter.average(), Subpage::Zero, &[0xFD; 384], &ALL_PIXELS, &mut picture)?;
    /// # Ok::<(), loamchalice::Refusal>(())
    /// ```
    #[allow(clippy::too_many_arguments)]
    pub fn filtered_pixels_to_temperatures(
        &self,
        settings: &Settings,
        ram: RamData,
        average: Option<f32>,
        subpage: Subpage,
        pixels: &[u8],
        valid_pixels: &[bool],
        destination: &mut [f32],
    ) -> Result<Frame, Refusal> {
        self.pass(border::filtered_pixels_to_temperatures, filtered(settings, ram, average, subpage), pixels, valid_pixels, destination)
    }

    /// [`Calibration::raw_pixels_to_ranged_temperatures`] with the average of a [`Filter`](crate::Filter); with `None` it equals that call.
    ///
    /// # Errors
    ///
    /// [`Refusal::ShortFrame`] (10), [`Refusal::BasicRange`] (6), [`Refusal::SupplyRange`] (7), [`Refusal::ZeroDivisor`] (8),
    /// [`Refusal::UnorderedCorners`] (12).
    #[allow(clippy::too_many_arguments)]
    pub fn filtered_pixels_to_ranged_temperatures(
        &self,
        settings: &Settings,
        ram: RamData,
        average: Option<f32>,
        subpage: Subpage,
        pixels: &[u8],
        valid_pixels: &[bool],
        destination: &mut [f32],
    ) -> Result<Frame, Refusal> {
        self.pass(border::filtered_pixels_to_ranged_temperatures, filtered(settings, ram, average, subpage), pixels, valid_pixels, destination)
    }

    // Makes a C call from pixels to infrared values, with this card.
    fn infrared<I>(&self, call: Infrared<I>, input: I, pixels: &[u8], valid_pixels: &[bool], destination: &mut [f32]) -> Result<Frame, Refusal> {
        let Tables { offsets: [zero, one], k_v, k_ta, .. } = &self.tables;
        let answer = call(self.record, input, zero, one, k_v, k_ta, pixels, as_bytes(valid_pixels), as_bits(destination));
        Frame::of::<NUM_PIXELS>(answer, valid_pixels)
    }

    // Makes a C call from pixels to temperatures, with this card.
    fn pass<I>(&self, call: Pass<I>, input: I, pixels: &[u8], valid_pixels: &[bool], destination: &mut [f32]) -> Result<Frame, Refusal> {
        let Tables { offsets: [zero, one], alpha, k_v, k_ta } = &self.tables;
        let answer = call(self.record, input, zero, one, alpha, k_v, k_ta, pixels, as_bytes(valid_pixels), as_bits(destination));
        Frame::of::<NUM_PIXELS>(answer, valid_pixels)
    }
}

type Infrared<I> = fn(Record, I, &[i32], &[i32], &[f32], &[f32], &[u8], &[u8], &mut [u32]) -> Answer;
type Pass<I> = fn(Record, I, &[i32], &[i32], &[f32], &[f32], &[f32], &[u8], &[u8], &mut [u32]) -> Answer;

fn input(settings: &Settings, ram: RamData, subpage: Subpage) -> border::Input {
    border::Input { settings: settings.lent(), ram: ram.lent(), subpage: subpage as u8 }
}

fn filtered(settings: &Settings, ram: RamData, given: Option<f32>, subpage: Subpage) -> border::Filtered {
    border::Filtered { input: input(settings, ram, subpage), compensation: average(given) }
}

impl Camera for Calibration {
    const WIDTH: usize = WIDTH;
    const HEIGHT: usize = HEIGHT;
    const BASIC_RANGE: usize = BASIC_RANGE;
    const RANGES: usize = RANGES;
    const SELF_HEATING: f32 = SELF_HEATING;
    type Pattern = ();
    type Mask = [bool; NUM_PIXELS];

    fn from_data_in(image: &[u8], basic_range: usize) -> Result<Self, Refusal> {
        Calibration::from_data_in(image, basic_range)
    }

    fn mended_words(&self) -> Option<Mended> {
        Some(self.mended)
    }

    fn resolution(&self) -> u8 {
        self.resolution()
    }

    fn settings(&self, current_resolution: u8) -> Settings {
        self.settings(current_resolution)
    }

    fn settings_warning(&self, settings: &Settings) -> Option<&'static str> {
        self.settings_warning(settings)
    }

    fn gain_warning(&self, ram: RamData) -> Option<&'static str> {
        self.gain_warning(ram)
    }

    fn subpage_mask(_: Subpage, _: ()) -> Self::Mask {
        ALL_PIXELS
    }

    fn pixels_to_ir_data(&self, settings: &Settings, reading: &Reading, valid_pixels: &[bool], destination: &mut [f32]) -> Result<Frame, Refusal> {
        let Reading { ram, average, subpage, pixels, .. } = *reading;
        self.filtered_pixels_to_ir_data(settings, ram, average, subpage, pixels, valid_pixels, destination)
    }

    fn ir_to_temperatures(&self, settings: &Settings, _: Subpage, t_a: f32, valid_pixels: &[bool], destination: &mut [f32]) -> Result<Frame, Refusal> {
        self.raw_ir_to_temperatures(settings, t_a, valid_pixels, destination)
    }

    fn pixels_to_temperatures(&self, settings: &Settings, reading: &Reading, valid_pixels: &[bool], destination: &mut [f32]) -> Result<Frame, Refusal> {
        let Reading { ram, average, subpage, pixels, .. } = *reading;
        self.filtered_pixels_to_temperatures(settings, ram, average, subpage, pixels, valid_pixels, destination)
    }

    fn pixels_to_ranged_temperatures(&self, settings: &Settings, reading: &Reading, valid_pixels: &[bool], destination: &mut [f32]) -> Result<Frame, Refusal> {
        let Reading { ram, average, subpage, pixels, .. } = *reading;
        self.filtered_pixels_to_ranged_temperatures(settings, ram, average, subpage, pixels, valid_pixels, destination)
    }
}
