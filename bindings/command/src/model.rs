//! Both cameras behind one interface, so that no command is written twice.
use crate::frame_file::Shot;
use loamchalice::{mlx90640, mlx90641, Camera, Frame, Mended, RamData, Reading, Refusal, Settings, Subpage};

/// The number of bytes of a card, of either camera.
pub const CARD_BYTES: usize = 1664;
/// The number of words of a card.
pub const CARD_WORDS: usize = CARD_BYTES / 2;

#[derive(Clone, Copy, Debug, PartialEq, Eq)]
pub enum Kind {
    Mlx90641,
    Mlx90640,
}

impl Kind {
    pub fn name(self) -> &'static str {
        match self {
            Kind::Mlx90641 => "MLX90641",
            Kind::Mlx90640 => "MLX90640",
        }
    }

    /// The number of pixels in a row, and of rows.
    pub fn size(self) -> (usize, usize) {
        match self {
            Kind::Mlx90641 => (mlx90641::WIDTH, mlx90641::HEIGHT),
            Kind::Mlx90640 => (mlx90640::WIDTH, mlx90640::HEIGHT),
        }
    }

    pub fn pixels(self) -> usize {
        self.size().0 * self.size().1
    }

    pub fn load(self, image: &[u8]) -> Result<Box<dyn Model>, Refusal> {
        Ok(match self {
            Kind::Mlx90641 => Box::new(mlx90641::Calibration::from_data(image)?),
            Kind::Mlx90640 => Box::new(mlx90640::Calibration::from_data(image)?),
        })
    }
}

/// A card's record, to be shown.
pub struct Record {
    /// `None` for the MLX90640, whose card has no emissivity.
    pub emissivity: Option<f32>,
    pub resolution: u8,
    pub gain: f32,
    pub gradient: Option<f32>,
    pub k_v_dd: i16,
    pub v_dd_25: i16,
    pub k_v_ptat: f32,
    pub k_t_ptat: f32,
    pub v_ptat_25: f32,
    pub alpha_ptat: f32,
    pub k_s_ta: f32,
    pub k_v_cp: f32,
    pub k_ta_cp: f32,
    /// One for each subpage; the MLX90641 has one for both.
    pub offset_cp: Vec<i16>,
    pub alpha_cp: Vec<f32>,
    pub corners: Vec<i16>,
    pub k_s_to: Vec<f32>,
    pub coefficients: Vec<f32>,
    /// Those of subpage 0 and then those of subpage 1, if they differ.
    pub offsets: Vec<i32>,
    pub alpha: Vec<f32>,
    pub k_ta: Vec<f32>,
    pub k_v: Vec<f32>,
}

/// A loaded card of either camera.
pub trait Model {
    fn kind(&self) -> Kind;
    fn record(&self) -> Record;
    fn mended(&self) -> Option<Mended>;
    fn settings(&self, current_resolution: u8) -> Settings;
    fn settings_warning(&self, settings: &Settings) -> Option<&'static str>;
    fn gain_warning(&self, ram: RamData) -> Option<&'static str>;
    /// The mask of a frame's subpage.
    fn mask(&self, shot: &Shot) -> Vec<bool>;
    /// One frame to temperatures, for the pixels of its subpage only; by the second pass if `ranged`, else by one pass.
    fn temperatures(&self, settings: &Settings, shot: &Shot, average: Option<f32>, ranged: bool, picture: &mut [f32]) -> Result<Frame, Refusal>;
}

/// What the interface needs of a camera besides the library's own trait.
trait Known: Camera {
    const KIND: Kind;
    fn pattern(chess: bool) -> Self::Pattern;
    fn its_record(&self) -> Record;
}

impl<C: Known> Model for C {
    fn kind(&self) -> Kind {
        C::KIND
    }

    fn record(&self) -> Record {
        self.its_record()
    }

    fn mended(&self) -> Option<Mended> {
        self.mended_words()
    }

    fn settings(&self, current_resolution: u8) -> Settings {
        Camera::settings(self, current_resolution)
    }

    fn settings_warning(&self, settings: &Settings) -> Option<&'static str> {
        Camera::settings_warning(self, settings)
    }

    fn gain_warning(&self, ram: RamData) -> Option<&'static str> {
        Camera::gain_warning(self, ram)
    }

    fn mask(&self, shot: &Shot) -> Vec<bool> {
        C::subpage_mask(shot.subpage, C::pattern(shot.chess)).as_ref().to_vec()
    }

    fn temperatures(&self, settings: &Settings, shot: &Shot, average: Option<f32>, ranged: bool, picture: &mut [f32]) -> Result<Frame, Refusal> {
        let reading = Reading { ram: shot.ram, average, subpage: shot.subpage, pattern: C::pattern(shot.chess), pixels: &shot.pixels };
        let mask = self.mask(shot);
        if ranged {
            self.pixels_to_ranged_temperatures(settings, &reading, &mask, picture)
        } else {
            self.pixels_to_temperatures(settings, &reading, &mask, picture)
        }
    }
}

// Fills the fields that both calibrations return by the same names, and those that differ.
macro_rules! record {
    ($card:ident, $($field:ident: $value:expr),*) => {
        Record {
            resolution: $card.resolution(),
            gain: $card.gain(),
            gradient: $card.temperature_gradient_coefficient(),
            k_v_dd: $card.k_v_dd(),
            v_dd_25: $card.v_dd_25(),
            k_v_ptat: $card.k_v_ptat(),
            k_t_ptat: $card.k_t_ptat(),
            v_ptat_25: $card.v_ptat_25(),
            alpha_ptat: $card.alpha_ptat(),
            k_s_ta: $card.k_s_ta(),
            k_v_cp: $card.k_v_cp(),
            k_ta_cp: $card.k_ta_cp(),
            corners: $card.corner_temperatures().to_vec(),
            k_s_to: $card.k_s_to().to_vec(),
            coefficients: $card.range_coefficients().to_vec(),
            alpha: $card.alpha_pixels().to_vec(),
            k_ta: $card.k_ta_pixels().to_vec(),
            $($field: $value),*
        }
    };
}

const BOTH: [Subpage; 2] = [Subpage::Zero, Subpage::One];

impl Known for mlx90641::Calibration {
    const KIND: Kind = Kind::Mlx90641;

    fn pattern(_: bool) {}

    fn its_record(&self) -> Record {
        record!(self,
            emissivity: Some(self.emissivity()),
            offset_cp: vec![self.offset_reference_cp()],
            alpha_cp: vec![self.alpha_cp()],
            offsets: BOTH.map(|subpage| *self.offset_reference_pixels(subpage)).concat(),
            k_v: self.k_v_pixels().to_vec()
        )
    }
}

impl Known for mlx90640::Calibration {
    const KIND: Kind = Kind::Mlx90640;

    fn pattern(chess: bool) -> mlx90640::Pattern {
        if chess {
            mlx90640::Pattern::Chess
        } else {
            mlx90640::Pattern::Interleave
        }
    }

    fn its_record(&self) -> Record {
        record!(self,
            emissivity: None,
            offset_cp: BOTH.map(|subpage| self.offset_reference_cp(subpage)).to_vec(),
            alpha_cp: BOTH.map(|subpage| self.alpha_cp(subpage)).to_vec(),
            offsets: self.offset_reference_pixels().to_vec(),
            k_v: self.k_v_pattern().to_vec()
        )
    }
}
