// Included once for the crate as published and once for the rooted one, next to a `use .. as subject`: a camera and a calibration of our own over the crate's
// traits, so that basic range, self-heating, nominal supply and "no gradient" can vary, and the crate's calls on them.
use super::library::{Frame, Record, Tables, HEATS};
use subject::calculations;
use subject::common::{Address, CalibrationData, MelexisCamera, PixelAddressRange};
use subject::mlx90641::{Mlx90641, Mlx90641Calibration};
use subject::util::Sealed;
use subject::{AccessPattern, Subpage};
use std::iter;
use std::slice;

pub struct Camera<const RANGE: usize, const HEAT: usize>;

impl<const RANGE: usize, const HEAT: usize> Sealed for Camera<RANGE, HEAT> {}

impl<const RANGE: usize, const HEAT: usize> MelexisCamera for Camera<RANGE, HEAT> {
    type PixelRangeIterator = iter::Empty<PixelAddressRange>;
    type PixelsInSubpageIterator = iter::Take<iter::Repeat<bool>>;

    fn pixel_ranges(_: Subpage, _: AccessPattern) -> Self::PixelRangeIterator {
        iter::empty()
    }

    fn pixels_in_subpage(_: Subpage, _: AccessPattern) -> Self::PixelsInSubpageIterator {
        iter::repeat(true).take(192)
    }

    const T_A_V_BE: Address = Address::new(0);
    const T_A_PTAT: Address = Address::new(0);

    fn compensation_pixel(_: Subpage) -> Address {
        Address::new(0)
    }

    const GAIN: Address = Address::new(0);
    const V_DD_PIXEL: Address = Address::new(0);

    fn resolution_correction(_: u8, _: u8) -> f32 {
        1.0
    }

    const BASIC_TEMPERATURE_RANGE: usize = RANGE;
    const SELF_HEATING: f32 = HEATS[HEAT];
    const HEIGHT: usize = 12;
    const WIDTH: usize = 16;
    const NUM_PIXELS: usize = 192;
}

pub struct Held<'t, const RANGE: usize, const HEAT: usize> {
    pub record: &'t Record,
    pub tables: &'t Tables,
    pub offsets: [Vec<i16>; 2],
    pub v_dd_0: f32,
}

// The crate's offsets are 16 bits: frames with larger ones are judged by document.rs.
fn narrow(tables: &Tables) -> [Vec<i16>; 2] {
    [0, 1].map(|s| tables.offsets[s].iter().map(|x| (*x).try_into().expect("an offset of 16 bits")).collect())
}

impl<'a, 't, const RANGE: usize, const HEAT: usize> CalibrationData<'a> for Held<'t, RANGE, HEAT> {
    type Camera = Camera<RANGE, HEAT>;

    fn k_v_dd(&self) -> i16 {
        self.record.k_v_dd
    }
    fn v_dd_25(&self) -> i16 {
        self.record.v_dd_25
    }
    fn resolution(&self) -> u8 {
        self.record.resolution
    }
    fn v_dd_0(&self) -> f32 {
        self.v_dd_0
    }
    fn k_v_ptat(&self) -> f32 {
        self.record.k_v_ptat
    }
    fn k_t_ptat(&self) -> f32 {
        self.record.k_t_ptat
    }
    fn v_ptat_25(&self) -> f32 {
        self.record.v_ptat_25
    }
    fn alpha_ptat(&self) -> f32 {
        self.record.alpha_ptat
    }
    fn gain(&self) -> f32 {
        self.record.gain
    }
    fn k_s_ta(&self) -> f32 {
        self.record.k_s_ta
    }
    fn corner_temperatures(&self) -> &[i16] {
        &self.record.corner_temperatures
    }
    fn k_s_to(&self) -> &[f32] {
        &self.record.k_s_to
    }
    fn alpha_correction(&self) -> &[f32] {
        &[]
    }

    type OffsetReferenceIterator = slice::Iter<'a, i16>;
    fn offset_reference_pixels(&'a self, subpage: Subpage) -> Self::OffsetReferenceIterator {
        self.offsets[subpage as usize].iter()
    }
    fn offset_reference_cp(&self, _: Subpage) -> i16 {
        self.record.offset_reference_cp
    }

    type AlphaIterator = slice::Iter<'a, f32>;
    fn alpha_pixels(&'a self, _: Subpage) -> Self::AlphaIterator {
        self.tables.alpha[..self.tables.alpha.len().min(192)].iter()
    }
    fn alpha_cp(&self, _: Subpage) -> f32 {
        self.record.alpha_cp
    }

    type KvIterator = slice::Iter<'a, f32>;
    fn k_v_pixels(&'a self, _: Subpage) -> Self::KvIterator {
        self.tables.k_v.iter()
    }
    fn k_v_cp(&self, _: Subpage) -> f32 {
        self.record.k_v_cp
    }

    type KtaIterator = slice::Iter<'a, f32>;
    fn k_ta_pixels(&'a self, _: Subpage) -> Self::KtaIterator {
        self.tables.k_ta.iter()
    }
    fn k_ta_cp(&self, _: Subpage) -> f32 {
        self.record.k_ta_cp
    }

    fn temperature_gradient_coefficient(&self) -> Option<f32> {
        (self.record.has_gradient != 0).then_some(self.record.gradient)
    }

    // As in the crate's own calibration of this chip: none, for each pixel.
    type AccessPatternCompensation = iter::Take<iter::Repeat<Option<&'a f32>>>;
    fn access_pattern_compensation_pixels(&'a self, _: AccessPattern) -> Self::AccessPatternCompensation {
        iter::repeat(None).take(192)
    }
    fn access_pattern_compensation_cp(&self, _: Subpage, _: AccessPattern) -> Option<f32> {
        None
    }
}

fn subpage(f: &Frame) -> Subpage {
    if f.subpage == 0 {
        Subpage::Zero
    } else {
        Subpage::One
    }
}

fn ram(f: &Frame) -> calculations::RamData {
    calculations::RamData {
        t_a_v_be: f.ram.t_a_v_be,
        t_a_ptat: f.ram.t_a_ptat,
        v_dd_pixel: f.ram.v_dd_pixel,
        gain: f.ram.gain,
        compensation_pixel: f.ram.compensation_pixel,
    }
}

pub fn raw_pixels_to_ir_data(f: &Frame, destination: &mut [f32]) -> f32 {
    let held = Held::<2, 0> { record: &f.record, tables: &f.tables, offsets: narrow(&f.tables), v_dd_0: f.v_dd_0 };
    let mut valid = f.mask.iter().map(|byte| *byte != 0);
    let pattern = AccessPattern::Interleave;
    calculations::raw_pixels_to_ir_data(&held, f.emissivity, f.resolution_correction, &f.pixels, ram(f), subpage(f), pattern, &mut valid, destination)
}

fn to_temperatures<const RANGE: usize, const HEAT: usize>(f: &Frame, t_a: f32, destination: &mut [f32]) {
    let held = Held::<RANGE, HEAT> { record: &f.record, tables: &f.tables, offsets: narrow(&f.tables), v_dd_0: f.v_dd_0 };
    let mut valid = f.mask.iter().map(|byte| *byte != 0);
    calculations::raw_ir_to_temperatures(&held, f.emissivity, t_a, f.reflected, subpage(f), &mut valid, destination)
}

fn in_one_pass<const RANGE: usize, const HEAT: usize>(f: &Frame, destination: &mut [f32]) -> f32 {
    let held = Held::<RANGE, HEAT> { record: &f.record, tables: &f.tables, offsets: narrow(&f.tables), v_dd_0: f.v_dd_0 };
    let mut valid = f.mask.iter().map(|byte| *byte != 0);
    calculations::raw_pixels_to_temperatures(
        &held,
        f.emissivity,
        f.reflected,
        f.resolution_correction,
        &f.pixels,
        ram(f),
        subpage(f),
        AccessPattern::Interleave,
        &mut valid,
        destination,
    )
}

// Range and self-heating are constants of the camera's type: one instance for each pair.
macro_rules! by_range {
    ($call:ident, $f:expr, $heat:literal, ($($given:expr),*)) => {
        match $f.range {
            0 => $call::<0, $heat>($($given),*),
            1 => $call::<1, $heat>($($given),*),
            2 => $call::<2, $heat>($($given),*),
            3 => $call::<3, $heat>($($given),*),
            4 => $call::<4, $heat>($($given),*),
            5 => $call::<5, $heat>($($given),*),
            6 => $call::<6, $heat>($($given),*),
            7 => $call::<7, $heat>($($given),*),
            _ => $call::<8, $heat>($($given),*),
        }
    };
}

macro_rules! by_heat {
    ($call:ident, $f:expr, $given:tt) => {
        match $f.heat {
            0 => by_range!($call, $f, 0, $given),
            1 => by_range!($call, $f, 1, $given),
            2 => by_range!($call, $f, 2, $given),
            3 => by_range!($call, $f, 3, $given),
            _ => by_range!($call, $f, 4, $given),
        }
    };
}

/// Returns t_a, as the library does.
pub fn raw_ir_to_temperatures(f: &Frame, t_a: f32, destination: &mut [f32]) -> f32 {
    by_heat!(to_temperatures, f, (f, t_a, destination));
    t_a
}

pub fn raw_pixels_to_temperatures(f: &Frame, destination: &mut [f32]) -> f32 {
    by_heat!(in_one_pass, f, (f, destination))
}

// The crate's own camera and calibration types, for which a realistic frame is made.
const _: () = assert!(Mlx90641::BASIC_TEMPERATURE_RANGE == 2 && Mlx90641::SELF_HEATING == HEATS[0]);

pub fn own_infrared(f: &Frame, destination: &mut [f32]) -> f32 {
    let own = Mlx90641Calibration::from_data(&f.image).expect("a realistic card loads");
    let mut valid = f.mask.iter().map(|byte| *byte != 0);
    let (correction, pattern) = (f.resolution_correction, AccessPattern::Interleave);
    calculations::raw_pixels_to_ir_data(&own, f.emissivity, correction, &f.pixels, ram(f), subpage(f), pattern, &mut valid, destination)
}

pub fn own_one_pass(f: &Frame, destination: &mut [f32]) -> f32 {
    let own = Mlx90641Calibration::from_data(&f.image).expect("a realistic card loads");
    let mut valid = f.mask.iter().map(|byte| *byte != 0);
    let (correction, pattern) = (f.resolution_correction, AccessPattern::Interleave);
    calculations::raw_pixels_to_temperatures(
        &own, f.emissivity, f.reflected, correction, &f.pixels, ram(f), subpage(f), pattern, &mut valid, destination,
    )
}
