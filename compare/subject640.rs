// Included for the crate as published, for the rooted one and for the one without overflow checks, next to a `use .. as subject`: the crate's calls on the
// MLX90640's frames, by its own camera and calibration types, and by a camera and a calibration of our own over its traits, so that basic range,
// self-heating, nominal supply and any number of the record can vary.
use crate::cards640::PIXELS;
use crate::library640::{Frame640, HEATS};
use std::iter;
use std::slice;
use std::vec;
use subject::calculations;
use subject::common::{Address, CalibrationData, MelexisCamera, PixelAddressRange};
use subject::mlx90640::{Mlx90640, Mlx90640Calibration};
use subject::util::Sealed;
use subject::{AccessPattern, Subpage};

pub struct Camera<const RANGE: usize, const HEAT: usize>;

impl<const RANGE: usize, const HEAT: usize> Sealed for Camera<RANGE, HEAT> {}

impl<const RANGE: usize, const HEAT: usize> MelexisCamera for Camera<RANGE, HEAT> {
    type PixelRangeIterator = iter::Empty<PixelAddressRange>;
    type PixelsInSubpageIterator = iter::Empty<bool>;

    fn pixel_ranges(_: Subpage, _: AccessPattern) -> Self::PixelRangeIterator {
        iter::empty()
    }

    fn pixels_in_subpage(_: Subpage, _: AccessPattern) -> Self::PixelsInSubpageIterator {
        iter::empty()
    }

    const T_A_V_BE: Address = Address::new(0);
    const T_A_PTAT: Address = Address::new(0);

    fn compensation_pixel(_: Subpage) -> Address {
        Address::new(0)
    }

    const GAIN: Address = Address::new(0);
    const V_DD_PIXEL: Address = Address::new(0);

    fn resolution_correction(_: u8, _: u8) -> f32 {
        1.0
    }

    const BASIC_TEMPERATURE_RANGE: usize = RANGE;
    const SELF_HEATING: f32 = HEATS[HEAT];
    const HEIGHT: usize = 24;
    const WIDTH: usize = 32;
    const NUM_PIXELS: usize = PIXELS;
}

// The entries of chessboard and six-entry pattern are spread over the pixels here, by the paper; in the crate's own types its iterators do it.
pub struct Held<'t, const RANGE: usize, const HEAT: usize> {
    f: &'t Frame640,
    offsets: Vec<i16>,
    k_v: Vec<f32>,
    access: Vec<f32>,
}

impl<'t, const RANGE: usize, const HEAT: usize> Held<'t, RANGE, HEAT> {
    fn new(f: &'t Frame640) -> Self {
        let r = &f.record;
        Held {
            f,
            offsets: f.tables.offsets.iter().map(|x| (*x).try_into().expect("an offset of 16 bits")).collect(),
            k_v: (0..PIXELS).map(|p| r.k_v[p / 32 % 2 + 2 * (p % 2)]).collect(),
            access: (0..PIXELS).map(|p| r.access_pattern[3 * (p / 32 % 2) + [0, 1, 0, 2][p % 4]]).collect(),
        }
    }
}

impl<'a, 't, const RANGE: usize, const HEAT: usize> CalibrationData<'a> for Held<'t, RANGE, HEAT> {
    type Camera = Camera<RANGE, HEAT>;

    fn k_v_dd(&self) -> i16 {
        self.f.record.k_v_dd
    }
    fn v_dd_25(&self) -> i16 {
        self.f.record.v_dd_25
    }
    fn resolution(&self) -> u8 {
        self.f.record.resolution
    }
    fn v_dd_0(&self) -> f32 {
        self.f.v_dd_0
    }
    fn k_v_ptat(&self) -> f32 {
        self.f.record.k_v_ptat
    }
    fn k_t_ptat(&self) -> f32 {
        self.f.record.k_t_ptat
    }
    fn v_ptat_25(&self) -> f32 {
        self.f.record.v_ptat_25
    }
    fn alpha_ptat(&self) -> f32 {
        self.f.record.alpha_ptat
    }
    fn gain(&self) -> f32 {
        self.f.record.gain
    }
    fn k_s_ta(&self) -> f32 {
        self.f.record.k_s_ta
    }
    fn corner_temperatures(&self) -> &[i16] {
        &self.f.record.corner_temperatures
    }
    fn k_s_to(&self) -> &[f32] {
        &self.f.record.k_s_to
    }
    fn alpha_correction(&self) -> &[f32] {
        &[]
    }

    type OffsetReferenceIterator = slice::Iter<'a, i16>;
    fn offset_reference_pixels(&'a self, _: Subpage) -> Self::OffsetReferenceIterator {
        self.offsets.iter()
    }
    fn offset_reference_cp(&self, subpage: Subpage) -> i16 {
        self.f.record.offset_reference_cp[subpage as usize]
    }

    type AlphaIterator = slice::Iter<'a, f32>;
    fn alpha_pixels(&'a self, _: Subpage) -> Self::AlphaIterator {
        self.f.tables.alpha[..self.f.tables.alpha.len().min(PIXELS)].iter()
    }
    fn alpha_cp(&self, subpage: Subpage) -> f32 {
        self.f.record.alpha_cp[subpage as usize]
    }

    type KvIterator = slice::Iter<'a, f32>;
    fn k_v_pixels(&'a self, _: Subpage) -> Self::KvIterator {
        self.k_v.iter()
    }
    fn k_v_cp(&self, _: Subpage) -> f32 {
        self.f.record.k_v_cp
    }

    type KtaIterator = slice::Iter<'a, f32>;
    fn k_ta_pixels(&'a self, _: Subpage) -> Self::KtaIterator {
        self.f.tables.k_ta.iter()
    }
    fn k_ta_cp(&self, _: Subpage) -> f32 {
        self.f.record.k_ta_cp
    }

    fn temperature_gradient_coefficient(&self) -> Option<f32> {
        (self.f.record.has_gradient != 0).then_some(self.f.record.gradient)
    }

    type AccessPatternCompensation = vec::IntoIter<Option<&'a f32>>;
    fn access_pattern_compensation_pixels(&'a self, pattern: AccessPattern) -> Self::AccessPatternCompensation {
        let interleave = matches!(pattern, AccessPattern::Interleave);
        self.access.iter().map(|term| interleave.then_some(term)).collect::<Vec<_>>().into_iter()
    }
    fn access_pattern_compensation_cp(&self, subpage: Subpage, pattern: AccessPattern) -> Option<f32> {
        matches!((subpage, pattern), (Subpage::One, AccessPattern::Interleave)).then_some(self.f.record.access_cp)
    }
}

fn subpage_of(number: u8) -> Subpage {
    if number == 0 {
        Subpage::Zero
    } else {
        Subpage::One
    }
}

fn pattern_of(number: u8) -> AccessPattern {
    if number == 0 {
        AccessPattern::Interleave
    } else {
        AccessPattern::Chess
    }
}

fn ram(f: &Frame640) -> calculations::RamData {
    calculations::RamData {
        t_a_v_be: f.ram.t_a_v_be,
        t_a_ptat: f.ram.t_a_ptat,
        v_dd_pixel: f.ram.v_dd_pixel,
        gain: f.ram.gain,
        compensation_pixel: f.ram.compensation_pixel,
    }
}

fn infrared_of<'a>(c: &'a impl CalibrationData<'a>, f: &Frame640, to: &mut [f32]) -> f32 {
    let valid = &mut f.mask.iter().map(|byte| *byte != 0);
    let (subpage, pattern) = (subpage_of(f.subpage), pattern_of(f.pattern));
    calculations::raw_pixels_to_ir_data(c, f.emissivity, f.resolution_correction, &f.pixels, ram(f), subpage, pattern, valid, to)
}

// Returns t_a, as the library does.
fn temperatures_of<'a>(c: &'a impl CalibrationData<'a>, f: &Frame640, t_a: f32, to: &mut [f32]) -> f32 {
    let valid = &mut f.mask.iter().map(|byte| *byte != 0);
    calculations::raw_ir_to_temperatures(c, f.emissivity, t_a, f.reflected, subpage_of(f.subpage), valid, to);
    t_a
}

fn one_pass_of<'a>(c: &'a impl CalibrationData<'a>, f: &Frame640, to: &mut [f32]) -> f32 {
    let valid = &mut f.mask.iter().map(|byte| *byte != 0);
    let (subpage, pattern, correction) = (subpage_of(f.subpage), pattern_of(f.pattern), f.resolution_correction);
    calculations::raw_pixels_to_temperatures(c, f.emissivity, f.reflected, correction, &f.pixels, ram(f), subpage, pattern, valid, to)
}

pub fn infrared(f: &Frame640, to: &mut [f32]) -> f32 {
    infrared_of(&Held::<1, 0>::new(f), f, to)
}

// Range and self-heating are constants of the camera's type: one instance for each pair. One range of 4 or more represents all of them.
macro_rules! by_range {
    ($call:ident, $f:expr, $heat:literal, ($($given:expr),*)) => {
        match $f.range {
            0 => $call(&Held::<0, $heat>::new($f), $f, $($given),*),
            1 => $call(&Held::<1, $heat>::new($f), $f, $($given),*),
            2 => $call(&Held::<2, $heat>::new($f), $f, $($given),*),
            3 => $call(&Held::<3, $heat>::new($f), $f, $($given),*),
            _ => $call(&Held::<4, $heat>::new($f), $f, $($given),*),
        }
    };
}

macro_rules! by_heat {
    ($call:ident, $f:expr, $given:tt) => {
        match $f.heat {
            0 => by_range!($call, $f, 0, $given),
            1 => by_range!($call, $f, 1, $given),
            2 => by_range!($call, $f, 2, $given),
            3 => by_range!($call, $f, 3, $given),
            _ => by_range!($call, $f, 4, $given),
        }
    };
}

pub fn temperatures(f: &Frame640, t_a: f32, to: &mut [f32]) -> f32 {
    by_heat!(temperatures_of, f, (t_a, to))
}

pub fn one_pass(f: &Frame640, to: &mut [f32]) -> f32 {
    by_heat!(one_pass_of, f, (to))
}

// The crate's own camera and calibration types. A frame that is marked for them has their self-heating and range.
const _: () = assert!(Mlx90640::BASIC_TEMPERATURE_RANGE == crate::cards640::BASIC && Mlx90640::SELF_HEATING == HEATS[0]);
const _: () = assert!(Mlx90640::NUM_PIXELS == PIXELS && Mlx90640::WIDTH == 32);

pub fn own(f: &Frame640) -> Mlx90640Calibration {
    Mlx90640Calibration::from_data(&f.image).expect("a card that loads")
}

pub fn own_infrared(f: &Frame640, to: &mut [f32]) -> f32 {
    infrared_of(&own(f), f, to)
}

pub fn own_temperatures(f: &Frame640, t_a: f32, to: &mut [f32]) -> f32 {
    temperatures_of(&own(f), f, t_a, to)
}

pub fn own_one_pass(f: &Frame640, to: &mut [f32]) -> f32 {
    one_pass_of(&own(f), f, to)
}

pub fn own_mask(subpage: u8, pattern: u8) -> Vec<u8> {
    Mlx90640::pixels_in_subpage(subpage_of(subpage), pattern_of(pattern)).into_iter().map(u8::from).collect()
}
