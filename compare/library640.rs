//! The library's mask and frame calls of the MLX90640. A name in `PLANTED` falsifies a call's arguments or results, as a mistake in the library would.
use crate::library::border::{self, Average, Filtered640, Input640, Outcome, Settings};
use crate::library::{any_planted, planted, Answer, Ram, Record640, Tables640};

/// The inputs of a frame: the card's image, its record and tables, perhaps changed, and the rest. `heat` is an index into HEATS. `own` says that the crate's
/// own camera and calibration types can represent this frame.
#[derive(Clone, Debug)]
pub struct Frame640 {
    pub image: Vec<u8>,
    pub record: Record640,
    pub tables: Tables640,
    pub emissivity: f32,
    pub resolution_correction: f32,
    pub v_dd_0: f32,
    pub ram: Ram,
    pub subpage: u8,
    pub pattern: u8,
    pub range: usize,
    pub heat: usize,
    pub reflected: Option<f32>,
    pub pixels: Vec<u8>,
    pub mask: Vec<u8>,
    pub own: bool,
}

pub const HEATS: [f32; 5] = [8.0, 0.0, -7.25, f32::INFINITY, f32::NAN];

// Settings that are not read are NaN, as in library.rs.
fn settings(f: &Frame640) -> Settings {
    Settings {
        basic_range: f.range,
        emissivity: f.emissivity,
        resolution_correction: f.resolution_correction,
        v_dd_0: f.v_dd_0,
        self_heating: if f.reflected.is_some() { f32::NAN } else { HEATS[f.heat] },
        reflected: f.reflected.unwrap_or(f32::NAN),
        reflected_given: f.reflected.is_some().into(),
    }
}

// Record, subpage and pattern as a call with one of these mistakes would have them.
fn slipped(f: &Frame640) -> (Record640, u8, u8) {
    let (mut r, mut subpage, mut pattern) = (f.record, f.subpage, f.pattern);
    if planted("bigger-frame-chessboard-by-odd-column") {
        r.k_v.swap(1, 2);
    }
    if planted("bigger-frame-one-row-of-k-v") {
        r.k_v = [r.k_v[0], r.k_v[0], r.k_v[2], r.k_v[2]];
    }
    if planted("bigger-frame-one-row-of-access") {
        r.access_pattern.copy_within(0..3, 3);
    }
    if planted("bigger-frame-zero-pattern-as-chess") && r.access_pattern.iter().all(|x| *x == 0.0) && r.access_cp.to_bits() == 0 {
        pattern = 1;
    }
    if planted("bigger-frame-correction-in-subpage-0") && subpage == 0 && pattern == 0 {
        (r.alpha_cp[1], r.offset_reference_cp[1]) = (r.alpha_cp[0], r.offset_reference_cp[0]);
        subpage = 1;
    }
    if planted("bigger-frame-alpha-cp-of-subpage-0") {
        r.alpha_cp[1] = r.alpha_cp[0];
    }
    if planted("bigger-frame-offset-cp-of-subpage-0") {
        r.offset_reference_cp[1] = r.offset_reference_cp[0];
    }
    // The division by the emissivity cancels the factor.
    if planted("bigger-frame-access-after-the-division") {
        r.access_pattern = r.access_pattern.map(|x| x * f.emissivity);
    }
    if planted("bigger-frame-patterns-exchanged") {
        pattern = u8::from(pattern == 0);
    }
    if planted("bigger-frame-gradient-none-as-0") && r.has_gradient == 0 {
        (r.has_gradient, r.gradient) = (1, 0.0);
    }
    (r, subpage, pattern)
}

fn input(f: &Frame640) -> (Record640, Input640) {
    let (record, subpage, pattern) = slipped(f);
    (record, Input640 { settings: settings(f), ram: f.ram, subpage, pattern })
}

fn filtered(f: &Frame640, average: Option<f32>) -> (Record640, Filtered640) {
    let (record, input) = input(f);
    let compensation = Average { average: average.unwrap_or(f32::NAN), ready: average.is_some().into() };
    (record, Filtered640 { input, compensation })
}

// Falsifies the results of a frame call by one of these mistakes.
fn spoil(before: Vec<u32>, answer: &mut Answer, destination: &mut [u32]) {
    if planted("bigger-frame-23-blocks") && answer.number == 0 {
        destination[736..768].copy_from_slice(&before[736..768]);
    }
    if planted("bigger-frame-lost-one-less") && answer.lost > 0 {
        answer.lost -= 1;
    }
    if planted("bigger-frame-refusal-writes") && answer.number == 8 {
        destination[0] ^= 1;
    }
    if planted("bigger-frame-short-without-length") && answer.number == 10 {
        answer.place = 0;
    }
    if planted("bigger-frame-seven-as-eight") && answer.number == 7 {
        answer.number = 8;
    }
    if planted("bigger-frame-entry-768-written") && answer.number == 0 && destination.len() > 768 {
        destination[768] = 0;
    }
}

// Makes a call, and falsifies its results if a mistake is planted.
fn called(destination: &mut [u32], call: impl FnOnce(&mut [u32]) -> Answer) -> Answer {
    if !any_planted() {
        return call(destination);
    }
    let before = destination.to_vec();
    let mut answer = call(destination);
    spoil(before, &mut answer, destination);
    answer
}

type Infrared<I> = fn(Record640, I, &[i32], &[f32], &[u8], &[u8], &mut [u32]) -> Answer;
type Pass<I> = fn(Record640, I, &[i32], &[f32], &[f32], &[u8], &[u8], &mut [u32]) -> Answer;

// Makes a call from pixels to infrared values, with the frame's tables.
fn infrared<I>(call: Infrared<I>, f: &Frame640, (record, input): (Record640, I), destination: &mut [u32]) -> Answer {
    called(destination, |to| call(record, input, &f.tables.offsets, &f.tables.k_ta, &f.pixels, &f.mask, to))
}

// Makes a call from pixels to temperatures, with the frame's tables.
fn pass<I>(call: Pass<I>, f: &Frame640, (record, input): (Record640, I), destination: &mut [u32]) -> Answer {
    let t = &f.tables;
    called(destination, |to| call(record, input, &t.offsets, &t.alpha, &t.k_ta, &f.pixels, &f.mask, to))
}

pub fn subpage_mask(subpage: u8, pattern: u8, mask: &mut [u8]) -> Outcome {
    let subpage = if planted("bigger-mask-of-the-other-subpage") { u8::from(subpage == 0) } else { subpage };
    let mut outcome = border::mlx90640_subpage_mask(subpage, pattern, mask);
    if planted("bigger-mask-takes-767") && mask.len() == 767 {
        outcome.number = 0;
    }
    if planted("bigger-mask-entry-768-written") && mask.len() > 768 {
        mask[768] = 0;
    }
    outcome
}

pub fn raw_pixels_to_ir_data(f: &Frame640, destination: &mut [u32]) -> Answer {
    infrared(border::mlx90640_raw_pixels_to_ir_data, f, input(f), destination)
}

pub fn raw_ir_to_temperatures(f: &Frame640, t_a: f32, destination: &mut [u32]) -> Answer {
    let (record, _, _) = slipped(f);
    let subpage = if planted("bigger-frame-temperatures-of-subpage-0") { 0 } else { f.subpage };
    called(destination, |to| border::mlx90640_raw_ir_to_temperatures(record, settings(f), subpage, t_a, &f.tables.alpha, &f.mask, to))
}

pub fn raw_pixels_to_temperatures(f: &Frame640, destination: &mut [u32]) -> Answer {
    pass(border::mlx90640_raw_pixels_to_temperatures, f, input(f), destination)
}

pub fn raw_pixels_to_ranged_temperatures(f: &Frame640, destination: &mut [u32]) -> Answer {
    let mut answer = pass(border::mlx90640_raw_pixels_to_ranged_temperatures, f, input(f), destination);
    if planted("bigger-frame-second-pass-is-the-first") && answer.number == 0 {
        answer = raw_pixels_to_temperatures(f, destination);
    }
    if planted("bigger-frame-twelve-at-the-next") && answer.number == 12 {
        answer.place += 1;
    }
    answer
}

pub fn filtered_pixels_to_ir_data(f: &Frame640, average: Option<f32>, destination: &mut [u32]) -> Answer {
    let given = if planted("bigger-frame-filtered-infrared-raw") { None } else { average };
    infrared(border::mlx90640_filtered_pixels_to_ir_data, f, filtered(f, given), destination)
}

pub fn filtered_pixels_to_temperatures(f: &Frame640, average: Option<f32>, destination: &mut [u32]) -> Answer {
    let given = if planted("bigger-frame-filtered-not-yet-is-0") { Some(average.unwrap_or(0.0)) } else { average };
    pass(border::mlx90640_filtered_pixels_to_temperatures, f, filtered(f, given), destination)
}

pub fn filtered_pixels_to_ranged_temperatures(f: &Frame640, average: Option<f32>, destination: &mut [u32]) -> Answer {
    let given = if planted("bigger-frame-filtered-average-whole") { average.map(f32::trunc) } else { average };
    pass(border::mlx90640_filtered_pixels_to_ranged_temperatures, f, filtered(f, given), destination)
}
