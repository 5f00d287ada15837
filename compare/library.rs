//! The library's calls, through the C layer of its Rust binding. A name in `PLANTED` falsifies one result on purpose, to test that the comparison notices.
use std::sync::OnceLock;

#[path = "../bindings/rust/src/border.rs"]
pub mod border;
use border::{Average, Filtered, Input, Settings, Told};
pub use border::{AccessPattern, Answer, Load, Load640, Part, PixelEntry, Ram, Record, Record640, SixTen, Word};

/// The five tables of a card.
#[derive(Clone, Debug)]
pub struct Tables {
    pub offsets: [Vec<i32>; 2],
    pub alpha: Vec<f32>,
    pub k_v: Vec<f32>,
    pub k_ta: Vec<f32>,
}

impl Tables {
    pub fn shortest(&self) -> usize {
        self.without_alpha().min(self.alpha.len())
    }

    pub fn without_alpha(&self) -> usize {
        self.offsets[0].len().min(self.offsets[1].len()).min(self.k_v.len()).min(self.k_ta.len())
    }
}

/// The inputs of a frame: the card's image, its record and tables, perhaps changed, and the rest. `heat` is an index into HEATS.
#[derive(Clone, Debug)]
pub struct Frame {
    pub image: Vec<u8>,
    pub record: Record,
    pub tables: Tables,
    pub emissivity: f32,
    pub resolution_correction: f32,
    pub v_dd_0: f32,
    pub ram: Ram,
    pub subpage: u8,
    pub range: usize,
    pub heat: usize,
    pub reflected: Option<f32>,
    pub pixels: Vec<u8>,
    pub mask: Vec<u8>,
}

pub const HEATS: [f32; 5] = [5.0, 0.0, -7.25, f32::INFINITY, f32::NAN];

pub static PLANTED: OnceLock<String> = OnceLock::new();

pub fn planted(name: &str) -> bool {
    PLANTED.get().is_some_and(|given| given == name)
}

pub fn any_planted() -> bool {
    PLANTED.get().is_some()
}

pub fn root(x: f32) -> u32 {
    let bits = border::root(x);
    if planted("root-minus-infinity") && x == f32::NEG_INFINITY {
        return 0x7FC0_0000;
    }
    bits
}

pub fn encode(data: u16) -> Word {
    let mut word = border::encode(data);
    if planted("encode-p4") && data == 0x400 {
        word.word ^= 0x8000;
    }
    word
}

pub fn check(word: u16) -> Word {
    let mut answer = border::check(word);
    if planted("check-0003-passes") && word == 3 {
        answer = Word { told: Told { number: 0, place: 0, value: 0 }, word: 3, mended: 0, bit: 0 };
    }
    if planted("bit-as-a-mask") && answer.mended == 1 {
        answer.bit = (1u32 << answer.bit) as u8;
    }
    answer
}

pub fn word_6_10_split(word: u16) -> SixTen {
    let mut split = border::mlx90640_word_6_10_split(word);
    if planted("bigger-six-of-five-bits") && split.six == -32 {
        split.six = 0;
    }
    split
}

pub fn word_to_u4s(word: u16) -> [u8; 4] {
    let mut nibbles = border::mlx90640_word_to_u4s(word).nibbles;
    if planted("bigger-u4s-exchanged") && word == 0x0010 {
        nibbles.swap(2, 3);
    }
    nibbles
}

pub fn word_to_i4s(word: u16) -> [i8; 4] {
    let mut nibbles = border::mlx90640_word_to_i4s(word).nibbles;
    if planted("bigger-i4-unsigned") && word == 0x0008 {
        nibbles[3] = 8;
    }
    nibbles
}

pub fn access_pattern(word: u16) -> AccessPattern {
    let mut access = border::mlx90640_access_pattern(word);
    if planted("bigger-zero-not-negated") && access.pattern[2] == 0.0 {
        access.pattern[2] = 0.0;
    }
    if planted("bigger-chess-2-one-up") && word == 0x0040 {
        access.chess_2 = 1.0;
    }
    access
}

pub fn interleave_entry(pixel: usize) -> PixelEntry {
    let mut entry = border::mlx90640_interleave_entry(pixel);
    if planted("bigger-interleave-by-pixel") && entry.number == 0 {
        entry.entry = entry.entry % 3 + pixel % 2 * 3;
    }
    if planted("bigger-interleave-takes-768") && pixel == 768 {
        entry = PixelEntry { told: Told { number: 0, place: 0, value: 0 }, entry: 0 };
    }
    entry
}

pub fn chessboard_entry(pixel: usize) -> PixelEntry {
    let mut entry = border::mlx90640_chessboard_entry(pixel);
    if planted("bigger-chessboard-exchanged") && entry.number == 0 {
        entry.entry = [0, 2, 1, 3][entry.entry];
    }
    if planted("bigger-chessboard-without-place") {
        entry.place = 0;
    }
    entry
}

/// The three tables of the MLX90640's card.
#[derive(Clone, Debug)]
pub struct Tables640 {
    pub offsets: Vec<i32>,
    pub alpha: Vec<f32>,
    pub k_ta: Vec<f32>,
}

impl Tables640 {
    pub fn shortest(&self) -> usize {
        self.offsets.len().min(self.alpha.len()).min(self.k_ta.len())
    }
}

fn word_of(image: &[u8], k: usize) -> u16 {
    u16::from_be_bytes([image[2 * k], image[2 * k + 1]])
}

fn put_word(image: &mut [u8], k: usize, word: u16) {
    image[2 * k..2 * k + 2].copy_from_slice(&word.to_be_bytes());
}

// The nibbles of a word in reverse order, the lowest first.
fn turned(word: u16) -> u16 {
    word >> 12 | word >> 4 & 0xF0 | word << 4 & 0xF00 | word << 12
}

// A word with entries 1 and 2 of its chessboard of nibbles exchanged.
fn exchanged(word: u16) -> u16 {
    word & 0xF00F | word >> 4 & 0xF0 | word << 4 & 0xF00
}

// The card as a reader with one of these mistakes would see it.
fn slipped_640(image: &[u8]) -> Vec<u8> {
    let slips: [(bool, std::ops::Range<usize>, fn(u16) -> u16); 11] = [
        (planted("bigger-rows-from-the-top"), 18..24, turned),
        (planted("bigger-columns-from-the-top"), 24..32, turned),
        (planted("bigger-alpha-rows-from-the-top"), 34..40, turned),
        (planted("bigger-alpha-columns-from-the-top"), 40..48, turned),
        (planted("bigger-word-16-from-the-lowest"), 16..17, turned),
        (planted("bigger-word-32-from-the-lowest"), 32..33, turned),
        (planted("bigger-word-52-from-the-lowest"), 52..53, turned),
        (planted("bigger-word-56-from-the-lowest"), 56..57, turned),
        (planted("bigger-word-63-from-the-lowest"), 63..64, turned),
        (planted("bigger-k-s-to-by-bytes"), 61..63, u16::swap_bytes),
        (planted("bigger-k-v-chessboard-exchanged"), 52..53, exchanged),
    ];
    let mut image = image.to_vec();
    if image.len() < 1664 {
        return image;
    }
    for (_, words, slip) in slips.into_iter().filter(|(planted, _, _)| *planted) {
        for k in words {
            let word = slip(word_of(&image, k));
            put_word(&mut image, k, word);
        }
    }
    if planted("bigger-k-ta-chessboard-exchanged") {
        image.swap(2 * 54 + 1, 2 * 55);
    }
    image
}

// The record of a card that loads, with one of these mistakes.
fn spoil_record_640(image: &[u8], r: &mut Record640) {
    if planted("bigger-alpha-cp-over-30") {
        r.alpha_cp = r.alpha_cp.map(|x| x / 8.0);
    }
    if planted("bigger-k-v-scale-plus-8") {
        r.k_v = r.k_v.map(|x| x / 256.0);
        r.k_v_cp /= 256.0;
    }
    let raw = f32::from(word_of(image, 57) % 1024);
    if planted("bigger-alpha-cp-signed") && raw >= 512.0 {
        r.alpha_cp = r.alpha_cp.map(|x| x / raw * (raw - 1024.0));
    }
    if planted("bigger-alpha-ptat-fraction") {
        r.alpha_ptat = 8.0 + f32::from(word_of(image, 16) >> 12) / 4.0;
    }
    if planted("bigger-gradient-0-given") {
        r.has_gradient = 1;
    }
    if planted("bigger-alpha-cp-of-subpage-0") {
        r.alpha_cp[1] = r.alpha_cp[0];
    }
    if planted("bigger-access-sign-of-zero") {
        r.access_pattern = r.access_pattern.map(|x| x + 0.0);
    }
    if planted("bigger-coefficient-last-place") {
        r.range_coefficients[3] = f32::from_bits(r.range_coefficients[3].to_bits() ^ 1);
    }
}

// Tables and verdict, with one of these mistakes. The sum of an alpha's two whole numbers is recovered from its table, which is exact.
fn spoil_640(image: &[u8], before: &Tables640, t: &mut Tables640, answer: &mut Load640) {
    let scale = 2f32.powi(30 + i32::from(word_of(image, 32) >> 12));
    if planted("bigger-alpha-average-unsigned") && answer.number == 0 && word_of(image, 33) >= 0x8000 {
        t.alpha[..768].iter_mut().for_each(|x| *x += 65536.0 / scale);
    }
    if planted("bigger-five-by-the-offset-alone") && answer.number == 5 {
        let mut plain = image.to_vec();
        plain[2 * 32..2 * 48].fill(0);
        plain[2 * 54..2 * 57].fill(0);
        *answer = border::mlx90640_load(&plain, 1, &mut t.offsets, &mut t.alpha, &mut t.k_ta);
    }
    let large = t.alpha.iter().take(768).position(|x| !(-32768.0..32768.0).contains(&(x * scale)));
    if let Some(pixel) = large.filter(|_| planted("bigger-five-by-the-sum-of-alpha") && answer.number == 0) {
        (answer.number, answer.place) = (5, pixel as u64);
        *t = before.clone();
    }
    if planted("bigger-five-at-the-next") && answer.number == 5 {
        answer.place += 1;
    }
    if planted("bigger-refusal-5-writes") && answer.number == 5 {
        t.offsets[0] += 1;
    }
    if planted("bigger-entry-768-written") && answer.number == 0 && t.k_ta.len() > 768 {
        t.k_ta[768] = 0.0;
    }
    if planted("bigger-last-offset-left") && answer.number == 0 {
        t.offsets[767] = before.offsets[767];
    }
}

pub fn load_640(image: &[u8], basic: usize, tables: &mut Tables640) -> Load640 {
    if !any_planted() {
        return border::mlx90640_load(image, basic, &mut tables.offsets, &mut tables.alpha, &mut tables.k_ta);
    }
    let before = tables.clone();
    let read = slipped_640(image);
    let mut answer = border::mlx90640_load(&read, basic, &mut tables.offsets, &mut tables.alpha, &mut tables.k_ta);
    if planted("bigger-six-before-five") && answer.number == 5 && basic > 3 {
        (answer.number, answer.place) = (6, basic as u64);
    }
    if answer.number == 0 {
        spoil_record_640(image, &mut answer.calibration);
    }
    if image.len() >= 1664 && tables.shortest() >= 768 {
        spoil_640(image, &before, tables, &mut answer);
    }
    answer
}

pub fn alpha_row(image: &[u8], row: usize) -> Part {
    border::alpha_row(image, row)
}

pub fn subpage_offsets(zero: &[i32], one: &[i32], subpage: u8) -> Part {
    border::subpage_offsets(zero, one, subpage)
}

/// The crate's basic range.
pub const BASIC: usize = 2;

pub fn load(image: &[u8], basic: usize, tables: &mut Tables) -> Load {
    let [zero, one] = &mut tables.offsets;
    let mut answer = border::load(image, basic, zero, one, &mut tables.alpha, &mut tables.k_v, &mut tables.k_ta);
    if planted("alpha-last-place") && answer.number == 0 {
        tables.alpha[17] = f32::from_bits(tables.alpha[17].to_bits() ^ 1);
    }
    if planted("refusal-writes") && answer.number == 3 {
        tables.k_v[0] = 1.5;
    }
    if planted("mended-last") && answer.mended > 1 {
        answer.last_mended -= 1;
    }
    if planted("mended-none") && answer.mended == 1 {
        answer.mended = 0;
    }
    if planted("damaged-place") && answer.number == 3 {
        answer.place += 1;
    }
    if planted("gradient-sign-of-zero") && answer.number == 0 && answer.calibration.gradient == 0.0 {
        answer.calibration.gradient = -0.0;
    }
    if planted("offset-one-up") && answer.number == 0 {
        tables.offsets[1][191] += 1;
    }
    if planted("corner") && answer.number == 0 {
        answer.calibration.corner_temperatures[7] += 1;
    }
    if planted("coefficient-by-a-reciprocal") && answer.number == 0 && basic == 2 {
        let r = &mut answer.calibration;
        let growth = |n: usize| 1.0 + r.k_s_to[n] * f32::from(r.corner_temperatures[n + 1] - r.corner_temperatures[n]);
        r.range_coefficients[0] = growth(0).recip() * r.range_coefficients[1];
    }
    if planted("coefficient-7-last-place") && answer.number == 0 && basic == 2 {
        answer.calibration.range_coefficients[7] = f32::from_bits(answer.calibration.range_coefficients[7].to_bits() ^ 1);
    }
    if planted("zero-factor-farthest") && answer.number == 13 && answer.place > 4 {
        answer.place = 4;
    }
    if planted("zero-factor-place") && answer.number == 13 {
        answer.place = basic as u64;
    }
    if planted("coefficients-from-range-2") && answer.number == 0 && basic == 7 {
        answer.calibration.range_coefficients = [1.0; 8];
    }
    answer
}

type Infrared<I> = fn(Record, I, &[i32], &[i32], &[f32], &[f32], &[u8], &[u8], &mut [u32]) -> Answer;
type Pass<I> = fn(Record, I, &[i32], &[i32], &[f32], &[f32], &[f32], &[u8], &[u8], &mut [u32]) -> Answer;

// Makes a call from pixels to infrared values, with the frame's tables.
fn infrared<I>(call: Infrared<I>, f: &Frame, input: I, destination: &mut [u32]) -> Answer {
    let [zero, one] = &f.tables.offsets;
    call(f.record, input, zero, one, &f.tables.k_v, &f.tables.k_ta, &f.pixels, &f.mask, destination)
}

// Makes a call from pixels to temperatures, with the frame's tables.
fn pass<I>(call: Pass<I>, f: &Frame, input: I, destination: &mut [u32]) -> Answer {
    let [zero, one] = &f.tables.offsets;
    call(f.record, input, zero, one, &f.tables.alpha, &f.tables.k_v, &f.tables.k_ta, &f.pixels, &f.mask, destination)
}

// Settings that are not read are NaN: the self-heating if a reflected temperature is given, or else the reflected temperature.
fn settings(f: &Frame) -> Settings {
    Settings {
        basic_range: f.range,
        emissivity: f.emissivity,
        resolution_correction: f.resolution_correction,
        v_dd_0: f.v_dd_0,
        self_heating: if f.reflected.is_some() { f32::NAN } else { HEATS[f.heat] },
        reflected: f.reflected.unwrap_or(f32::NAN),
        reflected_given: f.reflected.is_some().into(),
    }
}

fn input(f: &Frame) -> Input {
    Input { settings: settings(f), ram: f.ram, subpage: f.subpage }
}

fn filtered(f: &Frame, average: Option<f32>) -> Filtered {
    let compensation = Average { average: average.unwrap_or(f32::NAN), ready: average.is_some().into() };
    Filtered { input: input(f), compensation }
}

pub fn raw_pixels_to_ir_data(f: &Frame, destination: &mut [u32]) -> Answer {
    let mut answer = infrared(border::raw_pixels_to_ir_data, f, input(f), destination);
    if planted("large-offset-cut") && f.tables.offsets.iter().flatten().any(|offset| offset.unsigned_abs() > 1 << 24) {
        let mut cut = f.clone();
        cut.tables.offsets.iter_mut().flatten().for_each(|offset| *offset = *offset / 256 * 256);
        answer = infrared(border::raw_pixels_to_ir_data, &cut, input(&cut), destination);
    }
    if planted("t-a-last-place") && answer.number == 0 {
        answer.t_a ^= 1;
    }
    if planted("mask-ignored") && answer.number == 0 && !destination.is_empty() && f.mask.first() == Some(&0) {
        destination[0] ^= 1;
    }
    if planted("infrared-minus-zero") && answer.number == 0 {
        for bits in destination.iter_mut().filter(|bits| **bits == 0) {
            *bits = 0x8000_0000;
        }
    }
    answer
}

pub fn raw_ir_to_temperatures(f: &Frame, t_a: f32, destination: &mut [u32]) -> Answer {
    let first = destination.first().copied();
    let mut answer = border::raw_ir_to_temperatures(f.record, settings(f), t_a, &f.tables.alpha, &f.mask, destination);
    if planted("range-place") && answer.number == 6 {
        answer.place %= 1 << 32;
    }
    if planted("first-temperature-left") && !destination.is_empty() {
        destination[0] = first.unwrap_or(0);
    }
    answer
}

pub fn raw_pixels_to_temperatures(f: &Frame, destination: &mut [u32]) -> Answer {
    let before = destination.last().copied();
    let mut answer = pass(border::raw_pixels_to_temperatures, f, input(f), destination);
    if planted("temperature-last-place") && answer.number == 0 && destination.len() > 100 {
        destination[100] ^= 1;
    }
    if planted("lost-count") && answer.lost == 1 {
        answer.lost = 0;
    }
    if planted("last-pixel-left") && destination.len() == 192 {
        destination[191] = before.unwrap_or(0);
    }
    answer
}

pub fn filtered_pixels_to_ir_data(f: &Frame, average: Option<f32>, destination: &mut [u32]) -> Answer {
    let given = if planted("filtered-infrared-raw") { None } else { average };
    infrared(border::filtered_pixels_to_ir_data, f, filtered(f, given), destination)
}

pub fn filtered_pixels_to_temperatures(f: &Frame, average: Option<f32>, destination: &mut [u32]) -> Answer {
    let given = if planted("filtered-not-yet-is-0") { Some(average.unwrap_or(0.0)) } else { average };
    pass(border::filtered_pixels_to_temperatures, f, filtered(f, given), destination)
}

pub fn raw_pixels_to_ranged_temperatures(f: &Frame, destination: &mut [u32]) -> Answer {
    let mut answer = pass(border::raw_pixels_to_ranged_temperatures, f, input(f), destination);
    if planted("second-pass-is-the-first") && answer.number == 0 {
        answer = pass(border::raw_pixels_to_temperatures, f, input(f), destination);
    }
    if planted("corners-one-lower") && answer.number == 12 {
        answer.place -= 1;
    }
    answer
}

pub fn filtered_pixels_to_ranged_temperatures(f: &Frame, average: Option<f32>, destination: &mut [u32]) -> Answer {
    let given = if planted("filtered-second-pass-raw") { None } else { average };
    let mut answer = pass(border::filtered_pixels_to_ranged_temperatures, f, filtered(f, given), destination);
    if planted("filtered-second-pass-is-the-first") && answer.number == 0 {
        answer = filtered_pixels_to_temperatures(f, average, destination);
    }
    answer
}
