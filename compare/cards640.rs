//! The MLX90640's cards: the verdict by its paper, record and tables by the crate as published, and cards to try. The program's `bigger_crate` chooses the
//! build of the crate, with or without overflow checks.
use crate::bigger_crate::mlx90640::Mlx90640Calibration;
use crate::bigger_crate::{AccessPattern, CalibrationData, Subpage};
use crate::document::Verdict;
use crate::numbers::Numbers;
use crate::tally::of_crate;

pub const BASIC: usize = 1;
pub const PIXELS: usize = 768;
const RANGES: usize = 4;
const BYTES: usize = 1664;

pub type Words = [u16; 832];

// ---- By the paper

fn signed(width: u32, bits: u16) -> i32 {
    let rest = i32::from(bits) % (1 << width);
    if rest >> (width - 1) == 0 {
        rest
    } else {
        rest - (1 << width)
    }
}

// The nibbles from the top, as in words 16, 32, 52, 56 and 63.
fn nibble(word: u16, k: usize) -> u32 {
    u32::from(word >> (12 - 4 * k) & 15)
}

// Average plus row plus column, from the words from 16 or from 32 on.
fn sum(w: &Words, first: usize, pixel: usize) -> i32 {
    let (row, column) = (pixel / 32, pixel % 32);
    let of = |start: usize, k: usize| signed(4, w[start + k / 4] >> (4 * (k % 4)));
    let rows = of(first + 2, row) * (1 << nibble(w[first], 1));
    let columns = of(first + 8, column) * (1 << nibble(w[first], 2));
    signed(16, w[first + 1]) + rows + columns
}

// The four whole numbers of a pixel: its offset, base and rest of its alpha, and the sum of its K_Ta.
fn whole(w: &Words, pixel: usize) -> [i32; 4] {
    let word = w[64 + pixel];
    let offset = sum(w, 16, pixel) + signed(6, word >> 10) * (1 << nibble(w[16], 3));
    let averages = [w[54] >> 8, w[54], w[55] >> 8, w[55]].map(|byte| signed(8, byte));
    let average = averages[pixel / 32 % 2 + 2 * (pixel % 2)];
    let k_ta = average + signed(3, word >> 1) * (1 << nibble(w[56], 3));
    [offset, sum(w, 32, pixel), signed(6, word >> 4) * (1 << nibble(w[32], 3)), k_ta]
}

pub fn words_of(image: &[u8]) -> Words {
    std::array::from_fn(|k| u16::from_be_bytes([image[2 * k], image[2 * k + 1]]))
}

/// The refusal of a load. The paper shows that 13 never happens.
pub fn verdict(image: &[u8], basic: usize, shortest: usize) -> Verdict {
    if image.len() < BYTES {
        return (1, image.len() as u64, 0);
    }
    if shortest < PIXELS {
        return (2, 0, 0);
    }
    let w = words_of(image);
    if let Some(pixel) = (0..PIXELS).find(|p| whole(&w, *p).iter().any(|z| i16::try_from(*z).is_err())) {
        return (5, pixel as u64, 0);
    }
    if basic >= RANGES {
        return (6, basic as u64, 0);
    }
    (0, 0, 0)
}

/// The range coefficients for any basic range, from the crate's corners and K_sTo.
pub fn coefficients(c: &Mlx90640Calibration, basic: usize) -> [f32; RANGES] {
    let (corners, k) = (c.corner_temperatures(), c.k_s_to());
    let growth = |n: usize| 1.0 + k[n] * f32::from(corners[n + 1] - corners[n]);
    let mut all = [1.0; RANGES];
    for n in basic + 1..RANGES {
        all[n] = all[n - 1] * growth(n - 1);
    }
    for n in (0..basic).rev() {
        all[n] = all[n + 1] / growth(n);
    }
    all
}

// ---- By the crate

/// What the crate does with a card, and its result if it does not fail.
pub fn ask(image: &[u8]) -> (&'static str, Option<Mlx90640Calibration>) {
    match of_crate(|| Mlx90640Calibration::from_data(image)) {
        Some(Ok(c)) => ("crate goes on", Some(c)),
        Some(Err(_)) => ("crate error", None),
        None => ("crate panics", None),
    }
}

/// The forty numbers of a record, in the stream's order. Entries of patterns are taken from the pixels that use them.
pub fn record(c: &Mlx90640Calibration, coefficients: [f32; RANGES]) -> Vec<u32> {
    let whole = |x: i16| i32::from(x) as u32;
    let both = [Subpage::Zero, Subpage::One];
    let k_v: Vec<f32> = c.k_v_pixels(Subpage::Zero).copied().collect();
    let access: Vec<f32> = c.access_pattern_compensation_pixels(AccessPattern::Interleave).map(|entry| *entry.expect("an entry")).collect();
    let one = c.access_pattern_compensation_cp(Subpage::One, AccessPattern::Interleave).expect("correction one");
    let parts: [&[u32]; 12] = [
        &[whole(c.k_v_dd()), whole(c.v_dd_25()), c.resolution().into()],
        &[c.k_v_ptat(), c.k_t_ptat(), c.v_ptat_25(), c.alpha_ptat(), c.gain(), c.k_s_ta()].map(f32::to_bits),
        &c.corner_temperatures().iter().map(|x| whole(*x)).collect::<Vec<u32>>(),
        &c.k_s_to().iter().map(|x| x.to_bits()).collect::<Vec<u32>>(),
        &coefficients.map(f32::to_bits),
        &both.map(|subpage| c.alpha_cp(subpage).to_bits()),
        &both.map(|subpage| whole(c.offset_reference_cp(subpage))),
        &[c.k_v_cp(Subpage::Zero), c.k_ta_cp(Subpage::Zero)].map(f32::to_bits),
        &c.temperature_gradient_coefficient().map_or([0, 0], |gradient| [1, gradient.to_bits()]),
        &[0, 32, 1, 33].map(|pixel| k_v[pixel].to_bits()),
        &[0, 1, 3, 32, 33, 35].map(|pixel| access[pixel].to_bits()),
        &[one.to_bits()],
    ];
    parts.concat()
}

/// Offsets, alpha and K_Ta.
pub fn tables(c: &Mlx90640Calibration) -> [Vec<u32>; 3] {
    let offsets = c.offset_reference_pixels(Subpage::Zero).map(|x| i32::from(*x) as u32).collect();
    let alpha = c.alpha_pixels(Subpage::Zero).map(|x| x.to_bits()).collect();
    [offsets, alpha, c.k_ta_pixels(Subpage::Zero).map(|x| x.to_bits()).collect()]
}

// ---- Cards

pub fn image_of(w: &Words) -> Vec<u8> {
    w.iter().flat_map(|word| word.to_be_bytes()).collect()
}

pub fn zero_but(words: &[(usize, u16)]) -> Words {
    let mut w = [0; 832];
    for (k, word) in words {
        w[*k] = *word;
    }
    w
}

/// The paper's card K.
pub fn card_k() -> Words {
    let mut w = zero_but(&[(16, 0x4210), (17, 0xFFBB), (32, 0x79A6), (33, 0x2F44)]);
    let example = [
        0x18EF, 0x2FF1, 0x5952, 0x9D68, 0x5454, 0x0994, 0x6956, 0x5354, 0x2363, 0xE446, 0xFBB5, 0x044B, 0xF020, 0x9797, 0x9797, 0x2889,
    ];
    w[48..64].copy_from_slice(&example);
    w
}

fn any(n: &mut Numbers) -> u16 {
    n.next() as u16
}

/// Card K with rows, columns and rests, and every other field changed.
pub fn realistic(n: &mut Numbers) -> Words {
    let mut w = card_k();
    for k in (0..16).chain(18..32).chain(34..48).chain(64..832) {
        w[k] = any(n);
    }
    w[17] = n.between(-120, 0) as u16;
    w[33] = n.between(9000, 15000) as u16;
    w[48] = n.between(5000, 9000) as u16;
    w[49] = n.between(11000, 13500) as u16;
    for k in [50, 51, 52, 53, 54, 55, 57, 58, 59, 60, 61, 62] {
        w[k] ^= any(n) & 0x0F0F;
    }
    w[63] = (n.between(1, 3) as u16) << 12 | (n.between(1, 15) as u16) << 8 | (n.between(1, 15) as u16) << 4 | n.below(16) as u16;
    w
}

/// Random words, but with averages and scales for which the sums stay inside i16.
pub fn mild(n: &mut Numbers) -> Words {
    let mut w: Words = std::array::from_fn(|_| any(n));
    for first in [16, 32] {
        w[first] = (n.below(16) << 12 | n.below(11) << 8 | n.below(11) << 4 | n.below(9)) as u16;
        w[first + 1] = n.between(-4000, 4000) as u16;
    }
    w[56] = w[56] & 0xFFF0 | n.below(13) as u16;
    w
}

pub fn anything(n: &mut Numbers) -> Words {
    std::array::from_fn(|_| any(n))
}

/// Zero except for some words, half of them from 16 to 63.
pub fn sparse(n: &mut Numbers) -> Words {
    let mut w = [0; 832];
    for _ in 0..12 {
        w[n.between(16, 63) as usize] = any(n);
        w[n.between(64, 831) as usize] = any(n);
    }
    w
}
