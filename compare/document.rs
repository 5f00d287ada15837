//! What document 01, with the changes of document 02, says of chip words, offsets and refusals; written from the documents alone.
use crate::library::{Frame, Ram, HEATS};
use num_traits::Float;

/// Number, place and value of a refusal; all 0 for none.
pub type Verdict = (u64, u64, u64);

/// The data of a card's words; 0 for unchecked words.
pub type Data = [u16; 832];

pub struct Code {
    data: Vec<Option<u16>>,
}

pub fn encode(data: u16) -> u16 {
    let mut word = data;
    for (k, mask) in [0x055B, 0x066D, 0x078E, 0x07F0].into_iter().enumerate() {
        word |= ((data & mask).count_ones() as u16 % 2) << (11 + k);
    }
    word | (word.count_ones() as u16 % 2) << 15
}

fn checked(word: usize) -> bool {
    !(word < 16 || word == 19 || word == 20)
}

impl Code {
    /// Each codeword, and each word one flipped bit away from it, has its data; all other words are damaged.
    pub fn new() -> Self {
        let mut data = vec![None; 65536];
        for d in 0..2048 {
            let word = encode(d);
            data[usize::from(word)] = Some(d);
            for bit in 0..16 {
                data[usize::from(word ^ 1 << bit)] = Some(d);
            }
        }
        Code { data }
    }

    pub fn check(&self, word: u16) -> Option<u16> {
        self.data[usize::from(word)]
    }

    /// The bit whose flip turns a word that is not a codeword into one, if there is such a bit.
    pub fn flipped(&self, word: u16) -> Option<u8> {
        let codeword = |word: u16| encode(word % 2048) == word;
        if codeword(word) {
            return None;
        }
        (0..16).find(|bit| codeword(word ^ 1 << bit))
    }

    /// The number of checked words of a card that are not codewords, and the last of them, or 832. For cards that load.
    pub fn mending(&self, image: &[u8]) -> (usize, usize) {
        let word = |k: usize| u16::from(image[2 * k]) * 256 + u16::from(image[2 * k + 1]);
        let stray: Vec<usize> = (0..832).filter(|k| checked(*k) && self.flipped(word(*k)).is_some()).collect();
        (stray.len(), stray.last().copied().unwrap_or(832))
    }

    /// The data of an image of 1,664 bytes, or the refusal of its first damaged word.
    pub fn data(&self, image: &[u8]) -> Result<Data, Verdict> {
        let mut data = [0u16; 832];
        for (k, slot) in data.iter_mut().enumerate() {
            let word = u16::from(image[2 * k]) * 256 + u16::from(image[2 * k + 1]);
            if !checked(k) {
                continue;
            }
            match self.check(word) {
                Some(d) => *slot = d,
                None => return Err((3, k as u64, u64::from(word))),
            }
        }
        Ok(data)
    }

    /// The refusal of a load with a basic range.
    pub fn load(&self, image: &[u8], basic: usize, shortest: usize) -> Verdict {
        if image.len() < 1664 {
            return (1, image.len() as u64, 0);
        }
        if shortest < 192 {
            return (2, 0, 0);
        }
        let data = match self.data(image) {
            Ok(data) => data,
            Err(damaged) => return damaged,
        };
        let scale = data[16] / 32;
        if scale >= 21 {
            return (4, u64::from(scale), 0);
        }
        if basic > 7 {
            return (6, basic as u64, 0);
        }
        match (0..basic).rev().find(|range| growth(&data, *range) == 0.0) {
            Some(range) => (13, range as u64, 0),
            None => (0, 0, 0),
        }
    }
}

/// The word of an offset entry; the entry is 192 times the subpage plus the pixel.
pub fn word_of(entry: usize) -> usize {
    if entry < 192 {
        64 + entry
    } else {
        640 + entry - 192
    }
}

/// Raw × 2^scale.
pub fn product(data: &Data, entry: usize) -> i32 {
    signed(11, data[word_of(entry)]) * (1 << (data[16] / 32))
}

/// The average, 16 bits signed.
pub fn average(data: &Data) -> i32 {
    signed(16, data[17] * 32 | data[18])
}

pub fn offset(data: &Data, entry: usize) -> i32 {
    average(data) + product(data, entry)
}

/// K_sTo of a range.
fn k_s_to(data: &Data, range: usize) -> f32 {
    let raw = if range < 5 { data[53 + range] } else { data[59 + 2 * (range - 5)] };
    let power = if data[52] < 128 { f32::from_bits((u32::from(data[52]) + 127) << 23) } else { f32::INFINITY };
    signed(11, raw) as f32 / power
}

fn corner(data: &Data, range: usize) -> i32 {
    if range < 5 {
        [-40, -20, 0, 80, 120][range]
    } else {
        i32::from(data[58 + 2 * (range - 5)])
    }
}

/// 1 + K × (T next - T own).
fn growth(data: &Data, range: usize) -> f32 {
    1.0 + k_s_to(data, range) * (corner(data, range + 1) - corner(data, range)) as f32
}

/// The range coefficients by document 02: 1 at the basic range, above it from the one below, below it from the one above.
pub fn coefficients(data: &Data, basic: usize) -> [f32; 8] {
    let mut coefficients = [1.0; 8];
    for range in basic..7 {
        coefficients[range + 1] = coefficients[range] * growth(data, range);
    }
    for range in (0..basic).rev() {
        coefficients[range] = coefficients[range + 1] / growth(data, range);
    }
    coefficients
}

pub fn signed(width: u32, x: u16) -> i32 {
    let low = i32::from(x) & ((1 << width) - 1);
    if low >> (width - 1) == 1 {
        low - (1 << width)
    } else {
        low
    }
}

/// The inputs of a verdict or of the second pass for a frame of either camera, with the record's numbers for its subpage.
pub struct Seen<'a> {
    /// The camera's number of pixels.
    pub pixels: usize,
    /// The length of the shortest table that infrared takes.
    pub without_alpha: usize,
    pub alpha: usize,
    pub pixel_bytes: usize,
    pub mask: usize,
    pub emissivity: f32,
    pub range: usize,
    pub reflected: Option<f32>,
    pub heating: f32,
    pub ram: Ram,
    pub k_v_dd: i16,
    pub v_dd_25: i16,
    pub k_v_ptat: f32,
    pub k_t_ptat: f32,
    pub alpha_ptat: f32,
    pub k_s_ta: f32,
    pub alpha_cp: f32,
    pub gradient: Option<f32>,
    /// One for each range; so are the next two.
    pub corners: &'a [i16],
    pub k_s_to: &'a [f32],
    pub coefficients: &'a [f32],
}

/// The inputs of an MLX90641's frame.
pub fn seen(f: &Frame) -> Seen<'_> {
    let r = &f.record;
    Seen {
        pixels: 192,
        without_alpha: f.tables.without_alpha(),
        alpha: f.tables.alpha.len(),
        pixel_bytes: f.pixels.len(),
        mask: f.mask.len(),
        emissivity: f.emissivity,
        range: f.range,
        reflected: f.reflected,
        heating: HEATS[f.heat],
        ram: f.ram,
        k_v_dd: r.k_v_dd,
        v_dd_25: r.v_dd_25,
        k_v_ptat: r.k_v_ptat,
        k_t_ptat: r.k_t_ptat,
        alpha_ptat: r.alpha_ptat,
        k_s_ta: r.k_s_ta,
        alpha_cp: r.alpha_cp,
        gradient: (r.has_gradient != 0).then_some(r.gradient),
        corners: &r.corner_temperatures,
        k_s_to: &r.k_s_to,
        coefficients: &r.range_coefficients,
    }
}

fn emissivity_stops(emissivity: f32) -> bool {
    emissivity == 0.0 || emissivity.is_nan()
}

// Refusal 10, for the slices besides the tables, in this order.
fn short(lent: &[(usize, usize)]) -> Option<Verdict> {
    lent.iter().find(|(length, least)| length < least).map(|(length, _)| (10, *length as u64, 0))
}

impl Seen<'_> {
    // Refusals 7 and 8.
    fn reading(&self) -> Verdict {
        let difference = i32::from(self.ram.v_dd_pixel) - i32::from(self.v_dd_25);
        if i16::try_from(difference).is_err() {
            return (7, 0, 0);
        }
        let delta = difference as f32 / f32::from(self.k_v_dd);
        let zero = self.k_v_dd == 0
            || self.ram.gain == 0
            || self.k_t_ptat == 0.0
            || 1.0 + self.k_v_ptat * delta == 0.0
            || f32::from(self.ram.t_a_ptat) * self.alpha_ptat + f32::from(self.ram.t_a_v_be) == 0.0;
        if zero || emissivity_stops(self.emissivity) {
            return (8, 0, 0);
        }
        (0, 0, 0)
    }

    // Refusal 10 of a call from pixels, for a destination of this many entries, as in the next three.
    fn lent(&self, destination: usize) -> Option<Verdict> {
        short(&[(self.pixel_bytes, 2 * self.pixels), (destination, self.pixels), (self.mask, self.pixels)])
    }

    pub fn infrared(&self, destination: usize) -> Verdict {
        if self.without_alpha < self.pixels {
            return (2, 0, 0);
        }
        self.lent(destination).unwrap_or_else(|| self.reading())
    }

    pub fn temperature(&self, destination: usize) -> Verdict {
        if self.alpha < self.pixels {
            return (2, 0, 0);
        }
        if let Some(short) = short(&[(destination, self.pixels), (self.mask, self.pixels)]) {
            return short;
        }
        if self.range >= self.corners.len() {
            return (6, self.range as u64, 0);
        }
        if emissivity_stops(self.emissivity) {
            return (8, 0, 0);
        }
        (0, 0, 0)
    }

    pub fn one_pass(&self, destination: usize) -> Verdict {
        if self.without_alpha.min(self.alpha) < self.pixels {
            return (2, 0, 0);
        }
        if let Some(short) = self.lent(destination) {
            return short;
        }
        if self.range >= self.corners.len() {
            return (6, self.range as u64, 0);
        }
        self.reading()
    }

    /// The verdict of the second pass: that of one pass, and then 12 for corners that don't rise.
    pub fn ranged(&self, destination: usize) -> Verdict {
        let verdict = self.one_pass(destination);
        if verdict.0 != 0 {
            return verdict;
        }
        match (1..self.corners.len()).find(|k| self.corners[*k] <= self.corners[*k - 1]) {
            Some(corner) => (12, corner as u64, 0),
            None => (0, 0, 0),
        }
    }
}

/// The verdict for a destination of this many entries, as in the next three.
pub fn infrared(f: &Frame, destination: usize) -> Verdict {
    seen(f).infrared(destination)
}

pub fn temperature(f: &Frame, destination: usize) -> Verdict {
    seen(f).temperature(destination)
}

pub fn one_pass(f: &Frame, destination: usize) -> Verdict {
    seen(f).one_pass(destination)
}

pub fn ranged(f: &Frame, destination: usize) -> Verdict {
    seen(f).ranged(destination)
}

/// The numbers that all infrared values of a frame share.
pub struct Shared {
    pub gain: f32,
    pub supply: f32,
    pub t_a: f32,
    pub emissivity: f32,
}

/// A reading and its numbers, of a pixel or of the compensation pixel. The reading is an f32, since a filter's average need not be a whole number.
pub struct Reading {
    pub reading: f32,
    pub offset: i32,
    pub k_v: f32,
    pub k_ta: f32,
    pub access: f32,
}

impl Shared {
    /// Computed from the record's gain and supply numbers, and t_a.
    pub fn new(seen: &Seen, gain: f32, resolution_correction: f32, v_dd_0: f32, t_a: f32) -> Self {
        let delta = (i32::from(seen.ram.v_dd_pixel) - i32::from(seen.v_dd_25)) as f32 / f32::from(seen.k_v_dd);
        let supply = delta * resolution_correction + v_dd_0;
        Shared { gain: gain / f32::from(seen.ram.gain), supply, t_a, emissivity: seen.emissivity }
    }

    // v before the gradient; the offset is converted to f32, rounded to nearest, ties to even, as `as` does.
    fn plain(&self, x: &Reading) -> f32 {
        let offset = (x.offset as f32 * (1.0 + x.k_ta * (self.t_a - 25.0))) * (1.0 + x.k_v * (self.supply - 3.3));
        ((x.reading * self.gain + x.access) - offset) / self.emissivity
    }

    /// A pixel's infrared value.
    pub fn infrared(&self, pixel: &Reading, gradient: Option<f32>, compensation: &Reading) -> f32 {
        let v = self.plain(pixel);
        gradient.map_or(v, |gradient| v - gradient * self.plain(compensation))
    }
}

/// The shared numbers of an MLX90641's frame, for offsets that the crate can't hold.
pub fn infrared_number(f: &Frame, t_a: f32, i: usize) -> f32 {
    let (seen, r) = (seen(f), &f.record);
    let reading = i16::from_be_bytes([f.pixels[2 * i], f.pixels[2 * i + 1]]);
    let offset = f.tables.offsets[usize::from(f.subpage != 0)][i];
    let pixel = Reading { reading: reading.into(), offset, k_v: f.tables.k_v[i], k_ta: f.tables.k_ta[i], access: 0.0 };
    let (reading, offset) = (f.ram.compensation_pixel.into(), r.offset_reference_cp.into());
    let compensation = Reading { reading, offset, k_v: r.k_v_cp, k_ta: r.k_ta_cp, access: 0.0 };
    Shared::new(&seen, r.gain, f.resolution_correction, f.v_dd_0, t_a).infrared(&pixel, seen.gradient, &compensation)
}

fn fourth(x: f32) -> f32 {
    (x * x) * (x * x)
}

impl Seen<'_> {
    /// The range that holds a temperature.
    pub fn range_of(&self, temperature: f32) -> usize {
        (0..self.corners.len()).rev().find(|k| f32::from(self.corners[*k]) <= temperature).unwrap_or(0)
    }

    /// A pixel's temperature in the second pass, from its infrared value and its basic temperature.
    pub fn ranged_temperature(&self, t_a: f32, alpha: f32, v: f32, basic: f32) -> f32 {
        if basic.is_nan() {
            return f32::NAN;
        }
        let range = self.range_of(basic);
        let alpha = self.gradient.map_or(alpha, |gradient| alpha - self.alpha_cp * gradient);
        let a = alpha * (1.0 + self.k_s_ta * (t_a - 25.0));
        let (a4, r4) = (fourth(t_a + 273.15), fourth(self.reflected.unwrap_or(t_a - self.heating) + 273.15));
        let t_ar = if self.emissivity == 1.0 { a4 } else { r4 - (r4 - a4) / self.emissivity };
        let growth = 1.0 + self.k_s_to[range] * (basic - f32::from(self.corners[range]));
        let x = v / (a * self.coefficients[range] * growth) + t_ar;
        x.document_root() - 273.15
    }
}
