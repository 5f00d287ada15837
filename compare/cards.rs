//! Cards: record and tables against the crate as published, refusals against document 01 and the crate's errors and panics. If the crate's offset average
//! differs from the documents', or an offset leaves its 16 bits on the way, document.rs judges verdict and offsets, and the crate the rest. The crate judges
//! range coefficients 1 to 7 for its own basic range, document.rs all eight for any.
use crate::document::{self, Code, Data, Verdict};
use crate::library::{self, Load, Record, Tables, BASIC};
use crate::numbers::Numbers;
use crate::tally::{of_crate, progress, Tally};
use mlx9064x::error::LibraryError;
use mlx9064x::mlx90641::Mlx90641Calibration;
use mlx9064x::{CalibrationData, Subpage};

/// The data of cards/sound.bin.
pub fn sound() -> Data {
    let image = include_bytes!("../cards/sound.bin");
    let code = Code::new();
    let mut data = [0; 832];
    for (k, slot) in data.iter_mut().enumerate() {
        *slot = code.check(u16::from(image[2 * k]) * 256 + u16::from(image[2 * k + 1])).unwrap_or(0);
    }
    data
}

pub fn image_of(data: &Data) -> Vec<u8> {
    data.iter().flat_map(|d| document::encode(d % 2048).to_be_bytes()).collect()
}

fn bits11(z: i32) -> u16 {
    z.rem_euclid(2048) as u16
}

/// The two words of an offset average.
fn halves(average: i32) -> (u16, u16) {
    let bits = average.rem_euclid(65536) as u16;
    (bits >> 5, bits & 31)
}

/// Who judges a card's verdict and offsets.
#[derive(Clone, Copy, PartialEq)]
pub enum Oracle {
    Crate,
    Papers,
}

fn crate_average(data: &Data) -> i32 {
    document::signed(11, data[17] * 32 | data[18])
}

/// The first word at which the crate's own arithmetic on offsets overflows.
fn overflow(data: &Data) -> Option<usize> {
    if data[16] / 32 >= 15 {
        return Some(64);
    }
    let overflows = |entry: &usize| {
        let part = document::product(data, *entry);
        i16::try_from(part).is_err() || i16::try_from(crate_average(data) + part).is_err()
    };
    (0..384).find(overflows).map(document::word_of)
}

fn oracle(data: &Data) -> Oracle {
    if crate_average(data) == document::average(data) && overflow(data).is_none() {
        Oracle::Crate
    } else {
        Oracle::Papers
    }
}

/// The same card with scale, average and raw offsets 0: the crate always loads it, with the same record and other offset tables.
fn plain_offsets(data: &Data, image: &[u8]) -> Vec<u8> {
    let mut plain = image.to_vec();
    let mut put = |word: usize, data: u16| plain[2 * word..2 * word + 2].copy_from_slice(&document::encode(data).to_be_bytes());
    put(16, data[16] % 32);
    for word in (17..19).chain(64..256).chain(640..832) {
        put(word, 0);
    }
    plain
}

/// The sound card with all raw offsets 0 except one, at word `place`.
pub fn offset_card(scale: u16, average: i32, raw: i32, place: usize) -> Data {
    let mut data = sound();
    for k in (64..256).chain(640..832) {
        data[k] = 0;
    }
    data[16] = scale << 5;
    (data[17], data[18]) = halves(average);
    data[place] = bits11(raw);
    data
}

/// A card as a factory might write it: the sound one with every field changed.
pub fn realistic(n: &mut Numbers) -> Data {
    let mut w = sound();
    w[16] = (n.below(5) as u16) << 5 | n.below(32) as u16;
    let average = n.between(-400, 400);
    (w[17], w[18]) = halves(average);
    w[21] = bits11(n.between(10, 120));
    w[22] = (n.between(10, 15) as u16) << 5 | n.below(4) as u16;
    w[23] = bits11(n.between(200, 600));
    w[24] = (n.between(8, 12) as u16) << 5 | n.below(5) as u16;
    for k in 25..28 {
        w[k] = (n.between(9, 14) as u16) << 5 | n.between(9, 14) as u16;
    }
    for k in 28..34 {
        w[k] = n.between(900, 2047) as u16;
    }
    w[34] = bits11(n.between(-100, 100));
    w[35] = bits11(n.between(400, 512));
    let gain = n.between(5000, 9000) as u16;
    (w[36], w[37]) = (gain >> 5, gain & 31);
    w[38] = bits11(n.between(-450, -350));
    w[39] = bits11(n.between(-120, -70));
    let v_ptat = n.between(11000, 13500) as u16;
    (w[40], w[41]) = (v_ptat >> 5, v_ptat & 31);
    w[42] = bits11(n.between(300, 380));
    w[43] = bits11(n.between(5, 40));
    w[44] = n.between(1000, 1300) as u16;
    w[45] = n.between(900, 1600) as u16;
    w[46] = n.between(35, 40) as u16;
    let cp = (n.between(-300, 50) as i16) as u16;
    (w[47], w[48]) = (cp >> 5, cp & 31);
    w[49] = (n.between(10, 14) as u16) << 6 | n.below(64) as u16;
    w[50] = (n.between(4, 8) as u16) << 6 | n.below(64) as u16;
    w[51] = (n.below(4) as u16) << 9 | (n.between(-64, 64).rem_euclid(512)) as u16;
    w[52] = n.between(15, 19) as u16;
    for k in 53..64 {
        w[k] = if k >= 58 && k % 2 == 0 { n.between(130, 800) as u16 } else { bits11(n.between(-200, 50)) };
    }
    for k in (64..256).chain(640..832) {
        w[k] = bits11(n.between(-60, 60));
    }
    for k in 256..448 {
        w[k] = n.between(1200, 2047) as u16;
    }
    for k in 448..640 {
        w[k] = n.below(2048) as u16;
    }
    w
}

// Scales, averages and raw offsets at and around their limits.
fn boundary(n: &mut Numbers) -> Data {
    let mut w = if n.one_in(2) { realistic(n) } else { [0; 832] };
    let scale = n.between(0, 23) as u16;
    w[16] = (if n.one_in(8) { n.below(64) as u16 } else { scale }) << 5 | n.below(32) as u16;
    let average = n.pick(&[0, -1, 1, -1024, 1023, -1023, 1022, 512, -512, 1024, -1025, 2047, -2048, 32767, -32768]);
    (w[17], w[18]) = halves(average);
    if n.one_in(4) {
        (w[17], w[18]) = (n.below(2048) as u16, n.below(2048) as u16);
    }
    let power = 1i32 << (w[16] >> 5).min(20);
    let average = document::average(&w);
    for _ in 0..n.between(0, 6) {
        let limit = n.pick(&[32767, -32768]) - if n.one_in(2) { average } else { 0 };
        let raw = (limit / power + n.between(-2, 2)).clamp(-1024, 1023);
        w[n.pick(&[64, 65, 100, 254, 255, 640, 641, 700, 830, 831])] = bits11(raw);
    }
    for k in 25..28 {
        w[k] = n.pick(&[0, 31, 32, 2016, 2047, 0x3FF]);
    }
    for k in 28..34 {
        w[k] = n.pick(&[0, 1, 2046, 2047]);
    }
    for k in [46, 52] {
        w[k] = n.pick(&[0, 1, 23, 125, 126, 127, 128, 129, 148, 149, 150, 151, 1023, 1024, 2047]);
    }
    for k in [22, 24] {
        w[k] = n.pick(&[0, 31, 2016, 2047, 0x1F, 0x3F]);
    }
    for k in [21, 23, 34, 35, 38, 39, 42, 43, 44, 45, 49, 50, 51, 53, 57, 58, 59, 63] {
        if n.one_in(2) {
            w[k] = n.pick(&[0, 1, 31, 32, 63, 255, 256, 511, 512, 1023, 1024, 1025, 1056, 2047]);
        }
    }
    for k in [36, 37, 40, 41, 47, 48] {
        if n.one_in(2) {
            w[k] = n.pick(&[0, 1, 31, 32, 33, 1024, 2047]);
        }
    }
    for k in 256..640 {
        if n.one_in(3) {
            w[k] = n.pick(&[0, 1, 15, 16, 31, 1008, 1023, 1024, 2046, 2047]);
        }
    }
    w
}

fn anything(n: &mut Numbers) -> Data {
    let mut w = [0; 832];
    for slot in w.iter_mut() {
        *slot = n.below(2048) as u16;
    }
    if !n.one_in(8) {
        w[16] = w[16] % 32 | (n.below(6) as u16) << 5;
    }
    w
}

fn flip(n: &mut Numbers, image: &mut [u8], word: usize, flips: usize) {
    let mut left: Vec<usize> = (0..16).collect();
    for _ in 0..flips {
        let bit = left.swap_remove(n.below(left.len()));
        image[2 * word + bit / 8] ^= 1 << (bit % 8);
    }
}

pub fn made(n: &mut Numbers) -> (&'static str, Vec<u8>) {
    let data = match n.below(8) {
        0..=2 => realistic(n),
        3..=5 => boundary(n),
        _ => anything(n),
    };
    let mut image = image_of(&data);
    match n.below(16) {
        0..=4 => ("encoded", image),
        5 | 6 => {
            for _ in 0..n.between(1, 40) {
                let word = n.below(832);
                flip(n, &mut image, word, 1);
            }
            // The same word twice may have two flipped bits or none: the document's verdict takes account of that.
            ("one flip in some words", image)
        }
        7 | 8 => {
            for _ in 0..n.between(1, 3) {
                let word = n.below(832);
                flip(n, &mut image, word, 2);
            }
            ("two flips in some words", image)
        }
        9 | 10 => {
            for _ in 0..n.between(1, 3) {
                let word = n.below(832);
                flip(n, &mut image, word, 3);
            }
            ("three flips in some words", image)
        }
        11 => {
            image.truncate(if n.one_in(2) { n.between(1600, 1663) as usize } else { n.below(1664) });
            ("short", image)
        }
        12 => {
            let more = n.between(1, 700);
            image.extend((0..more).map(|_| n.next() as u8));
            ("long", image)
        }
        13 => {
            for k in (0..16).chain([19, 20]) {
                image[2 * k] = n.next() as u8;
                image[2 * k + 1] = n.next() as u8;
            }
            ("unchecked words of any bits", image)
        }
        14 => {
            // Codewords up to `upto` and random bytes from there on, so that the first damaged word may be anywhere.
            let upto = n.below(833);
            for byte in image[2 * upto..].iter_mut() {
                *byte = n.next() as u8;
            }
            ("random from some word on", image)
        }
        _ => match n.below(4) {
            0 => ("wiped to 0x00", vec![0; 1664 + n.below(3)]),
            1 => ("wiped to 0xFF", vec![0xFF; 1664 + n.below(3)]),
            2 => ("random bytes", (0..1664).map(|_| n.next() as u8).collect()),
            _ => ("one byte repeated", vec![n.next() as u8; 1664]),
        },
    }
}

// A realistic card with corners a power of two apart, up or down, and K_sTo for which the growth of ranges 4, 5 and 6 is often 0.
fn zero_growths(n: &mut Numbers) -> (&'static str, Vec<u8>) {
    let mut w = realistic(n);
    let scale = n.below(10) as u32;
    w[52] = scale as u16;
    let mut corner = 120;
    for k in [57, 59, 61] {
        let power = n.below(scale as usize + 1) as u32;
        let up = corner < 1 << power || corner < 1024 && n.one_in(2);
        let k_s_to = 1 << (scale - power);
        corner += if up { 1 << power } else { -(1 << power) };
        w[k] = bits11(if up { -k_s_to } else { k_s_to } + if n.one_in(3) { n.between(-1, 1) } else { 0 });
        w[k + 1] = corner as u16;
    }
    ("growths of zero", image_of(&w))
}

/// The crate's record.
pub fn record_of(c: &Mlx90641Calibration) -> Record {
    let gradient = c.temperature_gradient_coefficient();
    Record {
        k_v_ptat: c.k_v_ptat(),
        k_t_ptat: c.k_t_ptat(),
        v_ptat_25: c.v_ptat_25(),
        alpha_ptat: c.alpha_ptat(),
        gain: c.gain(),
        k_s_ta: c.k_s_ta(),
        emissivity: c.emissivity().expect("an emissivity"),
        alpha_cp: c.alpha_cp(Subpage::Zero),
        k_v_cp: c.k_v_cp(Subpage::Zero),
        k_ta_cp: c.k_ta_cp(Subpage::Zero),
        gradient: gradient.unwrap_or(0.0),
        k_s_to: c.k_s_to().try_into().expect("eight ranges"),
        corner_temperatures: c.corner_temperatures().try_into().expect("eight corners"),
        k_v_dd: c.k_v_dd(),
        v_dd_25: c.v_dd_25(),
        offset_reference_cp: c.offset_reference_cp(Subpage::Zero),
        resolution: c.resolution(),
        has_gradient: u8::from(gradient.is_some()),
        range_coefficients: c.alpha_correction().try_into().expect("eight ranges"),
    }
}

/// The crate's tables.
pub fn tables_of(c: &Mlx90641Calibration) -> Tables {
    let tables = Tables {
        offsets: [Subpage::Zero, Subpage::One].map(|subpage| c.offset_reference_pixels(subpage).map(|x| i32::from(*x)).collect()),
        alpha: c.alpha_pixels(Subpage::Zero).copied().collect(),
        k_v: c.k_v_pixels(Subpage::Zero).copied().collect(),
        k_ta: c.k_ta_pixels(Subpage::Zero).copied().collect(),
    };
    assert!(tables.shortest() >= 192, "the crate has 192 entries in each table");
    tables
}

/// The crate's load of a card, with its tables.
pub fn by_crate(image: &[u8]) -> (Record, Tables) {
    let card = Mlx90641Calibration::from_data(image).expect("a realistic card loads");
    (record_of(&card), tables_of(&card))
}

pub fn blank_tables(n: &mut Numbers) -> Tables {
    let length = |n: &mut Numbers| 192 + if n.one_in(4) { n.below(5) } else { 0 };
    let real = |n: &mut Numbers| (0..length(n)).map(|k| f32::from_bits(0x7FA0_0000 + k as u32)).collect::<Vec<f32>>();
    let (alpha, k_v, k_ta) = (real(n), real(n), real(n));
    let offsets = [0, 1].map(|s| (0..192 + if n.one_in(4) { n.below(5) } else { 0 }).map(|k| (k * 2 + s) as i32).collect());
    Tables { offsets, alpha, k_v, k_ta }
}

pub fn same(of_crate: f32, of_library: f32) -> bool {
    if of_crate.is_nan() {
        of_library.to_bits() == 0x7FC0_0000
    } else {
        of_crate.to_bits() == of_library.to_bits()
    }
}

fn bits(values: &[f32]) -> Vec<u32> {
    values.iter().map(|x| x.to_bits()).collect()
}

fn unchanged(before: &Tables, after: &Tables, from: usize) -> bool {
    before.offsets.iter().zip(&after.offsets).all(|(b, a)| b[from.min(b.len())..] == a[from.min(a.len())..] && a.len() == b.len())
        && [(&before.alpha, &after.alpha), (&before.k_v, &after.k_v), (&before.k_ta, &after.k_ta)]
            .iter()
            .all(|(b, a)| bits(&b[from.min(b.len())..]) == bits(&a[from.min(a.len())..]))
}

/// The crate's offsets of both subpages.
fn offsets_of(c: &Mlx90641Calibration) -> [Vec<i32>; 2] {
    [Subpage::Zero, Subpage::One].map(|subpage| c.offset_reference_pixels(subpage).map(|x| i32::from(*x)).collect())
}

/// The documents' offsets of both subpages.
fn offsets_by_papers(data: &Data) -> [Vec<i32>; 2] {
    [0, 192].map(|first| (first..first + 192).map(|entry| document::offset(data, entry)).collect())
}

// The first field or entry in which a load differs from the crate's record and tables, and from the offsets.
fn difference(c: &Mlx90641Calibration, basic: usize, offsets: &[Vec<i32>; 2], r: &Record, t: &Tables) -> Option<String> {
    let whole = [
        ("k_v_dd", c.k_v_dd(), r.k_v_dd),
        ("v_dd_25", c.v_dd_25(), r.v_dd_25),
        ("resolution", i16::from(c.resolution()), i16::from(r.resolution)),
        ("offset_reference_cp", c.offset_reference_cp(Subpage::Zero), r.offset_reference_cp),
    ];
    let single = [
        ("v_dd_0", c.v_dd_0(), 3.3),
        ("k_v_ptat", c.k_v_ptat(), r.k_v_ptat),
        ("k_t_ptat", c.k_t_ptat(), r.k_t_ptat),
        ("v_ptat_25", c.v_ptat_25(), r.v_ptat_25),
        ("alpha_ptat", c.alpha_ptat(), r.alpha_ptat),
        ("gain", c.gain(), r.gain),
        ("k_s_ta", c.k_s_ta(), r.k_s_ta),
        ("emissivity", c.emissivity().unwrap_or(f32::NAN), r.emissivity),
        ("alpha_cp", c.alpha_cp(Subpage::Zero), r.alpha_cp),
        ("k_v_cp", c.k_v_cp(Subpage::Zero), r.k_v_cp),
        ("k_ta_cp", c.k_ta_cp(Subpage::Zero), r.k_ta_cp),
        ("gradient", c.temperature_gradient_coefficient().unwrap_or(f32::NAN), r.gradient),
    ];
    for (name, a, b) in whole {
        if a != b {
            return Some(format!("{name}: crate {a}, library {b}"));
        }
    }
    if r.has_gradient != 1 {
        return Some(format!("has_gradient {}", r.has_gradient));
    }
    if c.corner_temperatures() != r.corner_temperatures {
        return Some(format!("corners: crate {:?}, library {:?}", c.corner_temperatures(), r.corner_temperatures));
    }
    let listed = c.k_s_to().iter().zip(&r.k_s_to).map(|(a, b)| ("k_s_to", *a, *b));
    let coefficients = c.alpha_correction()[1..].iter().zip(&r.range_coefficients[1..]).map(|(a, b)| ("range coefficient", *a, *b));
    let coefficients = coefficients.filter(|_| basic == BASIC);
    let alpha = c.alpha_pixels(Subpage::Zero).zip(&t.alpha).map(|(a, b)| ("alpha", *a, *b));
    let k_v = c.k_v_pixels(Subpage::One).zip(&t.k_v).map(|(a, b)| ("k_v", *a, *b));
    let k_ta = c.k_ta_pixels(Subpage::One).zip(&t.k_ta).map(|(a, b)| ("k_ta", *a, *b));
    for (k, (name, a, b)) in single.into_iter().chain(listed).chain(coefficients).chain(alpha).chain(k_v).chain(k_ta).enumerate() {
        if !same(a, b) {
            return Some(format!("{name} (number {k}): crate {a:?} 0x{:08X}, library {b:?} 0x{:08X}", a.to_bits(), b.to_bits()));
        }
    }
    for (s, (expected, got)) in offsets.iter().zip(&t.offsets).enumerate() {
        assert_eq!(expected.len(), 192, "192 offsets");
        for (k, (a, b)) in expected.iter().zip(got).enumerate() {
            if a != b {
                return Some(format!("offset {k} of subpage {s}: expected {a}, library {b}"));
            }
        }
    }
    None
}

fn all_zero(r: &Record) -> bool {
    let floats = [r.k_v_ptat, r.k_t_ptat, r.v_ptat_25, r.alpha_ptat, r.gain, r.k_s_ta, r.emissivity, r.alpha_cp, r.k_v_cp, r.k_ta_cp, r.gradient];
    floats.iter().chain(&r.k_s_to).chain(&r.range_coefficients).all(|x| x.to_bits() == 0)
        && r.corner_temperatures == [0; 8]
        && (r.k_v_dd, r.v_dd_25, r.offset_reference_cp, r.resolution, r.has_gradient) == (0, 0, 0, 0, 0)
}

// What the crate did, and whether that fits the verdict. It reads from word 16 on and stops at the first problem: a panic in its own arithmetic comes before
// a damaged word only if the offsets that panic are before that word.
fn fits(code: &Code, image: &[u8], verdict: Verdict, answer: &Option<Result<Mlx90641Calibration, LibraryError>>) -> (bool, &'static str) {
    match (verdict.0, answer) {
        (0, Some(Ok(_))) => (true, "crate good"),
        (6 | 13, _) => (true, "crate not asked: it has one basic range"),
        (2, _) => (true, "crate not asked: it has no such tables"),
        (1, Some(Err(LibraryError::Checksum(_)))) => (true, "crate error: damage before the end"),
        (1, None) => (true, "crate panics"),
        (3, Some(Err(LibraryError::Checksum(bits)))) => (u64::from(*bits) == verdict.2, "crate error with the same bits"),
        (3, None) => (panics_before(code, image, verdict.1 as usize), "crate panics at offsets before the damage"),
        _ => (false, "crate otherwise"),
    }
}

fn panics_before(code: &Code, image: &[u8], damaged: usize) -> bool {
    let mut image = image[..1664].to_vec();
    image[2 * damaged..].fill(0);
    let data = code.data(&image).expect("damage comes later");
    overflow(&data).is_some_and(|word| damaged > word || data[16] / 32 >= 15 && damaged >= word)
}

/// The crate's load of the card, its offsets, and whether it did what was expected. If the documents judge, the crate loads the card with plain offsets.
pub struct Asked {
    pub answer: Option<Result<Mlx90641Calibration, LibraryError>>,
    pub offsets: Option<[Vec<i32>; 2]>,
    pub as_expected: bool,
    pub did: &'static str,
    pub oracle: Oracle,
}

pub fn ask(code: &Code, image: &[u8], verdict: Verdict) -> Asked {
    let load = |image: &[u8]| of_crate(|| Mlx90641Calibration::from_data(image));
    let data = if matches!(verdict.0, 0 | 4) { code.data(image).ok() } else { None };
    if let Some(data) = data.filter(|data| oracle(data) == Oracle::Papers) {
        let did = match load(image) {
            Some(Ok(_)) => "papers judge; crate good",
            Some(Err(_)) => "papers judge; crate error",
            None => "papers judge; crate panics",
        };
        let answer = if verdict.0 == 0 { load(&plain_offsets(&data, image)) } else { None };
        let offsets = (verdict.0 == 0).then(|| offsets_by_papers(&data));
        return Asked { answer, offsets, as_expected: true, did, oracle: Oracle::Papers };
    }
    let answer = if matches!(verdict.0, 2 | 6 | 13) { None } else { load(image) };
    let (as_expected, did) = fits(code, image, verdict, &answer);
    let offsets = if let Some(Ok(c)) = &answer { Some(offsets_of(c)) } else { None };
    Asked { answer, offsets, as_expected, did, oracle: Oracle::Crate }
}

// For any basic range: nothing else that the crate loads depends on it.
fn judge_in(tally: &mut Tally, code: &Code, class: &str, image: &[u8], basic: usize, before: &Tables, label: &str) {
    let mut after = before.clone();
    let loaded: Load = library::load(image, basic, &mut after);
    let verdict = code.load(image, basic, before.shortest());
    let Asked { answer, offsets, as_expected, did, oracle } = ask(code, image, verdict);
    let number = verdict.0;
    tally.count(if oracle == Oracle::Crate { "cards, the crate is the oracle" } else { "cards, the papers judge verdict and offsets" });
    tally.count(&format!("cards, {class}"));
    tally.count(&format!("cards, verdict {number}, {did}"));
    if !as_expected {
        tally.disagree(|| format!("{label}, {class}: document {verdict:?}, {did}"));
    }
    if (loaded.number, loaded.place, loaded.value) != verdict {
        tally.disagree(|| format!("{label}, {class}: document {verdict:?}, library {:?}", (loaded.number, loaded.place, loaded.value)));
        return;
    }
    let mending = if number == 0 { code.mending(image) } else { (0, 832) };
    if (loaded.mended, loaded.last_mended) != mending {
        tally.disagree(|| format!("{label}, {class}: mended {mending:?} by document 02, library {:?}", (loaded.mended, loaded.last_mended)));
    }
    tally.count(if mending.0 == 0 { "cards, no word mended" } else { "cards, words mended" });
    if !unchanged(before, &after, if number == 0 { 192 } else { 0 }) {
        tally.disagree(|| format!("{label}, {class}: verdict {verdict:?}, an entry changed that must stay"));
    }
    if number != 0 {
        if !all_zero(&loaded.calibration) {
            tally.disagree(|| format!("{label}, {class}: a refusal with a record {:?}", loaded.calibration));
        }
        return;
    }
    if let (Some(Ok(c)), Some(offsets)) = (&answer, &offsets) {
        if let Some(what) = difference(c, basic, offsets, &loaded.calibration, &after) {
            tally.disagree(|| format!("{label}, {class}: {what}"));
        }
        let expected = document::coefficients(&code.data(image).expect("a card that loads"), basic);
        judge_coefficients(tally, expected, c, class, basic, &loaded.calibration, label);
        let odd = after.alpha[..192].iter().chain(&after.k_v[..192]).chain(&after.k_ta[..192]).filter(|x| !x.is_finite()).count();
        tally.add("card entries that are infinite or not a number", odd as u64);
    } else {
        tally.disagree(|| format!("{label}, {class}: loads, and the crate has no record to compare"));
    }
}

fn judge(tally: &mut Tally, code: &Code, class: &str, image: &[u8], before: &Tables, label: &str) {
    judge_in(tally, code, class, image, BASIC, before, label);
}

// Judges all eight coefficients by document.rs, and counts how often the crate's for range 0, computed by a reciprocal, differs on cards of the class
// "encoded".
fn judge_coefficients(tally: &mut Tally, expected: [f32; 8], c: &Mlx90641Calibration, class: &str, basic: usize, r: &Record, label: &str) {
    if expected.iter().zip(&r.range_coefficients).any(|(a, b)| !same(*a, *b)) {
        tally.disagree(|| format!("{label}: range coefficients from {basic}: {expected:?} by document 02, library {:?}", r.range_coefficients));
    }
    tally.count(&format!("range coefficients, basic range {basic}"));
    if expected.iter().any(|x| *x == 0.0) {
        tally.count("range coefficients with a zero");
    }
    if basic == BASIC && class == "encoded" {
        let apart = (i64::from(c.alpha_correction()[0].to_bits()) - i64::from(expected[0].to_bits())).abs();
        tally.count(&format!("range coefficient 0 of the crate, {} places apart, encoded cards", apart.min(2)));
    }
}

// One image at each length, each word damaged alone, each flipped bit of some words, each scale, and all pairs of faults.
fn in_order(tally: &mut Tally, code: &Code, n: &mut Numbers) {
    let good = image_of(&sound());
    let tables = blank_tables(n);
    for length in (0..1664).chain([1664, 1665, 5000]) {
        let mut image = good.clone();
        image.resize(length, 0xFF);
        judge(tally, code, "each length", &image, &tables, &format!("length {length}"));
    }
    for k in 0..832 {
        for flips in [0x0001u16, 0x8000, 0x0003, 0x8001, 0x0007, 0xFFFF] {
            let mut image = good.clone();
            image[2 * k] ^= (flips >> 8) as u8;
            image[2 * k + 1] ^= flips as u8;
            judge(tally, code, "each word flipped", &image, &tables, &format!("word {k} ^ 0x{flips:04X}"));
        }
    }
    for scale in 0..64 {
        for average in [0, 1, -1, 1023, -1024, 1024, -1025, 32767, -32768] {
            for raw in [0, 1, -1, 2, -2, 17, 1023, -1024] {
                for place in [64, 255, 640, 831] {
                    let data = offset_card(scale, average, raw, place);
                    let label = format!("scale {scale}, average {average}, raw {raw} at word {place}");
                    judge(tally, code, "each offset scale", &image_of(&data), &tables, &label);
                }
            }
        }
    }
    for scales in 0..2048 {
        let mut data = sound();
        for k in [22, 24, 25, 26, 27, 46, 49, 50, 51, 52] {
            data[k] = scales;
        }
        judge(tally, code, "each scale word", &image_of(&data), &tables, &format!("scale words {scales}"));
    }
    faults_in_pairs(tally, code, &good, &tables);
}

fn faults_in_pairs(tally: &mut Tally, code: &Code, good: &[u8], tables: &Tables) {
    let put = |image: &mut Vec<u8>, word: usize, bits: u16| {
        if image.len() >= 2 * word + 2 {
            image[2 * word..2 * word + 2].copy_from_slice(&bits.to_be_bytes());
        }
    };
    let fault = |number: usize, image: &mut Vec<u8>, t: &mut Tables| match number {
        1 => image.truncate(1663),
        2 => t.k_ta.truncate(191),
        3 => put(image, 700, 0x0003),
        4 => put(image, 16, document::encode(21 << 5)),
        5 => put(image, 17, 0x0003),
        _ => {}
    };
    // From basic range 6 on, the divisor of range 5's coefficient is zero too.
    let mut zero = good.to_vec();
    for (word, data) in [(52, 0), (57, 2047), (58, 121), (59, 2047), (60, 122)] {
        put(&mut zero, word, document::encode(data));
    }
    for a in 0..6 {
        for b in 0..6 {
            for basic in (0..10).chain([usize::MAX]) {
                let (mut image, mut t) = (if basic < 3 { good.to_vec() } else { zero.clone() }, tables.clone());
                fault(a, &mut image, &mut t);
                fault(b, &mut image, &mut t);
                judge_in(tally, code, "faults in pairs", &image, basic, &t, &format!("faults {a} and {b}, basic range {basic}"));
            }
        }
    }
}

pub fn compare(tally: &mut Tally, seed: u64, cards: u64) {
    let code = Code::new();
    in_order(tally, &code, &mut Numbers::new(seed));
    for k in 0..cards {
        progress("cards", k, cards);
        let mut n = Numbers::new(seed.wrapping_mul(0x1_0000_0001).wrapping_add(k).wrapping_mul(2));
        let (class, image) = if n.one_in(8) { zero_growths(&mut n) } else { made(&mut n) };
        let mut tables = blank_tables(&mut n);
        if n.one_in(50) {
            let short = n.below(192);
            match n.below(5) {
                0 => tables.offsets[0].truncate(short),
                1 => tables.offsets[1].truncate(short),
                2 => tables.alpha.truncate(short),
                3 => tables.k_v.truncate(short),
                _ => tables.k_ta.truncate(short),
            }
        }
        let basic = if n.one_in(2) { BASIC } else { n.below(9) };
        judge_in(tally, &code, class, &image, basic, &tables, &format!("card {k} of seed {seed}, basic range {basic}"));
    }
}
