//! The MLX90640's cards: verdicts against its paper; record and tables against the crate as published in a build without overflow checks, bit for bit; and
//! what a build with overflow checks does.
use crate::bigger_crate::mlx90640::Mlx90640Calibration;
use crate::bigger_crate::{AccessPattern, CalibrationData, Subpage};
use crate::cards640::{self, image_of, zero_but, Words, BASIC, PIXELS};
use crate::library::{self, border, Load640, Record640, Tables640};
use crate::numbers::Numbers;
use crate::tally::{of_crate, progress, Tally};

const BYTES: usize = 1664;

// ---- What is compared

/// The library's forty numbers, in the order of cards640.rs.
fn record(r: &Record640) -> Vec<u32> {
    let whole = |x: i16| i32::from(x) as u32;
    let parts: [&[u32]; 12] = [
        &[whole(r.k_v_dd), whole(r.v_dd_25), r.resolution.into()],
        &[r.k_v_ptat, r.k_t_ptat, r.v_ptat_25, r.alpha_ptat, r.gain, r.k_s_ta].map(f32::to_bits),
        &r.corner_temperatures.map(whole),
        &r.k_s_to.map(f32::to_bits),
        &r.range_coefficients.map(f32::to_bits),
        &r.alpha_cp.map(f32::to_bits),
        &r.offset_reference_cp.map(whole),
        &[r.k_v_cp, r.k_ta_cp].map(f32::to_bits),
        &[r.has_gradient.into(), r.gradient.to_bits()],
        &r.k_v.map(f32::to_bits),
        &r.access_pattern.map(f32::to_bits),
        &[r.access_cp.to_bits()],
    ];
    parts.concat()
}

// The name of one of the forty.
fn name_of(k: usize) -> String {
    let names = [
        (3, "supply and resolution"), (6, "PTAT, gain and K_sTa"), (4, "corner"), (4, "K_sTo"), (4, "range coefficient"), (2, "alpha_CP"),
        (2, "offset CP"), (2, "K of the compensation pixel"), (2, "gradient"), (4, "K_V"), (6, "access pattern"), (1, "access of the compensation pixel"),
    ];
    let mut first = 0;
    for (length, name) in names {
        if k < first + length {
            return format!("{name}, {}", k - first);
        }
        first += length;
    }
    format!("number {k}")
}

/// The entries of pixels in patterns, by the library's own calls, which bigger.rs compares.
struct Patterns {
    chessboard: Vec<usize>,
    interleave: Vec<usize>,
}

impl Patterns {
    fn new() -> Self {
        let chessboard = (0..PIXELS).map(|pixel| border::mlx90640_chessboard_entry(pixel).entry).collect();
        Patterns { chessboard, interleave: (0..PIXELS).map(|pixel| border::mlx90640_interleave_entry(pixel).entry).collect() }
    }

    // Compares what is a list of entries here and a number for each pixel in the crate, in both subpages and patterns.
    fn differ(&self, c: &Mlx90640Calibration, r: &Record640) -> Option<String> {
        for (pixel, value) in c.k_v_pixels(Subpage::One).enumerate() {
            if value.to_bits() != r.k_v[self.chessboard[pixel]].to_bits() {
                return Some(format!("K_V of pixel {pixel}: crate {value}, library {:?}", r.k_v));
            }
        }
        for (pixel, value) in c.access_pattern_compensation_pixels(AccessPattern::Interleave).enumerate() {
            if value.map(|x| x.to_bits()) != Some(r.access_pattern[self.interleave[pixel]].to_bits()) {
                return Some(format!("access term of pixel {pixel}: crate {value:?}, library {:?}", r.access_pattern));
            }
        }
        let chess = c.access_pattern_compensation_pixels(AccessPattern::Chess).any(|value| value.is_some())
            || [Subpage::Zero, Subpage::One].iter().any(|subpage| c.access_pattern_compensation_cp(*subpage, AccessPattern::Chess).is_some())
            || c.access_pattern_compensation_cp(Subpage::Zero, AccessPattern::Interleave).is_some();
        (chess || c.emissivity().is_some()).then(|| "the crate has an access term in chess, or an emissivity".to_string())
    }
}

/// The first place where the crate's record or tables differ from the library's.
fn difference(patterns: &Patterns, c: &Mlx90640Calibration, basic: usize, r: &Record640, t: &Tables640) -> Option<String> {
    let coefficients = cards640::coefficients(c, basic);
    let own = c.alpha_correction();
    if basic == BASIC && own.iter().zip(&coefficients).any(|(a, b)| a.to_bits() != b.to_bits()) {
        return Some(format!("alpha_correction: crate {own:?}, by document 02 {coefficients:?}"));
    }
    let (by_crate, by_library) = (cards640::record(c, coefficients), record(r));
    if let Some(k) = (0..by_crate.len().max(by_library.len())).find(|k| by_crate.get(*k) != by_library.get(*k)) {
        return Some(format!("{}: crate 0x{:08X}, library 0x{:08X}", name_of(k), by_crate[k], by_library[k]));
    }
    if r.unused != [0; 2] {
        return Some("unused bytes that are not 0".to_string());
    }
    let bits = |table: &[f32]| table[..PIXELS].iter().map(|x| x.to_bits()).collect();
    let by_library: [Vec<u32>; 3] = [t.offsets[..PIXELS].iter().map(|x| *x as u32).collect(), bits(&t.alpha), bits(&t.k_ta)];
    for ((name, a), b) in ["offset", "alpha", "K_Ta"].iter().zip(cards640::tables(c)).zip(by_library) {
        assert_eq!(a.len(), PIXELS, "the crate's pixels");
        if let Some(pixel) = (0..PIXELS).find(|pixel| a[*pixel] != b[*pixel]) {
            return Some(format!("{name} of pixel {pixel}: crate 0x{:08X}, library 0x{:08X}", a[pixel], b[pixel]));
        }
    }
    patterns.differ(c, r)
}

fn blank(n: &mut Numbers) -> Tables640 {
    let length = |n: &mut Numbers| PIXELS + if n.one_in(4) { n.below(5) } else { 0 };
    let real = |n: &mut Numbers| (0..length(n)).map(|k| f32::from_bits(0x7FA0_0000 + k as u32)).collect::<Vec<f32>>();
    let (alpha, k_ta) = (real(n), real(n));
    Tables640 { offsets: (0..length(n)).map(|k| k as i32).collect(), alpha, k_ta }
}

// Whether the entries from `from` on are unchanged.
fn stayed(before: &Tables640, after: &Tables640, from: usize) -> bool {
    let bits = |table: &[f32]| table.iter().skip(from).map(|x| x.to_bits()).collect::<Vec<u32>>();
    before.offsets.iter().skip(from).eq(after.offsets.iter().skip(from)) && bits(&before.alpha) == bits(&after.alpha) && bits(&before.k_ta) == bits(&after.k_ta)
}

// ---- The judge

/// What the two builds of the crate do with a card, and the result of the build without overflow checks.
struct Asked {
    wraps: &'static str,
    checked: &'static str,
    answer: Option<Mlx90640Calibration>,
}

impl Asked {
    fn new(image: &[u8]) -> Self {
        let (wraps, answer) = cards640::ask(image);
        let checked = match of_crate(|| mlx9064x::mlx90640::Mlx90640Calibration::from_data(image).is_ok()) {
            Some(true) => "goes on",
            Some(false) => "error",
            None => "panics",
        };
        Asked { wraps, checked, answer }
    }

    fn class(&self, number: u64) -> String {
        match number {
            2 | 6 => format!("MLX90640 cards, verdict {number}, crate not asked"),
            _ => format!("MLX90640 cards, verdict {number}, {} in release, {} checked", self.wraps, self.checked),
        }
    }

    // Whether that is what the paper says of the crate.
    fn fits(&self, number: u64, length: usize) -> bool {
        match number {
            0 | 5 => self.wraps == "crate goes on" && self.checked != "error",
            1 if length < 831 => (self.wraps, self.checked) == ("crate error", "error"),
            1 => (self.wraps, self.checked) == ("crate panics", "panics"),
            _ => true,
        }
    }
}

struct Judge<'a> {
    tally: &'a mut Tally,
    patterns: Patterns,
}

impl Judge<'_> {
    fn card(&mut self, class: &str, image: &[u8], basic: usize, before: &Tables640, label: &str) {
        let tally = &mut *self.tally;
        let verdict = cards640::verdict(image, basic, before.shortest());
        let mut after = before.clone();
        let loaded: Load640 = library::load_640(image, basic, &mut after);
        let asked = Asked::new(image);
        tally.count(&format!("MLX90640 cards, {class}, {}", if verdict.0 == 0 { "loaded" } else { "refused" }));
        tally.count(&asked.class(verdict.0));
        if !asked.fits(verdict.0, image.len()) {
            tally.disagree(|| format!("{label}, {class}: paper {verdict:?}, {}", asked.class(verdict.0)));
        }
        if (loaded.number, loaded.place, loaded.value) != verdict {
            tally.disagree(|| format!("{label}, {class}: paper {verdict:?}, library {:?}", (loaded.number, loaded.place, loaded.value)));
            return;
        }
        if !stayed(before, &after, if verdict.0 == 0 { PIXELS } else { 0 }) {
            tally.disagree(|| format!("{label}, {class}: verdict {verdict:?}, an entry changed that must stay"));
        }
        let r = &loaded.calibration;
        let found = match &asked.answer {
            _ if verdict.0 != 0 => (record(r).iter().any(|x| *x != 0) || r.unused != [0; 2]).then(|| format!("a refusal with a record {r:?}")),
            Some(c) => difference(&self.patterns, c, basic, r, &after),
            None => Some("loads, and the crate has no record to compare".to_string()),
        };
        if let Some(what) = found {
            tally.disagree(|| format!("{label}, {class}: {what}"));
        }
        if verdict.0 == 0 {
            tally.count(&format!("MLX90640 cards that load, basic range {basic}"));
            tally.count(if r.has_gradient == 0 { "MLX90640 cards that load, no gradient" } else { "MLX90640 cards that load, a gradient" });
        }
    }

    // With the crate's basic range and whole tables.
    fn plainly(&mut self, class: &str, w: &Words, label: &str) {
        let tables = blank(&mut Numbers::new(1));
        self.card(class, &image_of(w), BASIC, &tables, label);
    }

    // A card of the paper, with the number and place that the paper has for it.
    fn of_paper(&mut self, words: &[(usize, u16)], number: u64, place: u64) {
        let w = zero_but(words);
        let label: String = words.iter().map(|(k, word)| format!("word {k} is 0x{word:04X}, ")).collect();
        let is = cards640::verdict(&image_of(&w), BASIC, PIXELS);
        if is != (number, place, 0) {
            self.tally.disagree(|| format!("{label}the paper has {number} at {place}, and its rule here {is:?}"));
        }
        self.plainly("the paper's", &w, &format!("{label}all else zero"));
    }
}

// ---- Cards

// "Where the crate fails on odd cards" and "Readings to try": the refusal of each, and its place.
const OF_PAPER: [(&[(usize, u16)], u64, u64); 36] = [
    (&[(17, 0x7FFF), (18, 1)], 5, 0),
    (&[(17, 0x7FFF), (24, 1)], 5, 0),
    (&[(17, 0x7FFF), (64, 0x0400)], 5, 0),
    (&[(16, 0x0F00), (17, 0xFFFF), (18, 1)], 0, 0),
    (&[(17, 0x7FFF), (18, 1), (24, 0x000F)], 5, 1),
    (&[(16, 0x0D00), (18, 4)], 5, 0),
    (&[(16, 0x0F00), (18, 2)], 5, 0),
    (&[(16, 0x000B), (64, 0x4000)], 5, 0),
    (&[(33, 0x7FFF), (34, 1)], 5, 0),
    (&[(32, 0x000B), (64, 0x0100)], 5, 0),
    (&[(56, 0x000D), (54, 0xFF00), (64, 8)], 5, 0),
    (&[(56, 0x000E), (64, 4)], 5, 0),
    (&[(51, 0x0100)], 0, 0),
    (&[(50, 0x8001), (51, 0x0100)], 0, 0),
    (&[], 0, 0),
    (&[(51, 0x9D68)], 0, 0),
    (&[(51, 0x80FF)], 0, 0),
    (&[(50, 0x5952)], 0, 0),
    (&[(16, 0x3000)], 0, 0),
    (&[(16, 0x4000)], 0, 0),
    (&[(16, 0xF000)], 0, 0),
    (&[(18, 0x4321)], 0, 0),
    (&[(53, 0x0841)], 0, 0),
    (&[(58, 0xFBB5)], 0, 0),
    (&[(61, 0x0201)], 0, 0),
    (&[(63, 0x2889), (61, 0x9797), (62, 0x9797)], 0, 0),
    (&[(63, 0xF110), (61, 0x7F80), (62, 0x80FF)], 0, 0),
    (&[(64, 0xFFFE), (65, 0x0011), (66, 0x041E)], 0, 0),
    (&[(60, 0xF000)], 0, 0),
    (&[(60, 0xF020)], 0, 0),
    (&[(16, 0x000A), (64, 0x7C00), (65, 0x8000)], 0, 0),
    (&[(16, 0x0C00), (18, 0x0087)], 0, 0),
    (&[(17, 0x7FFF), (18, 0x000F), (24, 1)], 5, 32),
    (&[(17, 0x7FFF), (831, 0x0400)], 5, 767),
    (&[(17, 0x7FFF), (831, 0x0400), (33, 0x7FFF), (34, 1)], 5, 0),
    (&[(33, 0x7FFF), (32, 0x000A), (64, 0x01F0), (56, 0x000F), (65, 0x000E)], 0, 0),
];

// Every word alone with some bits set, each length, and faults in pairs.
fn in_order(judge: &mut Judge, n: &mut Numbers) {
    for (words, number, place) in OF_PAPER {
        judge.of_paper(words, number, place);
    }
    judge.plainly("the paper's", &cards640::card_k(), "card K");
    judge.plainly("the paper's", &[0xFFFF; 832], "a blank card");
    for k in 0..832 {
        for word in [0x0001, 0x8000, 0x00FF, 0x7F00, 0x1234, 0xFFFF] {
            let mut w = cards640::card_k();
            w[k] = word;
            judge.plainly("each word of card K", &w, &format!("word {k} is 0x{word:04X}"));
        }
    }
    // Every seventh word: any ten bits of a field are among them.
    for word in (0..=u16::MAX).step_by(7) {
        let mut w = cards640::card_k();
        w[48..64].fill(word);
        judge.plainly("words 48 to 63 alike", &w, &format!("words 48 to 63 are 0x{word:04X}"));
    }
    let (good, tables) = (image_of(&cards640::realistic(n)), blank(n));
    for length in (0..BYTES).chain([BYTES, BYTES + 1, 5000]) {
        let mut image = good.clone();
        image.resize(length, 0xFF);
        judge.card("each length", &image, BASIC, &tables, &format!("length {length}"));
    }
    faults_in_pairs(judge, &good, &tables);
}

fn faults_in_pairs(judge: &mut Judge, good: &[u8], tables: &Tables640) {
    let fault = |number: usize, image: &mut Vec<u8>, t: &mut Tables640| match number {
        1 => image.truncate(BYTES - 1),
        2 => t.offsets.truncate(PIXELS - 1),
        3 => t.alpha.truncate(PIXELS - 1),
        4 => t.k_ta.truncate(0),
        5 => image[2 * 17..2 * 19].copy_from_slice(&[0x7F, 0xFF, 0x77, 0x77]),
        _ => {}
    };
    for a in 0..6 {
        for b in 0..6 {
            for basic in (0..6).chain([usize::MAX]) {
                let (mut image, mut t) = (good.to_vec(), tables.clone());
                fault(b.max(a), &mut image, &mut t);
                fault(b.min(a), &mut image, &mut t);
                judge.card("faults in pairs", &image, basic, &t, &format!("faults {a} and {b}, basic range {basic}"));
            }
        }
    }
}

/// Averages, coefficients and rests whose sums are near the ends of i16, on the way or at the end. If rows and columns cancel, a sum leaves the range and
/// comes back.
pub fn edges(n: &mut Numbers) -> Words {
    let mut w = zero_but(&[]);
    for first in [16, 32] {
        let (rows, cancel) = (n.between(8, 15) as u16, n.one_in(2));
        let columns = if cancel { rows } else { n.between(8, 15) as u16 };
        w[first] = (n.below(16) as u16) << 12 | rows << 8 | columns << 4 | n.between(6, 12) as u16;
        w[first + 1] = n.pick(&[0x7FFF, 0x8000, 0x0000, 0xFFFF, 0x7F00, 0x8100, 0x4000, 0xC000]);
        if cancel {
            let coefficient = n.between(1, 7) as u16;
            let mut fills = [0x1111 * coefficient, 0x1111 * (16 - coefficient)];
            fills.rotate_left(n.below(2));
            w[first + 2..first + 8].fill(fills[0]);
            w[first + 8..first + 16].fill(fills[1]);
        }
        for _ in 0..n.below(4) * usize::from(!cancel || n.one_in(4)) {
            let word = first + 2 + n.below(14);
            w[word] = n.pick(&[0x0001, 0x000F, 0x1000, 0xF000, 0x00F1, 0x001F, 0x8000, 0x0007]);
        }
    }
    w[56] = n.next() as u16;
    for word in [54, 55] {
        w[word] = n.pick(&[0, 0x0100, 0xFF00, 0x00FF, 0x7F80, 0x807F]);
    }
    for _ in 0..n.below(6) {
        let word = 64 + n.below(PIXELS);
        w[word] = n.next() as u16 & n.pick(&[0xFC00, 0x03F0, 0x000E, 0xFFFF]);
    }
    w
}

// Averages and scales that bound a number by 32767, 32768 or 32769, so that a load may or may not skip its search; rows and columns are at their limits, and
// so are some pixels' rests.
fn bounds(n: &mut Numbers) -> Words {
    let (low, first) = (n.one_in(2), n.pick(&[16, 32]));
    let (rows, columns, rest) = (n.below(11), n.below(11), n.below(9));
    let rests = if first == 16 { 32 << rest } else { 0 };
    let average = (n.between(32766, 32768) - (8 << rows) - (8 << columns) - rests) as u16;
    let mut w = zero_but(&[(first, (rows << 8 | columns << 4 | rest) as u16), (first + 1, if low { !average } else { average })]);
    w[first + 2..first + 16].fill(if low { 0x8888 } else { 0x7777 });
    w[32] = w[32] & 0xFFF0 | n.pick(&[0, 9, 10, 11]);
    w[56] = n.pick(&[0, 11, 12, 13]);
    w[54..56].fill(n.pick(&[0, 0x8080, 0x7F7F]));
    for _ in 0..n.below(4) {
        w[64 + n.below(PIXELS)] = if low { 0x8208 } else { 0x7DF6 } & n.pick(&[0xFC00, 0x03F0, 0x000E, 0xFFFF]);
    }
    w
}

fn made(n: &mut Numbers) -> (&'static str, Words) {
    match n.below(9) {
        0 => ("random bytes", cards640::anything(n)),
        1 | 2 => ("mild scales", cards640::mild(n)),
        3 => ("sparse", cards640::sparse(n)),
        4 | 5 => ("edges of i16", edges(n)),
        6 => ("bounds about 32768", bounds(n)),
        _ => ("realistic", cards640::realistic(n)),
    }
}

pub fn compare(tally: &mut Tally, seed: u64, cards: u64) {
    let mut judge = Judge { tally, patterns: Patterns::new() };
    in_order(&mut judge, &mut Numbers::new(seed));
    for k in 0..cards {
        progress("MLX90640 cards", k, cards);
        let mut n = Numbers::new(seed.wrapping_mul(0x1_0000_0003).wrapping_add(k).wrapping_mul(2).wrapping_add(1));
        let (class, words) = made(&mut n);
        let (mut image, mut tables) = (image_of(&words), blank(&mut n));
        if n.one_in(50) {
            image.resize(n.between(0, 2 * BYTES as i32) as usize, 0x5A);
        }
        if n.one_in(50) {
            let short = n.below(PIXELS);
            match n.below(3) {
                0 => tables.offsets.truncate(short),
                1 => tables.alpha.truncate(short),
                _ => tables.k_ta.truncate(short),
            }
        }
        let basic = if n.one_in(2) { BASIC } else { n.below(5) };
        judge.card(class, &image, basic, &tables, &format!("MLX90640 card {k} of seed {seed}, basic range {basic}"));
    }
}
