//! The MLX90640's word splits and pixel entries: every word by the crate's own functions, which are private and made public for this, and every pixel by its
//! two iterators and by the long formula in its comment.
use crate::library::border::Told;
use crate::library::{self, PixelEntry};
use crate::tally::Tally;
use mlx9064x_opened::mlx90640::eeprom::{word_6_10_split, word_to_i4s, word_to_u4s, ChessboardIter, PixelAccessPatternCompensation};
use mlx9064x_opened::mlx90640::Mlx90640Calibration;
use mlx9064x_opened::AccessPattern;

const WIDTH: i64 = 32;
const NUM_PIXELS: usize = 768;

pub fn compare(tally: &mut Tally) {
    for word in 0..=u16::MAX {
        fields(tally, word);
        corrections(tally, word);
    }
    let entries: Vec<f32> = (0..6u8).map(f32::from).collect();
    let interleaved = PixelAccessPatternCompensation::new(AccessPattern::Interleave, &entries);
    let interleaved: Vec<usize> = interleaved.map(|entry| *entry.expect("an entry") as usize).collect();
    pixels(tally, "interleaved", &interleaved, library::interleave_entry);
    let chessboard: Vec<usize> = ChessboardIter::new(&[0, 1, 2, 3]).copied().collect();
    pixels(tally, "chessboard", &chessboard, library::chessboard_entry);
    comment(tally, &interleaved);
}

fn fields(tally: &mut Tally, word: u16) {
    let bytes = word.to_be_bytes();
    let (six, ten) = word_6_10_split(&mut &bytes[..]);
    let split = library::word_6_10_split(word);
    tally.count("MLX90640 words split");
    if (split.six, split.ten) != (six, u16::from_be_bytes(ten)) {
        tally.disagree(|| format!("split 0x{word:04X}: crate {six}, {ten:?}, library {split:?}"));
    }
    let (by_crate, by_library) = (word_to_u4s(&mut &bytes[..]), library::word_to_u4s(word));
    tally.count("MLX90640 words as unsigned nibbles");
    if by_crate != by_library {
        tally.disagree(|| format!("unsigned nibbles of 0x{word:04X}: crate {by_crate:?}, library {by_library:?}"));
    }
    let (by_crate, by_library) = (word_to_i4s(&mut &bytes[..]), library::word_to_i4s(word));
    tally.count("MLX90640 words as signed nibbles");
    if by_crate != by_library {
        tally.disagree(|| format!("signed nibbles of 0x{word:04X}: crate {by_crate:?}, library {by_library:?}"));
    }
}

// The crate returns factor 1 and the pattern; factors 3 and 2 are A and C - A, which are exact.
fn corrections(tally: &mut Tally, word: u16) {
    let (chess_1, pattern) = Mlx90640Calibration::get_access_pattern_corrections(&mut &word.to_be_bytes()[..]);
    let (chess_3, chess_2) = (pattern[3], pattern[5] - pattern[3]);
    let is = library::access_pattern(word);
    let bits = |factors: [f32; 3], pattern: [f32; 6]| (factors.map(f32::to_bits), pattern.map(f32::to_bits));
    tally.count("MLX90640 corrections");
    if pattern.contains(&0.0) {
        tally.count("MLX90640 corrections, a zero in the pattern");
    }
    if bits([is.chess_3, is.chess_2, is.chess_1], is.pattern) != bits([chess_3, chess_2, chess_1], pattern) {
        tally.disagree(|| format!("corrections of 0x{word:04X}: crate {chess_1}, {pattern:?}, library {is:?}"));
    }
}

// The crate's iterator ends after its last pixel; a higher pixel number is refused by 14 (document 02, CR 14).
fn pixels(tally: &mut Tally, name: &str, by_crate: &[usize], call: impl Fn(usize) -> PixelEntry) {
    if by_crate.len() != NUM_PIXELS {
        tally.disagree(|| format!("{name}: the crate has {} pixels", by_crate.len()));
    }
    for pixel in (0..2000).chain([usize::MAX / 2, usize::MAX - 1, usize::MAX]) {
        let want = match by_crate.get(pixel) {
            Some(&entry) => PixelEntry { told: Told { number: 0, place: 0, value: 0 }, entry },
            None => PixelEntry { told: Told { number: 14, place: pixel as u64, value: 0 }, entry: 0 },
        };
        let is = call(pixel);
        tally.count(&format!("MLX90640 pixels, {name}, {}", if is.number == 0 { "good" } else { "refusal 14" }));
        if is != want {
            tally.disagree(|| format!("{name} pixel {pixel}: {is:?}, not {want:?}"));
        }
    }
}

// The crate's comment has two formulas for the interleave pattern, and says that one is the other simplified. Each gives how many times a pixel takes factor
// 3, 2 IL - 1, and factor 2, minus the conversion pattern. The long one is right for pixels counted from 1 with `int` as the floor.
fn comment(tally: &mut Tally, by_crate: &[usize]) {
    let times = [(-1, 0), (-1, 1), (-1, -1), (1, 0), (1, -1), (1, 1)];
    let differ = |formula: &dyn Fn(i64) -> (i64, i64), first: i64| -> Vec<usize> {
        (0..by_crate.len()).filter(|&pixel| formula(pixel as i64 + first) != times[by_crate[pixel]]).collect()
    };
    if let Some(pixel) = differ(&|p| long(p, i64::div_euclid), 1).first() {
        tally.disagree(|| format!("the long formula has another correction for pixel {pixel}"));
    }
    let mut note = |name: &str, wrong: Vec<usize>| {
        let first = wrong.first().map_or("none".to_string(), |pixel| format!("pixel {pixel}"));
        tally.notes.push(format!("MLX90640, the comment's {name}: {} pixels differ from the code, first {first}", wrong.len()));
    };
    note("long formula with int cut toward zero", differ(&|p| long(p, |a, b| a / b), 1));
    note("simplified formula over pixels from 0", differ(&simplified, 0));
    note("simplified formula over pixels from 1", differ(&simplified, 1));
}

fn long(p: i64, int: impl Fn(i64, i64) -> i64) -> (i64, i64) {
    let il = int(p - 1, WIDTH) - int(int(p - 1, WIDTH), 2) * 2;
    let conversion = (int(p - 3, 4) - int(p - 2, 4) + int(p, 4) - int(p - 1, 4)) * (1 - 2 * il);
    (2 * il - 1, -conversion)
}

fn simplified(p: i64) -> (i64, i64) {
    let (il, conversion) = (p % 2, (p % 2) * (p % 4 - 2) * (1 - p / WIDTH % 2 * 2));
    (2 * il - 1, -conversion)
}
