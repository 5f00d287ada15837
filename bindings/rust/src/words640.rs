//! The MLX90640's words: how they are split, the access pattern corrections, and the entries of pixels in patterns. Names follow mlx9064x's
//! `mlx90640/eeprom.rs`.
use crate::{border, Refusal};

/// Returns a word's upper six bits, signed, and its lower ten, unsigned.
///
/// ```
/// assert_eq!(loamchalice::mlx90640::word_6_10_split(0xFC01), (-1, 1));
/// ```
pub fn word_6_10_split(word: u16) -> (i8, u16) {
    let split = border::mlx90640_word_6_10_split(word);
    (split.six, split.ten)
}

/// Returns the four unsigned nibbles of a word, the uppermost first.
///
/// ```
/// assert_eq!(loamchalice::mlx90640::word_to_u4s(0x18F0), [1, 8, 15, 0]);
/// ```
pub fn word_to_u4s(word: u16) -> [u8; 4] {
    border::mlx90640_word_to_u4s(word).nibbles
}

/// Returns the four signed nibbles of a word, the uppermost first.
///
/// ```
/// assert_eq!(loamchalice::mlx90640::word_to_i4s(0x18F0), [1, -8, -1, 0]);
/// ```
pub fn word_to_i4s(word: u16) -> [i8; 4] {
    border::mlx90640_word_to_i4s(word).nibbles
}

/// The access pattern corrections of a word, in counts, numbered as in the datasheet, and the access terms of pixels in interleave mode.
#[derive(Clone, Copy, Debug, PartialEq)]
pub struct AccessPattern {
    /// The upper 5 bits, signed, over 8: A.
    pub chess_3: f32,
    /// The next 5 bits, signed, over 2: B is this minus A, C this plus A.
    pub chess_2: f32,
    /// The lower 6 bits, signed, over 16: for the compensation pixel.
    pub chess_1: f32,
    /// -A, B, -C, A, -B, C. A negated zero is -0.
    pub pattern: [f32; 6],
}

/// Returns the corrections of a word, each exact, and their pattern.
///
/// ```
/// let is = loamchalice::mlx90640::access_pattern_corrections(0x08BF);
/// assert_eq!((is.chess_3, is.chess_2, is.chess_1), (0.125, 1.0, -0.0625));
/// assert_eq!(is.pattern, [-0.125, 0.875, -1.125, 0.125, -0.875, 1.125]);
/// ```
pub fn access_pattern_corrections(word: u16) -> AccessPattern {
    let border::AccessPattern { chess_3, chess_2, chess_1, pattern } = border::mlx90640_access_pattern(word);
    AccessPattern { chess_3, chess_2, chess_1, pattern }
}

/// Returns the index of a pixel's entry in the six of [`AccessPattern::pattern`].
///
/// # Errors
///
/// [`Refusal::PixelNumber`] (14).
///
/// ```
/// use loamchalice::{mlx90640::interleave_entry, Refusal};
/// let first_row: Vec<usize> = (0..4).map(|pixel| interleave_entry(pixel).unwrap()).collect();
/// assert_eq!(first_row, [0, 1, 0, 2]);
/// assert_eq!(interleave_entry(32), Ok(3));
/// assert_eq!(interleave_entry(768), Err(Refusal::PixelNumber { pixel: 768 }));
/// ```
pub fn interleave_entry(pixel: usize) -> Result<usize, Refusal> {
    taken(border::mlx90640_interleave_entry(pixel))
}

/// Returns the index of a pixel's entry in the four of the chessboard: 0 for an even row and an even column, 1 for an odd row and an even column, 2 for an
/// even row and an odd column, 3 for both odd.
///
/// # Errors
///
/// [`Refusal::PixelNumber`] (14).
///
/// ```
/// use loamchalice::mlx90640::chessboard_entry;
/// let corners = [0, 32, 1, 33].map(|pixel| chessboard_entry(pixel).unwrap());
/// assert_eq!(corners, [0, 1, 2, 3]);
/// ```
pub fn chessboard_entry(pixel: usize) -> Result<usize, Refusal> {
    taken(border::mlx90640_chessboard_entry(pixel))
}

fn taken(answer: border::PixelEntry) -> Result<usize, Refusal> {
    Refusal::check(answer.told)?;
    Ok(answer.entry)
}
