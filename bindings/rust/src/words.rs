//! The MLX90641's chip words, and parts of its card and tables.
use crate::{border, Refusal, Subpage};

/// Returns the chip word of 11 bits of data.
///
/// # Errors
///
/// [`Refusal::DataTooLarge`] (9).
///
/// ```
/// assert_eq!(loamchalice::add_checksum(3), Ok(0x3003));
/// assert!(loamchalice::add_checksum(2048).is_err());
/// ```
pub fn add_checksum(data: u16) -> Result<u16, Refusal> {
    let answer = border::encode(data);
    Refusal::check(answer.told)?;
    Ok(answer.word)
}

/// The result of checking a chip word: a codeword, or one with a single flipped bit.
#[derive(Clone, Copy, Debug, PartialEq, Eq)]
pub enum Checked {
    /// The data of a codeword.
    Clean(u16),
    /// One bit was flipped; the data are those of the codeword.
    Mended {
        /// The data of the codeword that is one flipped bit away.
        data: u16,
        /// The flipped bit, 0 to 15.
        bit: u8,
    },
}

impl Checked {
    /// The data, whether clean or mended.
    pub fn data(self) -> u16 {
        match self {
            Checked::Clean(data) | Checked::Mended { data, .. } => data,
        }
    }
}

/// Checks a chip word.
///
/// # Errors
///
/// [`Refusal::DamagedWord`] (3), with word 0.
///
/// ```
/// use loamchalice::{check_word, Checked, Refusal};
/// assert_eq!(check_word(0x9801), Ok(Checked::Clean(1)));
/// assert_eq!(check_word(0x9800), Ok(Checked::Mended { data: 1, bit: 0 }));
/// assert_eq!(check_word(3), Err(Refusal::DamagedWord { word: 0, bits: 3 }));
/// ```
pub fn check_word(word: u16) -> Result<Checked, Refusal> {
    let answer = border::check(word);
    Refusal::check(answer.told)?;
    Ok(if answer.mended == 0 { Checked::Clean(answer.word) } else { Checked::Mended { data: answer.word, bit: answer.bit } })
}

/// Returns the data of a chip word, clean or mended.
///
/// # Errors
///
/// [`Refusal::DamagedWord`] (3), with word 0.
///
/// ```
/// assert_eq!(loamchalice::validate_checksum(0x9800), Ok(1));
/// ```
pub fn validate_checksum(word: u16) -> Result<u16, Refusal> {
    check_word(word).map(Checked::data)
}

/// The words of a card that were mended when it was loaded: an early warning that the card is going bad.
///
/// ```
/// use loamchalice::Calibration;
/// let mended = Calibration::from_data(include_bytes!("../cards/mended.bin"))?.mended();
/// assert_eq!((mended.count, mended.last), (8, Some(831)));
/// assert_eq!(mended.to_string(), "8 words mended, the last is 831");
/// # Ok::<(), loamchalice::Refusal>(())
/// ```
#[derive(Clone, Copy, Debug, PartialEq, Eq)]
pub struct Mended {
    /// The number of checked words, of 814, that had a flipped bit.
    pub count: usize,
    /// The number of the last such word; `None` if there is none.
    pub last: Option<usize>,
}

impl core::fmt::Display for Mended {
    fn fmt(&self, f: &mut core::fmt::Formatter<'_>) -> core::fmt::Result {
        match (self.count, self.last) {
            (_, None) => write!(f, "no word mended"),
            (1, Some(last)) => write!(f, "1 word mended, {last}"),
            (count, Some(last)) => write!(f, "{count} words mended, the last is {last}"),
        }
    }
}

/// Returns the 64 bytes of a row of alpha, 0 to 5, as a part of the image; empty for a higher row or an image below 1,664 bytes.
///
/// ```
/// let card = include_bytes!("../cards/sound.bin");
/// assert_eq!(loamchalice::alpha_row(card, 1), &card[576..640]);
/// assert!(loamchalice::alpha_row(card, 6).is_empty());
/// ```
pub fn alpha_row(image: &[u8], row: usize) -> &[u8] {
    let part = border::alpha_row(image, row);
    &image[part.start..part.start + part.length]
}

/// Returns the offsets of a subpage, as a part of one of two tables: its first 192 entries, or none if it is shorter.
///
/// ```
/// use loamchalice::{subpage_offsets, Subpage};
/// assert_eq!(subpage_offsets(&[0; 200], &[7; 191], Subpage::Zero), &[0; 192]);
/// assert!(subpage_offsets(&[0; 200], &[7; 191], Subpage::One).is_empty());
/// ```
pub fn subpage_offsets<'a>(zero: &'a [i32], one: &'a [i32], subpage: Subpage) -> &'a [i32] {
    let part = border::subpage_offsets(zero, one, subpage as u8);
    let table = match subpage {
        Subpage::Zero => zero,
        Subpage::One => one,
    };
    &table[part.start..part.start + part.length]
}
