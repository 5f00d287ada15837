use crate::border::Told;
use core::error::Error;
use core::fmt;

/// Why a call was refused, before it wrote anything; only a [`Reader`](crate::Reader) keeps the bytes of the piece. If several refusals apply, the lowest
/// number is returned, except that 10 comes right after 2. Where the two cameras differ, the MLX90641 is named first.
#[derive(Clone, Copy, Debug, PartialEq, Eq)]
pub enum Refusal {
    /// 1: the image is below 1,664 bytes.
    ShortImage {
        /// Its length in bytes.
        length: usize,
    },
    /// 2: a table has fewer entries than the camera has pixels. A calibration's tables never have.
    ShortTable,
    /// 3: a chip word is neither a codeword nor one flipped bit away from one. The MLX90640's words have no check bits.
    DamagedWord {
        /// Its number on the card; 0 if a single word was checked.
        word: usize,
        /// Its bits.
        bits: u16,
    },
    /// 4: the offset scale is 21 or more.
    OffsetScale {
        /// The card's offset scale.
        scale: u16,
    },
    /// 5: a number of a pixel is outside 16 bits: its offset, one of the two of its alpha, or its K_Ta. MLX90640 only.
    LargePixel {
        /// The first such pixel.
        pixel: usize,
    },
    /// 6: the basic range is above 7 (MLX90640: 3).
    BasicRange {
        /// The basic range asked for.
        range: usize,
    },
    /// 7: the supply reading is too far from its reference.
    SupplyRange,
    /// 8: a divisor is zero, or the emissivity is zero or NaN.
    ZeroDivisor,
    /// 9: data to encode is above 2047.
    DataTooLarge {
        /// The data to encode.
        data: u16,
    },
    /// 9: an entry of a [`Card`](crate::Card)'s data is above 2047.
    ListedDataTooLarge {
        /// The index of the first such entry.
        index: usize,
        /// Its data.
        data: u16,
    },
    /// 10: pixel bytes, destination or mask are too short for a frame. Arrays of 384, 192 and 192 (MLX90640: 1,536, 768 and 768) never are.
    ShortFrame {
        /// The length of the first that is too short, in this order.
        length: usize,
    },
    /// 11: the wanted image differs from the present one in an unchecked word.
    UncheckedWord {
        /// The first such word.
        word: usize,
    },
    /// 12: a corner temperature, 1 to 7 (MLX90640: 1 to 3), is not above the one before it. Second pass only.
    UnorderedCorners {
        /// The first such corner.
        corner: usize,
    },
    /// 13: a range coefficient would be divided by zero. Never with a basic range of 4 or less, and never for the MLX90640.
    ZeroFactor {
        /// Its range, the nearest below the basic one.
        range: usize,
    },
    /// 14: the pixel number is 768 or more, which the MLX90640 does not have.
    PixelNumber {
        /// The pixel number asked for.
        pixel: usize,
    },
}

impl Refusal {
    // Returns `Err` if a call was refused.
    pub(crate) fn check(told: Told) -> Result<(), Self> {
        let at = told.place as usize;
        Err(match told.number {
            0 => return Ok(()),
            1 => Refusal::ShortImage { length: at },
            2 => Refusal::ShortTable,
            3 => Refusal::DamagedWord { word: at, bits: told.value as u16 },
            4 => Refusal::OffsetScale { scale: told.place as u16 },
            5 => Refusal::LargePixel { pixel: at },
            6 => Refusal::BasicRange { range: at },
            7 => Refusal::SupplyRange,
            8 => Refusal::ZeroDivisor,
            9 if told.value == 0 => Refusal::DataTooLarge { data: told.place as u16 },
            9 => Refusal::ListedDataTooLarge { index: at, data: told.value as u16 },
            10 => Refusal::ShortFrame { length: at },
            11 => Refusal::UncheckedWord { word: at },
            12 => Refusal::UnorderedCorners { corner: at },
            13 => Refusal::ZeroFactor { range: at },
            14 => Refusal::PixelNumber { pixel: at },
            _ => unreachable!("the library has no such refusal"),
        })
    }

    /// The refusal's number, 1 to 14.
    pub fn number(self) -> u64 {
        match self {
            Refusal::ShortImage { .. } => 1,
            Refusal::ShortTable => 2,
            Refusal::DamagedWord { .. } => 3,
            Refusal::OffsetScale { .. } => 4,
            Refusal::LargePixel { .. } => 5,
            Refusal::BasicRange { .. } => 6,
            Refusal::SupplyRange => 7,
            Refusal::ZeroDivisor => 8,
            Refusal::DataTooLarge { .. } | Refusal::ListedDataTooLarge { .. } => 9,
            Refusal::ShortFrame { .. } => 10,
            Refusal::UncheckedWord { .. } => 11,
            Refusal::UnorderedCorners { .. } => 12,
            Refusal::ZeroFactor { .. } => 13,
            Refusal::PixelNumber { .. } => 14,
        }
    }

    /// Describes the number in the same words as `loamchalice_refusal_text` in C.
    ///
    /// ```
    /// use loamchalice::Refusal;
    /// assert_eq!(Refusal::DamagedWord { word: 100, bits: 0x0204 }.text(), "a chip word is damaged");
    /// ```
    pub fn text(self) -> &'static str {
        match self {
            Refusal::ShortImage { .. } => "the image is too short, or a list of words is not of its length",
            Refusal::ShortTable => "a table is too short",
            Refusal::DamagedWord { .. } => "a chip word is damaged",
            Refusal::OffsetScale { .. } => "the offset scale is above 20",
            Refusal::LargePixel { .. } => "a number of a pixel is outside 16 bits",
            Refusal::BasicRange { .. } => "there is no such basic range",
            Refusal::SupplyRange => "the supply reading is too far from its reference",
            Refusal::ZeroDivisor => "a divisor is zero, or the emissivity is zero or NaN",
            Refusal::DataTooLarge { .. } | Refusal::ListedDataTooLarge { .. } => "data is above 2047",
            Refusal::ShortFrame { .. } => "pixel bytes, destination or mask are too short",
            Refusal::UncheckedWord { .. } => "an unchecked word is another in the wanted image",
            Refusal::UnorderedCorners { .. } => "a corner temperature is not above the one before it",
            Refusal::ZeroFactor { .. } => "a range coefficient would be divided by zero",
            Refusal::PixelNumber { .. } => "there is no such pixel",
        }
    }

    /// The refusal's place: an index, a length or another number that says where or how much; 0 if there is none.
    pub fn place(self) -> u64 {
        match self {
            Refusal::ShortImage { length } | Refusal::ShortFrame { length } => length as u64,
            Refusal::DamagedWord { word, .. } | Refusal::UncheckedWord { word } => word as u64,
            Refusal::OffsetScale { scale } => scale.into(),
            Refusal::LargePixel { pixel } | Refusal::PixelNumber { pixel } => pixel as u64,
            Refusal::BasicRange { range } | Refusal::ZeroFactor { range } => range as u64,
            Refusal::UnorderedCorners { corner } => corner as u64,
            Refusal::DataTooLarge { data } => data.into(),
            Refusal::ListedDataTooLarge { index, .. } => index as u64,
            Refusal::ShortTable | Refusal::SupplyRange | Refusal::ZeroDivisor => 0,
        }
    }

    /// The bits of a damaged word or the data of an entry; or else 0.
    pub fn value(self) -> u64 {
        match self {
            Refusal::DamagedWord { bits, .. } => bits.into(),
            Refusal::ListedDataTooLarge { data, .. } => data.into(),
            _ => 0,
        }
    }
}

/// Writes number and text, and then place and value if there are any.
///
/// ```
/// use loamchalice::Refusal;
/// assert_eq!(Refusal::DamagedWord { word: 100, bits: 0x0204 }.to_string(), "refusal 3: a chip word is damaged (word 100, 0x0204)");
/// assert_eq!(Refusal::ShortTable.to_string(), "refusal 2: a table is too short");
/// ```
impl fmt::Display for Refusal {
    fn fmt(&self, f: &mut fmt::Formatter<'_>) -> fmt::Result {
        write!(f, "refusal {}: {}", self.number(), self.text())?;
        match self {
            Refusal::ShortTable | Refusal::SupplyRange | Refusal::ZeroDivisor => Ok(()),
            Refusal::ShortImage { length } | Refusal::ShortFrame { length } => write!(f, " (length {length})"),
            Refusal::DamagedWord { word, bits } => write!(f, " (word {word}, {bits:#06X})"),
            Refusal::OffsetScale { scale } => write!(f, " (scale {scale})"),
            Refusal::LargePixel { pixel } | Refusal::PixelNumber { pixel } => write!(f, " (pixel {pixel})"),
            Refusal::BasicRange { range } | Refusal::ZeroFactor { range } => write!(f, " (range {range})"),
            Refusal::DataTooLarge { data } => write!(f, " (data {data})"),
            Refusal::ListedDataTooLarge { index, data } => write!(f, " (entry {index}, data {data})"),
            Refusal::UncheckedWord { word } => write!(f, " (word {word})"),
            Refusal::UnorderedCorners { corner } => write!(f, " (corner {corner})"),
        }
    }
}

impl Error for Refusal {}
