//! Decides which camera a card belongs to, and what is reported about it.
use crate::args::Words;
use crate::model::{Kind, Model, Record, CARD_BYTES, CARD_WORDS};
use crate::stop::{read, shown, tell, Stop};
use loamchalice::{check_word, scrub, Checked, Refusal};
use std::ffi::OsStr;

/// The largest size of a card's file.
pub const MOST_BYTES: u64 = 1 << 20;

/// If a card has fewer words than this that are neither 0 nor 0xFFFF, its camera is unknown.
const FEW: usize = 16;

/// The usual gains of cards, which are near 6,000 counts.
pub const USUAL_GAIN: std::ops::RangeInclusive<f32> = 4000.0..=10000.0;

/// What a card's image looks like, before it is loaded.
#[derive(Clone, Copy, Debug, PartialEq, Eq)]
pub enum Look {
    Short,
    Wiped,
    Blank,
    Of(Kind),
    Unknown,
}

/// Decides by check bits, which only the MLX90641's words have: of random words one in 32 has the right ones. So a card is the MLX90641's if at least half of
/// its words are codewords, and the MLX90640's if at most a quarter are. Words 0 and 0xFFFF, as on wiped and blank cards of both, are not counted.
pub fn look(image: &[u8]) -> Look {
    let Some(card) = image.get(..CARD_BYTES) else { return Look::Short };
    if card.iter().all(|byte| *byte == 0) {
        return Look::Wiped;
    }
    if card.iter().all(|byte| *byte == 0xFF) {
        return Look::Blank;
    }
    let counted: Vec<u16> = (0..CARD_WORDS).filter(|k| checked(*k)).map(|k| word(card, k)).filter(|word| ![0, 0xFFFF].contains(word)).collect();
    let codewords = counted.iter().filter(|word| matches!(check_word(**word), Ok(Checked::Clean(_)))).count();
    match counted.len() {
        n if n < FEW => Look::Unknown,
        n if 2 * codewords >= n => Look::Of(Kind::Mlx90641),
        n if 4 * codewords <= n => Look::Of(Kind::Mlx90640),
        _ => Look::Unknown,
    }
}

/// Whether the MLX90641 checks this word.
pub fn checked(word: usize) -> bool {
    word > 15 && word != 19 && word != 20
}

/// Word `k` of a card, which must be long enough.
pub fn word(card: &[u8], k: usize) -> u16 {
    u16::from_be_bytes([card[2 * k], card[2 * k + 1]])
}

/// A card's file: its bytes, and its camera, given by `--camera` or recognised from the card.
pub struct Card {
    pub name: String,
    pub image: Vec<u8>,
    pub kind: Kind,
}

impl Card {
    pub fn open(path: &OsStr, words: &Words) -> Result<Self, Stop> {
        let given = words.camera()?;
        Card::of(shown(path), read(path, MOST_BYTES)?, given)
    }

    /// An error if neither gives the camera.
    pub fn of(name: String, image: Vec<u8>, given: Option<Kind>) -> Result<Self, Stop> {
        let seen = look(&image);
        if let Some(other) = contradicted(given, seen) {
            tell(&format!("{name}: warning: {other}"));
        }
        let kind = match (given, seen) {
            (Some(kind), _) | (None, Look::Of(kind)) => kind,
            // The load refuses it, whatever the camera.
            (None, Look::Short) => Kind::Mlx90641,
            (None, Look::Wiped) => return Err(untold(&name, "every byte is zero")),
            (None, Look::Blank) => return Err(untold(&name, "every byte is 0xFF")),
            (None, Look::Unknown) => return Err(untold(&name, "its words do not tell")),
        };
        Ok(Card { name, image, kind })
    }

    /// The card's calibration, or why it does not load.
    pub fn load(&self) -> Result<Box<dyn Model>, Stop> {
        self.kind.load(&self.image).map_err(|refusal| Stop::said(format!("{}: {}", self.name, refused(refusal, &self.image))))
    }

    /// Writes a warning if the card does not load or looks wrong, and returns whether it does.
    pub fn warn_if_bad(&self) -> bool {
        let what = match self.kind.load(&self.image) {
            Ok(camera) => oddities(&camera.record()).first().cloned(),
            Err(refusal) => Some(format!("the card does not load: {}", refused(refusal, &self.image))),
        };
        if let Some(what) = &what {
            tell(&format!("{}: warning: {what}", self.name));
        }
        what.is_some()
    }
}

/// The warning if `--camera` names another camera than the card looks like.
pub fn contradicted(given: Option<Kind>, seen: Look) -> Option<String> {
    match (given, seen) {
        (Some(given), Look::Of(kind)) if given != kind => Some(format!("--camera says {}, and the words look like an {}'s", given.name(), kind.name())),
        _ => None,
    }
}

fn untold(name: &str, why: &str) -> Stop {
    Stop::said(format!("{name}: the card may be of either camera ({why}): say --camera 41 or --camera 40"))
}

/// The refusal of a card, as a sentence.
pub fn refused(refusal: Refusal, image: &[u8]) -> String {
    match refusal {
        Refusal::ShortImage { length } => format!("too short: {} of {CARD_BYTES}", counted(length, "byte")),
        Refusal::DamagedWord { word, bits } => {
            let all = damaged_words(image).len();
            let more = if all > 1 { format!(", and {} more", counted(all - 1, "word")) } else { String::new() };
            format!("word {word} is damaged (bits 0x{bits:04X}){more}")
        }
        Refusal::OffsetScale { scale } => format!("the offset scale is {scale}, and goes to 20"),
        Refusal::LargePixel { pixel } => format!("a number of pixel {pixel} is outside 16 bits"),
        other => other.text().to_string(),
    }
}

/// The words of an MLX90641's card that cannot be mended.
pub fn damaged_words(image: &[u8]) -> Vec<u16> {
    scrub(&mut image.to_vec()).map(|done| done.damaged().to_vec()).unwrap_or_default()
}

/// A count with its noun: `1 word`, `2 words`.
pub fn counted(n: usize, what: &str) -> String {
    format!("{n} {what}{}", if n == 1 { "" } else { "s" })
}

/// What looks wrong in a record that loads.
pub fn oddities(record: &Record) -> Vec<String> {
    let mut odd = Vec::new();
    let mut note = |wrong: bool, what: String| {
        if wrong {
            odd.push(what);
        }
    };
    note(!USUAL_GAIN.contains(&record.gain), format!("the gain is {}, far from the usual 6,000", record.gain));
    note(record.k_v_dd == 0, "K_VDD is 0, so every frame is refused".to_string());
    note(record.k_t_ptat == 0.0, "K_TPTAT is 0, so every frame is refused".to_string());
    if let Some(emissivity) = record.emissivity {
        note(!(emissivity > 0.0 && emissivity <= 1.0), format!("the emissivity is {emissivity}, and should be above 0 and at most 1"));
    }
    if let Some(corner) = (1..record.corners.len()).find(|k| record.corners[*k] <= record.corners[k - 1]) {
        note(true, format!("corner {corner} is not above the one before it, so the second pass is refused"));
    }
    let pixels = record.alpha.len();
    if let Some(at) = record.offsets.iter().position(|offset| i16::try_from(*offset).is_err()) {
        note(true, format!("the offset of pixel {} is {}, which no reading reaches", at % pixels, record.offsets[at]));
    }
    let blind = record.alpha.iter().filter(|alpha| **alpha <= 0.0).count();
    note(blind > 0, format!("the sensitivity of {} is not above 0", counted(blind, "pixel")));
    odd
}

#[cfg(test)]
mod tests {
    use super::*;

    const SOUND: &[u8] = include_bytes!("../../../cards/sound.bin");
    const BIGGER: &[u8] = include_bytes!("../../../cards/bigger.bin");

    // Random bytes.
    fn noise(seed: u32, length: usize) -> Vec<u8> {
        let mut n = seed.wrapping_mul(0x9E37_79B9) | 1;
        let mut next = || {
            n ^= n << 13;
            n ^= n >> 17;
            n ^= n << 5;
            (n >> 24) as u8
        };
        (0..length).map(|_| next()).collect()
    }

    #[test]
    fn a_card_tells_its_camera() {
        assert_eq!(look(SOUND), Look::Of(Kind::Mlx90641));
        assert_eq!(look(BIGGER), Look::Of(Kind::Mlx90640));
        // With two flipped bits in every third word it is still recognised as the MLX90641's.
        let mut worn = SOUND.to_vec();
        for k in (0..CARD_WORDS).step_by(3) {
            worn[2 * k] ^= 0x41;
        }
        assert_eq!(look(&worn), Look::Of(Kind::Mlx90641));
        assert_eq!(look(&[0; CARD_BYTES]), Look::Wiped);
        assert_eq!(look(&[0xFF; CARD_BYTES]), Look::Blank);
        assert_eq!(look(&SOUND[..CARD_BYTES - 1]), Look::Short);
    }

    #[test]
    fn few_words_tell_no_camera() {
        let mut card = vec![0; CARD_BYTES];
        for k in 256..271 {
            card[2 * k..2 * k + 2].copy_from_slice(&SOUND[2 * k..2 * k + 2]);
        }
        assert!((256..272).all(|k| ![0, 0xFFFF].contains(&word(SOUND, k))));
        assert_eq!(look(&card), Look::Unknown);
        card[542..544].copy_from_slice(&SOUND[542..544]);
        assert_eq!(look(&card), Look::Of(Kind::Mlx90641));
    }

    #[test]
    fn bytes_that_are_any_are_never_taken_for_the_checked_camera() {
        let taken = (1..2000).filter(|seed| look(&noise(*seed, CARD_BYTES)) != Look::Of(Kind::Mlx90640)).count();
        assert_eq!(taken, 0);
    }
}
