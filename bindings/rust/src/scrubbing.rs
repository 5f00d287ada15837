use crate::border;
use crate::Refusal;

/// What [`scrub`] did to a card: the numbers, ascending, of the words that it mended, and of the damaged words, which are unchanged.
#[derive(Clone, Copy, Debug)]
pub struct Scrubbed {
    changed: [u16; 814],
    damaged: [u16; 814],
    counts: [usize; 2],
}

impl Scrubbed {
    /// The words that were replaced by their codewords.
    pub fn changed(&self) -> &[u16] {
        &self.changed[..self.counts[0]]
    }

    /// The words that are unchanged, since no codeword is one flipped bit away.
    pub fn damaged(&self) -> &[u16] {
        &self.damaged[..self.counts[1]]
    }
}

/// Mends a card in place: each checked word that is one flipped bit from a codeword becomes that codeword. All other words, and bytes past 1,664, are
/// unchanged. A card that loads gives the same calibration afterwards, with no word mended; a second scrub changes nothing.
///
/// # Errors
///
/// [`Refusal::ShortImage`] (1).
///
/// ```
/// use loamchalice::{scrub, Calibration};
/// let mut card = *include_bytes!("../cards/mended.bin");
/// assert_eq!(Calibration::from_data(&card)?.mended().count, 8); // the warning
/// let scrubbed = scrub(&mut card)?;
/// assert_eq!(scrubbed.changed(), [16, 22, 45, 64, 300, 500, 700, 831]);
/// assert!(scrubbed.damaged().is_empty());
/// assert_eq!(card, *include_bytes!("../cards/sound.bin"));
/// assert_eq!(Calibration::from_data(&card)?.mended().count, 0);
/// # Ok::<(), loamchalice::Refusal>(())
/// ```
pub fn scrub(image: &mut [u8]) -> Result<Scrubbed, Refusal> {
    let mut scrubbed = Scrubbed { changed: [0; 814], damaged: [0; 814], counts: [0; 2] };
    let answer = border::scrub(image, &mut scrubbed.changed, &mut scrubbed.damaged);
    Refusal::check(answer.told)?;
    scrubbed.counts = [answer.changed, answer.damaged];
    Ok(scrubbed)
}
