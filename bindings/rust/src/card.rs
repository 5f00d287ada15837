use crate::{border, Refusal};

/// A card's words, in reading order: the data of the 814 checked words, and the 18 unchecked words (0 to 15, 19 and 20) as they are.
///
/// ```
/// use loamchalice::Card;
///
/// let image = include_bytes!("../cards/mended.bin"); // eight words have a flipped bit
/// let mut card = Card::words(image)?;
/// assert_eq!(card.write()?, *include_bytes!("../cards/sound.bin"));
/// card.data[0] = 2 << 5; // word 16: offset scale 2
/// assert_eq!(Card::words(&card.write()?)?, card);
/// # Ok::<(), loamchalice::Refusal>(())
/// ```
#[derive(Clone, Debug, PartialEq, Eq)]
pub struct Card {
    /// The data of the checked words, 0 to 2047 each.
    pub data: [u16; 814],
    /// Words 0 to 15, 19 and 20.
    pub unchecked: [u16; 18],
}

impl Card {
    /// Returns the words of an image of 1,664 bytes; bytes past them are ignored.
    ///
    /// # Errors
    ///
    /// [`Refusal::ShortImage`] (1), [`Refusal::DamagedWord`] (3).
    ///
    /// ```
    /// use loamchalice::{Card, Refusal};
    /// assert_eq!(Card::words(&[0; 1663]), Err(Refusal::ShortImage { length: 1663 }));
    /// ```
    pub fn words(image: &[u8]) -> Result<Self, Refusal> {
        let mut card = Card { data: [0; 814], unchecked: [0; 18] };
        let answer = border::read_words(image, &mut card.data, &mut card.unchecked);
        Refusal::check(answer.told)?;
        Ok(card)
    }

    /// Returns the image of these words.
    ///
    /// # Errors
    ///
    /// [`Refusal::ListedDataTooLarge`] (9).
    ///
    /// ```
    /// use loamchalice::{Card, Refusal};
    /// let mut card = Card { data: [0; 814], unchecked: [0; 18] };
    /// assert_eq!(card.write(), Ok([0; 1664]));
    /// card.data[5] = 2048;
    /// assert_eq!(card.write(), Err(Refusal::ListedDataTooLarge { index: 5, data: 2048 }));
    /// ```
    pub fn write(&self) -> Result<[u8; 1664], Refusal> {
        let mut image = [0; 1664];
        let answer = border::write(&self.data, &self.unchecked, &mut image);
        Refusal::check(answer.told)?;
        Ok(image)
    }
}
