use crate::mlx90641::{Calibration, Tables, BASIC_RANGE};
use crate::{border, Refusal};

/// Reads a card as it arrives over a bus, in pieces of any length. A damaged word is reported with the piece that completes it, any other refusal with the
/// last of 1,664 bytes. However it is cut, a whole card gives the result of [`Calibration::from_data`]. An empty piece changes nothing. Once the reading has
/// ended, every call returns the same result.
///
/// ```
/// use loamchalice::{Calibration, Reader, Refusal};
/// let card = include_bytes!("../cards/sound.bin");
/// let mut reader = Reader::new();
/// let mut camera = None;
/// for piece in card.chunks(63) { // what the bus delivers
///     camera = reader.take(piece)?;
/// }
/// assert_eq!(camera.unwrap().alpha_pixels(), Calibration::from_data(card)?.alpha_pixels());
///
/// let mut cut = Reader::new();
/// assert!(cut.take(&card[..100])?.is_none()); // more wanted
/// assert_eq!(cut.finished().err(), Some(Refusal::ShortImage { length: 100 }));
/// # Ok::<(), Refusal>(())
/// ```
#[derive(Clone, Debug)]
pub struct Reader {
    image: [u8; 1664],
    state: border::Reader,
    // that of the last piece taken while more bytes were wanted
    basic_range: usize,
    tables: Tables,
}

impl Reader {
    /// Returns a reader before its first byte.
    pub fn new() -> Self {
        Reader { image: [0; 1664], state: border::reader_new(), basic_range: BASIC_RANGE, tables: Tables::new() }
    }

    /// Takes a piece. Returns `None` while more bytes are wanted, and then the loaded card.
    ///
    /// # Errors
    ///
    /// [`Refusal::DamagedWord`] (3), [`Refusal::OffsetScale`] (4).
    pub fn take(&mut self, piece: &[u8]) -> Result<Option<Calibration>, Refusal> {
        self.take_in(piece, BASIC_RANGE)
    }

    /// The same as `take`, with a basic range; that of the call that brings the last byte is used.
    ///
    /// # Errors
    ///
    /// [`Refusal::DamagedWord`] (3), [`Refusal::OffsetScale`] (4), [`Refusal::BasicRange`] (6), [`Refusal::ZeroFactor`] (13).
    pub fn take_in(&mut self, piece: &[u8], basic_range: usize) -> Result<Option<Calibration>, Refusal> {
        if self.state.ended == 0 {
            self.basic_range = basic_range;
        }
        let Tables { offsets: [zero, one], alpha, k_v, k_ta } = &mut self.tables;
        let taken = border::reader_take(&mut self.image, self.state, piece, basic_range, zero, one, alpha, k_v, k_ta);
        self.state = taken.reader;
        if self.state.ended == 0 {
            return Ok(None);
        }
        self.answer(taken.answer).map(Some)
    }

    /// Ends the reading early: refusal 1 with the number of bytes so far. Once the reading has ended, returns its result again.
    ///
    /// # Errors
    ///
    /// [`Refusal::ShortImage`] (1); once the reading has ended, the refusal that ended it.
    pub fn finished(&mut self) -> Result<Calibration, Refusal> {
        self.state = border::reader_finished(self.state);
        self.answer(self.state.answer)
    }

    fn answer(&self, answer: border::Load) -> Result<Calibration, Refusal> {
        Calibration::of(answer, self.basic_range, self.tables.clone())
    }
}

impl Default for Reader {
    fn default() -> Self {
        Reader::new()
    }
}
