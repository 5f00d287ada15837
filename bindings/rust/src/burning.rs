use crate::border;
use crate::Refusal;

/// A step of a burn: a word of the card, and its new value.
#[derive(Clone, Copy, Debug, PartialEq, Eq)]
pub struct Step {
    /// The word's number on the card.
    pub word: usize,
    /// The word's new value.
    pub value: u16,
}

/// What a call of [`burn`] did.
#[derive(Clone, Copy, Debug, PartialEq, Eq)]
pub struct Burnt {
    /// The step, or `None` if there was none to do.
    pub step: Option<Step>,
    /// Whether the present image is now the wanted one. A half-burnt card may load, so only this says that the burn is complete.
    pub reached: bool,
}

fn answered(answer: border::Step) -> Result<Burnt, Refusal> {
    Refusal::check(answer.told)?;
    let step = (answer.word < 832).then_some(Step { word: answer.word, value: answer.bits });
    Ok(Burnt { step, reached: answer.reached != 0 })
}

/// Returns the next step from a present image to a wanted one: the first word that differs is set to zero or, if it is zero already, to the wanted value.
/// `None` if the wanted image is reached.
///
/// # Errors
///
/// [`Refusal::ShortImage`] (1), [`Refusal::UncheckedWord`] (11).
pub fn next_step(present: &[u8], wanted: &[u8]) -> Result<Option<Step>, Refusal> {
    answered(border::next_step(present, wanted)).map(|next| next.step)
}

/// Does the next step on the present image. At most 1,628 calls reach the wanted one; after an interruption, continue from the image that is found.
///
/// # Errors
///
/// [`Refusal::ShortImage`] (1), [`Refusal::UncheckedWord`] (11).
///
/// ```
/// use loamchalice::{burn, next_step, Calibration};
/// let wanted = include_bytes!("../cards/sound.bin");
/// let mut card = *include_bytes!("../cards/half.bin");
/// assert!(Calibration::from_data(&card).is_ok()); // it loads, and is half-burnt
/// let mut steps = 0;
/// while next_step(&card, wanted)?.is_some() {
///     let burnt = burn(&mut card, wanted)?;
///     steps += 1;
///     assert_eq!(burnt.reached, card == *wanted);
/// }
/// assert_eq!((steps, card), (10, *wanted));
/// # Ok::<(), loamchalice::Refusal>(())
/// ```
pub fn burn(present: &mut [u8], wanted: &[u8]) -> Result<Burnt, Refusal> {
    answered(border::burn(present, wanted))
}
