//! `burn-plan`: the steps from one card to another.
use crate::args::Words;
use crate::judge::counted;
use crate::scrub::checked_card;
use crate::stop::{Done, Found, Out, Stop};
use loamchalice::{burn, Refusal};

/// The largest number of steps: two for each of 814 words.
const MOST_STEPS: usize = 1628;

pub const HELP: &str = "\
Tells the steps that bring a card of the MLX90641 from PRESENT to WANTED, in their
order: a word is cleared (set to zero) before it gets a new value. After a cut read
the card again and plan from what is found.

  --camera 41|40   the camera; without it the cards tell. Only the MLX90641's words
                   have this order

Status 0: planned, and the wanted card loads. 1: it does not load or looks wrong, or
differs from PRESENT in a word that is never burnt (0 to 15, 19, 20). 2: a file can't
be read or is too short.";

pub fn run(words: &Words, out: &mut Out) -> Done {
    let (mut present, wanted) = (checked_card(words, 0)?, checked_card(words, 1)?);
    let bad = wanted.warn_if_bad();
    for number in 0..=MOST_STEPS {
        let done = match burn(&mut present.image, &wanted.image) {
            Ok(done) => done,
            Err(Refusal::UncheckedWord { word }) => {
                out.line(format!("{}: word {word} is another than in {}, and is never burnt", wanted.name, present.name))?;
                return Ok(Found::Bad);
            }
            Err(other) => return Err(Stop::said(format!("{}: {}", wanted.name, other.text()))),
        };
        match done.step {
            Some(step) if step.value == 0 => out.line(format!("word {}: clear it", step.word))?,
            Some(step) => out.line(format!("word {}: write 0x{:04X}", step.word, step.value))?,
            None => {
                out.line(format!("{} from {} to {}", counted(number, "step"), present.name, wanted.name))?;
                break;
            }
        }
    }
    Ok(Found::bad_if(bad))
}
