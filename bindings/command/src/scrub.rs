//! `scrub`: mends a card with flipped bits.
use crate::args::Words;
use crate::judge::{counted, refused, word, Card};
use crate::model::{Kind, CARD_BYTES};
use crate::stop::{shown_target, write, Done, Found, Out, Stop};
use loamchalice::Refusal;

pub const HELP: &str = "\
Writes a card of the MLX90641 in which each word that has one flipped bit is its
codeword again, and tells which they were. A damaged word, with two flips, stays.
Three flips look like one flip of another codeword, so keep the card as it was.

  -o F             the file to write; without it the card is only looked at
  --camera 41|40   the camera; without it the card tells. The MLX90640's words have
                   no check bits, so there is nothing to mend

Status 0: no damaged word, and the card loads. 1: a damaged word stays, or the card
does not load or looks wrong. 2: a file can't be read or written, or is too short, or of
the MLX90640.";

pub fn run(words: &Words, out: &mut Out) -> Done {
    let mut card = checked_card(words, 0)?;
    let before = card.image.clone();
    let done = loamchalice::scrub(&mut card.image).map_err(|refusal| Stop::said(format!("{}: {}", card.name, refused(refusal, &before))))?;
    let to_output = words.value("-o").is_some_and(|target| target == "-");
    let mut report = Vec::new();
    for k in done.changed().iter().map(|k| usize::from(*k)) {
        report.push(format!("word {k} mended: 0x{:04X} becomes 0x{:04X}", word(&before, k), word(&card.image, k)));
    }
    for k in done.damaged().iter().map(|k| usize::from(*k)) {
        report.push(format!("word {k} is damaged and stays (bits 0x{:04X})", word(&before, k)));
    }
    let (changed, damaged) = (done.changed().len(), done.damaged().len());
    report.push(format!("{}: {} mended, {damaged} damaged", card.name, counted(changed, "word")));
    for line in report {
        // The card itself may go to standard output.
        if to_output {
            crate::stop::tell(&line);
        } else {
            out.line(line)?;
        }
    }
    if let Some(target) = words.value("-o") {
        write(target, &card.image, out)?;
        card.name = shown_target(target);
    }
    let odd = damaged == 0 && card.warn_if_bad();
    Ok(Found::bad_if(damaged > 0 || odd))
}

/// The card that argument `k` names, which must be the MLX90641's.
pub fn checked_card(words: &Words, k: usize) -> Result<Card, Stop> {
    let card = Card::open(&words.files[k], words)?;
    match card.kind {
        _ if card.image.len() < CARD_BYTES => {
            let short = Refusal::ShortImage { length: card.image.len() };
            Err(Stop::said(format!("{}: {}", card.name, refused(short, &card.image))))
        }
        Kind::Mlx90641 => Ok(card),
        Kind::Mlx90640 => {
            Err(Stop::said(format!("{}: the card is taken for an MLX90640's, and this is for the MLX90641's alone (--camera 41 where it is one)", card.name)))
        }
    }
}
