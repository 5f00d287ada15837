//! `simulate`: makes frames of a simulated scene.
use crate::args::Words;
use crate::judge::{counted, Card};
use crate::scene::{Made, SCENES};
use crate::stop::{shown_target, tell, write, Done, Found, Out, Stop};

const MOST_FRAMES: usize = 1000;

pub const HELP: &str = "\
Writes frames of a made-up scene, as a camera with this card would read them, so
that everything can be tried without a camera. The same words give the same bytes.

  -o F             the file to write; - is standard output, for `loamchalice watch`
  --scene S        spot (a hand in a room, and a spot that grows from 35 to 100 degrees),
                   hand (a warm hand that passes through the room), room
  --frames N       how many, 1 to 1000; subpages take turns. Without it 1, or 2 of the
                   MLX90640, which is one picture; one picture is the scene's end
  --lost P         pixel P reads what has no temperature; may come several times
  --camera 41|40   the camera; without it the card tells

Temperatures are those of one pass (no --ranged) with the card's own emissivity.
The MLX90640's frames are in chess.

Status 0: written. 1: written, and the card's gain is far from usual, so that the
frames' is another. 2: the file can't be written, or the card does not load or can't
be read with.";

pub fn run(words: &Words, out: &mut Out) -> Done {
    let target = words.wanted("-o")?;
    let scene = words.choice("--scene", &SCENES)?;
    let card = Card::open(&words.files[0], words)?;
    let camera = card.load()?;
    let pixels = card.kind.pixels();
    let least = if pixels > 192 { 2 } else { 1 };
    let frames = words.whole("--frames", 1, MOST_FRAMES)?.unwrap_or(least);
    let lost = words.all("--lost").map(|value| words.whole_of("--lost", value, 0, pixels - 1)).collect::<Result<Vec<_>, _>>()?;
    let refused = |refusal: loamchalice::Refusal| Stop::said(format!("{}: no frame can be read with this card: {}", card.name, refusal.text()));
    let made = Made::new(camera.as_ref(), scene, frames, lost).map_err(refused)?;
    let mut bytes = Vec::new();
    let mut warning = None;
    for number in 0..frames {
        let shot = made.shot(number).map_err(refused)?;
        warning = warning.or(camera.gain_warning(shot.ram));
        bytes.extend(shot.bytes());
    }
    write(target, &bytes, out)?;
    if let Some(warning) = warning {
        tell(&format!("{}: warning: {warning}", card.name));
    }
    if target != "-" {
        out.line(format!("{}: {} of an {}, {} bytes", shown_target(target), counted(frames, "frame"), card.kind.name(), bytes.len()))?;
    }
    Ok(Found::bad_if(warning.is_some()))
}
