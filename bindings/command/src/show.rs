//! `show`: writes frames as pictures to a file.
use crate::args::Words;
use crate::page::{page, MOST};
use crate::scale::Scale;
use crate::stop::{shown, shown_target, write, Done, Found, Out};
use crate::svg::{drawing, Frame};
use crate::view::View;

pub const HELP: &str = "\
Draws frames: one picture as F.svg, or one or more as the page F.html, with the
hottest and the coldest pixel of each in a strip over time. Any browser shows both.
A pixel has its degrees Celsius where there is room; lost pixels are hatched.

  -o F             the file to write, which ends in .svg or .html
  --limit T        a line in the scale, marks on pixels that are not below it
  --from T, --to T the ends of the scale; without them it begins at the coldest pixel
                   and spans 30 degrees or more, so that an even scene stays dark
  --ranged         the second pass, for scenes beyond 0 to 80 degrees
  --filter         the average of the last 16 readings of the compensation pixel
  --emissivity E   in place of the card's, above 0 and at most 1
  --reflected T    the reflected temperature, if it is known
  --camera 41|40   the camera; without it the card tells

Status 0: written. 1: written, and a frame was refused or has a warning. 2: a file
can't be read or written, is no frame, or the card does not load.";

pub fn run(words: &Words, out: &mut Out) -> Done {
    let target = words.wanted("-o")?;
    let (limit, from, to) = (words.number("--limit")?, words.number("--from")?, words.number("--to")?);
    if from.zip(to).is_some_and(|(from, to)| from >= to) {
        return Err(words.wrong("--from must be below --to"));
    }
    let name = target.to_string_lossy();
    let (svg, html) = (name.ends_with(".svg"), name.ends_with(".html"));
    if !svg && !html {
        return Err(words.wrong(&format!("{} must end in .svg or .html", shown_target(target))));
    }
    let files: Vec<String> = words.files[1..].iter().map(|file| shown(file)).collect();
    let pictures = View::open(words)?.pictures(&words.files[1..])?;
    if svg && pictures.len() > 1 {
        return Err(words.wrong(&format!("{} pictures want a page: -o F.html", pictures.len())));
    }
    if pictures.len() > MOST {
        return Err(words.wrong(&format!("{} pictures are too many for a page, which has at most {MOST}", pictures.len())));
    }
    let scale = Scale::of(&pictures, limit, from, to);
    let text = match pictures.as_slice() {
        [picture] if svg => drawing(picture, &Frame { heading: &format!("{}: {}", files.join(", "), picture.coverage()), scale, limit, number: 1 }),
        _ => page(&files.join(", "), &pictures, scale, limit),
    };
    write(target, text.as_bytes(), out)?;
    let troubles: Vec<&String> = pictures.iter().flat_map(|picture| &picture.troubles).collect();
    if let Some(trouble) = troubles.first() {
        crate::stop::tell(&format!("{}: warning: {trouble}", files.join(", ")));
    }
    Ok(Found::bad_if(!troubles.is_empty()))
}
