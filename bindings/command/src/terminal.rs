//! A picture in a terminal: in colours, or in characters that grow denser.
use crate::scale::{light, Scale};
use crate::view::{Cell, Picture};

/// The characters from cold to hot, if there are no colours.
const RAMP: &[u8; 10] = b" .:-=+*#%@";

/// The lines of the picture. The MLX90641's pixels have room for their temperatures.
pub fn lines(picture: &Picture, scale: Scale, coloured: bool) -> Vec<String> {
    let (width, _) = picture.kind.size();
    let line = |row: &[Cell]| match coloured {
        true => row.iter().map(|cell| colours(*cell, scale, width > 16)).collect::<String>() + "\x1b[0m",
        false => row.iter().map(|cell| characters(*cell, scale)).collect::<String>().trim_end().to_string(),
    };
    picture.cells.chunks(width).map(line).collect()
}

// 24-bit colours: the pixel's as the background, and a readable one for the letters.
fn colours(cell: Cell, scale: Scale, narrow: bool) -> String {
    let t = match cell {
        Cell::Unwritten if narrow => return "\x1b[0m  ".to_string(),
        Cell::Unwritten => return "\x1b[0m    ".to_string(),
        Cell::Lost if narrow => return "\x1b[0m??".to_string(),
        Cell::Lost => return "\x1b[0m ?? ".to_string(),
        Cell::Degrees(t) => t,
    };
    let colour = scale.colour(t);
    let ink = if light(colour) { 0 } else { 255 };
    let number = format!("{t:.0}");
    let words = match (narrow, number.len()) {
        (true, _) => "  ".to_string(),
        (false, ..=3) => format!("{number:>3} "),
        (false, _) => "    ".to_string(),
    };
    format!("\x1b[48;2;{};{};{};38;2;{ink};{ink};{ink}m{words}", colour[0], colour[1], colour[2])
}

fn characters(cell: Cell, scale: Scale) -> String {
    match cell {
        Cell::Unwritten => "  ".to_string(),
        Cell::Lost => "??".to_string(),
        Cell::Degrees(t) => {
            let at = (scale.share(t) * (RAMP.len() - 1) as f32).round() as usize;
            char::from(RAMP[at.min(RAMP.len() - 1)]).to_string().repeat(2)
        }
    }
}
