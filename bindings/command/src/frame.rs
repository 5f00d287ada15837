//! `frame`: writes temperatures as a grid.
use crate::args::Words;
use crate::json;
use crate::stop::{shown, Done, Found, Out, Stop};
use crate::view::{Cell, Picture, View};

pub const HELP: &str = "\
Shows the temperatures of frames in degrees Celsius as a grid, with the hottest and
the coldest pixel, the camera's own temperature, and how many pixels are lost.
Rows and columns count from 0. docs/FRAMES.md has the format of frame files; a
file may have several frames. Two frames of the MLX90640, one of each subpage,
make one picture.

  --limit T        whether a lamp may stay up: every pixel must be written, have a
                   temperature and be below T degrees, with no warning
  --ranged         the second pass, for scenes beyond 0 to 80 degrees
  --filter         the average of the last 16 readings of the compensation pixel
                   (from the 16th frame of a subpage on)
  --emissivity E   in place of the card's, above 0 and at most 1
  --reflected T    the reflected temperature, if it is known
  --camera 41|40   the camera; without it the card tells
  --json           a list of pictures: files, camera, subpages, written, lost, inside,
                   hottest, coldest, troubles, lamp, why, temperatures by row. A
                   pixel that is lost or not written is null; lost has its number

In the grid ?? is a lost pixel, . one that is not written, hi and lo what has no room.

Status 0: good; with --limit the lamp may stay up in every picture. 1: a frame is
refused or has a warning, or the lamp must go down. 2: a file can't be read, is no
frame, or the card does not load. With --limit anything but 0 is lamp down.";

pub fn run(words: &Words, out: &mut Out) -> Done {
    let limit = words.number("--limit")?;
    let pictures = View::open(words)?.pictures(&words.files[1..])?;
    let names: Vec<String> = words.files[1..].iter().map(|file| shown(file)).collect();
    let files: Vec<String> = words.files[1..].iter().map(|file| file.to_string_lossy().into_owned()).collect();
    let mut bad = false;
    let mut objects = Vec::new();
    for picture in &pictures {
        let down = limit.and_then(|limit| picture.lamp_down(limit, false));
        bad |= down.is_some() || !picture.troubles.is_empty();
        if words.has("--json") {
            objects.push(object(picture, &files, limit, down));
            continue;
        }
        if pictures.len() > 1 {
            out.line(format!("picture from frame {}", picture.first))?;
        }
        shown_picture(picture, &names.join(", "), out)?;
        if let Some(limit) = limit {
            out.line(down.map_or(format!("lamp up: every pixel is below {limit} degrees"), |why| format!("lamp down: {why}")))?;
        }
    }
    if words.has("--json") {
        out.line(format!("[{}]", objects.join(",\n ")))?;
    }
    Ok(Found::bad_if(bad))
}

fn shown_picture(picture: &Picture, name: &str, out: &mut Out) -> Result<(), Stop> {
    out.line(format!("{name}: {}", picture.coverage()))?;
    for trouble in &picture.troubles {
        out.line(format!("{name}: {trouble}"))?;
    }
    let inside: Vec<String> = picture.inside.iter().map(|t| format!("{t:.2}")).collect();
    if !inside.is_empty() {
        out.line(format!("inside {} degrees", inside.join(" and ")))?;
    }
    if let (Some(hot), Some(cold)) = (picture.hottest(), picture.coldest()) {
        out.line(format!("hottest {:.2} degrees at {}", hot.degrees, picture.place(hot.pixel)))?;
        out.line(format!("coldest {:.2} degrees at {}", cold.degrees, picture.place(cold.pixel)))?;
    }
    grid(picture, out)
}

// Writes the grid: the MLX90641's to tenths; the MLX90640's, whose rows are twice as long, to whole degrees.
fn grid(picture: &Picture, out: &mut Out) -> Result<(), Stop> {
    let width = picture.kind.size().0;
    let (space, digits) = if width > 16 { (4, 0) } else { (6, 1) };
    let heading: String = (0..width).map(|column| format!("{column:>space$}")).collect();
    out.line(format!("   {heading}"))?;
    for (row, cells) in picture.cells.chunks(width).enumerate() {
        let row_cells: String = cells.iter().map(|cell| format!("{:>space$}", short(*cell, space, digits))).collect();
        out.line(format!("{row:>3}{row_cells}"))?;
    }
    Ok(())
}

// The text of a cell that fits into `space`, with a blank before it.
fn short(cell: Cell, space: usize, digits: usize) -> String {
    match cell {
        Cell::Unwritten => ".".to_string(),
        Cell::Lost => "??".to_string(),
        Cell::Degrees(t) => {
            let text = format!("{t:.digits$}");
            match text.len() < space {
                true => text,
                false if t > 0.0 => "hi".to_string(),
                false => "lo".to_string(),
            }
        }
    }
}

fn object(picture: &Picture, files: &[String], limit: Option<f32>, down: Option<String>) -> String {
    let width = picture.kind.size().0;
    let spot = |spot: Option<crate::view::Spot>| {
        let fields = |spot: crate::view::Spot| {
            json::object(&[
                ("degrees", json::degrees(spot.degrees)),
                ("row", (spot.pixel / width).to_string()),
                ("column", (spot.pixel % width).to_string()),
                ("pixel", spot.pixel.to_string()),
            ])
        };
        json::or_null(spot.map(fields))
    };
    let number = |cell: &Cell| match cell {
        Cell::Degrees(t) => json::degrees(*t),
        _ => "null".to_string(),
    };
    let rows = picture.cells.chunks(width).map(|row| json::list(row.iter().map(number)));
    json::object(&[
        ("files", json::list(files.iter().map(|file| json::string(file)))),
        ("first_frame", picture.first.to_string()),
        ("camera", json::string(picture.kind.name())),
        ("subpages", json::list(picture.subpages.iter().map(u8::to_string))),
        ("written", picture.written().to_string()),
        ("lost", json::list(picture.lost().iter().map(usize::to_string))),
        ("inside", json::list(picture.inside.iter().map(|t| json::degrees(*t)))),
        ("hottest", spot(picture.hottest())),
        ("coldest", spot(picture.coldest())),
        ("troubles", json::list(picture.troubles.iter().map(|trouble| json::string(trouble)))),
        ("limit", json::or_null(limit.map(|limit| limit.to_string()))),
        ("lamp", json::or_null(limit.map(|_| json::string(if down.is_some() { "down" } else { "up" })))),
        ("why", json::or_null(down.map(|why| json::string(&why)))),
        ("temperatures", json::list(rows)),
    ])
}
