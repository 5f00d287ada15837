//! `watch`: shows frames as they come, and whether the lamp may stay on.
use crate::args::Words;
use crate::frame_file::Shot;
use crate::model::Kind;
use crate::scale::Scale;
use crate::stop::{Done, Found, Out, Stop};
use crate::terminal::lines;
use crate::view::{Picture, View};
use std::io::{self, IsTerminal};

const LIMIT: f32 = 60.0;

/// A subpage of the MLX90640 that has not come for this many frames is missing.
const PATIENCE: usize = 2;

pub const HELP: &str = "\
Reads frames from standard input as they come, shows each as a picture, and tells
whether a lamp may stay up. Once it is down it stays down, and the first reason
is kept. Each frame is judged by itself; the MLX90640's has half of the pixels, and
the lamp goes down where one subpage stays away.

  --limit T        every pixel must be below T degrees: 60 without it
  --filter         the average of the last 16 readings of the compensation pixel
  --ranged         the second pass, for scenes beyond 0 to 80 degrees
  --from T, --to T the ends of the colours: 15 degrees and the limit without them
  --color W        auto (if standard output is a terminal and NO_COLOR is not set),
                   always, never
  --lines          a line for each frame, and no picture
  --emissivity E   in place of the card's, above 0 and at most 1
  --reflected T    the reflected temperature, if it is known
  --camera 41|40   the camera; without it the card tells

  loamchalice simulate CARD --frames 40 -o - | loamchalice watch CARD

Status 0: the stream has ended and the lamp is up. 1: the lamp is down. 2: the
stream broke off, was empty or is of no frames, or the card does not load. Anything
but 0 is lamp down.";

struct Watch {
    view: View,
    limit: f32,
    scale: Scale,
    coloured: bool,
    pictures: bool,
    /// The last value seen of each pixel.
    picture: Option<Picture>,
    /// The number of frames since each subpage came.
    away: [usize; 2],
    down: Option<String>,
}

pub fn run(words: &Words, out: &mut Out) -> Done {
    let limit = words.number("--limit")?.unwrap_or(LIMIT);
    let low = words.number("--from")?.unwrap_or(15f32.min(limit - 30.0));
    let scale = Scale { low, high: words.number("--to")?.unwrap_or(limit.max(low + 30.0)) };
    if scale.low >= scale.high {
        return Err(words.wrong("--from must be below --to"));
    }
    let coloured = match words.choice("--color", &["auto", "always", "never"])? {
        "auto" => io::stdout().is_terminal() && std::env::var_os("NO_COLOR").is_none(),
        word => word == "always",
    };
    let view = View::open(words)?;
    let mut watch = Watch { view, limit, scale, coloured, pictures: !words.has("--lines"), picture: None, away: [0; 2], down: None };
    let mut input = io::stdin().lock();
    for number in 1.. {
        let failed = |what: String| Stop::said(format!("standard input: frame {number} {what}; lamp down"));
        let Some(shot) = Shot::next(&mut input).map_err(failed)? else {
            break;
        };
        watch.view.check(&shot).map_err(failed)?;
        watch.frame(&shot, number, out)?;
    }
    match (&watch.picture, &watch.down) {
        (None, _) => Err(Stop::said("standard input: no frame came; lamp down")),
        (Some(_), down) => Ok(Found::bad_if(down.is_some())),
    }
}

impl Watch {
    fn frame(&mut self, shot: &Shot, number: usize, out: &mut Out) -> Result<(), Stop> {
        let mut seen = Picture::new(shot, number);
        self.view.add(shot, &mut seen);
        if let Some(why) = self.judged(&seen, shot) {
            self.down.get_or_insert(format!("frame {number}: {why}"));
        }
        let whole = self.picture.get_or_insert_with(|| seen.clone());
        let mask = self.view.camera.mask(shot);
        for pixel in (0..mask.len()).filter(|pixel| mask[*pixel]) {
            whole.cells[pixel] = seen.cells[pixel];
        }
        if self.pictures {
            // On a terminal each picture replaces the one before it.
            if self.coloured {
                out.bytes(b"\x1b[H\x1b[2J")?;
            }
            for line in lines(whole, self.scale, self.coloured) {
                out.line(line)?;
            }
        }
        out.line(self.line(&seen, number))?;
        out.flush()
    }

    // Why this frame takes the lamp down.
    fn judged(&mut self, seen: &Picture, shot: &Shot) -> Option<String> {
        let own = shot.subpage as usize;
        self.away = [0, 1].map(|subpage| if subpage == own { 0 } else { self.away[subpage] + 1 });
        let other = 1 - own;
        if seen.kind == Kind::Mlx90640 && self.away[other] > PATIENCE {
            return Some(format!("subpage {other} stays away"));
        }
        seen.lamp_down(self.limit, true)
    }

    fn line(&self, seen: &Picture, number: usize) -> String {
        let hottest = seen.hottest().map_or("no temperature".to_string(), |hot| format!("hottest {:.2} at {}", hot.degrees, seen.place(hot.pixel)));
        let inside = seen.inside.last().map_or(String::new(), |t| format!(", inside {t:.2}"));
        let lamp = self.down.as_ref().map_or("lamp up".to_string(), |why| format!("lamp down since {why}"));
        format!("frame {number}, subpage {}: {hottest}{inside}; {lamp}", seen.subpages[0])
    }
}
