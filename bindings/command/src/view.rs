//! Frames to pictures: the value of each pixel, what looks wrong, and whether a lamp may stay on.
use crate::args::Words;
use crate::frame_file::{shots, Shot};
use crate::judge::{counted, Card};
use crate::model::{Kind, Model};
use crate::stop::{read, shown, Stop};
use loamchalice::{environment_is_default, Filter, Settings};
use std::ffi::OsString;

/// The largest size of a file of frames.
pub const MOST_BYTES: u64 = 16 << 20;

#[derive(Clone, Copy, Debug, PartialEq)]
pub enum Cell {
    /// Belongs to the other subpage, which has not come.
    Unwritten,
    /// Has no temperature: it is NaN.
    Lost,
    Degrees(f32),
}

/// A pixel and its temperature in degrees Celsius.
#[derive(Clone, Copy, Debug, PartialEq)]
pub struct Spot {
    pub pixel: usize,
    pub degrees: f32,
}

/// A picture: the frame of an MLX90641, or one or two of an MLX90640.
#[derive(Clone, Debug)]
pub struct Picture {
    pub kind: Kind,
    /// The number of its first frame, from 1.
    pub first: usize,
    pub cells: Vec<Cell>,
    /// The camera's own temperature, for each frame.
    pub inside: Vec<f32>,
    pub subpages: Vec<u8>,
    chess: bool,
    /// What is wrong: refusals and warnings.
    pub troubles: Vec<String>,
}

impl Picture {
    pub fn new(shot: &Shot, first: usize) -> Self {
        let cells = vec![Cell::Unwritten; shot.kind.pixels()];
        Picture { kind: shot.kind, first, cells, inside: Vec::new(), subpages: Vec::new(), chess: shot.chess, troubles: Vec::new() }
    }

    /// Whether a frame is the missing half of this picture.
    pub fn lacks(&self, shot: &Shot) -> bool {
        self.kind == Kind::Mlx90640 && self.subpages.len() == 1 && self.subpages[0] != shot.subpage as u8 && self.chess == shot.chess
    }

    pub fn degrees(&self) -> impl Iterator<Item = Spot> + '_ {
        self.cells.iter().enumerate().filter_map(|(pixel, cell)| match cell {
            Cell::Degrees(degrees) => Some(Spot { pixel, degrees: *degrees }),
            _ => None,
        })
    }

    pub fn hottest(&self) -> Option<Spot> {
        self.degrees().reduce(|best, spot| if spot.degrees > best.degrees { spot } else { best })
    }

    pub fn coldest(&self) -> Option<Spot> {
        self.degrees().reduce(|best, spot| if spot.degrees < best.degrees { spot } else { best })
    }

    pub fn lost(&self) -> Vec<usize> {
        (0..self.cells.len()).filter(|pixel| self.cells[*pixel] == Cell::Lost).collect()
    }

    pub fn written(&self) -> usize {
        self.cells.iter().filter(|cell| **cell != Cell::Unwritten).count()
    }

    pub fn place(&self, pixel: usize) -> String {
        let width = self.kind.size().0;
        format!("row {}, column {}", pixel / width, pixel % width)
    }

    /// Which subpages came, and how many pixels they wrote.
    pub fn coverage(&self) -> String {
        let subpages: Vec<String> = self.subpages.iter().map(u8::to_string).collect();
        let (written, all) = (self.written(), self.cells.len());
        let which = if subpages.len() == 1 { format!("subpage {}", subpages[0]) } else { format!("subpages {}", subpages.join(" and ")) };
        let how_many = if written == all { format!("all {all} pixels") } else { format!("{written} of {all} pixels") };
        format!("{}, {which}, {how_many} written, {} lost", self.kind.name(), self.lost().len())
    }

    /// Why the lamp must go down under this limit; `None` if it may stay on. Every pixel must have been seen or, if `half` is true, those of the frame's
    /// subpage.
    pub fn lamp_down(&self, limit: f32, half: bool) -> Option<String> {
        if !environment_is_default() {
            return Some("the floating-point environment is not the default one".to_string());
        }
        if let Some(trouble) = self.troubles.first() {
            return Some(trouble.clone());
        }
        let (lost, unwritten) = (self.lost().len(), self.cells.len() - self.written());
        if lost > 0 {
            return Some(format!("{} lost", counted(lost, "pixel")));
        }
        if unwritten > 0 && !half {
            return Some(format!("{} not written, the other subpage is wanted", counted(unwritten, "pixel")));
        }
        match self.hottest() {
            Some(hot) if hot.degrees < limit => None,
            Some(hot) => Some(format!("{:.2} degrees at {}, and the limit is {limit}", hot.degrees, self.place(hot.pixel))),
            None => Some("no pixel has a temperature".to_string()),
        }
    }
}

/// A card, and how frames are computed with it.
pub struct View {
    pub card: String,
    pub camera: Box<dyn Model>,
    emissivity: Option<f32>,
    reflected: Option<f32>,
    ranged: bool,
    /// A filter for each subpage, if filtering is asked for.
    filters: Option<[Filter; 2]>,
}

impl View {
    /// Opens the card that the first word names, with the options that all commands on frames have.
    pub fn open(words: &Words) -> Result<Self, Stop> {
        let card = Card::open(&words.files[0], words)?;
        let (emissivity, reflected) = (words.number("--emissivity")?, words.number("--reflected")?);
        if emissivity.is_some_and(|e| !(e > 0.0 && e <= 1.0)) {
            return Err(words.wrong("--emissivity must be above 0 and at most 1"));
        }
        if reflected.is_some_and(|t| t < -273.15) {
            return Err(words.wrong("--reflected must be -273.15 or above"));
        }
        let filters = words.has("--filter").then(|| [Filter::new(); 2]);
        Ok(View { camera: card.load()?, card: card.name, emissivity, reflected, ranged: words.has("--ranged"), filters })
    }

    fn settings(&self, shot: &Shot) -> Settings {
        let mut settings = self.camera.settings(shot.resolution);
        settings.emissivity = self.emissivity.unwrap_or(settings.emissivity);
        settings.reflected = self.reflected;
        settings
    }

    /// Computes a frame into a picture of its camera. What is wrong with the frame is recorded in the picture.
    pub fn add(&mut self, shot: &Shot, picture: &mut Picture) {
        let settings = self.settings(shot);
        picture.subpages.push(shot.subpage as u8);
        let warnings = [self.camera.gain_warning(shot.ram), self.camera.settings_warning(&settings)];
        picture.troubles.extend(warnings.into_iter().flatten().map(str::to_string));
        let average = self.filters.as_mut().and_then(|filters| {
            let filter = &mut filters[shot.subpage as usize];
            filter.push(shot.ram.compensation_pixel);
            filter.average()
        });
        let mut numbers = vec![0.0; shot.kind.pixels()];
        match self.camera.temperatures(&settings, shot, average, self.ranged, &mut numbers) {
            Ok(seen) => {
                picture.inside.push(seen.t_a);
                let mask = self.camera.mask(shot);
                for pixel in (0..mask.len()).filter(|pixel| mask[*pixel]) {
                    picture.cells[pixel] = if numbers[pixel].is_nan() { Cell::Lost } else { Cell::Degrees(numbers[pixel]) };
                }
            }
            Err(refusal) => picture.troubles.push(format!("the frame is refused: {}", refusal.text())),
        }
    }

    /// An error if a frame is of another camera than the card.
    pub fn check(&self, shot: &Shot) -> Result<(), String> {
        let kind = self.camera.kind();
        if shot.kind == kind {
            return Ok(());
        }
        Err(format!("is of an {}, and the card {} of an {}", shot.kind.name(), self.card, kind.name()))
    }

    /// All pictures of several files, in order. Two frames of the MLX90640 that follow one another make one picture, also across files.
    pub fn pictures(&mut self, files: &[OsString]) -> Result<Vec<Picture>, Stop> {
        let mut pictures: Vec<Picture> = Vec::new();
        let mut count = 0;
        for path in files {
            let failed = |what: String| Stop::said(format!("{}: {what}", shown(path)));
            for (k, shot) in shots(&read(path, MOST_BYTES)?).map_err(failed)?.iter().enumerate() {
                self.check(shot).map_err(|what| failed(format!("frame {} {what}", k + 1)))?;
                count += 1;
                if !pictures.last().is_some_and(|last| last.lacks(shot)) {
                    pictures.push(Picture::new(shot, count));
                }
                if let Some(last) = pictures.last_mut() {
                    self.add(shot, last);
                }
            }
        }
        Ok(pictures)
    }
}

#[cfg(test)]
mod tests {
    use super::*;
    use loamchalice::{RamData, Subpage};

    fn picture(kind: Kind, cells: &[(usize, Cell)]) -> Picture {
        let ram = RamData { t_a_v_be: 0, t_a_ptat: 0, v_dd_pixel: 0, gain: 0, compensation_pixel: 0 };
        let shot = Shot { kind, subpage: Subpage::Zero, chess: false, resolution: 2, ram, pixels: Vec::new() };
        let mut picture = Picture::new(&shot, 1);
        picture.cells.fill(Cell::Degrees(20.0));
        cells.iter().for_each(|(pixel, cell)| picture.cells[*pixel] = *cell);
        picture
    }

    #[test]
    fn the_lamp_goes_down_where_it_must() {
        let down = |cells: &[(usize, Cell)], half: bool| picture(Kind::Mlx90640, cells).lamp_down(60.0, half);
        assert_eq!(down(&[], false), None);
        assert_eq!(down(&[(767, Cell::Degrees(59.999))], false), None);
        for degrees in [60.0, 61.0, f32::INFINITY] {
            assert!(down(&[(767, Cell::Degrees(degrees))], false).is_some_and(|why| why.contains("row 23, column 31")), "{degrees}");
        }
        assert_eq!(down(&[(0, Cell::Lost)], true), Some("1 pixel lost".to_string()));
        assert!(down(&[(0, Cell::Unwritten)], false).is_some());
        assert_eq!(down(&[(0, Cell::Unwritten)], true), None);
        let none: Vec<(usize, Cell)> = (0..768).map(|pixel| (pixel, Cell::Unwritten)).collect();
        assert!(down(&none, true).is_some());
        let mut troubled = picture(Kind::Mlx90641, &[]);
        troubled.troubles.push("a warning".to_string());
        assert_eq!(troubled.lamp_down(60.0, false), Some("a warning".to_string()));
    }
}
