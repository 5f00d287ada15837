//! The loop of a lamp controller, for either camera: a card, frames, a limit. The lamp goes down on any warning, on any refusal (also of a short frame), on
//! any lost pixel, and if a pixel that counts is not below the limit. The status is 1 once the lamp is down, for whatever reason, and 0 if it is still on
//! after the last frame.
//!   cargo run --offline --example lamp -- cards/sound.bin
//!   cargo run --offline --example lamp -- cards/bigger.bin mlx90640
//! Frames are simulated, or come from a file whose name follows the camera's (docs/FRAMES.md), as `loamchalice simulate` writes it.
use loamchalice::{environment_is_default, mlx90640, mlx90641, Camera, Filter, RamData, Reading, Refusal, Settings, Subpage};
use std::process::ExitCode;

const LIMIT: f32 = 45.0;

// The simulated camera has this many frames; a real one goes on.
const FRAMES: i16 = 100;

// A pixel that is known to be dead is left out of the mask and does not count: its entry of the picture is not read.
const DEAD: usize = 37;

#[derive(Debug, PartialEq)]
enum Lamp {
    On,
    Down(String),
}

struct Gate<C: Camera> {
    camera: C,
    settings: Settings,
    pattern: C::Pattern,
    // for each subpage: its mask, and the filter of its compensation pixel
    masks: [C::Mask; 2],
    filters: [Filter; 2],
}

// What a camera's bus delivers for a frame.
struct Shot {
    ram: RamData,
    subpage: Subpage,
    pixels: Vec<u8>,
}

// In place of a camera's bus: its RAM words, and the readings of its pixels in a room.
trait Bus: Camera {
    const RAM: RamData;
    const ROOM: i16;
    // Bytes in the head of a frame's file: the camera's number, and the camera's default pattern, which comes after the subpage.
    const NUMBER: u8;
    const PATTERN: u8;

    // A simulated frame, a little warmer each time. Subpages take turns.
    fn made_up(frame: i16) -> Shot {
        let pixels = (0..Self::NUM_PIXELS as i16).flat_map(|i| (Self::ROOM + frame * 60 + i % 16).to_be_bytes()).collect();
        Shot { ram: Self::RAM, subpage: if frame % 2 == 0 { Subpage::Zero } else { Subpage::One }, pixels }
    }

    // A frame from a file, or None if it is not one of this camera's.
    fn from_file(bytes: &[u8]) -> Option<Shot> {
        let known = bytes.len() == 24 + Self::PIXEL_BYTES && bytes.starts_with(b"LOAMFRM1") && [bytes[8], bytes[10]] == [Self::NUMBER, Self::PATTERN];
        let word = |k: usize| i16::from_be_bytes([bytes[12 + 2 * k], bytes[13 + 2 * k]]);
        known.then(|| Shot {
            ram: RamData { t_a_v_be: word(0), t_a_ptat: word(1), v_dd_pixel: word(2), gain: word(3), compensation_pixel: word(4) },
            subpage: if bytes[9] == 0 { Subpage::Zero } else { Subpage::One },
            pixels: bytes[24..].to_vec(),
        })
    }
}

impl Bus for mlx90641::Calibration {
    const RAM: RamData = RamData { t_a_v_be: 19442, t_a_ptat: 1711, v_dd_pixel: -13115, gain: 6391, compensation_pixel: -105 };
    const ROOM: i16 = -620;
    const NUMBER: u8 = 41;
    const PATTERN: u8 = 0;
}

impl Bus for mlx90640::Calibration {
    const RAM: RamData = RamData { t_a_v_be: 19442, t_a_ptat: 1711, v_dd_pixel: -13115, gain: 6273, compensation_pixel: -54 };
    const ROOM: i16 = -190;
    const NUMBER: u8 = 40;
    const PATTERN: u8 = 1;
}

// Each frame is judged by itself, as soon as it comes: the MLX90640's has half of the pixels, which the mask selects.
fn judge<C: Bus>(gate: &mut Gate<C>, frame: usize, shot: &Shot) -> Result<Lamp, Refusal> {
    let Shot { ram, subpage, ref pixels } = *shot;
    if let Some(warning) = gate.camera.gain_warning(ram) {
        return Ok(Lamp::Down(warning.to_string()));
    }
    let (mask, filter) = (gate.masks[subpage as usize].as_ref(), &mut gate.filters[subpage as usize]);
    filter.push(ram.compensation_pixel);
    let reading = Reading { ram, average: filter.average(), subpage, pattern: gate.pattern, pixels };
    let mut picture = vec![f32::INFINITY; C::NUM_PIXELS];
    let seen = gate.camera.pixels_to_temperatures(&gate.settings, &reading, mask, &mut picture)?;
    if seen.lost > 0 {
        return Ok(Lamp::Down(format!("{} of {} pixels lost", seen.lost, seen.written)));
    }
    let hottest = mask.iter().zip(picture).filter(|(asked, _)| **asked).map(|(_, t)| t).fold(f32::MIN, f32::max);
    println!("frame {frame}: inside {:.2}, hottest {hottest:.2} of {}", seen.t_a, seen.written);
    Ok(if hottest < LIMIT { Lamp::On } else { Lamp::Down(format!("{hottest:.2} seen")) })
}

fn open<C: Camera>(path: &str) -> Result<Gate<C>, String> {
    if !environment_is_default() {
        return Err("the floating-point environment is not the default one".to_string());
    }
    let image = std::fs::read(path).map_err(|error| format!("{path}: {error}"))?;
    let camera = C::from_data(&image).map_err(|refusal| format!("{path}: {refusal}"))?;
    if let Some(mended) = camera.mended_words().filter(|mended| mended.count > 0) {
        println!("the card goes bad: {mended}");
    }
    let settings = camera.settings(camera.resolution());
    if let Some(warning) = camera.settings_warning(&settings) {
        return Err(format!("{path}: {warning}"));
    }
    let pattern = C::Pattern::default();
    let masks = [Subpage::Zero, Subpage::One].map(|subpage| {
        let mut mask = C::subpage_mask(subpage, pattern);
        mask.as_mut()[DEAD] = false;
        mask
    });
    Ok(Gate { camera, settings, pattern, masks, filters: [Filter::new(); 2] })
}

// The frames of a file, or simulated ones; None in place of anything that is not a frame.
fn shots<C: Bus>(file: Option<&str>) -> Result<Vec<Option<Shot>>, String> {
    let Some(file) = file else { return Ok((0..FRAMES).map(|frame| Some(C::made_up(frame))).collect()) };
    let bytes = std::fs::read(file).map_err(|error| format!("{file}: {error}"))?;
    Ok(bytes.chunks(24 + C::PIXEL_BYTES).map(C::from_file).collect())
}

// The number of frames, or why the lamp goes down.
fn watch<C: Bus>(path: &str, file: Option<&str>) -> Result<usize, String> {
    let mut gate = open::<C>(path)?;
    let shots = shots::<C>(file)?;
    if shots.is_empty() {
        return Err("no frame came".to_string());
    }
    for (frame, shot) in shots.iter().enumerate() {
        let shot = shot.as_ref().ok_or(format!("frame {frame} is none of this camera"))?;
        match judge(&mut gate, frame, shot) {
            Ok(Lamp::On) => {}
            Ok(Lamp::Down(why)) => return Err(why),
            Err(refusal) => return Err(refusal.to_string()),
        }
    }
    Ok(shots.len())
}

fn main() -> ExitCode {
    let words: Vec<String> = std::env::args().skip(1).collect();
    let path = words.first().map_or("cards/sound.bin", String::as_str);
    let file = words.get(2).map(String::as_str);
    let seen = match words.get(1).map(String::as_str) {
        None | Some("mlx90641") => watch::<mlx90641::Calibration>(path, file),
        Some("mlx90640") => watch::<mlx90640::Calibration>(path, file),
        Some(other) => Err(format!("there is no camera {other}")),
    };
    match seen {
        Err(why) => {
            println!("lamp down: {why}");
            ExitCode::FAILURE
        }
        Ok(frames) => {
            println!("lamp on after {frames} frames");
            ExitCode::SUCCESS
        }
    }
}
