//! Shows a card, and a frame as a picture: temperatures as a grid, and as an image file that any viewer opens.
//!   cargo run --offline --example show -- CARD [FRAME [PICTURE.ppm]]
//! FRAME, or - for none, is an MLX90641's frame file (docs/FRAMES.md), as `loamchalice simulate` writes it. Without one a simulated frame with a warm spot is
//! shown.
use loamchalice::{scrub, Calibration, RamData, Subpage};
use std::error::Error;

fn show_card(image: &[u8], camera: &Calibration) -> Result<(), Box<dyn Error>> {
    println!("resolution {}, emissivity {}, gain {}", camera.resolution(), camera.emissivity(), camera.gain());
    match camera.temperature_gradient_coefficient() {
        Some(gradient) => println!("gradient {gradient}"),
        None => println!("no gradient"),
    }
    println!("supply at 25 degrees {}, K_VDD {}", camera.v_dd_25(), camera.k_v_dd());
    println!("range   from  K_sTo          coefficient");
    for range in 0..8 {
        let (corner, k) = (camera.corner_temperatures()[range], camera.k_s_to()[range]);
        println!("{range:5} {corner:6}  {k:<13e}  {}", camera.range_coefficients()[range]);
    }
    println!("{}", camera.mended());
    let mut copy = image.to_vec();
    let scrubbed = scrub(&mut copy)?;
    if !scrubbed.changed().is_empty() {
        println!("mended words: {:?}", scrubbed.changed());
    }
    Ok(())
}

// Blue for the coldest, red for the hottest, black for NaN; each pixel is 20 by 20.
fn picture_file(picture: &[f32; 192]) -> Vec<u8> {
    let finite = || picture.iter().copied().filter(|t| t.is_finite());
    let (low, high) = (finite().fold(f32::MAX, f32::min), finite().fold(f32::MIN, f32::max));
    let color = |t: f32| {
        if !t.is_finite() {
            return [0, 0, 0];
        }
        let warm = if high > low { (t - low) / (high - low) } else { 0.5 };
        [(255.0 * warm) as u8, (255.0 * (1.0 - (2.0 * warm - 1.0).abs())) as u8, (255.0 * (1.0 - warm)) as u8]
    };
    let mut file = b"P6 320 240 255\n".to_vec();
    for y in 0..240 {
        for x in 0..320 {
            file.extend(color(picture[y / 20 * 16 + x / 20]));
        }
    }
    file
}

fn frame_of(path: Option<&String>) -> Result<(RamData, Subpage, [u8; 384]), Box<dyn Error>> {
    let Some(path) = path else {
        let ram = RamData { t_a_v_be: 19442, t_a_ptat: 1711, v_dd_pixel: -13115, gain: 6391, compensation_pixel: -105 };
        let mut pixels = [0; 384];
        for (i, pair) in pixels.chunks_mut(2).enumerate() {
            let (x, y) = (i as i32 % 16 - 10, i as i32 / 16 - 4);
            pair.copy_from_slice(&((-620 + 900 / (1 + x * x + y * y)) as i16).to_be_bytes());
        }
        return Ok((ram, Subpage::Zero, pixels));
    };
    let bytes = std::fs::read(path).map_err(|error| format!("{path}: {error}"))?;
    // The camera's byte is 41.
    if bytes.len() != 408 || !bytes.starts_with(b"LOAMFRM1\x29") {
        return Err(format!("{path} is no frame of the MLX90641").into());
    }
    let word = |k: usize| i16::from_be_bytes([bytes[12 + 2 * k], bytes[13 + 2 * k]]);
    let subpage = if bytes[9] == 0 { Subpage::Zero } else { Subpage::One };
    let ram = RamData { t_a_v_be: word(0), t_a_ptat: word(1), v_dd_pixel: word(2), gain: word(3), compensation_pixel: word(4) };
    Ok((ram, subpage, bytes[24..].try_into()?))
}

fn main() -> Result<(), Box<dyn Error>> {
    let words: Vec<String> = std::env::args().skip(1).collect();
    if words.is_empty() || words.len() > 3 || words[0] == "--help" {
        println!("usage: show CARD [FRAME [PICTURE.ppm]]");
        return Ok(());
    }
    let image = std::fs::read(&words[0]).map_err(|error| format!("{}: {error}", words[0]))?;
    let camera = Calibration::from_data(&image)?;
    show_card(&image, &camera)?;
    let (ram, subpage, pixels) = frame_of(words.get(1).filter(|path| *path != "-"))?;
    if let Some(warning) = camera.gain_warning(ram) {
        println!("{warning}");
    }
    let (picture, frame) = camera.picture(&camera.settings(camera.resolution()), ram, subpage, &pixels)?;
    println!("inside {:.2}, {} pixels lost", frame.t_a, frame.lost);
    for row in picture.chunks(16) {
        println!("{}", row.iter().map(|t| format!("{t:7.2}")).collect::<String>());
    }
    if let Some(path) = words.get(2) {
        std::fs::write(path, picture_file(&picture)).map_err(|error| format!("{path}: {error}"))?;
    }
    Ok(())
}
