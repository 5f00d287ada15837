//! Simulated scenes, and frames that show them: readings from which the card's own calibration computes the wanted temperatures.
use crate::frame_file::Shot;
use crate::judge::USUAL_GAIN;
use crate::model::{Kind, Model};
use loamchalice::{RamData, Refusal, Subpage};

/// The values of `--scene`; the first is the default.
pub const SCENES: [&str; 3] = ["spot", "hand", "room"];

/// The camera's own temperature in these frames.
const INSIDE: f32 = 32.0;

/// The temperature at a point and a time, each coordinate from 0 to 1.
pub fn degrees(scene: &str, x: f32, y: f32, time: f32) -> f32 {
    let room = 21.5 + 1.5 * (1.0 - y) + 0.8 * x;
    match scene {
        "hand" => room.max(hand(x, y, time)),
        "spot" => room.max(hand(x, y, 0.0)) + (12.0 + 66.0 * time) * bump(x - 0.7, y - 0.35, 0.11),
        _ => room,
    }
}

// 1 in the middle, falling off with the distance: near a Gaussian curve, but computed by basic operations, which give the same result on every machine.
fn bump(dx: f32, dy: f32, size: f32) -> f32 {
    let rest = (1.0 - (dx * dx + dy * dy) / (8.0 * size * size)).max(0.0);
    rest * rest * rest * rest
}

// A palm and four fingers that come in from the left; negative infinity outside the hand.
fn hand(x: f32, y: f32, time: f32) -> f32 {
    let (u, v) = (x - 0.22 - 0.5 * time, y - 0.68);
    let palm = u * u / (0.19 * 0.19) + v * v / (0.22 * 0.22) < 1.0;
    let finger = |k: i32| (u - 0.097 * (k as f32 - 1.5)).abs() < 0.034 && (-0.5..0.0).contains(&v);
    match (palm, (0..4).any(finger)) {
        (true, _) => 33.5 + 1.2 * bump(u, v, 0.1),
        (_, true) => 31.5 + 2.0 * (v + 0.5).max(0.0),
        _ => f32::NEG_INFINITY,
    }
}

// Noise spread evenly from -1 to 1, the same in each run.
fn noise(a: usize, b: usize) -> f32 {
    let mut n = (a as u32).wrapping_mul(0x9E37_79B9) ^ (b as u32).wrapping_mul(0x85EB_CA6B) ^ 0x2545_F491;
    for shift in [16, 13, 16] {
        n = (n ^ (n >> shift)).wrapping_mul(0xC2B2_AE35);
    }
    (n >> 8) as f32 / (1 << 23) as f32 - 1.0
}

/// A simulated camera that looks at a scene.
pub struct Made<'a> {
    pub camera: &'a dyn Model,
    pub scene: &'static str,
    pub frames: usize,
    /// Pixels whose readings have no temperature.
    pub lost: Vec<usize>,
    ram: RamData,
}

impl<'a> Made<'a> {
    /// RAM words near the datasheet's, for this card: its own supply and gain, and the V_BE at which the camera is at 32 degrees.
    pub fn new(camera: &'a dyn Model, scene: &'static str, frames: usize, lost: Vec<usize>) -> Result<Self, Refusal> {
        let record = camera.record();
        let gain = if USUAL_GAIN.contains(&record.gain) { record.gain as i16 } else { 6391 };
        let compensation_pixel = if camera.kind() == Kind::Mlx90641 { -105 } else { -54 };
        let ram = RamData { t_a_v_be: 19442, t_a_ptat: 1711, v_dd_pixel: record.v_dd_25, gain, compensation_pixel };
        let mut made = Made { camera, scene, frames, lost, ram };
        made.ram.t_a_v_be = made.base()?;
        Ok(made)
    }

    // Finds V_BE: the greater it is, the colder the camera is inside.
    fn base(&self) -> Result<i16, Refusal> {
        let mut shot = self.blank(0);
        let (mut low, mut high) = (1, i16::MAX);
        while high - low > 1 {
            shot.ram.t_a_v_be = low + (high - low) / 2;
            let mut numbers = vec![0.0; shot.kind.pixels()];
            let seen = self.camera.temperatures(&self.camera.settings(shot.resolution), &shot, None, false, &mut numbers)?;
            if seen.t_a > INSIDE {
                low = shot.ram.t_a_v_be;
            } else {
                high = shot.ram.t_a_v_be;
            }
        }
        Ok(low)
    }

    // A frame whose pixels read zero; subpages take turns.
    fn blank(&self, number: usize) -> Shot {
        let kind = self.camera.kind();
        let subpage = [Subpage::Zero, Subpage::One][number % 2];
        let resolution = self.camera.record().resolution;
        Shot { kind, subpage, chess: kind == Kind::Mlx90640, resolution, ram: self.ram, pixels: vec![0; 2 * kind.pixels()] }
    }

    /// The wanted temperatures of the pixels in a frame, with a little noise.
    fn wanted(&self, number: usize) -> Vec<f32> {
        let (width, height) = self.camera.kind().size();
        // Two frames of the MLX90640 show one moment.
        let moments = if self.camera.kind() == Kind::Mlx90640 { (self.frames.div_ceil(2), number / 2) } else { (self.frames, number) };
        let time = if moments.0 > 1 { moments.1 as f32 / (moments.0 - 1) as f32 } else { 1.0 };
        let place = |pixel: usize| ((pixel % width) as f32 / (width - 1) as f32, (pixel / width) as f32 / (height - 1) as f32);
        (0..width * height)
            .map(|pixel| {
                let (x, y) = place(pixel);
                degrees(self.scene, x, y, time) + 0.2 * noise(pixel, number)
            })
            .collect()
    }

    /// A frame: for each pixel the least reading that is at least as warm as wanted. Only the compensation pixel has noise that the readings do not
    /// compensate for, as a real camera's has.
    pub fn shot(&self, number: usize) -> Result<Shot, Refusal> {
        let wanted = self.wanted(number);
        let mut shot = self.blank(number);
        let settings = self.camera.settings(shot.resolution);
        let mut bounds = vec![(i32::from(i16::MIN), i32::from(i16::MAX)); wanted.len()];
        for _ in 0..16 {
            let middles: Vec<i16> = bounds.iter().map(|(low, high)| ((low + high) >> 1) as i16).collect();
            shot.pixels = middles.iter().flat_map(|reading| reading.to_be_bytes()).collect();
            let mut numbers = vec![f32::NAN; wanted.len()];
            self.camera.temperatures(&settings, &shot, None, false, &mut numbers)?;
            for (k, bound) in bounds.iter_mut().enumerate() {
                if numbers[k] >= wanted[k] {
                    bound.1 = i32::from(middles[k]);
                } else {
                    // Too cold, or so cold that the temperature is NaN.
                    bound.0 = (i32::from(middles[k]) + 1).min(bound.1);
                }
            }
        }
        let reading = |pixel: usize| if self.lost.contains(&pixel) { i16::MIN } else { bounds[pixel].1 as i16 };
        shot.pixels = (0..wanted.len()).flat_map(|pixel| reading(pixel).to_be_bytes()).collect();
        shot.ram.compensation_pixel += (4.0 * noise(number, 7777)).round() as i16;
        Ok(shot)
    }
}
