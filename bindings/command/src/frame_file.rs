//! Frames in files: docs/FRAMES.md has the format.
use crate::model::Kind;
use loamchalice::{RamData, Subpage};
use std::io::{self, Read};

pub const MAGIC: &[u8; 8] = b"LOAMFRM1";
/// The number of bytes before the pixels.
pub const HEAD: usize = 24;

/// What was read from a camera for one subpage.
#[derive(Clone, Debug, PartialEq)]
pub struct Shot {
    pub kind: Kind,
    pub subpage: Subpage,
    /// The MLX90640's pattern: chess if true, else interleave. Always false for the MLX90641.
    pub chess: bool,
    /// The camera's resolution when it was read, 0 to 3.
    pub resolution: u8,
    pub ram: RamData,
    /// Two bytes a pixel, the upper first.
    pub pixels: Vec<u8>,
}

impl Shot {
    pub fn bytes(&self) -> Vec<u8> {
        let camera = match self.kind {
            Kind::Mlx90641 => 41,
            Kind::Mlx90640 => 40,
        };
        let mut bytes = MAGIC.to_vec();
        bytes.extend([camera, self.subpage as u8, self.chess.into(), self.resolution]);
        let RamData { t_a_v_be, t_a_ptat, v_dd_pixel, gain, compensation_pixel } = self.ram;
        bytes.extend([t_a_v_be, t_a_ptat, v_dd_pixel, gain, compensation_pixel, 0].into_iter().flat_map(i16::to_be_bytes));
        bytes.extend(&self.pixels);
        bytes
    }

    /// The next frame of a stream; `None` if the stream ends between two frames. An error is the rest of a sentence about this frame.
    pub fn next(stream: &mut impl Read) -> Result<Option<Self>, String> {
        let mut head = [0; HEAD];
        match filled(stream, &mut head)? {
            0 => return Ok(None),
            HEAD => {}
            length => return Err(cut(length, HEAD, &head)),
        }
        let mut shot = Self::headed(&head)?;
        let length = filled(stream, &mut shot.pixels)?;
        if length < shot.pixels.len() {
            return Err(cut(HEAD + length, HEAD + shot.pixels.len(), &head));
        }
        Ok(Some(shot))
    }

    // A frame with this head and pixels of zero.
    fn headed(head: &[u8; HEAD]) -> Result<Self, String> {
        if !head.starts_with(MAGIC) {
            return Err("does not begin with LOAMFRM1".to_string());
        }
        let [camera, subpage, pattern, resolution] = [head[8], head[9], head[10], head[11]];
        let kind = match camera {
            41 => Kind::Mlx90641,
            40 => Kind::Mlx90640,
            _ => return Err(format!("is of a camera {camera}, and must be of 41 or 40")),
        };
        if subpage > 1 || resolution > 3 {
            return Err(format!("has subpage {subpage} and resolution {resolution}, which go to 1 and to 3"));
        }
        if pattern > 1 || (pattern == 1 && kind == Kind::Mlx90641) {
            return Err(format!("has pattern {pattern}, which the {} has not", kind.name()));
        }
        if head[22..] != [0, 0] {
            return Err("has bytes 22 and 23 that are not zero".to_string());
        }
        let word = |k: usize| i16::from_be_bytes([head[12 + 2 * k], head[13 + 2 * k]]);
        let ram = RamData { t_a_v_be: word(0), t_a_ptat: word(1), v_dd_pixel: word(2), gain: word(3), compensation_pixel: word(4) };
        let subpage = if subpage == 0 { Subpage::Zero } else { Subpage::One };
        Ok(Shot { kind, subpage, chess: pattern == 1, resolution, ram, pixels: vec![0; 2 * kind.pixels()] })
    }
}

// Fills `bytes` from the stream, and returns how many bytes came before its end.
fn filled(stream: &mut impl Read, bytes: &mut [u8]) -> Result<usize, String> {
    let mut length = 0;
    while length < bytes.len() {
        match stream.read(&mut bytes[length..]) {
            Ok(0) => break,
            Ok(more) => length += more,
            Err(error) if error.kind() == io::ErrorKind::Interrupted => {}
            Err(error) => return Err(format!("can't be read: {}", crate::stop::reason(&error))),
        }
    }
    Ok(length)
}

// The error for a frame that ends too early, or that does not even begin like a frame.
fn cut(length: usize, whole: usize, head: &[u8]) -> String {
    let begun = length.min(MAGIC.len());
    if head[..begun] != MAGIC[..begun] {
        return "does not begin with LOAMFRM1".to_string();
    }
    format!("is cut: {length} bytes of {whole}")
}

/// All frames of a file's bytes, at least one. An error is a sentence without the file's name.
pub fn shots(bytes: &[u8]) -> Result<Vec<Shot>, String> {
    let mut rest = bytes;
    let mut shots = Vec::new();
    loop {
        match Shot::next(&mut rest) {
            Ok(Some(shot)) => shots.push(shot),
            Ok(None) if shots.is_empty() => return Err("the file is empty, and has no frame".to_string()),
            Ok(None) => return Ok(shots),
            Err(what) => return Err(format!("frame {} {what}", shots.len() + 1)),
        }
    }
}

#[cfg(test)]
mod tests {
    use super::*;

    fn shot(kind: Kind) -> Shot {
        let ram = RamData { t_a_v_be: 1, t_a_ptat: -2, v_dd_pixel: 3, gain: 4, compensation_pixel: -32768 };
        let pixels = (0..2 * kind.pixels()).map(|k| k as u8).collect();
        Shot { kind, subpage: Subpage::One, chess: kind == Kind::Mlx90640, resolution: 3, ram, pixels }
    }

    #[test]
    fn what_is_written_is_read() {
        for (kind, length) in [(Kind::Mlx90641, 408), (Kind::Mlx90640, 1560)] {
            let bytes = shot(kind).bytes();
            assert_eq!(bytes.len(), length);
            assert_eq!(bytes[12..24], [0, 1, 0xFF, 0xFE, 0, 3, 0, 4, 0x80, 0, 0, 0]);
            assert_eq!(shots(&bytes.repeat(3)), Ok(vec![shot(kind); 3]));
            assert!((1..length).all(|k| shots(&bytes[..k]).is_err()));
        }
    }

    #[test]
    fn each_byte_of_the_head_counts() {
        let bytes = shot(Kind::Mlx90641).bytes();
        for k in (0..12).chain([22, 23]) {
            let mut other = bytes.clone();
            other[k] = 0x7F;
            assert!(shots(&other).is_err(), "byte {k}");
        }
        let mut chess = bytes;
        chess[10] = 1;
        assert!(shots(&chess).is_err_and(|what| what.contains("pattern 1")));
    }
}
