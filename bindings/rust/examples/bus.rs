//! Reads a card in pieces, and frames, through a closure in place of a bus, with the camera's addresses. Words come big-endian, as from the device.
//!   cargo run --offline --example bus -- cards/sound.bin
use loamchalice::{Calibration, RamData, Reader, Refusal, Subpage};

const CARD: u16 = 0x2400; // 832 words
const RAM: u16 = 0x0400;
const V_BE: u16 = 0x0580;
const COMPENSATION: [u16; 2] = [0x0588, 0x05A8]; // of each subpage
const GAIN: u16 = 0x058A;
const PTAT: u16 = 0x05A0;
const SUPPLY: u16 = 0x05AA;

fn word(read: &mut impl FnMut(u16, &mut [u8]), address: u16) -> i16 {
    let mut bytes = [0; 2];
    read(address, &mut bytes);
    i16::from_be_bytes(bytes)
}

// Reads the card in pieces of 64 bytes. Each piece is checked as it comes, so a damaged word ends the reading at once.
fn read_card(pieces: impl Iterator<Item = [u8; 64]>) -> Result<Calibration, Refusal> {
    let mut reader = Reader::new();
    for piece in pieces {
        if let Some(camera) = reader.take(&piece)? {
            return Ok(camera);
        }
    }
    reader.finished()
}

// RAM has six blocks of 32 words for the pixels of subpage 0, each followed by one for subpage 1.
fn read_frame(read: &mut impl FnMut(u16, &mut [u8]), subpage: Subpage) -> (RamData, [u8; 384]) {
    let mut pixels = [0; 384];
    for (block, bytes) in pixels.chunks_mut(64).enumerate() {
        read(RAM + 64 * block as u16 + 32 * subpage as u16, bytes);
    }
    let ram = RamData {
        t_a_v_be: word(read, V_BE),
        t_a_ptat: word(read, PTAT),
        v_dd_pixel: word(read, SUPPLY),
        gain: word(read, GAIN),
        compensation_pixel: word(read, COMPENSATION[subpage as usize]),
    };
    (ram, pixels)
}

fn main() -> Result<(), Box<dyn std::error::Error>> {
    let path = std::env::args().nth(1).unwrap_or_else(|| "cards/sound.bin".to_string());
    let card = std::fs::read(path)?;
    // In place of the device: the card as it is, and a room in RAM.
    let mut read = |address: u16, bytes: &mut [u8]| {
        for (k, pair) in bytes.chunks_mut(2).enumerate() {
            let at = address + k as u16;
            let value: i16 = match at {
                V_BE => 19442,
                PTAT => 1711,
                SUPPLY => -13115,
                GAIN => 6391,
                0x0588 | 0x05A8 => -105,
                _ => -620 + (at % 16) as i16 * 8,
            };
            let there = card.get(2 * usize::from(at.wrapping_sub(CARD))..).filter(|_| at >= CARD);
            pair.copy_from_slice(there.and_then(|rest| rest.get(..2)).unwrap_or(&value.to_be_bytes()));
        }
    };
    let camera = read_card((0..26).map(|piece| {
        let mut bytes = [0; 64];
        read(CARD + 32 * piece, &mut bytes);
        bytes
    }))?;
    let settings = camera.settings(2); // bits 10 and 11 of the control register
    for subpage in [Subpage::Zero, Subpage::One] {
        let (ram, pixels) = read_frame(&mut read, subpage);
        if let Some(warning) = camera.gain_warning(ram) {
            eprintln!("{warning}");
        }
        let (picture, frame) = camera.picture(&settings, ram, subpage, &pixels)?;
        println!("{subpage:?}: inside {:.2}, first pixel {:.2}, {} written, {} lost", frame.t_a, picture[0], frame.written, frame.lost);
    }
    Ok(())
}
