//! Checks every word, encodes every number, and tests the two readers of parts.
use crate::document::{self, Code};
use crate::library::border::Told;
use crate::library::{self, Part, Word};
use crate::tally::Tally;
use mlx9064x::error::LibraryError;
use mlx9064x::mlx90641::hamming::{add_checksum, validate_checksum};

fn good(word: u16) -> Word {
    Word { told: Told { number: 0, place: 0, value: 0 }, word, mended: 0, bit: 0 }
}

fn refused(number: u64, place: u16, value: u16) -> Word {
    Word { told: Told { number, place: place.into(), value: value.into() }, word: 0, mended: 0, bit: 0 }
}

// The result as the crate has it, which doesn't distinguish a mended word from a clean one.
fn plain(word: Word) -> Word {
    Word { mended: 0, bit: 0, ..word }
}

pub fn compare(tally: &mut Tally) {
    let code = Code::new();
    for word in 0..=u16::MAX {
        let by_crate = match validate_checksum(word) {
            Ok(data) => good(data),
            Err(LibraryError::Checksum(bits)) => refused(3, 0, bits),
            Err(other) => panic!("{other:?}"),
        };
        let mut by_document = code.check(word).map_or(refused(3, 0, word), good);
        if let Some(bit) = code.flipped(word) {
            (by_document.mended, by_document.bit) = (1, bit);
        }
        let by_library = library::check(word);
        tally.count(match (by_library.number, by_library.mended) {
            (0, 0) => "words checked, clean",
            (0, _) => "words checked, mended",
            _ => "words checked, refusal 3",
        });
        if plain(by_library) != by_crate || by_library != by_document {
            tally.disagree(|| format!("check 0x{word:04X}: crate {by_crate:?}, document {by_document:?}, library {by_library:?}"));
        }
    }
    for data in 0..=u16::MAX {
        let by_crate = match add_checksum(data) {
            Ok(word) => good(word),
            Err(LibraryError::Other(_)) => refused(9, data, 0),
            Err(other) => panic!("{other:?}"),
        };
        let by_document = if data <= 2047 { good(document::encode(data)) } else { refused(9, data, 0) };
        let by_library = library::encode(data);
        tally.count(if by_library.number == 0 { "data encoded, good" } else { "data encoded, refusal 9" });
        if by_library != by_crate || by_library != by_document {
            tally.disagree(|| format!("encode {data}: crate {by_crate:?}, document {by_document:?}, library {by_library:?}"));
        }
    }
    readers(tally);
}

// The crate has no such readers: judged by document 01 alone.
fn readers(tally: &mut Tally) {
    let image = vec![0u8; 3000];
    for length in (0..4).chain(1660..1670).chain([2999, 3000]) {
        for row in (0..10).chain([usize::MAX / 64, usize::MAX]) {
            let is = library::alpha_row(&image[..length], row);
            let want = if row <= 5 && length >= 1664 { Part { start: 512 + 64 * row, length: 64 } } else { Part { start: 0, length: 0 } };
            tally.count("alpha rows");
            if is != want {
                tally.disagree(|| format!("row {row} of {length} bytes: {is:?}, document {want:?}"));
            }
        }
    }
    let table = vec![0i32; 400];
    for zero in [0, 1, 191, 192, 193, 400] {
        for one in [0, 1, 191, 192, 193, 400] {
            for subpage in 0..=u8::MAX {
                let is = library::subpage_offsets(&table[..zero], &table[..one], subpage);
                let asked = if subpage == 0 { zero } else { one };
                let want = Part { start: 0, length: if asked < 192 { 0 } else { 192 } };
                tally.count("offset parts");
                if is != want {
                    tally.disagree(|| format!("offsets of {zero}, {one}, subpage {subpage}: {is:?}, document {want:?}"));
                }
            }
        }
    }
}
