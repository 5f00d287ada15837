//! `words` and `write`: a card as lines of text, and back.
use crate::args::Words;
use crate::fields::field;
use crate::judge::{checked, refused, word, Card};
use crate::model::{Kind, CARD_BYTES, CARD_WORDS};
use crate::stop::{plain, read, shown, shown_target, write, Done, Found, Out, Stop};
use std::ffi::OsStr;

/// The largest size of a text of words.
const MOST_BYTES: u64 = 1 << 20;

pub const WORDS_HELP: &str = "\
Writes a card's 832 words as lines: a number, a tab, the word's number and what the
word is. The MLX90641's checked words are given as their data, 0 to 2047, mended where
a bit was flipped; all other words as they stand, in hexadecimal. The MLX90640's lines
begin with the remark `# MLX90640`. `loamchalice write` makes a card of such lines.

  --camera 41|40   the camera; without it the card tells

Status 0: good. 1: a word is damaged, and nothing is written. 2: the file can't be
read, is too short, or may be of either camera.";

pub const WRITE_HELP: &str = "\
Makes a card of 832 lines, as `loamchalice words` writes them. Of a line only the
number before the first blank counts, decimal or 0x and hexadecimal. Lines that begin
with # are remarks; `# MLX90640` or `# MLX90641` before the first word tells the camera.
The MLX90641's check bits are worked out.

  -o F             the file to write
  --camera 41|40   the camera; else the remark, else the MLX90641

Status 0: written, and the card loads. 1: written, and it does not load or looks wrong.
2: a line is no word, there are not 832, or a file can't be read or written.";

pub fn run_words(words: &Words, out: &mut Out) -> Done {
    let card = Card::open(&words.files[0], words)?;
    if card.image.len() < CARD_BYTES {
        let short = loamchalice::Refusal::ShortImage { length: card.image.len() };
        return Err(Stop::said(format!("{}: {}", card.name, refused(short, &card.image))));
    }
    let numbers = match card.kind {
        Kind::Mlx90640 => (0..CARD_WORDS).map(|k| format!("0x{:04x}", word(&card.image, k))).collect(),
        Kind::Mlx90641 => match loamchalice::Card::words(&card.image) {
            Ok(lists) => listed(&lists),
            Err(refusal) => {
                crate::stop::tell(&format!("{}: {}", card.name, refused(refusal, &card.image)));
                return Ok(Found::Bad);
            }
        },
    };
    // A text without a remark is the MLX90641's, as the program write_card takes it: line w + 1 is word w.
    if card.kind == Kind::Mlx90640 {
        out.line("# MLX90640")?;
    }
    for (k, number) in numbers.iter().enumerate() {
        out.line(format!("{number}\t{k} {}", field(card.kind, k)))?;
    }
    Ok(Found::Good)
}

// All words in order as text, from the two lists.
fn listed(lists: &loamchalice::Card) -> Vec<String> {
    let (mut data, mut others) = (lists.data.iter(), lists.unchecked.iter());
    let mut next = |k: usize| match checked(k) {
        true => data.next().map(u16::to_string),
        false => others.next().map(|word| format!("0x{word:04x}")),
    };
    (0..CARD_WORDS).filter_map(&mut next).collect()
}

pub fn run_write(words: &Words, out: &mut Out) -> Done {
    let target = words.wanted("-o")?;
    let path = &words.files[0];
    let text = read(path, MOST_BYTES)?;
    let text = std::str::from_utf8(&text).map_err(|_| Stop::said(format!("{}: the file is no text", shown(path))))?;
    let kind = words.camera()?.or_else(|| remarked(text)).unwrap_or(Kind::Mlx90641);
    let numbers = numbers_of(path, text, kind)?;
    let image = match kind {
        Kind::Mlx90640 => numbers.iter().flat_map(|word| word.to_be_bytes()).collect(),
        Kind::Mlx90641 => coded(&numbers).map_err(|refusal| Stop::said(format!("{}: {}", shown(path), refusal.text())))?,
    };
    write(target, &image, out)?;
    let bad = Card { name: shown_target(target), image, kind }.warn_if_bad();
    Ok(Found::bad_if(bad))
}

// The camera that a remark before the first word names.
fn remarked(text: &str) -> Option<Kind> {
    let remarks = text.lines().take_while(|line| line.starts_with('#'));
    let mut named = remarks.filter_map(|line| [Kind::Mlx90640, Kind::Mlx90641].into_iter().find(|kind| line.contains(kind.name())));
    named.next()
}

fn numbers_of(path: &OsStr, text: &str, kind: Kind) -> Result<Vec<u16>, Stop> {
    let mut numbers = Vec::new();
    for (k, line) in text.lines().enumerate().filter(|(_, line)| !line.starts_with('#')) {
        let failed = |what: String| Stop::said(format!("{}: line {} {what}", shown(path), k + 1));
        if numbers.len() == CARD_WORDS {
            return Err(failed(format!("is one too many: a card has {CARD_WORDS} words")));
        }
        let most = if kind == Kind::Mlx90641 && checked(numbers.len()) { 2047 } else { 0xFFFF };
        let start = line.split([' ', '\t']).next().unwrap_or_default();
        let number = number(start).filter(|number| *number <= most);
        let short: String = start.chars().take(20).collect();
        numbers.push(number.ok_or_else(|| failed(format!("must begin with a number from 0 to {most}, and begins with \"{}\"", plain(OsStr::new(&short)))))?);
    }
    if numbers.len() < CARD_WORDS {
        return Err(Stop::said(format!("{}: {} words, and a card has {CARD_WORDS}", shown(path), numbers.len())));
    }
    Ok(numbers)
}

// A number in digits only: a sign is not allowed.
fn number(text: &str) -> Option<u16> {
    let (digits, base) = text.strip_prefix("0x").map_or((text, 10), |digits| (digits, 16));
    let plain = !digits.is_empty() && digits.chars().all(|c| c.is_digit(base));
    plain.then(|| u16::from_str_radix(digits, base).ok()).flatten()
}

fn coded(numbers: &[u16]) -> Result<Vec<u8>, loamchalice::Refusal> {
    let (mut data, mut unchecked) = ([0; 814], [0; 18]);
    let of = |wanted: bool| (0..CARD_WORDS).filter(move |k| checked(*k) == wanted).map(|k| numbers[k]);
    data.iter_mut().zip(of(true)).for_each(|(entry, number)| *entry = number);
    unchecked.iter_mut().zip(of(false)).for_each(|(entry, number)| *entry = number);
    loamchalice::Card { data, unchecked }.write().map(|image| image.to_vec())
}
