//! `cards`: writes a line for each card.
use crate::args::Words;
use crate::json;
use crate::judge::{contradicted, counted, damaged_words, look, oddities, refused, Look, MOST_BYTES};
use crate::model::Kind;
use crate::stop::{read, reason, shown, Done, Found, Out, Stop};
use loamchalice::Refusal;
use std::ffi::{OsStr, OsString};
use std::fs;
use std::path::Path;

pub const HELP: &str = "\
Tells of each card which camera it is of and how it is. Of a folder all files
are taken whose names end in .bin.

  --camera 41|40   the camera, where the cards are all of one
  --json           a list of objects: file, camera, state, bad, sentence, mended,
                   last_mended, damaged, gain

Without --camera the card tells. The MLX90641's words have check bits: a card on
which half of the words or more have the right ones is the MLX90641's, and that
is safe. The MLX90640's have none: MLX90640 is said where at most a quarter look
right, and bytes that are no card at all look the same, as does an MLX90641's
card with damage in most of its words. Words 0 and 0xFFFF do not count, so wiped
and blank cards may be of either.

States: sound; loads (the MLX90640's: damage does not show); mended (a flipped
bit in so many words: it works, scrub it); damaged; short; wiped; blank; odd (it
loads, and a number on it can't be right, as a gain far from usual); refused;
unknown.

Status 0: every card can be used. 1: one can't, that is all but sound, loads and
mended. 2: a file can't be read.";

/// What is reported about a card.
pub struct Verdict {
    /// `None` if the card may be of either camera.
    kind: Option<Kind>,
    state: &'static str,
    sentence: String,
    mended: Option<loamchalice::Mended>,
    damaged: Vec<u16>,
    gain: Option<f32>,
}

impl Verdict {
    fn new(kind: Option<Kind>, state: &'static str, sentence: impl Into<String>) -> Self {
        Verdict { kind, state, sentence: sentence.into(), mended: None, damaged: Vec::new(), gain: None }
    }

    pub fn of(image: &[u8], given: Option<Kind>) -> Self {
        match (look(image), given) {
            (Look::Short, _) => Verdict::new(given, "short", refused(Refusal::ShortImage { length: image.len() }, image)),
            (Look::Wiped, _) => Verdict::new(given, "wiped", "wiped: every byte is zero"),
            (Look::Blank, _) => Verdict::new(given, "blank", "blank: every byte is 0xFF"),
            (seen, Some(kind)) => {
                let mut verdict = Verdict::loaded(image, kind);
                verdict.sentence += &contradicted(given, seen).map(|other| format!(" ({other})")).unwrap_or_default();
                verdict
            }
            (Look::Of(kind), None) => Verdict::loaded(image, kind),
            (Look::Unknown, None) => Verdict::new(None, "unknown", "the words do not tell the camera, say --camera 41 or --camera 40"),
        }
    }

    fn loaded(image: &[u8], kind: Kind) -> Self {
        let camera = match kind.load(image) {
            Ok(camera) => camera,
            Err(refusal) => {
                let state = if matches!(refusal, Refusal::DamagedWord { .. }) { "damaged" } else { "refused" };
                let damaged = if state == "damaged" { damaged_words(image) } else { Vec::new() };
                return Verdict { damaged, ..Verdict::new(Some(kind), state, refused(refusal, image)) };
            }
        };
        let record = camera.record();
        let odd = oddities(&record);
        let mended = camera.mended();
        let (state, sentence) = match (odd.first(), mended) {
            (Some(first), _) if odd.len() > 1 => ("odd", format!("{first}, and {} more", odd.len() - 1)),
            (Some(first), _) => ("odd", first.clone()),
            (None, None) => ("loads", "loads (its words have no check bits, so damage does not show)".to_string()),
            (None, Some(mended)) if mended.count > 0 => {
                let last = mended.last.map(|last| format!(" (last {last})")).unwrap_or_default();
                ("mended", format!("{} mended{last}", counted(mended.count, "word")))
            }
            (None, Some(_)) => ("sound", "sound".to_string()),
        };
        Verdict { mended, gain: Some(record.gain), ..Verdict::new(Some(kind), state, sentence) }
    }

    pub fn bad(&self) -> bool {
        !["sound", "loads", "mended"].contains(&self.state)
    }

    pub fn line(&self, name: &str) -> String {
        format!("{name}: {}, {}", self.kind.map_or("either camera", Kind::name), self.sentence)
    }

    fn json(&self, name: &str) -> String {
        json::object(&[
            ("file", json::string(name)),
            ("camera", json::or_null(self.kind.map(|kind| json::string(kind.name())))),
            ("state", json::string(self.state)),
            ("bad", self.bad().to_string()),
            ("sentence", json::string(&self.sentence)),
            ("mended", json::or_null(self.mended.map(|mended| mended.count.to_string()))),
            ("last_mended", json::or_null(self.mended.and_then(|mended| mended.last).map(|last| last.to_string()))),
            ("damaged", json::list(self.damaged.iter().map(u16::to_string))),
            ("gain", json::or_null(self.gain.map(|gain| gain.to_string()))),
        ])
    }
}

pub fn run(words: &Words, out: &mut Out) -> Done {
    let given = words.camera()?;
    let mut bad = false;
    let mut lines = Vec::new();
    let mut unread = None;
    for path in words.files.iter().map(|path| files_of(path)).collect::<Result<Vec<_>, _>>()?.concat() {
        let image = match read(&path, MOST_BYTES) {
            Ok(image) => image,
            // The other cards are reported all the same.
            Err(stop) => {
                unread = tell_before(unread, stop);
                continue;
            }
        };
        let verdict = Verdict::of(&image, given);
        bad |= verdict.bad();
        if words.has("--json") {
            lines.push(verdict.json(&path.to_string_lossy()));
        } else {
            out.line(verdict.line(&shown(&path)))?;
        }
    }
    if words.has("--json") {
        out.line(format!("[{}]", lines.join(",\n ")))?;
    }
    unread.map_or(Ok(Found::bad_if(bad)), Err)
}

// Reports the trouble before this one; the last trouble ends the command.
fn tell_before(before: Option<Stop>, stop: Stop) -> Option<Stop> {
    if let Some(Stop::Said(sentence)) = before {
        crate::stop::tell(&sentence);
    }
    Some(stop)
}

// A folder's cards in the order of their names, or the file itself.
fn files_of(path: &OsStr) -> Result<Vec<OsString>, Stop> {
    if !Path::new(path).is_dir() {
        return Ok(vec![path.to_os_string()]);
    }
    let failed = |error: std::io::Error| Stop::said(format!("{}: {}", shown(path), reason(&error)));
    let mut found = Vec::new();
    for entry in fs::read_dir(path).map_err(failed)? {
        let file = entry.map_err(failed)?.path();
        if file.extension().is_some_and(|ending| ending == "bin") && !file.is_dir() {
            found.push(file.into_os_string());
        }
    }
    if found.is_empty() {
        return Err(Stop::said(format!("{}: the folder has no file whose name ends in .bin", shown(path))));
    }
    found.sort();
    Ok(found)
}
