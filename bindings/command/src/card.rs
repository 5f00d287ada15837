//! `card`: shows a card's record.
use crate::args::Words;
use crate::cards::Verdict;
use crate::judge::{counted, look, oddities, Card, Look, MOST_BYTES};
use crate::model::{Kind, Record};
use crate::stop::{read, shown, Done, Found, Out, Stop};
use loamchalice::scrub;

pub const HELP: &str = "\
Shows what stands on a card, with units, and what looks wrong.

  --camera 41|40   the camera; without it the card tells (`loamchalice cards --help`
                   says when that is safe)

Status 0: nothing looks wrong. 1: something does, or the card does not load.
2: the file can't be read, or may be of either camera.";

pub fn run(words: &Words, out: &mut Out) -> Done {
    let (name, given) = (shown(&words.files[0]), words.camera()?);
    let image = read(&words.files[0], MOST_BYTES)?;
    // These images have nothing to show, whatever the camera.
    if matches!(look(&image), Look::Short | Look::Wiped | Look::Blank) {
        out.line(Verdict::of(&image, given).line(&name))?;
        return Ok(Found::Bad);
    }
    let card = Card::of(name, image, given)?;
    let camera = match card.load() {
        Ok(camera) => camera,
        Err(Stop::Said(sentence)) => {
            out.line(sentence)?;
            return Ok(Found::Bad);
        }
        Err(stop) => return Err(stop),
    };
    let record = camera.record();
    let (width, height) = card.kind.size();
    out.line(format!("{}: a card of the {}, {width} by {height} pixels", card.name, card.kind.name()))?;
    numbers(&record, out)?;
    compensation(&record, out)?;
    ranges(&record, out)?;
    pixels(&record, out)?;
    mending(&card, out)?;
    let odd = oddities(&record);
    for what in &odd {
        out.line(format!("looks wrong: {what}"))?;
    }
    if odd.is_empty() {
        out.line("nothing looks wrong")?;
    }
    Ok(Found::bad_if(!odd.is_empty()))
}

fn row(out: &mut Out, name: &str, value: String) -> Result<(), Stop> {
    out.line(format!("  {name:<34}{value}"))
}

fn numbers(record: &Record, out: &mut Out) -> Result<(), Stop> {
    let none = || "not on the card".to_string();
    row(out, "resolution", format!("{} ({} bits)", record.resolution, 16 + record.resolution))?;
    row(out, "emissivity", record.emissivity.map_or_else(none, |e| e.to_string()))?;
    row(out, "gain", format!("{} counts", record.gain))?;
    row(out, "gradient", record.gradient.map_or_else(|| "none".to_string(), |g| g.to_string()))?;
    row(out, "supply at 25 degrees (V_DD25)", format!("{} counts", record.v_dd_25))?;
    row(out, "supply (K_VDD)", format!("{} counts per volt", record.k_v_dd))?;
    row(out, "V_PTAT25", format!("{} counts", record.v_ptat_25))?;
    row(out, "K_TPTAT", format!("{} counts per degree", record.k_t_ptat))?;
    row(out, "K_VPTAT", format!("{:.6} per volt", record.k_v_ptat))?;
    row(out, "alpha_PTAT", record.alpha_ptat.to_string())?;
    row(out, "K_sTa", format!("{:.6} per degree", record.k_s_ta))
}

fn compensation(record: &Record, out: &mut Out) -> Result<(), Stop> {
    let joined = |items: Vec<String>| items.join(" and ");
    out.line("compensation pixel (two numbers: by the subpage)")?;
    row(out, "offset", format!("{} counts", joined(record.offset_cp.iter().map(i16::to_string).collect())))?;
    row(out, "sensitivity", format!("{} counts per kelvin^4", joined(record.alpha_cp.iter().map(|a| format!("{a:.4e}")).collect())))?;
    row(out, "K_V", format!("{:.6} per volt", record.k_v_cp))?;
    row(out, "K_Ta", format!("{:.6} per degree", record.k_ta_cp))
}

fn ranges(record: &Record, out: &mut Out) -> Result<(), Stop> {
    out.line("range   from degrees   K_sTo per degree   coefficient")?;
    for (k, corner) in record.corners.iter().enumerate() {
        out.line(format!("{k:5}   {corner:12}   {:16.6}   {:11.6}", record.k_s_to[k], record.coefficients[k]))?;
    }
    Ok(())
}

fn pixels(record: &Record, out: &mut Out) -> Result<(), Stop> {
    let span = |numbers: &[f32]| [numbers.iter().copied().fold(f32::INFINITY, f32::min), numbers.iter().copied().fold(f32::NEG_INFINITY, f32::max)];
    let [alpha, k_ta, k_v] = [&record.alpha, &record.k_ta, &record.k_v].map(|numbers| span(numbers));
    let (least, most) = (record.offsets.iter().min().unwrap_or(&0), record.offsets.iter().max().unwrap_or(&0));
    out.line("pixels, from the least to the greatest")?;
    row(out, "offset", format!("{least} to {most} counts"))?;
    row(out, "sensitivity", format!("{:.4e} to {:.4e} counts per kelvin^4", alpha[0], alpha[1]))?;
    row(out, "K_Ta", format!("{:.6} to {:.6} per degree", k_ta[0], k_ta[1]))?;
    row(out, "K_V", format!("{:.6} to {:.6} per volt", k_v[0], k_v[1]))
}

// Writes the MLX90641's words that have a flipped bit.
fn mending(card: &Card, out: &mut Out) -> Result<(), Stop> {
    if card.kind == Kind::Mlx90640 {
        return out.line("words have no check bits: damage does not show");
    }
    let changed = scrub(&mut card.image.clone()).map(|done| done.changed().to_vec()).unwrap_or_default();
    if changed.is_empty() {
        return out.line("every checked word is as it was written");
    }
    let numbers: Vec<String> = changed.iter().map(u16::to_string).collect();
    out.line(format!("{} mended in loading: {} (`loamchalice scrub` mends the card)", counted(changed.len(), "word"), numbers.join(", ")))
}
