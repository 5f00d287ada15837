//! A picture as SVG.
use crate::scale::{colour, hex, light, Scale};
use crate::view::{Cell, Picture, Spot};

/// The font of all drawings.
pub const FONT: &str = "font-family=\"DejaVu Sans, Verdana, Arial, sans-serif\"";
const LEFT: usize = 16;
const TOP: usize = 60;
const BAR: usize = 20;
const STEPS: usize = 64;

/// Escapes text for XML, and drops characters that XML cannot hold.
pub fn text(words: &str) -> String {
    words
        .chars()
        .map(|c| match c {
            '&' => "&amp;".to_string(),
            '<' => "&lt;".to_string(),
            '>' => "&gt;".to_string(),
            '"' => "&quot;".to_string(),
            c if c.is_control() || ('\u{FFFE}'..='\u{FFFF}').contains(&c) => "\u{FFFD}".to_string(),
            c => c.to_string(),
        })
        .collect()
}

/// What a drawing shows besides the picture itself.
pub struct Frame<'a> {
    pub heading: &'a str,
    pub scale: Scale,
    pub limit: Option<f32>,
    /// Makes the identifiers of this drawing differ from those of others on the same page.
    pub number: usize,
}

/// The side of a pixel, in drawing units.
fn side(picture: &Picture) -> usize {
    if picture.kind.size().0 > 16 {
        25
    } else {
        46
    }
}

pub fn drawing(picture: &Picture, frame: &Frame) -> String {
    let (columns, rows) = picture.kind.size();
    let side = side(picture);
    let (wide, high) = (LEFT + columns * side, TOP + rows * side);
    let (all_wide, all_high) = (wide + 150, high + 46);
    let mut svg = format!(
        "<svg xmlns=\"http://www.w3.org/2000/svg\" width=\"{all_wide}\" height=\"{all_high}\" viewBox=\"0 0 {all_wide} {all_high}\" role=\"img\" {FONT}>\n"
    );
    svg += &format!("<title>{}</title>\n<desc>{}</desc>\n", text(frame.heading), text(&summary(picture)));
    svg += &hatch(frame.number);
    svg += &format!("<rect width=\"{all_wide}\" height=\"{all_high}\" fill=\"#ffffff\"/>\n");
    svg += &format!("<text x=\"{LEFT}\" y=\"24\" font-size=\"16\" font-weight=\"bold\">{}</text>\n", text(frame.heading));
    svg += &format!("<text x=\"{LEFT}\" y=\"46\" font-size=\"13\">{}</text>\n", text(&summary(picture)));
    svg += &squares(picture, columns, side, frame);
    svg += &numbers(picture, columns, side, frame.scale);
    svg += &marks(picture, columns, side, frame.limit);
    svg += &bar(wide + 28, high - TOP, frame);
    svg += &beyond(wide + 28, high, picture, frame.scale);
    svg += &legend(picture, high + 14, frame);
    svg + "</svg>\n"
}

/// The hottest and the coldest pixel and the camera's own temperature, or what is wrong.
pub fn summary(picture: &Picture) -> String {
    let spot = |word: &str, spot: Spot| format!("{word} {:.1} °C at {}", spot.degrees, picture.place(spot.pixel));
    let mut parts: Vec<String> = picture.troubles.first().cloned().into_iter().collect();
    parts.extend(picture.hottest().map(|hot| spot("hottest", hot)));
    parts.extend(picture.coldest().map(|cold| spot("coldest", cold)));
    parts.extend(picture.inside.last().map(|t| format!("camera {t:.1} °C")));
    parts.join("; ")
}

// A hatch pattern, for lost pixels.
fn hatch(number: usize) -> String {
    format!(
        "<defs><pattern id=\"hatch{number}\" width=\"6\" height=\"6\" patternUnits=\"userSpaceOnUse\" patternTransform=\"rotate(45)\">\
         <rect width=\"6\" height=\"6\" fill=\"#ffffff\"/><rect width=\"2\" height=\"6\" fill=\"#1f6fb2\"/></pattern></defs>\n"
    )
}

// Each pixel's square in its colour.
fn squares(picture: &Picture, columns: usize, side: usize, frame: &Frame) -> String {
    let square = |(pixel, cell): (usize, &Cell)| {
        let fill = match cell {
            Cell::Unwritten => "#e4e4e4".to_string(),
            Cell::Lost => format!("url(#hatch{})", frame.number),
            Cell::Degrees(t) => hex(frame.scale.colour(*t)),
        };
        format!("<path d=\"M{} {}h{side}v{side}h-{side}z\" fill=\"{fill}\"/>\n", LEFT + pixel % columns * side, TOP + pixel / columns * side)
    };
    picture.cells.iter().enumerate().map(square).collect()
}

// The pixels' temperatures, in an ink that is readable on the colour. A number that does not fit is left out.
fn numbers(picture: &Picture, columns: usize, side: usize, scale: Scale) -> String {
    let (digits, size) = if side > 30 { (1, 13) } else { (0, 10) };
    let written = |dark: bool, ink: &str| {
        let mut group = format!("<g font-size=\"{size}\" text-anchor=\"middle\" fill=\"{ink}\" fill-opacity=\"0.9\">\n");
        for spot in picture.degrees().filter(|spot| light(scale.colour(spot.degrees)) == dark) {
            let (x, y) = (LEFT + spot.pixel % columns * side + side / 2, TOP + spot.pixel / columns * side + side / 2 + size / 3);
            let number = format!("{:.digits$}", spot.degrees);
            if number.len() <= 5 {
                group += &format!("<text x=\"{x}\" y=\"{y}\">{number}</text>\n");
            }
        }
        group + "</g>\n"
    };
    written(false, "#ffffff") + &written(true, "#000000")
}

// A frame around a pixel: white inside black, so that it shows on any colour.
fn around(x: usize, y: usize, side: usize, dashes: &str) -> String {
    let at = |by: f32, width: f32, colour: &str, dashes: &str| {
        let (x, y, side) = (x as f32 + by, y as f32 + by, side as f32 - 2.0 * by);
        format!("<rect x=\"{x}\" y=\"{y}\" width=\"{side}\" height=\"{side}\" fill=\"none\" stroke=\"{colour}\" stroke-width=\"{width}\"{dashes}/>\n")
    };
    at(1.5, 3.0, "#000000", "") + &at(1.5, 2.0, "#ffffff", dashes)
}

// Marks the hottest pixel by a solid frame, the coldest by a dotted one, and, with a limit, each pixel that is not below it by a cross at its corner.
fn marks(picture: &Picture, columns: usize, side: usize, limit: Option<f32>) -> String {
    let place = |spot: Spot| (LEFT + spot.pixel % columns * side, TOP + spot.pixel / columns * side);
    let mut marks = String::new();
    for (x, y) in picture.degrees().filter(|spot| limit.is_some_and(|limit| spot.degrees >= limit)).map(place) {
        let corner = side / 3;
        marks += &format!("<path d=\"M{x} {y} h{corner} l-{corner} {corner} z\" fill=\"#0b5fff\" stroke=\"#ffffff\" stroke-width=\"0.7\"/>\n");
    }
    if let (Some(hot), Some(cold)) = (picture.hottest(), picture.coldest()) {
        let ((x, y), (u, v)) = (place(hot), place(cold));
        marks += &around(u, v, side, " stroke-dasharray=\"3 3\"");
        marks += &around(x, y, side, "");
    }
    marks
}

// The colour bar with its temperatures, and the limit as a line.
fn bar(x: usize, high: usize, frame: &Frame) -> String {
    let y = |t: f32| TOP as f32 + (1.0 - frame.scale.share(t)) * high as f32;
    let mut bar = String::new();
    for k in 0..STEPS {
        let (top, next) = (TOP as f32 + (high * k) as f32 / STEPS as f32, (high as f32 / STEPS as f32) + 0.5);
        let fill = hex(colour(1.0 - (k as f32 + 0.5) / STEPS as f32));
        bar += &format!("<rect x=\"{x}\" y=\"{top:.1}\" width=\"{BAR}\" height=\"{next:.1}\" fill=\"{fill}\"/>\n");
    }
    bar += &format!("<rect x=\"{x}\" y=\"{TOP}\" width=\"{BAR}\" height=\"{high}\" fill=\"none\" stroke=\"#444444\"/>\n");
    let (right, label) = (x + BAR, x + BAR + 9);
    for t in frame.scale.ticks() {
        let at = y(t);
        // The limit's own label is there.
        if frame.limit.is_some_and(|limit| (y(limit) - at).abs() < 14.0) {
            continue;
        }
        bar += &format!("<path d=\"M{right} {at:.1} h5\" stroke=\"#444444\"/><text x=\"{label}\" y=\"{:.1}\" font-size=\"12\">{t} °C</text>\n", at + 4.0);
    }
    if let Some(limit) = frame.limit.filter(|limit| (frame.scale.low..=frame.scale.high).contains(limit)) {
        let (at, left, long) = (y(limit), x - 6, BAR + 12);
        for (colour, width) in [("#ffffff", 5), ("#0b5fff", 3)] {
            bar += &format!("<path d=\"M{left} {at:.1} h{long}\" stroke=\"{colour}\" stroke-width=\"{width}\"/>");
        }
        bar += &format!("<text x=\"{label}\" y=\"{:.1}\" font-size=\"12\" font-weight=\"bold\" fill=\"#0b5fff\">limit {limit} °C</text>\n", at + 4.0);
    }
    bar
}

// A note if a fixed scale does not cover all pixels.
fn beyond(x: usize, bottom: usize, picture: &Picture, scale: Scale) -> String {
    let note = |y: usize, words: &str| format!("<text x=\"{x}\" y=\"{y}\" font-size=\"11\">{words}</text>\n");
    let (hotter, colder) = (picture.degrees().any(|spot| spot.degrees > scale.high), picture.degrees().any(|spot| spot.degrees < scale.low));
    let above = hotter.then(|| note(TOP - 8, "and hotter"));
    let below = colder.then(|| note(bottom + 14, "and colder"));
    above.into_iter().chain(below).collect()
}

// The legend of the marks that appear.
fn legend(picture: &Picture, y: usize, frame: &Frame) -> String {
    let mut x = LEFT;
    let mut legend = String::new();
    let mut entry = |drawn: &dyn Fn(usize) -> String, words: &str| {
        legend.push_str(&drawn(x));
        legend.push_str(&format!("<text x=\"{}\" y=\"{}\" font-size=\"12\">{words}</text>\n", x + 24, y + 13));
        x += 40 + 8 * words.chars().count();
    };
    let plain = |fill: String| {
        move |x: usize| format!("<rect x=\"{x}\" y=\"{y}\" width=\"18\" height=\"18\" fill=\"{fill}\" stroke=\"#444444\" stroke-width=\"0.5\"/>\n")
    };
    let grey =
        |dashes: &'static str| move |x: usize| format!("<rect x=\"{x}\" y=\"{y}\" width=\"18\" height=\"18\" fill=\"#777777\"/>\n{}", around(x, y, 18, dashes));
    if picture.hottest().is_some() {
        entry(&grey(""), "hottest");
        entry(&grey(" stroke-dasharray=\"3 3\""), "coldest");
    }
    if !picture.lost().is_empty() {
        entry(&plain(format!("url(#hatch{})", frame.number)), "lost");
    }
    if picture.written() < picture.cells.len() {
        entry(&plain("#e4e4e4".to_string()), "not written");
    }
    if frame.limit.is_some_and(|limit| picture.degrees().any(|spot| spot.degrees >= limit)) {
        let corner = |x: usize| format!("<path d=\"M{x} {y} h14 l-14 14 z\" fill=\"#0b5fff\"/>\n");
        entry(&corner, "not below the limit");
    }
    legend
}
