//! Several pictures as one HTML page, with a chart over time.
use crate::scale::{hex, Scale};
use crate::svg::{drawing, summary, text, Frame, FONT};
use crate::view::{Cell, Picture};

/// The largest number of pictures on a page.
pub const MOST: usize = 200;

const STYLE: &str = "
body { font-family: 'DejaVu Sans', Verdana, Arial, sans-serif; margin: 24px; color: #222 }
a { color: inherit }
figure { margin: 24px 0 }
.small { display: flex; flex-wrap: wrap; gap: 8px }
.small a { font-size: 11px; text-align: center; text-decoration: none }
.down { color: #0b5fff; font-weight: bold }
";

pub fn page(heading: &str, pictures: &[Picture], scale: Scale, limit: Option<f32>) -> String {
    let mut html = format!(
        "<!DOCTYPE html>\n<html lang=\"en\">\n<head>\n<meta charset=\"utf-8\">\n<title>{}</title>\n<style>{STYLE}</style>\n</head>\n<body>\n",
        text(heading)
    );
    html += &format!("<h1>{}</h1>\n", text(heading));
    html += &strip(pictures, limit);
    html += "<div class=\"small\">\n";
    for (k, picture) in pictures.iter().enumerate() {
        html += &format!("<a href=\"#p{}\">{}<br>{}</a>\n", k + 1, small(picture, scale), k + 1);
    }
    html += "</div>\n";
    for (k, picture) in pictures.iter().enumerate() {
        let heading = format!("{}: {}", k + 1, picture.coverage());
        html += &format!("<figure id=\"p{}\">\n{}", k + 1, drawing(picture, &Frame { heading: &heading, scale, limit, number: k + 1 }));
        html += &limit.map(|limit| caption(picture, limit)).unwrap_or_default();
        html += "</figure>\n";
    }
    html + "</body>\n</html>\n"
}

fn caption(picture: &Picture, limit: f32) -> String {
    match picture.lamp_down(limit, false) {
        Some(why) => format!("<figcaption class=\"down\">lamp down: {}</figcaption>\n", text(&why)),
        None => "<figcaption>lamp up</figcaption>\n".to_string(),
    }
}

// A small picture without numbers, as a preview.
fn small(picture: &Picture, scale: Scale) -> String {
    let (columns, rows) = picture.kind.size();
    let mut svg =
        format!("<svg width=\"96\" height=\"72\" viewBox=\"0 0 {columns} {rows}\" shape-rendering=\"crispEdges\"><title>{}</title>", text(&summary(picture)));
    for (pixel, cell) in picture.cells.iter().enumerate() {
        let fill = match cell {
            Cell::Degrees(t) => hex(scale.colour(*t)),
            Cell::Lost => "#1f6fb2".to_string(),
            Cell::Unwritten => "#e4e4e4".to_string(),
        };
        svg += &format!("<rect x=\"{}\" y=\"{}\" width=\"1\" height=\"1\" fill=\"{fill}\"/>", pixel % columns, pixel / columns);
    }
    svg + "</svg>"
}

const WIDE: f32 = 820.0;
const HIGH: f32 = 180.0;
const LEFT: f32 = 56.0;

// A chart of the hottest and the coldest pixel of each picture as two lines, with the limit across.
fn strip(pictures: &[Picture], limit: Option<f32>) -> String {
    let scale = Scale::of(pictures, limit, None, None);
    let x = |k: usize| LEFT + 12.0 + (WIDE - LEFT - 110.0) * k as f32 / (pictures.len() - 1).max(1) as f32;
    let y = |t: f32| 12.0 + (1.0 - scale.share(t)) * (HIGH - 36.0);
    let mut svg = format!("<svg width=\"{WIDE}\" height=\"{HIGH}\" viewBox=\"0 0 {WIDE} {HIGH}\" role=\"img\" font-size=\"11\" {FONT}>\n");
    svg += "<title>hottest and coldest over time</title>\n";
    for t in scale.ticks() {
        let at = y(t);
        svg += &format!("<path d=\"M{LEFT} {at:.1} H{:.1}\" stroke=\"#dddddd\"/><text x=\"4\" y=\"{:.1}\">{t} °C</text>\n", WIDE - 92.0, at + 4.0);
    }
    if let Some(limit) = limit {
        let (at, right) = (y(limit), WIDE - 92.0);
        svg += &format!("<path d=\"M{LEFT} {at:.1} H{right:.1}\" stroke=\"#0b5fff\" stroke-width=\"2\" stroke-dasharray=\"6 3\"/>");
        svg += &format!("<text x=\"{:.1}\" y=\"{:.1}\" fill=\"#0b5fff\">limit {limit} °C</text>\n", right + 4.0, at + 4.0);
    }
    for (name, colour, of) in [("hottest", "#c2410c", Picture::hottest as fn(&Picture) -> _), ("coldest", "#3b0f70", Picture::coldest)] {
        let points: Vec<(f32, f32)> = pictures.iter().enumerate().filter_map(|(k, picture)| of(picture).map(|spot| (x(k), y(spot.degrees)))).collect();
        let path: Vec<String> = points.iter().map(|(x, y)| format!("{x:.1},{y:.1}")).collect();
        svg += &format!("<polyline points=\"{}\" fill=\"none\" stroke=\"{colour}\" stroke-width=\"2\"/>\n", path.join(" "));
        for (x, y) in &points {
            svg += &format!("<circle cx=\"{x:.1}\" cy=\"{y:.1}\" r=\"2.5\" fill=\"{colour}\"/>");
        }
        if let Some((x, y)) = points.last() {
            svg += &format!("<text x=\"{:.1}\" y=\"{:.1}\" fill=\"{colour}\">{name}</text>\n", x + 8.0, y + 4.0);
        }
    }
    svg += &format!("<text x=\"{LEFT}\" y=\"{}\">pictures 1 to {}</text>\n", HIGH - 6.0, pictures.len());
    svg + "</svg>\n"
}
