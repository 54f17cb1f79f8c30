//! The plot: time against the length of the code, both axes logarithmic, as plain SVG.
use crate::growth::{Curve, Point};
use crate::table::duration;

const WIDTH: f64 = 860.0;
const HEIGHT: f64 = 520.0;
const LEFT: f64 = 90.0;
const RIGHT: f64 = 250.0;
const TOP: f64 = 56.0;
const BOTTOM: f64 = 64.0;

/// The colour of a curve, by its place.
const COLOURS: [&str; 3] = ["#1b6ca8", "#b5482a", "#3d7d3a"];

/// The ends of both axes: powers of two of bytes, powers of ten of nanoseconds.
struct Frame {
    bytes: (u32, u32),
    ns: (i32, i32),
}

impl Frame {
    fn around(curves: &[Curve]) -> Frame {
        let points = || curves.iter().flat_map(|curve| &curve.points);
        let bytes = points().map(|point| (point.bytes as f64).log2());
        let ns = points().flat_map(|point| [point.times.library.log10(), point.times.other.log10()]);
        let (first, last) = ends(bytes);
        let (low, high) = ends(ns);
        Frame {
            bytes: (first.round() as u32, last.round() as u32),
            ns: (low.floor() as i32, high.ceil() as i32),
        }
    }

    fn x(&self, bytes: f64) -> f64 {
        let (first, last) = (f64::from(self.bytes.0), f64::from(self.bytes.1));
        LEFT + (bytes.log2() - first) / (last - first) * (WIDTH - LEFT - RIGHT)
    }

    fn y(&self, ns: f64) -> f64 {
        let (low, high) = (f64::from(self.ns.0), f64::from(self.ns.1));
        HEIGHT - BOTTOM - (ns.log10() - low) / (high - low) * (HEIGHT - TOP - BOTTOM)
    }
}

/// The least and the greatest of some figures.
fn ends(figures: impl Iterator<Item = f64>) -> (f64, f64) {
    figures.fold((f64::INFINITY, f64::NEG_INFINITY), |(low, high), figure| (low.min(figure), high.max(figure)))
}

fn line(from: (f64, f64), to: (f64, f64), style: &str) -> String {
    format!("<line x1=\"{:.1}\" y1=\"{:.1}\" x2=\"{:.1}\" y2=\"{:.1}\" {style}/>\n", from.0, from.1, to.0, to.1)
}

fn text(at: (f64, f64), anchor: &str, words: &str) -> String {
    format!("<text x=\"{:.1}\" y=\"{:.1}\" text-anchor=\"{anchor}\">{words}</text>\n", at.0, at.1)
}

/// Bytes as KiB or MiB.
fn size(power: u32) -> String {
    if power < 20 {
        format!("{} KiB", 1 << (power - 10))
    } else {
        format!("{} MiB", 1 << (power - 20))
    }
}

const GRID: &str = "stroke=\"#dddddd\"";
const AXIS: &str = "stroke=\"#333333\"";

/// Grid, ticks and the words of both axes.
fn axes(frame: &Frame) -> String {
    let (right, bottom) = (WIDTH - RIGHT, HEIGHT - BOTTOM);
    let mut drawn = String::new();
    for power in frame.bytes.0..=frame.bytes.1 {
        let x = frame.x(f64::from(1u32 << power));
        drawn += &line((x, TOP), (x, bottom), GRID);
        if (power - frame.bytes.0) % 2 == 0 {
            drawn += &text((x, bottom + 20.0), "middle", &size(power));
        }
    }
    for power in frame.ns.0..=frame.ns.1 {
        let y = frame.y(10f64.powi(power));
        drawn += &line((LEFT, y), (right, y), GRID);
        drawn += &text((LEFT - 8.0, y + 4.0), "end", &whole(10f64.powi(power)));
    }
    drawn += &line((LEFT, bottom), (right, bottom), AXIS);
    drawn += &line((LEFT, TOP), (LEFT, bottom), AXIS);
    drawn += &text(((LEFT + right) / 2.0, HEIGHT - 16.0), "middle", "length of the code");
    drawn += &format!(
        "<text transform=\"translate(20 {:.1}) rotate(-90)\" text-anchor=\"middle\">time of one call</text>\n",
        (TOP + bottom) / 2.0
    );
    drawn
}

/// A power of ten with its unit, no digits behind the point.
fn whole(ns: f64) -> String {
    duration(ns).replace(".00 ", " ").replace(".0 ", " ")
}

/// One side of a curve: a line through its points and a mark at each.
fn side(frame: &Frame, points: &[Point], colour: &str, dash: &str, ns: impl Fn(&Point) -> f64) -> String {
    let places: Vec<(f64, f64)> = points.iter().map(|point| (frame.x(point.bytes as f64), frame.y(ns(point)))).collect();
    let path: Vec<String> = places.iter().map(|(x, y)| format!("{x:.1},{y:.1}")).collect();
    let mut drawn = format!(
        "<polyline points=\"{}\" fill=\"none\" stroke=\"{colour}\" stroke-width=\"2\"{dash}/>\n",
        path.join(" ")
    );
    for (x, y) in places {
        drawn += &format!("<circle cx=\"{x:.1}\" cy=\"{y:.1}\" r=\"2.5\" fill=\"{colour}\"/>\n");
    }
    drawn
}

const DASH: &str = " stroke-dasharray=\"6 4\"";

/// A line of the legend.
fn entry(place: usize, colour: &str, dash: &str, words: &str) -> String {
    let (x, y) = (WIDTH - RIGHT + 16.0, TOP + 12.0 + 22.0 * place as f64);
    let style = format!("stroke=\"{colour}\" stroke-width=\"2\"{dash}");
    line((x, y), (x + 30.0, y), &style) + &text((x + 38.0, y + 4.0), "start", words)
}

/// The plot of all curves. A full line is the library, a dashed one the Rust.
pub fn svg(curves: &[Curve]) -> String {
    let frame = Frame::around(curves);
    let mut drawn = format!(
        "<svg xmlns=\"http://www.w3.org/2000/svg\" viewBox=\"0 0 {WIDTH} {HEIGHT}\" width=\"{WIDTH}\" height=\"{HEIGHT}\" \
         font-family=\"sans-serif\" font-size=\"12\" fill=\"#222222\">\n\
         <rect width=\"{WIDTH}\" height=\"{HEIGHT}\" fill=\"#ffffff\"/>\n\
         <text x=\"{LEFT}\" y=\"28\" font-size=\"15\">Time against the length of the code: the library and the Rust</text>\n"
    );
    drawn += &axes(&frame);
    for (place, curve) in curves.iter().enumerate() {
        let colour = COLOURS[place % COLOURS.len()];
        drawn += &side(&frame, &curve.points, colour, "", |point| point.times.library);
        drawn += &side(&frame, &curve.points, colour, DASH, |point| point.times.other);
        drawn += &entry(place, colour, "", curve.name);
    }
    drawn += &entry(curves.len() + 1, "#333333", "", "the library");
    drawn += &entry(curves.len() + 2, "#333333", DASH, "the Rust");
    drawn + "</svg>\n"
}
