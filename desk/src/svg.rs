//! The shapes of a picture as SVG, and the area that they cover.

use std::fmt::Write;

use crate::geometry::Point;

pub const INK: &str = "#1f2933";
pub const WAY: &str = "#c2410c";
const PAPER: &str = "#ffffff";
const HEAD: &str = "#dbe7f3";
const GAUGE: &str = "#fdf3d7";

/// How a line looks.
#[derive(Clone, Copy)]
pub struct Stroke {
    pub marked: bool,
    pub dashed: bool,
}

impl Stroke {
    fn attributes(self) -> String {
        let (colour, width) = if self.marked { (WAY, 2.6) } else { (INK, 1.3) };
        let dashes = if self.dashed { " stroke-dasharray=\"7 5\"" } else { "" };
        format!("fill=\"none\" stroke=\"{colour}\" stroke-width=\"{width}\"{dashes}")
    }
}

/// Lines lie under everything else, so they are kept apart.
#[derive(Default)]
pub struct Picture {
    lines: String,
    shapes: String,
    low: Option<Point>,
    high: Option<Point>,
}

impl Picture {
    fn cover(&mut self, Point { x, y }: Point, half_width: f64, half_height: f64) {
        let low = self.low.unwrap_or(Point { x, y });
        let high = self.high.unwrap_or(Point { x, y });
        self.low = Some(Point { x: low.x.min(x - half_width), y: low.y.min(y - half_height) });
        self.high =
            Some(Point { x: high.x.max(x + half_width), y: high.y.max(y + half_height) });
    }

    pub fn line(&mut self, from: Point, to: Point, stroke: Stroke) {
        let (Point { x: x1, y: y1 }, Point { x: x2, y: y2 }) = (from, to);
        let attributes = stroke.attributes();
        let _ =
            writeln!(self.lines, "<path d=\"M{x1:.1} {y1:.1}L{x2:.1} {y2:.1}\" {attributes}/>");
    }

    /// A line that leaves and returns, by its two outer points.
    pub fn bow(&mut self, from: Point, out: [Point; 2], to: Point, stroke: Stroke) {
        let [a, b] = out;
        let _ = writeln!(
            self.lines,
            "<path d=\"M{:.1} {:.1}C{:.1} {:.1} {:.1} {:.1} {:.1} {:.1}\" {}/>",
            from.x,
            from.y,
            a.x,
            a.y,
            b.x,
            b.y,
            to.x,
            to.y,
            stroke.attributes()
        );
        for point in out {
            self.cover(point, 2.0, 2.0);
        }
    }

    /// An arrow's head with its tip at a point, in a direction.
    pub fn tip(&mut self, tip: Point, angle: f64) {
        let back = tip.towards(angle, -13.0);
        let left = back.towards(angle + std::f64::consts::FRAC_PI_2, 5.5);
        let right = back.towards(angle - std::f64::consts::FRAC_PI_2, 5.5);
        let _ = writeln!(
            self.shapes,
            "<path d=\"M{:.1} {:.1}L{:.1} {:.1}L{:.1} {:.1}Z\" fill=\"{WAY}\"/>",
            tip.x, tip.y, left.x, left.y, right.x, right.y
        );
    }

    pub fn head(&mut self, at: Point, radius: f64, name: &str) {
        let Point { x, y } = at;
        let _ = writeln!(
            self.shapes,
            "<circle cx=\"{x:.1}\" cy=\"{y:.1}\" r=\"{radius:.1}\" fill=\"{HEAD}\" stroke=\"{INK}\" stroke-width=\"1.3\"/>"
        );
        self.text(at, 13.0, "bold", INK, name);
        self.cover(at, radius + 10.0, radius + 10.0);
    }

    pub fn gauge(&mut self, at: Point, width: f64, height: f64, name: &str, marked: bool) {
        let (colour, stroke) = if marked { (WAY, 2.6) } else { (INK, 1.1) };
        let (x, y) = (at.x - width / 2.0, at.y - height / 2.0);
        let _ = writeln!(
            self.shapes,
            "<rect x=\"{x:.1}\" y=\"{y:.1}\" width=\"{width:.1}\" height=\"{height:.1}\" rx=\"9\" fill=\"{GAUGE}\" stroke=\"{colour}\" stroke-width=\"{stroke}\"/>"
        );
        self.text(at, 12.0, "normal", INK, name);
        self.cover(at, width / 2.0 + 2.0, height / 2.0 + 2.0);
    }

    pub fn port(&mut self, at: Point, radius: f64, number: u8) {
        let Point { x, y } = at;
        let _ = writeln!(
            self.shapes,
            "<circle cx=\"{x:.1}\" cy=\"{y:.1}\" r=\"{radius:.1}\" fill=\"{PAPER}\" stroke=\"{INK}\" stroke-width=\"1\"/>"
        );
        self.text(at, 10.0, "normal", INK, &number.to_string());
    }

    /// Text on a patch of paper, so that the line under it doesn't strike it out.
    pub fn label(&mut self, at: Point, text: &str) {
        let width = 6.0 * text.chars().count() as f64 + 4.0;
        let (x, y) = (at.x - width / 2.0, at.y - 6.5);
        let _ = writeln!(
            self.shapes,
            "<rect x=\"{x:.1}\" y=\"{y:.1}\" width=\"{width:.1}\" height=\"13\" fill=\"{PAPER}\"/>"
        );
        self.text(at, 10.0, "normal", "#52606d", text);
        self.cover(at, width / 2.0, 7.0);
    }

    fn text(&mut self, at: Point, size: f64, weight: &str, colour: &str, text: &str) {
        let (x, y) = (at.x, at.y + 0.36 * size);
        let text = escaped(text);
        let _ = writeln!(
            self.shapes,
            "<text x=\"{x:.1}\" y=\"{y:.1}\" font-size=\"{size}\" font-weight=\"{weight}\" fill=\"{colour}\" text-anchor=\"middle\">{text}</text>"
        );
    }

    /// The whole file, with lines of text under the picture.
    pub fn svg(&self, captions: &[String]) -> String {
        const MARGIN: f64 = 14.0;
        const LINE: f64 = 18.0;
        let (low, high) = (self.low.unwrap_or_default(), self.high.unwrap_or_default());
        let longest = captions.iter().map(|line| line.chars().count()).max().unwrap_or(0);
        let width = (high.x - low.x).max(6.4 * longest as f64) + 2.0 * MARGIN;
        let drawn = high.y - low.y + 2.0 * MARGIN;
        let height = drawn + LINE * captions.len() as f64;
        let (dx, dy) = (width / 2.0 - (low.x + high.x) / 2.0, MARGIN - low.y);
        let mut svg = format!(
            "<svg xmlns=\"http://www.w3.org/2000/svg\" width=\"{width:.0}\" height=\"{height:.0}\" \
             viewBox=\"0 0 {width:.0} {height:.0}\" font-family=\"Helvetica, Arial, sans-serif\">\n\
             <rect width=\"100%\" height=\"100%\" fill=\"{PAPER}\"/>\n\
             <g transform=\"translate({dx:.1} {dy:.1})\">\n{}{}</g>\n",
            self.lines, self.shapes
        );
        for (number, caption) in captions.iter().enumerate() {
            let (y, caption) = (drawn + LINE * number as f64, escaped(caption));
            let _ = writeln!(
                svg,
                "<text x=\"{MARGIN}\" y=\"{y:.0}\" font-size=\"12\" fill=\"{INK}\">{caption}</text>"
            );
        }
        svg + "</svg>\n"
    }
}

fn escaped(text: &str) -> String {
    text.replace('&', "&amp;").replace('<', "&lt;").replace('>', "&gt;")
}
