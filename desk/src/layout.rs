//! Where heads and gauges stand in a picture: asked of Graphviz, in pixels.

use std::f64::consts::TAU;
use std::fmt::Write as _;
use std::io::{Error, ErrorKind};
use std::process::Command;

use crate::failure::Failure;
use crate::geometry::{crosses, middle, Point};
use crate::output::Progress;
use crate::process;
use crate::stand::Stand;

/// How large things are drawn, in pixels.
#[derive(Clone, Copy, Debug)]
pub struct Sizes {
    pub head_radius: f64,
    pub gauge_width: f64,
    pub gauge_height: f64,
}

/// Where the centres are.
#[derive(Debug, Default)]
pub struct Layout {
    pub heads: Vec<Point>,
    pub gauges: Vec<Point>,
}

/// Graphviz counts in inches of so many pixels.
const INCH: f64 = 72.0;

impl Sizes {
    /// From a head's centre to its gauges': long names still stand beside each other.
    fn gauge_distance(self) -> f64 {
        (self.head_radius + self.gauge_width / 2.0 + 30.0).max(1.4 * self.gauge_width)
    }
}

/// Heads where Graphviz puts them, each gauge where there is most room around its head.
pub fn layout(stand: &Stand, sizes: Sizes) -> Result<Layout, Failure> {
    let heads = heads(stand, sizes)?;
    let mut layout = Layout { heads, gauges: Vec::new() };
    for gauge in &stand.gauges {
        let place = layout.roomy(stand, gauge.at.head, sizes.gauge_distance());
        layout.gauges.push(place);
    }
    Ok(layout)
}

/// Graphviz starts from a circle or from chance, which decides where cables cross: of some
/// starts, the one is taken that is least tangled.
fn heads(stand: &Stand, sizes: Sizes) -> Result<Vec<Point>, Failure> {
    const STARTS: [&str; 8] = ["regular", "1", "2", "3", "4", "5", "6", "7"];
    let graphs: String = STARTS.iter().map(|start| graph(stand, sizes, start)).collect();
    let answers = graphviz(&graphs)?;
    let mut best: Option<(usize, Vec<Point>)> = None;
    for answer in answers.split("stop\n") {
        let mut heads = vec![Point::default(); stand.heads.len()];
        let found = positions(answer);
        for (number, point) in found.iter().filter(|(number, _)| *number < stand.heads.len()) {
            heads[*number] = *point;
        }
        let tangle = tangle(stand, &heads, sizes.head_radius);
        if found.len() == heads.len() && best.as_ref().is_none_or(|(least, _)| tangle < *least)
        {
            best = Some((tangle, heads));
        }
    }
    let none = || Failure::Machine("Graphviz doesn't say where the heads are\n".to_string());
    best.map(|(_, heads)| heads).ok_or_else(none)
}

/// How often two cables cross, and a cable runs across a head, which is worse.
fn tangle(stand: &Stand, heads: &[Point], radius: f64) -> usize {
    let lines: Vec<[usize; 2]> =
        stand.cables.iter().map(|cable| cable.ends.map(|end| end.head)).collect();
    let mut tangle = 0;
    for (number, [a, b]) in lines.iter().enumerate() {
        let (from, to) = (heads[*a], heads[*b]);
        let crossed =
            lines[..number].iter().filter(|[c, d]| crosses(from, to, heads[*c], heads[*d]));
        let across = heads.iter().enumerate().filter(|(head, point)| {
            head != a && head != b && point.distance_to_line(from, to) < radius + 25.0
        });
        tangle += crossed.count() + 4 * across.count();
    }
    tangle
}

/// The numbers and places of the nodes in Graphviz's answer.
fn positions(plain: &str) -> Vec<(usize, Point)> {
    let position = |line: &str| {
        let tokens: Vec<&str> = line.split(' ').collect();
        let ["node", number, x, y, ..] = tokens[..] else { return None };
        let (x, y): (f64, f64) = (x.parse().ok()?, y.parse().ok()?);
        // Graphviz counts upwards, a picture downwards.
        Some((number.parse().ok()?, Point { x: INCH * x, y: -INCH * y }))
    };
    plain.lines().filter_map(position).collect()
}

/// Parallel cables are one edge here: they don't pull twice.
fn graph(stand: &Stand, sizes: Sizes, start: &str) -> String {
    let mut text = format!(
        "strict graph {{ start={start}; overlap=false; node [shape=circle fixedsize=true]\n"
    );
    let (alone, around) = (sizes.head_radius + 20.0, sizes.gauge_distance() + 20.0);
    for head in 0..stand.heads.len() {
        let gauged = stand.gauges.iter().any(|gauge| gauge.at.head == head);
        let width = 2.0 * if gauged { around } else { alone } / INCH;
        let _ = writeln!(text, "{head} [width={width:.3}]");
    }
    let length = 1.7 * around / INCH;
    for cable in &stand.cables {
        let [first, second] = cable.ends.map(|end| end.head);
        let _ = writeln!(text, "{first} -- {second} [len={length:.3}]");
    }
    text + "}\n"
}

impl Layout {
    /// The place at a distance from the head that is farthest from all else; where there
    /// is room enough, one that lies outwards.
    fn roomy(&self, stand: &Stand, head: usize, distance: f64) -> Point {
        const DIRECTIONS: usize = 120;
        let enough = 0.75 * distance;
        let middle = middle(&self.heads);
        let centre = self.heads[head];
        let places = (0..DIRECTIONS)
            .map(|part| centre.towards(TAU * part as f64 / DIRECTIONS as f64, distance));
        let worth = |place: Point| {
            let room = self.room(stand, head, place);
            room.min(enough) + 0.05 * middle.distance(place)
        };
        let best = places.max_by(|a, b| worth(*a).total_cmp(&worth(*b)));
        best.unwrap_or(centre)
    }

    /// How far a place is from all cables, other heads and the gauges that have a place.
    fn room(&self, stand: &Stand, head: usize, place: Point) -> f64 {
        let cables = stand.cables.iter().map(|cable| {
            let [from, to] = cable.ends.map(|end| self.heads[end.head]);
            place.distance_to_line(from, to)
        });
        let others = self.heads.iter().enumerate().filter(|(number, _)| *number != head);
        let others = others.map(|(_, other)| place.distance(*other) / 2.0);
        let gauges = self.gauges.iter().map(|gauge| place.distance(*gauge));
        cables.chain(others).chain(gauges).fold(f64::INFINITY, f64::min)
    }
}

fn graphviz(graph: &str) -> Result<String, Failure> {
    let failed = |error: Error| match error.kind() {
        ErrorKind::NotFound => Failure::Machine(
            "draw needs Graphviz, and there is no program dot here; \
             on Debian: apt-get install graphviz\n"
                .to_string(),
        ),
        _ => Failure::Machine(format!("Graphviz fails: {error}\n")),
    };
    let mut command = Command::new("dot");
    command.args(["-Kneato", "-Tplain"]);
    let ended = process::feed("dot", &mut command, graph.as_bytes(), Progress::new())
        .map_err(failed)?;
    if !ended.status.success() {
        return Err(Failure::Machine(format!("Graphviz ends with {}\n", ended.status)));
    }
    Ok(String::from_utf8_lossy(&ended.stdout).into_owned())
}
