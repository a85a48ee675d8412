//! The picture of a stand: heads and gauges where Graphviz puts them, each port as a
//! numbered disc on its head's rim, cables from disc to disc.

use std::f64::consts::PI;

use crate::answer::{Answer, Entry};
use crate::failure::Failure;
use crate::geometry::{spread, Point};
use crate::layout::{layout, Layout, Sizes};
use crate::stand::{End, Gauge, Stand};
use crate::svg::{Picture, Stroke};
use crate::words;

const PORT_RADIUS: f64 = 8.0;

/// Longer names are cut: a picture isn't the place for them.
const LONGEST_NAME: usize = 12;

/// What is to be seen beside the stand itself.
pub struct View<'a> {
    pub stand: &'a Stand,
    pub answer: &'a Answer,
    /// The number of the gauge whose recorded ports are shown.
    pub to: Option<usize>,
    pub title: &'a str,
}

pub fn svg(view: &View) -> Result<String, Failure> {
    let sizes = sizes(view.stand);
    let drawing = Drawing::new(view, layout(view.stand, sizes)?, sizes);
    let mut picture = Picture::default();
    drawing.gauges(&mut picture);
    drawing.cables(&mut picture);
    drawing.heads(&mut picture);
    Ok(picture.svg(&view.captions()))
}

fn sizes(stand: &Stand) -> Sizes {
    let longest = |names: Vec<&String>| {
        let lengths = names.into_iter().map(|name| name.chars().count().min(LONGEST_NAME));
        lengths.max().unwrap_or(0) as f64
    };
    let heads = longest(stand.heads.iter().map(|head| &head.name).collect());
    let gauges = longest(stand.gauges.iter().map(|gauge| &gauge.name).collect());
    Sizes {
        head_radius: (4.0 * heads + 10.0).max(24.0),
        gauge_width: 7.0 * gauges + 14.0,
        gauge_height: 20.0,
    }
}

/// Cut in the middle: names often differ at the end.
fn short(name: &str) -> String {
    let letters: Vec<char> = name.chars().collect();
    if letters.len() <= LONGEST_NAME {
        return name.to_string();
    }
    let (before, behind) = (LONGEST_NAME / 2 - 1, LONGEST_NAME / 2);
    let ends = letters[..before].iter().chain(['…'].iter());
    ends.chain(&letters[letters.len() - behind..]).collect()
}

impl View<'_> {
    /// The proved program's record for the gauge at a head.
    fn record(&self, head: usize) -> Option<&Entry> {
        let address = self.stand.gauges.get(self.to?)?.address;
        self.answer.entries.iter().find(|entry| entry.head == head && entry.address == address)
    }

    /// Whether the record of the head at this end points into the cable there.
    fn points(&self, end: End) -> bool {
        self.record(end.head).is_some_and(|entry| entry.port == end.port)
    }

    fn captions(&self) -> Vec<String> {
        let events = self.answer.lines.len();
        let pulled = (0..self.stand.cables.len()).filter(|&cable| !self.plugged(cable)).count();
        let copies = words::copies(self.answer.in_flight);
        let mut captions =
            vec![format!("{}, after {events} events, {copies} in flight", self.title)];
        if pulled > 0 {
            captions.push(format!("dashed: pulled ({pulled})"));
        }
        if let Some(gauge) = self.to.and_then(|to| self.stand.gauges.get(to)) {
            let heads = self.stand.heads.len();
            let known = (0..heads).filter(|&head| self.record(head).is_some()).count();
            captions.push(format!(
                "arrows: the ports recorded for {}, at {known} of {heads} heads",
                gauge.name
            ));
        }
        captions
    }

    fn plugged(&self, cable: usize) -> bool {
        self.answer.states >> cable & 1 == 1
    }
}

/// Where everything stands.
struct Drawing<'a> {
    view: &'a View<'a>,
    layout: Layout,
    sizes: Sizes,
    /// The disc of each port that is used, with its direction from the head's centre.
    ports: Vec<(End, Point, f64)>,
}

impl<'a> Drawing<'a> {
    fn new(view: &'a View<'a>, layout: Layout, sizes: Sizes) -> Self {
        let rim = sizes.head_radius + 3.0;
        let apart = 2.0 * ((PORT_RADIUS + 1.0) / rim).asin();
        let mut drawing = Drawing { view, layout, sizes, ports: Vec::new() };
        for head in 0..view.stand.heads.len() {
            let wanted = drawing.wanted(head);
            let angles =
                spread(&wanted.iter().map(|(_, angle)| *angle).collect::<Vec<_>>(), apart);
            let centre = drawing.layout.heads[head];
            for ((end, _), angle) in wanted.into_iter().zip(angles) {
                drawing.ports.push((end, centre.towards(angle, rim), angle));
            }
        }
        drawing
    }

    /// The used ports of a head and the directions of what they lead to. Parallel cables
    /// differ a little, the other way round at the other end, so that they don't cross.
    fn wanted(&self, head: usize) -> Vec<(End, f64)> {
        const LITTLE: f64 = 0.001;
        let centre = self.layout.heads[head];
        let stand = self.view.stand;
        let mut wanted = Vec::new();
        for (number, gauge) in
            stand.gauges.iter().enumerate().filter(|(_, g)| g.at.head == head)
        {
            wanted.push((gauge.at, centre.angle(self.layout.gauges[number])));
        }
        for (number, cable) in stand.cables.iter().enumerate() {
            let [first, second] = cable.ends;
            let turn = LITTLE * number as f64;
            let angle = |other: End| centre.angle(self.layout.heads[other.head]);
            if first.head == head && second.head == head {
                wanted.extend([(first, -PI / 2.0 - turn), (second, -PI / 2.0 + turn)]);
            } else if first.head == head {
                wanted.push((first, angle(second) + turn));
            } else if second.head == head {
                wanted.push((second, angle(first) - turn));
            }
        }
        wanted
    }

    fn port(&self, end: End) -> (Point, f64) {
        let found = self.ports.iter().find(|(at, _, _)| *at == end);
        found.map_or((Point::default(), 0.0), |&(_, point, angle)| (point, angle))
    }

    fn gauges(&self, picture: &mut Picture) {
        let Sizes { gauge_width: width, gauge_height: height, .. } = self.sizes;
        for (number, Gauge { name, at, .. }) in self.view.stand.gauges.iter().enumerate() {
            let (centre, (port, _)) = (self.layout.gauges[number], self.port(*at));
            let sought = self.view.to == Some(number);
            let marked = sought && self.view.points(*at);
            picture.line(port, centre, Stroke { marked, dashed: false });
            picture.gauge(centre, width, height, &short(name), sought);
            if marked {
                picture.tip(rim_of_box(centre, port, width, height), port.angle(centre));
            }
        }
    }

    fn cables(&self, picture: &mut Picture) {
        for (number, cable) in self.view.stand.cables.iter().enumerate() {
            let marks = cable.ends.map(|end| self.view.points(end));
            let dashed = !self.view.plugged(number);
            let stroke = Stroke { marked: marks[0] || marks[1], dashed };
            let [(from, out), (to, back)] = cable.ends.map(|end| self.port(end));
            // A cable from a head to itself bows outwards.
            let bow = (cable.ends[0].head == cable.ends[1].head)
                .then(|| [from.towards(out, 50.0), to.towards(back, 50.0)]);
            let label = match bow {
                Some(bow) => {
                    picture.bow(from, bow, to, stroke);
                    bow[0].between(bow[1], 0.5)
                }
                None => {
                    picture.line(from, to, stroke);
                    // Not all in the middle: those of parallel cables stand beside each other.
                    from.between(to, [0.5, 0.41, 0.59][number % 3])
                }
            };
            picture.label(label, &short(&cable.name));
            let [before_from, before_to] = bow.unwrap_or([to, from]);
            for (marked, tip, before) in
                [(marks[0], to, before_to), (marks[1], from, before_from)]
            {
                if marked {
                    let angle = before.angle(tip);
                    picture.tip(tip.towards(angle, -PORT_RADIUS), angle);
                }
            }
        }
    }

    fn heads(&self, picture: &mut Picture) {
        for (number, head) in self.view.stand.heads.iter().enumerate() {
            picture.head(self.layout.heads[number], self.sizes.head_radius, &short(&head.name));
        }
        for (end, point, _) in &self.ports {
            picture.port(*point, PORT_RADIUS, end.port);
        }
    }
}

/// Where a line from outside meets the edge of a box.
fn rim_of_box(centre: Point, from: Point, width: f64, height: f64) -> Point {
    let (dx, dy) = ((from.x - centre.x).abs(), (from.y - centre.y).abs());
    let part = (width / 2.0 / dx.max(0.1)).min(height / 2.0 / dy.max(0.1)).min(1.0);
    centre.between(from, part)
}
