//! Requests as arrows.

use super::ways::{self, Course, Head, Leg, Point};
use crate::flight::{Flight, Purpose};
use crate::layout::Layout;
use crate::story::Story;
use crate::style;
use crate::svg::{Attributes, Svg, N};
use crate::words;

/// From the tip of an arrow to the lifeline, where a sign stands.
const TIP: f64 = 6.0;
/// How near two serials at an edge of the rows may stand.
const APART: f64 = 18.0;

/// Draws the ways of all requests, as far as they are shown.
pub fn draw(svg: &mut Svg, story: &Story, layout: &Layout) {
    let mut edges = Edges::default();
    for (flight, legs) in ways::shown(story, layout) {
        svg.group("g", &[("class", &"flight")], |svg| {
            svg.text("title", &[], &words::flight(flight));
            for leg in &legs {
                draw_leg(svg, layout, flight, leg, &mut edges);
            }
        });
    }
}

/// The places at the upper and the lower edge of the rows at which a serial stands.
#[derive(Default)]
struct Edges {
    upper: Vec<f64>,
    lower: Vec<f64>,
}

impl Edges {
    /// Writes the serial of a request whose way is cut, unless one stands there already.
    fn cut(&mut self, svg: &mut Svg, flight: &Flight, point: Point, upper: bool) {
        let (taken, dy) = match upper {
            true => (&mut self.upper, 10.0),
            false => (&mut self.lower, -4.0),
        };
        if taken.iter().all(|x| (x - point.0).abs() >= APART) {
            taken.push(point.0);
            serial(svg, flight.serial, point.0 + 4.0, point.1 + dy, "start");
        }
    }
}

fn draw_leg(svg: &mut Svg, layout: &Layout, flight: &Flight, leg: &Leg, edges: &mut Edges) {
    let Some(part) = leg.part(layout) else {
        return;
    };
    let (name, weight) = match (leg.course, flight.purpose) {
        (Course::ToSender, _) => ("answer", "answer"),
        (Course::ToStore, Purpose::Guard { .. }) => ("request", "guard"),
        (Course::ToStore, Purpose::Read { .. }) => ("request", "read"),
        (Course::ToStore, Purpose::Write { .. }) => ("request", "write"),
    };
    let class = format!("leg {}", style::stroke(flight.sender));
    let attributes: Attributes = &[
        ("class", &class),
        ("data-serial", &flight.serial),
        ("data-leg", &name),
        ("data-from", &leg.steps.0),
        ("data-to", &words::step_or_end(leg.steps.1)),
    ];
    svg.group("g", attributes, |svg| {
        let turn = leg.turn(layout, &part);
        line(svg, weight, part.from, turn, false);
        line(svg, weight, turn, part.to, true);
        if part.ends {
            let full = style::fill(flight.sender);
            head(svg, leg.head, leg.from, leg.to, &full, TIP);
        }
        if !part.begins {
            edges.cut(svg, flight, part.from, true);
        }
        if !part.ends {
            edges.cut(svg, flight, part.to, false);
        }
        if let Some((x, y)) = leg.crossed(layout, flight) {
            crossing(svg, x, y);
        }
    });
}

/// A straight line of a weight, if it is longer than nothing, with dashes where it is given up.
pub fn line(svg: &mut Svg, weight: &str, from: Point, to: Point, given_up: bool) {
    if from == to {
        return;
    }
    let dashes = if given_up { " given-up" } else { "" };
    let line = format!("M{} {} L{} {}", N(from.0), N(from.1), N(to.0), N(to.1));
    let class = format!("{weight}{dashes}");
    svg.leaf("path", &[("class", &class), ("d", &line)]);
    if weight == "guard" {
        svg.leaf("path", &[("class", &"inner"), ("d", &line)]);
    }
}

/// The head of an arrow from one point to another, with its tip so far before that; a full one has this class.
pub fn head(svg: &mut Svg, head: Head, from: Point, to: Point, full: &str, tip: f64) {
    let (dx, dy) = (to.0 - from.0, to.1 - from.1);
    let size = (dx * dx + dy * dy).sqrt();
    let (ux, uy) = (dx / size, dy / size);
    let point = |back: f64, side: f64| {
        let x = to.0 - ux * back - uy * side;
        let y = to.1 - uy * back + ux * side;
        format!("{} {}", N(x), N(y))
    };
    let arrow = |tip: f64, length: f64| {
        let (one, other) = (point(tip + length, 4.5), point(tip + length, -4.5));
        format!("M{one} L{} L{other}", point(tip, 0.0))
    };
    let (class, shape) = match head {
        Head::None => return,
        Head::Full => (full, format!("{} Z", arrow(tip, 11.0))),
        Head::Open => ("answer", arrow(tip, 10.0)),
        Head::Onward => ("sign", format!("{} Z", arrow(0.0, 10.0))),
        Head::Dropped => (
            "cross",
            format!("M{} L{}", point(0.0, 6.0), point(0.0, -6.0)),
        ),
    };
    svg.leaf("path", &[("class", &class), ("d", &shape)]);
}

/// A request's serial.
pub fn serial(svg: &mut Svg, serial: u32, x: f64, y: f64, anchor: &str) {
    svg.text(
        "text",
        &[
            ("class", &"serial halo"),
            ("text-anchor", &anchor),
            ("x", &N(x)),
            ("y", &N(y)),
        ],
        &serial.to_string(),
    );
}

/// The sign of a request that is overlapped: a ring with a cross in it.
pub fn crossing(svg: &mut Svg, x: f64, y: f64) {
    let cross = format!("M{} {} l6 6 m0 -6 l-6 6", N(x - 3.0), N(y - 3.0));
    svg.group("g", &[("class", &"crossed")], |svg| {
        svg.leaf(
            "circle",
            &[
                ("class", &"sign"),
                ("cx", &N(x)),
                ("cy", &N(y)),
                ("r", &N(5.0)),
            ],
        );
        svg.leaf("path", &[("class", &"thin"), ("d", &cross)]);
    });
}
