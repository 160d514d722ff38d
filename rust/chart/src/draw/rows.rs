//! Rows: the ordinal of each step, its sign where it happened, and what it says.

use famdrize::Reply;

use super::legs::serial;
use super::signs::Sign;
use super::ways::lost_at;
use crate::flight::{Outcome, Purpose};
use crate::layout::{Layout, MARGIN, ORDINALS};
use crate::story::{At, Deed, Event, Memory, Story};
use crate::svg::{Attributes, Svg, N};
use crate::words;

/// Draws the rows that are shown.
pub fn draw(svg: &mut Svg, story: &Story, layout: &Layout) {
    svg.group("g", &[("role", &"list")], |svg| {
        for event in shown(story, layout) {
            let attributes: Attributes = &[
                ("class", &"row"),
                ("role", &"listitem"),
                ("data-step", &event.ordinal),
            ];
            svg.group("g", attributes, |svg| row(svg, story, layout, event));
        }
    });
}

/// The events that are shown.
pub fn shown<'a>(story: &'a Story, layout: &Layout) -> &'a [Event] {
    &story.events[layout.rows.start() - 1..*layout.rows.end()]
}

/// The sign of a step.
pub fn sign(story: &Story, event: &Event) -> Sign {
    match event.deed {
        Deed::Refused(_) => Sign::Refused,
        Deed::Assigned => Sign::Assigned,
        Deed::Released => Sign::Released,
        Deed::Asked(_) => Sign::Asked,
        Deed::FromMemory => Sign::FromMemory,
        Deed::Arrived(serial) => match story.flight(serial).arrived {
            Some((_, Outcome::GuardSet)) => Sign::GuardDone,
            Some((_, Outcome::GuardNotSet)) => Sign::GuardNotDone,
            Some((_, Outcome::Committed { .. })) => Sign::Committed,
            Some((_, Outcome::TurnedBack { .. })) => Sign::TurnedBack,
            Some((_, Outcome::Found { .. })) | None => Sign::Found,
        },
        Deed::Answered(_, memory) => match (event.reply, memory) {
            (Reply::Granted { .. }, _) => Sign::GuardDone,
            (Reply::NotHeld { .. } | Reply::LayoutChanged { .. }, _) => Sign::GuardNotDone,
            (Reply::Rejected { .. }, _) => Sign::TurnedBack,
            (_, Some(Memory::Remembered)) => Sign::Remembered,
            _ => Sign::NotRemembered,
        },
        Deed::GivenUp(_) => Sign::GivenUp,
        Deed::Lost(_) => Sign::Lost,
        Deed::Split => Sign::Split,
        Deed::Merged => Sign::Merged,
        Deed::TabletRestarted | Deed::PlayerRestarted => Sign::Restarted,
        Deed::Reached(..) => Sign::Reached,
        Deed::Other => Sign::Other,
    }
}

fn row(svg: &mut Svg, story: &Story, layout: &Layout, event: &Event) {
    let y = layout.unclipped(event.ordinal);
    let text = |svg: &mut Svg, class: &str, x: f64, y: f64, text: &str| {
        svg.text(
            "text",
            &[("class", &class), ("x", &N(x)), ("y", &N(y))],
            text,
        );
    };
    text(
        svg,
        "ordinal",
        ORDINALS,
        y + 4.0,
        &event.ordinal.to_string(),
    );
    text(svg, "step", layout.text, y - 2.0, &words::step(event));
    text(
        svg,
        "reply",
        layout.text,
        y + 11.0,
        &words::reply(story, event),
    );
    let sign = sign(story, event);
    let attributes: Attributes = &[
        ("class", &"sign-of"),
        ("aria-hidden", &"true"),
        ("data-sign", &sign.name()),
        ("data-at", &name(event.at)),
    ];
    svg.group("g", attributes, |svg| {
        in_strip(svg, story, layout, event, sign);
        let number = match event.deed {
            Deed::Refused(refusal) => refusal.number().to_string(),
            _ => String::new(),
        };
        sign.draw(svg, point(story, layout, event), &number);
        beside(svg, layout, event);
    });
}

/// The name of a place in the file.
fn name(at: At) -> String {
    match at {
        At::Sender(sender) => sender.to_string(),
        At::Store => "the store".to_string(),
        At::Way(_) => "way".to_string(),
        At::Margin => "margin".to_string(),
    }
}

/// Where the sign of a step stands.
fn point(story: &Story, layout: &Layout, event: &Event) -> (f64, f64) {
    let y = layout.unclipped(event.ordinal);
    match event.at {
        At::Sender(sender) => (layout.x(sender), y),
        At::Store => (layout.store, y),
        At::Way(serial) => lost_at(layout, story.flight(serial), event.ordinal),
        At::Margin => (MARGIN, y),
    }
}

/// The serial of the step's request, beside the sign.
fn beside(svg: &mut Svg, layout: &Layout, event: &Event) {
    let y = layout.unclipped(event.ordinal) + 3.5;
    match (event.deed, event.at) {
        (Deed::Asked(n) | Deed::Answered(n, _) | Deed::GivenUp(n), At::Sender(sender)) => {
            serial(svg, n, layout.x(sender) - 9.0, y, "end");
        }
        (Deed::Arrived(n), _) => serial(svg, n, layout.store + 9.0, y, "start"),
        _ => {}
    }
}

/// The rows shown that have something in the store's lanes, each with the last lane that has: a line runs there from the lifeline, over all
/// lanes before it.
pub fn met(story: &Story, layout: &Layout) -> Vec<(f64, usize)> {
    let met = shown(story, layout).iter().filter_map(|event| {
        let (_, last) = entries(story, event)?;
        let lane = layout.guards.lane_of(last.into())?;
        Some((layout.unclipped(event.ordinal), lane))
    });
    met.collect()
}

/// The entries that a step at the store meets: that of a read or write, or those that a guard reaches over.
fn entries(story: &Story, event: &Event) -> Option<(u8, u8)> {
    match event.deed {
        Deed::Arrived(serial) => match story.flight(serial).purpose {
            Purpose::Read { entry } | Purpose::Write { entry, .. } => Some((entry, entry)),
            Purpose::Guard { .. } => None,
        },
        Deed::Reached(first, last) => Some((first, last)),
        _ => None,
    }
}

/// Draws in the store's lanes what a step there meets.
fn in_strip(svg: &mut Svg, story: &Story, layout: &Layout, event: &Event, sign: Sign) {
    let Some((first, last)) = entries(story, event) else {
        return;
    };
    let y = layout.unclipped(event.ordinal);
    let strip = &layout.guards;
    let lane = |entry: u8| {
        let lane = strip.lane_of(entry.into());
        lane.expect("the store's lanes have all entries")
    };
    if let Deed::Reached(..) = event.deed {
        let (left, right) = (strip.edge(lane(first)), strip.edge(lane(last) + 1));
        let (left, right, y, above) = (N(left), N(right), N(y), N(y - 5.0));
        let line = format!("M{left} {y} H{right} M{left} {above} v10 M{right} {above} v10");
        svg.leaf("path", &[("class", &"under"), ("d", &line)]);
        let attributes: Attributes = &[
            ("class", &"cross reach"),
            ("data-entries", &format!("{first}-{last}")),
            ("d", &line),
        ];
        svg.leaf("path", attributes);
        return;
    }
    let x = strip.edge(lane(first)) + strip.lane / 2.0;
    let line = format!("M{} {} H{}", N(layout.store), N(y), N(x));
    svg.leaf("path", &[("class", &"dots"), ("d", &line)]);
    let attributes: Attributes = &[("class", &"met"), ("data-entry", &first)];
    svg.group("g", attributes, |svg| {
        let plate = format!("M{} {} h14 v14 h-14 Z", N(x - 7.0), N(y - 7.0));
        svg.leaf("path", &[("class", &"plate"), ("d", &plate)]);
        sign.draw(svg, (x, y), "");
    });
}
