//! What the signs, lines and bars of a chart mean: those that occur in it, and the words of its refusals.

use std::collections::BTreeSet;

use famdrize::{Player, Refusal, BARRED, OPEN_GUARD};

use super::bars::guard_of;
use super::legs::{crossing, head, line};
use super::rows::{shown, sign};
use super::signs::Sign;
use super::ways::{self, Course, Head, Leg};
use crate::flight::{Flight, Purpose, Sender};
use crate::layout::{text_width, Layout, EDGE, LEFT, LEGEND, REPLY_SIZE};
use crate::story::{Deed, Hold, Story};
use crate::style;
use crate::svg::{Attributes, Svg, N};
use crate::words;

/// From one line of the legend to the next, and the width of a sample.
const LINE: f64 = 19.0;
const SAMPLE: f64 = 34.0;

/// How a sample is drawn, around the point in its middle.
type Sample = Box<dyn Fn(&mut Svg, f64, f64)>;

/// What one line of the legend tells.
struct Item {
    /// Its name in the file.
    name: &'static str,
    words: &'static str,
    sample: Sample,
}

fn item(name: &'static str, words: &'static str, sample: Sample) -> Item {
    Item {
        name,
        words,
        sample,
    }
}

/// Draws the legend from a height on, and tells the height after it.
pub fn draw(svg: &mut Svg, story: &Story, layout: &Layout, top: f64) -> f64 {
    let items = items(story, layout);
    let columns = (((layout.width - LEFT) / LEGEND) as usize).clamp(1, 4);
    let lines = items.len().div_ceil(columns).max(1);
    let mut y = top;
    svg.group("g", &[("class", &"legend")], |svg| {
        for (at, item) in items.iter().enumerate() {
            let (column, line) = (at / lines, at % lines);
            let x = LEFT + column as f64 * LEGEND;
            let y = top + line as f64 * LINE;
            let attributes: Attributes = &[
                ("class", &"sample"),
                ("aria-hidden", &"true"),
                ("data-is", &item.name),
            ];
            svg.group("g", attributes, |svg| {
                (item.sample)(svg, x + SAMPLE / 2.0, y);
            });
            let x = N(x + SAMPLE + 8.0);
            svg.text("text", &[("x", &x), ("y", &N(y + 4.0))], item.words);
        }
        y += lines as f64 * LINE + 4.0;
        for text in below(story, layout) {
            for line in wrapped(&text, layout.width - LEFT - EDGE) {
                svg.text("text", &[("x", &N(LEFT)), ("y", &N(y + 4.0))], &line);
                y += LINE - 3.0;
            }
        }
    });
    y
}

/// What stands below the samples: the refusals that occur, and the entries of lanes that are too narrow to have them written above.
fn below(story: &Story, layout: &Layout) -> Vec<String> {
    let refused = shown(story, layout)
        .iter()
        .filter_map(|event| match event.deed {
            Deed::Refused(refusal) => Some(refusal.number()),
            _ => None,
        });
    let numbers: BTreeSet<u32> = refused.collect();
    let refusals = numbers.into_iter().filter_map(Refusal::from_number);
    let refusals = refusals.map(|refusal| format!("{}: {}", refusal.number(), refusal.words()));
    let strips = layout.strips().into_iter();
    let narrow = strips.filter(|(_, strip)| !strip.is_labelled() && !layout.rows.is_empty());
    let narrow = narrow.map(|(name, strip)| {
        let lanes: Vec<String> = strip.lanes.iter().map(words::lane).collect();
        format!(
            "Bars of {name}, from the left, entries {}",
            lanes.join(", ")
        )
    });
    refusals.chain(narrow).collect()
}

/// A text in lines of at most this width.
fn wrapped(text: &str, width: f64) -> Vec<String> {
    let mut lines: Vec<String> = Vec::new();
    for word in text.split(' ') {
        match lines.last_mut() {
            Some(line) if text_width(&format!("{line} {word}"), REPLY_SIZE) < width => {
                line.push(' ');
                line.push_str(word);
            }
            _ => lines.push(word.to_string()),
        }
    }
    lines
}

/// Lines, bars and signs that occur in the rows shown.
fn items(story: &Story, layout: &Layout) -> Vec<Item> {
    if layout.rows.is_empty() {
        return Vec::new();
    }
    let mut items = lines(story, layout);
    items.extend(bars(story, layout));
    let signs = shown(story, layout).iter().map(|event| sign(story, event));
    let signs: BTreeSet<Sign> = signs.collect();
    items.extend(signs.into_iter().map(|sign| {
        let sample: Sample = Box::new(move |svg, x, y| sign.draw(svg, (x, y), "n"));
        item(sign.name(), sign.words(), sample)
    }));
    items
}

/// The lines of the requests that are shown.
fn lines(story: &Story, layout: &Layout) -> Vec<Item> {
    let ways = ways::shown(story, layout);
    let any = |test: &dyn Fn(&Flight, &Leg) -> bool| {
        let mut all = ways
            .iter()
            .flat_map(|(flight, legs)| legs.iter().map(move |leg| (flight, leg)));
        all.any(|(flight, leg)| test(flight, leg))
    };
    let sent = |test: fn(&Purpose) -> bool| {
        any(&|flight, leg| leg.course == Course::ToStore && test(&flight.purpose))
    };
    let ends = |head: Head| {
        any(&|_, leg| leg.head == head && leg.part(layout).is_some_and(|part| part.ends))
    };
    let dashed = |leg: &Leg| {
        let part = leg.part(layout);
        part.is_some_and(|part| leg.turn(layout, &part) != part.to)
    };
    let all = [
        (
            sent(|purpose| matches!(purpose, Purpose::Guard { .. })),
            item(
                "guard",
                "request for a guard; the number is its serial",
                arrow("guard", false, Head::Full),
            ),
        ),
        (
            sent(|purpose| matches!(purpose, Purpose::Read { .. })),
            item(
                "read",
                "read, to the store",
                arrow("read", false, Head::Full),
            ),
        ),
        (
            sent(|purpose| matches!(purpose, Purpose::Write { .. })),
            item(
                "write",
                "write or load, to the store",
                arrow("write", false, Head::Full),
            ),
        ),
        (
            any(&|_, leg| leg.course == Course::ToSender),
            item(
                "answer",
                "answer, from the store",
                arrow("answer", false, Head::Open),
            ),
        ),
        (
            any(&|_, leg| dashed(leg)),
            item(
                "given-up",
                "request given up: nobody waits for it",
                arrow("read", true, Head::Full),
            ),
        ),
        (
            ends(Head::Dropped),
            item(
                "dropped",
                "answer given up on its way",
                arrow("answer", false, Head::Dropped),
            ),
        ),
        (
            ends(Head::Onward),
            item(
                "in-flight",
                "in flight at the end",
                arrow("read", false, Head::Onward),
            ),
        ),
        (
            any(&|flight, leg| leg.crossed(layout, flight).is_some()),
            item(
                "crossed",
                "overlapped by a write: not remembered",
                Box::new(crossing),
            ),
        ),
    ];
    let occurring = all.into_iter().filter(|(occurs, _)| *occurs);
    occurring.map(|(_, item)| item).collect()
}

/// The bars that occur in the rows shown. Those of a guard are shown with the pattern of a player that has one.
fn bars(story: &Story, layout: &Layout) -> Vec<Item> {
    let mut items = Vec::new();
    let shown = |from: usize, to: Option<usize>| layout.span(from, to).is_some();
    let held: Vec<(Player, Hold)> = layout
        .players()
        .flat_map(|(player, strip)| {
            let blocks = story.holds_of(player).blocks(&strip.lanes).into_iter();
            let blocks = blocks.filter(move |block| shown(block.from, block.to));
            blocks.map(move |block| (player, block.value))
        })
        .collect();
    let guards = story.guards.blocks(&layout.guards.lanes);
    let guards = guards.iter().filter(|block| shown(block.from, block.to));
    let guards: BTreeSet<u32> = guards.map(|block| block.value).collect();
    if let Some((player, _)) = held.iter().find(|(_, hold)| *hold == Hold::Owned) {
        let class = format!("owned {}", style::stroke(Sender::Player(*player)));
        items.push(item(
            "owned",
            "left of a player: owned, no live guard",
            bar(class),
        ));
    }
    let guarded = held
        .iter()
        .find(|(_, hold)| matches!(hold, Hold::Guarded(_)));
    if let Some((player, _)) = guarded {
        let words = "the same with a live guard, in its pattern";
        items.push(item("guarded", words, bar(style::pattern(*player))));
    }
    let set = guards
        .iter()
        .find(|guard| **guard != OPEN_GUARD && **guard != BARRED);
    if let Some(guard) = set {
        let class = style::pattern(guard_of(story, *guard));
        items.push(item(
            "set",
            "right of the store: guard of that player",
            bar(class),
        ));
    }
    if guards.contains(&OPEN_GUARD) {
        let words = "right of the store: open, no guard yet";
        items.push(item("open", words, bar("open".to_string())));
    }
    if guards.contains(&BARRED) {
        let words = "right of the store: barred by a restart";
        items.push(item("barred", words, bar("barred".to_string())));
    }
    let mut boundaries = story.boundaries.iter();
    if boundaries.any(|boundary| shown(boundary.from, boundary.to)) {
        let words = "boundary: a tablet begins";
        items.push(item("boundary", words, Box::new(boundary)));
    }
    items
}

/// A short arrow to the right.
fn arrow(weight: &'static str, given_up: bool, end: Head) -> Sample {
    Box::new(move |svg, x, y| {
        let (from, to) = ((x - 14.0, y), (x + 14.0, y));
        let class = format!("leg {}", style::PLAIN_STROKE);
        svg.group("g", &[("class", &class)], |svg| {
            line(svg, weight, from, to, given_up);
            head(svg, end, from, to, style::PLAIN_FILL, 0.0);
        });
    })
}

/// A piece of a bar.
fn bar(class: String) -> Sample {
    Box::new(move |svg, x, y| {
        svg.leaf(
            "rect",
            &[
                ("class", &format!("bar {class}")),
                ("x", &N(x - 14.0)),
                ("y", &N(y - 6.0)),
                ("width", &N(28.0)),
                ("height", &N(12.0)),
            ],
        );
    })
}

/// A piece of a boundary.
fn boundary(svg: &mut Svg, x: f64, y: f64) {
    let line = format!("M{} {} v14", N(x), N(y - 7.0));
    svg.leaf("path", &[("class", &"boundary"), ("d", &line)]);
}
