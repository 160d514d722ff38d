//! Bars beside the lifelines: who owns which entries, under which live guard, and which guard the store has.

use famdrize::{Player, BARRED, OPEN_GUARD};

use super::rows;
use crate::flight::Sender;
use crate::layout::{text_width, Layout, Strip, ABOVE_ROWS, SMALL_SIZE};
use crate::story::{Hold, Story};
use crate::strip::Block;
use crate::style;
use crate::svg::{Attributes, Svg, N};
use crate::words;

/// From one label of a long bar to the next.
const LABELS: f64 = 480.0;
/// The width of an upright label, or the height of a level one.
const PLATE: f64 = 12.0;
/// How far what stands in a lane reaches from the middle of its row.
const MET: f64 = 8.0;

/// A strip that is being drawn.
struct Drawn<'a> {
    layout: &'a Layout,
    strip: &'a Strip,
    /// The rows that have something in the lanes up to one, in their order.
    met: Vec<(f64, usize)>,
}

impl Drawn<'_> {
    /// The rows from one height to another that have something in a lane from this one on.
    fn taken(&self, lane: usize, top: f64, bottom: f64) -> Vec<f64> {
        let first = self.met.partition_point(|(row, _)| *row < top);
        let rows = self.met[first..].iter();
        let rows = rows.take_while(|(row, _)| *row < bottom);
        let rows = rows.filter(|(_, met)| *met >= lane);
        rows.map(|(row, _)| *row).collect()
    }
}

/// Draws all bars, and the boundaries; none where there is no row to draw them along.
pub fn draw(svg: &mut Svg, story: &Story, layout: &Layout) {
    if layout.rows.is_empty() {
        return;
    }
    for column in &layout.columns {
        let Sender::Player(player) = column.sender else {
            continue;
        };
        if column.strip.lanes.is_empty() {
            continue;
        }
        let met = Vec::new();
        let strip = &column.strip;
        let at = Drawn { layout, strip, met };
        lanes(svg, layout, strip, &player.to_string(), |svg| {
            let blocks = story.holds_of(player).blocks(&column.strip.lanes);
            for block in blocks {
                let (class, label) = match block.value {
                    Hold::Nothing => continue,
                    Hold::Owned => (
                        format!("owned {}", style::stroke(column.sender)),
                        "no guard".to_string(),
                    ),
                    Hold::Guarded(guard) => (style::pattern(player), format!("guard {guard}")),
                };
                bar(svg, &at, &block, &class, &label);
            }
        });
    }
    let strip = &layout.guards;
    let met = rows::met(story, layout);
    let at = Drawn { layout, strip, met };
    lanes(svg, layout, strip, "the store", |svg| {
        for block in story.guards.blocks(&layout.guards.lanes) {
            let (class, label) = match block.value {
                OPEN_GUARD => ("open".to_string(), "open".to_string()),
                BARRED => ("barred".to_string(), "barred".to_string()),
                guard => (
                    style::pattern(guard_of(story, guard)),
                    format!("guard {guard}"),
                ),
            };
            bar(svg, &at, &block, &class, &label);
        }
        boundaries(svg, story, layout);
    });
}

/// The player whose request set a guard of the store.
pub fn guard_of(story: &Story, guard: u32) -> Player {
    match story.flight(guard).sender {
        Sender::Player(player) => player,
        Sender::Loader => unreachable!("the loader asks for no guard"),
    }
}

/// A strip: its lanes' entries above it, then what is drawn in it.
fn lanes(
    svg: &mut Svg,
    layout: &Layout,
    strip: &Strip,
    whose: &str,
    inside: impl FnOnce(&mut Svg),
) {
    let lanes: Vec<String> = strip
        .lanes
        .iter()
        .map(|lane| format!("{}-{}", lane.start, lane.end - 1))
        .collect();
    let attributes: Attributes = &[
        ("class", &"strip"),
        ("data-of", &whose),
        ("data-lanes", &lanes.join(" ")),
        ("data-left", &N(strip.left)),
        ("data-lane", &strip.lane),
    ];
    svg.group("g", attributes, |svg| {
        if strip.is_labelled() {
            for (at, lane) in strip.lanes.iter().enumerate() {
                let x = strip.edge(at) + strip.lane / 2.0 + 3.5;
                let y = layout.top - ABOVE_ROWS;
                let label = words::lane(lane);
                upright(svg, "small", x, y, &label);
            }
        }
        inside(svg);
    });
}

/// Text that runs up from a point.
fn upright(svg: &mut Svg, class: &str, x: f64, y: f64, text: &str) {
    let turned = format!("translate({} {}) rotate(-90)", N(x), N(y));
    svg.text("text", &[("class", &class), ("transform", &turned)], text);
}

/// A bar over the rows of its steps, if any of them are shown.
fn bar<T>(svg: &mut Svg, at: &Drawn, block: &Block<T>, class: &str, label: &str) {
    let (layout, strip) = (at.layout, at.strip);
    let Some((top, bottom)) = layout.span(block.from, block.to) else {
        return;
    };
    let (left, right) = (strip.edge(block.lanes.start), strip.edge(block.lanes.end));
    let first = strip.lanes[block.lanes.start].start;
    let last = strip.lanes[block.lanes.end - 1].end - 1;
    let to = words::step_or_end(block.to);
    let class = format!("bar {class}");
    let attributes: Attributes = &[
        ("class", &class),
        ("data-entries", &format!("{first}-{last}")),
        ("data-from", &block.from),
        ("data-to", &to),
        ("data-is", &label),
        ("x", &N(left)),
        ("y", &N(top)),
        ("width", &N(right - left)),
        ("height", &N(bottom - top)),
    ];
    svg.group("rect", attributes, |svg| {
        let told = format!("entries {}: {label}", words::lane(&(first..last + 1)));
        svg.text("title", &[], &told);
    });
    let taken = at.taken(block.lanes.start, top, bottom);
    // in the middle lane, if that is wide enough: a boundary may stand between two
    let middle = (block.lanes.start + block.lanes.end - 1) / 2;
    let named = match strip.is_labelled() {
        true => (strip.edge(middle), strip.edge(middle + 1)),
        false => (left, right),
    };
    let mut y = top;
    loop {
        let room = (y + 3.0, bottom.min(y + LABELS) - 2.0);
        name(svg, named, room, &taken, label);
        y += LABELS;
        if y + LABELS / 2.0 > bottom {
            return;
        }
    }
}

/// What a bar is, written into it where nothing else stands: upright if there is room, else the last word alone.
fn name(svg: &mut Svg, (left, right): (f64, f64), room: (f64, f64), taken: &[f64], label: &str) {
    let long = text_width(label, SMALL_SIZE) + 4.0;
    let short = label.rsplit(' ').next().unwrap_or(label);
    let wide = text_width(short, SMALL_SIZE) + 4.0;
    let middle = (left + right) / 2.0;
    if right - left >= PLATE {
        if let Some(top) = free(room, taken, long) {
            plate(svg, middle - PLATE / 2.0, top, PLATE, long);
            upright(svg, "small", middle + 3.5, top + long - 2.0, label);
            return;
        }
    }
    if right - left >= wide {
        if let Some(top) = free(room, taken, PLATE) {
            plate(svg, middle - wide / 2.0 + 1.0, top, wide - 2.0, PLATE);
            let (x, y) = (N(middle), N(top + PLATE - 2.5));
            svg.text(
                "text",
                &[("class", &"small middle"), ("x", &x), ("y", &y)],
                short,
            );
        }
    }
}

/// The first height within the room, if there is one, from which on so much is free of the rows that are taken.
fn free((top, bottom): (f64, f64), taken: &[f64], height: f64) -> Option<f64> {
    let mut from = top;
    for row in taken {
        if row + MET <= from {
            continue;
        }
        if row - MET >= from + height {
            break;
        }
        from = row + MET;
    }
    (from + height <= bottom).then_some(from)
}

/// White behind a label.
fn plate(svg: &mut Svg, x: f64, y: f64, width: f64, height: f64) {
    svg.leaf(
        "rect",
        &[
            ("class", &"plate"),
            ("x", &N(x)),
            ("y", &N(y)),
            ("width", &N(width)),
            ("height", &N(height)),
        ],
    );
}

/// The boundaries, as lines along the lanes that begin there.
fn boundaries(svg: &mut Svg, story: &Story, layout: &Layout) {
    let strip = &layout.guards;
    for boundary in &story.boundaries {
        let Some((top, bottom)) = layout.span(boundary.from, boundary.to) else {
            continue;
        };
        let lane = strip.lane_of(boundary.entry.into());
        let x = strip.edge(lane.expect("the store's lanes have all entries"));
        let to = words::step_or_end(boundary.to);
        let line = format!("M{} {} V{}", N(x), N(top), N(bottom));
        let attributes: Attributes = &[
            ("class", &"boundary"),
            ("data-entry", &boundary.entry),
            ("data-from", &boundary.from),
            ("data-to", &to),
            ("d", &line),
        ];
        svg.leaf("path", attributes);
    }
}
