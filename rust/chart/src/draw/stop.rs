//! Below the rows: why the run stopped, and the bytes that it did not read.

use crate::layout::{Layout, EDGE, LEFT};
use crate::story::Story;
use crate::svg::{Attributes, Svg, N};
use crate::words;

/// The height of the bar that stands for damage, and that of a line of text.
const DAMAGE: f64 = 12.0;
const LINE: f64 = 17.0;

/// Draws it, and tells the height after it.
pub fn draw(svg: &mut Svg, story: &Story, layout: &Layout) -> f64 {
    let lines = words::below(story, &layout.rows);
    let bottom = layout.bottom();
    if *layout.rows.end() < story.events.len() {
        across(svg, "dots", bottom, layout.width - EDGE);
        return text(svg, bottom, &lines);
    }
    let class = match story.is_damaged() {
        true => "end-of-session damaged",
        false => "end-of-session",
    };
    let end = words::end(story);
    let attributes: Attributes = &[("class", &class), ("data-end", &end)];
    let mut after = bottom;
    svg.group("g", attributes, |svg| {
        let right = layout.guards.right();
        if story.is_damaged() {
            let bar: Attributes = &[
                ("class", &"damage"),
                ("x", &N(LEFT)),
                ("y", &N(bottom)),
                ("width", &N(right - LEFT)),
                ("height", &N(DAMAGE)),
            ];
            svg.leaf("rect", bar);
            after += DAMAGE;
        } else {
            across(svg, "stop", bottom, right);
        }
        after = text(svg, after, &lines);
    });
    after
}

/// A line across the picture.
fn across(svg: &mut Svg, class: &str, y: f64, right: f64) {
    let line = format!("M{} {} H{}", N(LEFT), N(y), N(right));
    svg.leaf("path", &[("class", &class), ("d", &line)]);
}

/// Lines of text from a height on; the height after them.
fn text(svg: &mut Svg, top: f64, lines: &[String]) -> f64 {
    let mut y = top;
    for line in lines {
        y += LINE;
        let attributes: Attributes = &[("class", &"step"), ("x", &N(LEFT)), ("y", &N(y))];
        svg.text("text", attributes, line);
    }
    y + 6.0
}
