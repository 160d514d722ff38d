//! The picture of a story.

mod bars;
mod heads;
mod legend;
mod legs;
mod rows;
mod signs;
mod stop;
mod ways;

use crate::layout::{Layout, Rows};
use crate::story::Story;
use crate::style;
use crate::svg::{Attributes, Svg, N};
use crate::words;

/// The chart of the story's rows from one to another, as the text of an SVG file.
pub fn draw(story: &Story, rows: Rows) -> String {
    let layout = Layout::of(story, rows);
    // what stands below the rows tells the height
    let mut below = Svg::default();
    let y = stop::draw(&mut below, story, &layout);
    let height = legend::draw(&mut below, story, &layout, y + 18.0) + 8.0;
    let (width, height) = (layout.width.ceil(), height.ceil());

    let mut svg = Svg::default();
    let attributes: Attributes = &[
        ("xmlns", &"http://www.w3.org/2000/svg"),
        ("xml:lang", &"en"),
        ("width", &N(width)),
        ("height", &N(height)),
        ("viewBox", &format!("0 0 {} {}", N(width), N(height))),
        ("role", &"graphics-document document"),
        ("aria-labelledby", &"title"),
        ("aria-describedby", &"description"),
    ];
    svg.group("svg", attributes, |svg| {
        svg.text("title", &[("id", &"title")], &words::title(story));
        let description = heads::description(story, &layout);
        svg.text("desc", &[("id", &"description")], &description);
        style::define(svg, &story.senders());
        let paper: Attributes = &[
            ("width", &N(width)),
            ("height", &N(height)),
            ("fill", &"#ffffff"),
        ];
        svg.leaf("rect", paper);
        svg.group("g", &[("aria-hidden", &"true")], |svg| {
            heads::draw(svg, story, &layout);
            bars::draw(svg, story, &layout);
            legs::draw(svg, story, &layout);
            heads::names_again(svg, &layout);
        });
        rows::draw(svg, story, &layout);
        svg.splice(below);
    });
    svg.into_text()
}
