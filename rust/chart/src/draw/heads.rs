//! What stands above and behind the rows: the title, the lifelines with their names, a band behind every other row.

use famdrize::Reply;

use crate::flight::Sender;
use crate::layout::{Layout, HEADS, HEAD_HEIGHT, HEAD_WIDTH, LEFT, ROW, SUBTITLE, TITLE};
use crate::story::{Deed, Story};
use crate::style;
use crate::svg::{Attributes, Svg, N};
use crate::words;

/// After how many rows the names of the lifelines are said again, if as many rows as that come after it.
const NAMES: usize = 20;
const ROWS_AFTER: usize = 10;

/// The height of a player's pattern in its head.
const PATTERN: f64 = 6.0;

/// What a chart shows, for those who do not see it.
pub fn description(story: &Story, layout: &Layout) -> String {
    let mut senders: Vec<String> = layout
        .columns
        .iter()
        .map(|column| column.sender.to_string())
        .collect();
    senders.push("the store".to_string());
    let count = |test: &dyn Fn(&Reply) -> bool| {
        let replies = story.events.iter().map(|event| &event.reply);
        replies.filter(|reply| test(reply)).count()
    };
    let from_memory = count(&|reply| matches!(reply, Reply::CacheRead { .. }));
    let turned_back = count(&|reply| matches!(reply, Reply::Rejected { .. }));
    let refused = story.events.iter();
    let refused = refused
        .filter(|event| matches!(event.deed, Deed::Refused(_)))
        .count();
    let part = match layout.rows.clone().count() {
        shown if shown < story.events.len() => {
            let (first, last) = (layout.rows.start(), layout.rows.end());
            format!(" Of its records those from {first} to {last} are shown.")
        }
        _ => String::new(),
    };
    format!(
        "A sequence chart of a session.{part} Time runs down, one row for each record; from left to right stand the lifelines of {}. \
         In the whole session: reads from memory, {from_memory}; writes answered as turned back, {turned_back}; refused steps, {refused}; {}. \
         Each row says in words what the step was and what came of it.",
        words::list(&senders),
        story.report
    )
}

/// Draws the title, the bands, and the lifelines with their names.
pub fn draw(svg: &mut Svg, story: &Story, layout: &Layout) {
    let text = |svg: &mut Svg, class: &str, y: f64, text: &str| {
        let (left, y) = (N(LEFT), N(y));
        svg.text("text", &[("class", &class), ("x", &left), ("y", &y)], text);
    };
    text(svg, "title", TITLE, &words::title(story));
    text(svg, "step", SUBTITLE, &words::subtitle(story, &layout.rows));
    bands(svg, layout);
    let (top, bottom) = (N(HEADS + HEAD_HEIGHT), N(layout.bottom()));
    for (name, x) in names(layout) {
        let line = format!("M{} {top} V{bottom}", N(x));
        let attributes: Attributes = &[("class", &"lifeline"), ("data-of", &name), ("d", &line)];
        svg.leaf("path", attributes);
        let head: Attributes = &[
            ("class", &"head"),
            ("x", &N(x - HEAD_WIDTH / 2.0)),
            ("y", &N(HEADS)),
            ("width", &N(HEAD_WIDTH)),
            ("height", &N(HEAD_HEIGHT)),
        ];
        svg.leaf("rect", head);
        let y = N(HEADS + HEAD_HEIGHT / 2.0 + 4.0);
        svg.text(
            "text",
            &[("class", &"step middle"), ("x", &N(x)), ("y", &y)],
            &name,
        );
    }
    for column in &layout.columns {
        if let Sender::Player(player) = column.sender {
            let class = format!("bar {}", style::pattern(player));
            let pattern: Attributes = &[
                ("class", &class),
                ("x", &N(column.x - HEAD_WIDTH / 2.0)),
                ("y", &N(HEADS + HEAD_HEIGHT)),
                ("width", &N(HEAD_WIDTH)),
                ("height", &N(PATTERN)),
            ];
            svg.leaf("rect", pattern);
        }
    }
}

/// Says the names of the lifelines again, in a long session.
pub fn names_again(svg: &mut Svg, layout: &Layout) {
    let (first, last) = (*layout.rows.start(), *layout.rows.end());
    let rows = first..=last.saturating_sub(ROWS_AFTER);
    for row in rows.step_by(NAMES).skip(1) {
        let y = N(layout.unclipped(row) - ROW / 2.0 + 3.5);
        for (name, x) in names(layout) {
            let attributes: Attributes =
                &[("class", &"small middle halo"), ("x", &N(x)), ("y", &y)];
            svg.text("text", attributes, &name);
        }
    }
}

/// The lifelines, each with its name and place.
fn names(layout: &Layout) -> Vec<(String, f64)> {
    let senders = layout
        .columns
        .iter()
        .map(|column| (column.sender.to_string(), column.x));
    senders
        .chain([("the store".to_string(), layout.store)])
        .collect()
}

/// A band behind every other row.
fn bands(svg: &mut Svg, layout: &Layout) {
    let mut path = String::new();
    for row in layout.rows.clone().filter(|row| row % 2 == 0) {
        let y = N(layout.unclipped(row) - ROW / 2.0);
        path += &format!("M0 {y} H{} v{} H0 Z ", N(layout.width.ceil()), N(ROW));
    }
    if !path.is_empty() {
        svg.leaf("path", &[("class", &"band"), ("d", &path.trim_end())]);
    }
}
