//! Draws a session as a sequence chart: one lifeline for each player that occurs, for the loader if it does, and for the store; time runs down,
//! one row for each record. The chart is the text of an SVG file, made of the session's bytes alone: the same bytes give the same text.
//!
//! The rules of the steps are not written here again: what happened is asked of the proved library.
//!
//! | Module | Holds |
//! |---|---|
//! | `story` | what happened in a session |
//! | `telling` | how that is found out: the records are taken with the proved library, and what each did is read off its tables |
//! | `flight`, `holders`, `strip` | requests on their way; who owns what under which guard; values of entries as bars |
//! | `layout`, `words`, `style` | where things stand, what is said, colours and patterns |
//! | `draw`, `svg` | the picture, and the text of its file |

#![forbid(unsafe_code)]

mod draw;
mod flight;
mod holders;
mod layout;
mod story;
mod strip;
mod style;
mod svg;
mod telling;
mod words;

pub use layout::Rows;

use famdrize::{Report, Why};
use story::Story;

/// A session that can be drawn.
pub struct Chart {
    story: Story,
}

impl Chart {
    /// That of a session's bytes, whatever they are.
    pub fn of(session: &[u8]) -> Chart {
        Chart {
            story: Story::of(session),
        }
    }

    /// The report of the session's run.
    pub fn report(&self) -> Report {
        self.story.report
    }

    /// Whether the run came to the session's end.
    pub fn is_whole(&self) -> bool {
        self.story.report.why == Why::End
    }

    /// The picture of all records.
    pub fn draw(&self) -> String {
        draw::draw(&self.story, 1..=self.story.events.len())
    }

    /// The picture of the records from one to another, by their ordinals, or to the last; none where the first of them is not there. What
    /// came before them, and comes after them, is as in the whole picture.
    pub fn draw_rows(&self, rows: Rows) -> Option<String> {
        let first = *rows.start();
        let last = self.story.events.len().min(*rows.end());
        let there = 1 <= first && first <= last;
        there.then(|| draw::draw(&self.story, first..=last))
    }
}
