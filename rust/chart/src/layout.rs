//! Where things stand in the picture: rows by their ordinals, lifelines and lanes by who and which entries they are for.

use std::ops::RangeInclusive;

use famdrize::Player;

use crate::flight::Sender;
use crate::story::{Hold, Story};
use crate::strip::Entries;
use crate::words;

/// From one row to the next.
pub const ROW: f64 = 32.0;
/// The left edge of the text above and below the rows, and the heights of that above them.
pub const LEFT: f64 = 20.0;
pub const TITLE: f64 = 26.0;
pub const SUBTITLE: f64 = 46.0;
/// The right edge of the ordinals, and the middle of the margin, where steps stand that are nobody's on a lifeline.
pub const ORDINALS: f64 = 40.0;
pub const MARGIN: f64 = 60.0;
/// The left edge of the first strip.
const STRIPS: f64 = 80.0;
/// From a strip to its lifeline, with room for a serial.
pub const BESIDE: f64 = 24.0;
/// The least from a lifeline to the next strip, and to the next lifeline.
const NEXT_STRIP: f64 = 40.0;
const NEXT_LIFELINE: f64 = 90.0;
/// From the last lifeline of a sender to that of the store.
const WAY: f64 = 190.0;
/// From the store's strip to the rows' text.
const TEXT_GAP: f64 = 18.0;
/// The width of a column of the legend.
pub const LEGEND: f64 = 318.0;
/// From the text to the right edge of the picture.
pub const EDGE: f64 = 12.0;
/// The top of the heads, and their size.
pub const HEADS: f64 = 64.0;
pub const HEAD_HEIGHT: f64 = 22.0;
pub const HEAD_WIDTH: f64 = 72.0;
/// The widest and the narrowest lane, and what a strip's lanes should not exceed together.
const WIDEST_LANE: f64 = 26.0;
const NARROWEST_LANE: f64 = 3.0;
const STRIP_WIDTH: f64 = 156.0;
/// From the heads to the lanes' entries, and from those to the rows.
const ABOVE_LANES: f64 = 8.0;
pub const ABOVE_ROWS: f64 = 6.0;
/// The narrowest lane that has its entries written above it.
const LABELLED_LANE: f64 = 11.0;

/// Sizes of letters: the title, a row's step, its reply, and small ones.
pub const TITLE_SIZE: f64 = 17.0;
pub const STEP_SIZE: f64 = 12.0;
pub const REPLY_SIZE: f64 = 11.0;
pub const SMALL_SIZE: f64 = 10.0;

/// About how wide a text is in a sans-serif font, on the safe side.
pub fn text_width(text: &str, size: f64) -> f64 {
    text.chars().count() as f64 * size * 0.58
}

/// Which steps a chart shows, by their ordinals.
pub type Rows = RangeInclusive<usize>;

/// The bars of a lifeline: lanes of entries, side by side.
pub struct Strip {
    pub left: f64,
    pub lane: f64,
    pub lanes: Vec<Entries>,
}

impl Strip {
    fn new(left: f64, lanes: Vec<Entries>) -> Strip {
        let lane = (STRIP_WIDTH / lanes.len().max(1) as f64).clamp(NARROWEST_LANE, WIDEST_LANE);
        // with one digit after the point, as all places have
        let lane = (lane * 10.0).floor() / 10.0;
        Strip { left, lane, lanes }
    }

    pub fn right(&self) -> f64 {
        self.edge(self.lanes.len())
    }

    /// The left edge of a lane, or the right one of the lane before it.
    pub fn edge(&self, lane: usize) -> f64 {
        self.left + lane as f64 * self.lane
    }

    /// The lane that has the entry.
    pub fn lane_of(&self, entry: u16) -> Option<usize> {
        self.lanes.iter().position(|lane| lane.contains(&entry))
    }

    pub fn is_labelled(&self) -> bool {
        self.lane >= LABELLED_LANE
    }
}

/// A lifeline of a player or of the loader, with the player's bars.
pub struct Column {
    pub sender: Sender,
    pub x: f64,
    pub strip: Strip,
}

/// The places of a whole chart.
pub struct Layout {
    pub rows: Rows,
    pub columns: Vec<Column>,
    pub store: f64,
    pub guards: Strip,
    pub text: f64,
    pub width: f64,
    /// Where the rows begin.
    pub top: f64,
}

impl Layout {
    /// That of the story's rows from one to another. Lifelines and lanes are those of the whole story, so that they are the same in all its
    /// parts.
    pub fn of(story: &Story, rows: Rows) -> Layout {
        let mut columns: Vec<Column> = Vec::new();
        let (mut left, mut least) = (STRIPS, STRIPS + HEAD_WIDTH / 2.0);
        for sender in story.senders() {
            let mut strip = Strip::new(left, held(story, sender));
            let x = (strip.right() + BESIDE).max(least);
            strip.left += x - BESIDE - strip.right();
            columns.push(Column { sender, x, strip });
            (left, least) = (x + NEXT_STRIP, x + NEXT_LIFELINE);
        }
        let store = columns.last().map_or(STRIPS, |last| last.x) + WAY;
        let cuts: Vec<u16> = story
            .boundaries
            .iter()
            .map(|boundary| boundary.entry.into())
            .collect();
        let guards = Strip::new(store + BESIDE, story.guards.lanes(&cuts, None));
        let text = guards.right() + TEXT_GAP;
        let width = widest(story, &rows, text) + EDGE;
        let strips = columns.iter().map(|column| &column.strip).chain([&guards]);
        let labels = strips.filter(|strip| strip.is_labelled());
        let lengths = labels
            .flat_map(|strip| &strip.lanes)
            .map(|lane| text_width(&words::lane(lane), SMALL_SIZE));
        let top = HEADS + HEAD_HEIGHT + ABOVE_LANES + lengths.fold(0.0, f64::max) + ABOVE_ROWS;
        Layout {
            rows,
            columns,
            store,
            guards,
            text,
            width,
            top,
        }
    }

    /// The middle of a step's row, or the nearer edge of the rows for a step that is not shown.
    fn y(&self, step: usize) -> f64 {
        let (first, last) = (*self.rows.start(), *self.rows.end());
        if step < first {
            return self.top;
        }
        if step > last {
            return self.bottom();
        }
        self.unclipped(step)
    }

    /// The middle of a step's row, as if all were shown.
    pub fn unclipped(&self, step: usize) -> f64 {
        self.top + (step as f64 - *self.rows.start() as f64 + 0.5) * ROW
    }

    /// Where the rows end.
    pub fn bottom(&self) -> f64 {
        let shown = self.rows.end() + 1 - self.rows.start();
        self.top + shown as f64 * ROW
    }

    /// The players, each with its bars.
    pub fn players(&self) -> impl Iterator<Item = (Player, &Strip)> {
        self.columns
            .iter()
            .filter_map(|column| match column.sender {
                Sender::Player(player) => Some((player, &column.strip)),
                Sender::Loader => None,
            })
    }

    /// All bars, by the names of the lifelines.
    pub fn strips(&self) -> Vec<(String, &Strip)> {
        let players = self
            .players()
            .map(|(player, strip)| (player.to_string(), strip));
        players
            .chain([("the store".to_string(), &self.guards)])
            .collect()
    }

    /// From where to where something stands that one step began and another, or the end, took away; none where no row shown has it.
    pub fn span(&self, from: usize, to: Option<usize>) -> Option<(f64, f64)> {
        let top = self.y(from);
        let bottom = to.map_or(self.bottom(), |to| self.y(to));
        (top < bottom).then_some((top, bottom))
    }

    pub fn shows(&self, step: usize) -> bool {
        self.rows.contains(&step)
    }

    /// The lifeline of a sender.
    pub fn x(&self, sender: Sender) -> f64 {
        let mut columns = self.columns.iter();
        columns
            .find(|column| column.sender == sender)
            .expect("every sender has a lifeline")
            .x
    }
}

/// How far the text reaches to the right, of rows whose text begins at a place.
fn widest(story: &Story, rows: &Rows, text: f64) -> f64 {
    let shown = &story.events[rows.start() - 1..*rows.end()];
    let of_rows = shown.iter().map(|event| {
        let step = text_width(&words::step(event), STEP_SIZE);
        text + step.max(text_width(&words::reply(story, event), REPLY_SIZE))
    });
    let mut lines = words::below(story, rows);
    lines.push(words::subtitle(story, rows));
    let of_lines = lines.iter().map(|line| LEFT + text_width(line, STEP_SIZE));
    let title = text_width(&words::title(story), TITLE_SIZE);
    let least = LEFT + title.max(LEGEND);
    of_rows.chain(of_lines).fold(least.max(text), f64::max)
}

/// The entries that a sender ever owns, as lanes.
fn held(story: &Story, sender: Sender) -> Vec<Entries> {
    match sender {
        Sender::Player(player) => story.holds_of(player).lanes(&[], Some(&Hold::Nothing)),
        Sender::Loader => Vec::new(),
    }
}
