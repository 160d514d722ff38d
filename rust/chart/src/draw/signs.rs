//! The signs of what a step did, each drawn around a point.

use crate::svg::{Svg, N};

/// A sign. Their order is that of the legend.
#[derive(Clone, Copy, Debug, PartialEq, Eq, PartialOrd, Ord)]
pub enum Sign {
    Asked,
    Found,
    GuardDone,
    GuardNotDone,
    Committed,
    TurnedBack,
    Remembered,
    NotRemembered,
    FromMemory,
    GivenUp,
    Lost,
    Assigned,
    Released,
    Split,
    Merged,
    Restarted,
    Reached,
    Other,
    Refused,
}

impl Sign {
    /// What it says, for the legend.
    pub fn words(self) -> &'static str {
        match self {
            Sign::Asked => "a request is sent",
            Sign::Found => "the store looks at the entry for a read",
            Sign::GuardDone => "guard set (store), granted (player)",
            Sign::GuardNotDone => "guard not set (store), not granted (player)",
            Sign::Committed => "write commits",
            Sign::TurnedBack => "write turned back",
            Sign::Remembered => "answer, remembered",
            Sign::NotRemembered => "answer; nothing new in memory",
            Sign::FromMemory => "read from memory",
            Sign::GivenUp => "the request is given up",
            Sign::Lost => "the given-up request is lost",
            Sign::Assigned => "entries are assigned",
            Sign::Released => "entries are released",
            Sign::Split => "a boundary is set",
            Sign::Merged => "a boundary is removed",
            Sign::Restarted => "restart of a tablet (store) or a player",
            Sign::Reached => "how far a guard reaches",
            Sign::Other => "another step",
            Sign::Refused => "refused, with the number; nothing is altered",
        }
    }

    /// Its name in the file.
    pub fn name(self) -> &'static str {
        match self {
            Sign::Asked => "asked",
            Sign::Found => "found",
            Sign::GuardDone => "guard-done",
            Sign::GuardNotDone => "guard-not-done",
            Sign::Committed => "committed",
            Sign::TurnedBack => "turned-back",
            Sign::Remembered => "remembered",
            Sign::NotRemembered => "not-remembered",
            Sign::FromMemory => "from-memory",
            Sign::GivenUp => "gives-up",
            Sign::Lost => "lost",
            Sign::Assigned => "assigned",
            Sign::Released => "released",
            Sign::Split => "split",
            Sign::Merged => "merged",
            Sign::Restarted => "restarted",
            Sign::Reached => "reached",
            Sign::Other => "other",
            Sign::Refused => "refused",
        }
    }

    /// Draws it around a point; `number` is that of a refusal.
    pub fn draw(self, svg: &mut Svg, (x, y): (f64, f64), number: &str) {
        let mut pen = Pen { svg, x, y };
        match self {
            Sign::Asked => pen.circle("sign full", 2.6),
            Sign::Found => pen.circle("sign", 3.8),
            Sign::GuardDone => pen.path("sign full", "m0 -6 l6 6 l-6 6 l-6 -6 Z"),
            Sign::GuardNotDone => pen.path("sign", "m0 -6 l6 6 l-6 6 l-6 -6 Z"),
            Sign::Committed => pen.path("sign full", "m-4.5 -4.5 h9 v9 h-9 Z"),
            Sign::TurnedBack => pen.path("cross", "m-5 -5 l10 10 m0 -10 l-10 10"),
            Sign::Remembered => {
                pen.circle("sign", 5.5);
                pen.circle("sign full", 1.8);
            }
            Sign::NotRemembered => pen.circle("sign", 5.5),
            Sign::FromMemory => pen.circle("sign full", 5.5),
            Sign::GivenUp => {
                pen.circle("sign", 5.5);
                pen.path("sign", "m-4 4 l8 -8");
            }
            Sign::Lost => pen.path("cross", "m-3 -6 v12 m6 -12 v12"),
            Sign::Assigned => pen.path("sign full", "m-6 0 l9 -6 v12 Z"),
            Sign::Released => pen.path("sign", "m-6 0 l9 -6 v12 Z"),
            Sign::Split => pen.path("sign full", "m-1.5 -7 h3 v14 h-3 Z"),
            Sign::Merged => pen.path("sign", "m-2 -7 h4 v14 h-4 Z"),
            Sign::Restarted => {
                pen.circle("plate", 7.5);
                pen.path("cross", "m5 -3 a6 6 0 1 0 1 4");
                pen.path("sign full", "m7 -7 v6 h-6 Z");
            }
            Sign::Reached => {
                pen.path("plate", "m-9 -5 h18 v10 h-18 Z");
                pen.path("thin", "m-8 0 h16 m-12 -4 l-4 4 l4 4 m8 -8 l4 4 l-4 4");
            }
            Sign::Other => pen.path("sign full", "m-2.5 -2.5 h5 v5 h-5 Z"),
            Sign::Refused => {
                pen.path("refused", "m-12 -7.5 h24 v15 h-24 Z");
                let (x, y) = (N(x), N(y + 3.8));
                svg.text(
                    "text",
                    &[("class", &"number"), ("x", &x), ("y", &y)],
                    number,
                );
            }
        }
    }
}

/// Draws around a point.
struct Pen<'a> {
    svg: &'a mut Svg,
    x: f64,
    y: f64,
}

impl Pen<'_> {
    fn circle(&mut self, class: &str, radius: f64) {
        let (x, y) = (N(self.x), N(self.y));
        self.svg.leaf(
            "circle",
            &[("class", &class), ("cx", &x), ("cy", &y), ("r", &N(radius))],
        );
    }

    /// A path that begins at the point.
    fn path(&mut self, class: &str, path: &str) {
        let path = format!("M{} {} {path}", N(self.x), N(self.y));
        self.svg.leaf("path", &[("class", &class), ("d", &path)]);
    }
}
