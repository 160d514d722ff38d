//! Colours and patterns. Each player has both, so that a chart printed in grey tells the same.

use famdrize::Player;

use crate::flight::Sender;
use crate::svg::{Attributes, Svg, N};

/// The colours of the players' lines, and a light one for their bars: dark enough for thin lines on white.
const COLOURS: [(&str, &str); 8] = [
    ("#1f5a9e", "#dbe8f6"),
    ("#b3431a", "#f9e1d6"),
    ("#1a6e45", "#d8eee2"),
    ("#74399a", "#ebdff3"),
    ("#7d6200", "#f4ecca"),
    ("#006a75", "#d5edef"),
    ("#a01a57", "#f6dbe7"),
    ("#6e4520", "#f1e6d9"),
];

/// The lines of each player's pattern, in a square of 8.
const PATTERNS: [&str; 8] = [
    "M-2 6 L6 -2 M2 10 L10 2",
    "M1.5 2 h1.6 M5.5 6 h1.6",
    "M0 2 H8 M0 6 H8",
    "M-2 2 L6 10 M2 -2 L10 6",
    "M2 0 V8 M6 0 V8",
    "M0 4 H8 M4 0 V8",
    "M0 0 L8 8 M8 0 L0 8",
    "M0 6 L4 2 L8 6",
];

/// The lines of a barred bar: as of bricks.
const BARRED: &str = "M0 0.5 H8 M0 4.5 H8 M2 0.5 V4.5 M6 4.5 V8";

/// The colour of the loader.
const PLAIN: &str = "#333333";

/// The classes of lines and shapes that are no sender's.
pub const PLAIN_STROKE: &str = "plain";
pub const PLAIN_FILL: &str = "plain-fill";

/// What is drawn the same way in all charts, by class.
const RULES: &str = "\
text{font-family:Helvetica,Arial,'Liberation Sans','DejaVu Sans',sans-serif;font-size:11px;fill:#111}
.title{font-size:17px;font-weight:bold}
.step{font-size:12px}
.reply{fill:#333}
.ordinal{font-size:12px;font-weight:bold;text-anchor:end}
.small{font-size:10px}
.serial{font-size:10px;font-weight:bold}
.middle{text-anchor:middle}
.halo{paint-order:stroke;stroke:#fff;stroke-width:3px;stroke-linejoin:round}
.band{fill:#f4f4f4}
.lifeline{stroke:#888;stroke-width:1.2;fill:none}
.head{fill:#fff;stroke:#111;stroke-width:1.2}
.leg{fill:none}
.leg path{stroke-linecap:butt}
.guard{stroke-width:4.2}
.inner{stroke:#fff;stroke-width:1.9}
.read{stroke-width:1.3}
.write{stroke-width:2.6}
.answer{stroke-width:1.3}
.given-up{stroke-dasharray:5 4}
.bar{stroke-width:1}
.owned{fill:#fff;stroke-dasharray:3 2}
.open{fill:#fff;stroke:#999}
.plain{stroke:#111}
.plain-fill{fill:#111;stroke:none}
.barred{fill:url(#barred);stroke:#222}
.boundary{stroke:#000;stroke-width:2.4;fill:none}
.sign{stroke:#111;stroke-width:1.4;fill:#fff}
.full{fill:#111}
.cross{stroke:#111;stroke-width:2.4;fill:none}
.thin{stroke:#111;stroke-width:1;fill:none}
.dots{stroke:#111;stroke-width:1;fill:none;stroke-dasharray:1.5 2.5}
.plate{fill:#fff;stroke:none}
.under{stroke:#fff;stroke-width:6;fill:none}
.refused{fill:#fff;stroke:#111;stroke-width:1.6}
.number{font-size:10.5px;font-weight:bold;text-anchor:middle}
.stop{stroke:#111;stroke-width:1.6;fill:none}
.damage{fill:url(#damage);stroke:#111;stroke-width:1.6}
@media print{svg{width:100%;height:auto}}
";

/// The number of a sender's classes: 8 for the loader.
pub fn number(sender: Sender) -> u8 {
    match sender {
        Sender::Player(player) => player.number(),
        Sender::Loader => 8,
    }
}

/// The class of a line in the sender's colour.
pub fn stroke(sender: Sender) -> String {
    format!("s{}", number(sender))
}

/// The class of a shape filled with the sender's colour.
pub fn fill(sender: Sender) -> String {
    format!("f{}", number(sender))
}

/// The class of a bar under a guard of the player.
pub fn pattern(player: Player) -> String {
    format!("g{}", player.number())
}

/// Writes the classes and the patterns of these senders.
pub fn define(svg: &mut Svg, senders: &[Sender]) {
    let mut rules = RULES.to_string();
    for sender in senders {
        let n = number(*sender);
        let colour = colours(*sender).0;
        rules += &format!(".s{n}{{stroke:{colour}}}\n.f{n}{{fill:{colour};stroke:none}}\n");
        if let Sender::Player(_) = sender {
            rules += &format!(".g{n}{{fill:url(#p{n});stroke:{colour}}}\n");
        }
    }
    svg.text("style", &[], &rules);
    svg.group("defs", &[], |svg| {
        for sender in senders {
            if let Sender::Player(player) = sender {
                let (dark, light) = colours(*sender);
                let lines = PATTERNS[usize::from(player.number())];
                tile(svg, &format!("p{}", player.number()), light, dark, lines);
            }
        }
        tile(svg, "barred", "#b4b4b4", "#ffffff", BARRED);
        tile(svg, "damage", "#ffffff", "#111111", PATTERNS[0]);
    });
}

fn colours(sender: Sender) -> (&'static str, &'static str) {
    match sender {
        Sender::Player(player) => COLOURS[usize::from(player.number())],
        Sender::Loader => (PLAIN, "#ffffff"),
    }
}

/// A pattern: lines on a ground.
fn tile(svg: &mut Svg, id: &str, ground: &str, colour: &str, lines: &str) {
    let size = N(8.0);
    let attributes: Attributes = &[
        ("id", &id),
        ("width", &size),
        ("height", &size),
        ("patternUnits", &"userSpaceOnUse"),
    ];
    svg.group("pattern", attributes, |svg| {
        svg.leaf(
            "rect",
            &[("width", &size), ("height", &size), ("fill", &ground)],
        );
        svg.leaf(
            "path",
            &[
                ("d", &lines),
                ("stroke", &colour),
                ("stroke-width", &1),
                ("fill", &"none"),
            ],
        );
    });
}
