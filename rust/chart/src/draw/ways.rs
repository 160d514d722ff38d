//! Where the arrows of requests run: from the step that asked to the one at which it arrived, and from there to the one at which it was
//! answered.

use crate::flight::{End, Flight};
use crate::layout::{Layout, ROW};
use crate::story::Story;

/// How far a request that is lost comes, and an answer that is given up on its way, as a part of the way.
const LOST: f64 = 0.6;
const DROPPED: f64 = 0.85;
/// How far the first of those comes that are in flight at the end, how much less each later one at the most, and all of them together.
const IN_FLIGHT: (f64, f64, f64) = (0.85, 0.25, 0.65);
/// From where they end to the end of the rows.
const BEFORE_END: f64 = 3.0;
/// From a lifeline to the sign of a request that is overlapped as it begins.
const CROSSED: f64 = 18.0;

/// A point of the picture.
pub type Point = (f64, f64);

/// One of the two legs of a request's way.
pub struct Leg {
    pub course: Course,
    pub from: Point,
    pub to: Point,
    /// The steps at its ends; none at the end of a leg that is in flight.
    pub steps: (usize, Option<usize>),
    /// The step from which on it is given up.
    pub given_up: Option<usize>,
    pub head: Head,
}

/// Where a leg leads.
#[derive(Clone, Copy, PartialEq, Eq)]
pub enum Course {
    ToStore,
    ToSender,
}

/// How a leg ends.
#[derive(Clone, Copy, PartialEq, Eq)]
pub enum Head {
    /// It arrives at the store.
    Full,
    /// It reaches its sender.
    Open,
    /// It goes on at the end.
    Onward,
    /// Nobody waits for it any more.
    Dropped,
    /// It is lost, which has a sign of its own.
    None,
}

/// The part of a leg that is shown: its ends, and whether they are its own.
pub struct Part {
    pub from: Point,
    pub to: Point,
    pub begins: bool,
    pub ends: bool,
}

impl Leg {
    /// The part that is shown, if any is.
    pub fn part(&self, layout: &Layout) -> Option<Part> {
        let (top, bottom) = (layout.top, layout.bottom());
        if self.to.1 <= top || self.from.1 >= bottom {
            return None;
        }
        let (begins, ends) = (self.from.1 >= top, self.to.1 <= bottom);
        Some(Part {
            from: if begins { self.from } else { self.at(top) },
            to: if ends { self.to } else { self.at(bottom) },
            begins,
            ends,
        })
    }

    /// The point at a height.
    fn at(&self, y: f64) -> Point {
        let part = (y - self.from.1) / (self.to.1 - self.from.1);
        (self.from.0 + (self.to.0 - self.from.0) * part, y)
    }

    /// Where a part of it is given up; its end, if nowhere.
    pub fn turn(&self, layout: &Layout, part: &Part) -> Point {
        let turn = self.given_up.map(|step| layout.unclipped(step));
        turn.map_or(part.to, |y| self.at(y.clamp(part.from.1, part.to.1)))
    }

    /// Where a request is marked overlapped, if that is on this leg and in a row that is shown.
    pub fn crossed(&self, layout: &Layout, flight: &Flight) -> Option<Point> {
        let step = flight.crossed.filter(|step| layout.shows(*step))?;
        let (first, last) = self.steps;
        if step < first || last.is_some_and(|last| step >= last) {
            return None;
        }
        if step > first {
            return Some(self.at(layout.unclipped(step)));
        }
        // beside the lifeline at which it begins
        let (dx, dy) = (self.to.0 - self.from.0, self.to.1 - self.from.1);
        let part = CROSSED / (dx * dx + dy * dy).sqrt();
        Some((self.from.0 + dx * part, self.from.1 + dy * part))
    }
}

/// The requests of which something is shown, each with those of its legs that are.
pub fn shown<'a>(story: &'a Story, layout: &Layout) -> Vec<(&'a Flight, Vec<Leg>)> {
    let ends = Ends::of(story);
    let all = story.flights.iter().map(|flight| {
        let mut legs = legs(story, layout, flight, &ends);
        legs.retain(|leg| leg.part(layout).is_some());
        (flight, legs)
    });
    all.filter(|(_, legs)| !legs.is_empty()).collect()
}

/// Where a request that is lost ends: the place of that step's sign.
pub fn lost_at(layout: &Layout, flight: &Flight, step: usize) -> Point {
    let from = layout.x(flight.sender);
    let x = from + (layout.store - from) * LOST;
    (x, layout.unclipped(step))
}

/// The requests in flight at the end: on their way to the store, and back.
struct Ends<'a> {
    forth: Vec<&'a Flight>,
    back: Vec<&'a Flight>,
}

impl Ends<'_> {
    fn of(story: &Story) -> Ends<'_> {
        let in_flight = |flight: &&Flight| flight.end == End::InFlight;
        let (back, forth) = story
            .flights
            .iter()
            .filter(in_flight)
            .partition(|flight| flight.arrived.is_some());
        Ends { forth, back }
    }

    /// How far this one has come: of a sender's, earlier ones farther.
    fn part(&self, flight: &Flight) -> f64 {
        let list = match flight.arrived {
            Some(_) => &self.back,
            None => &self.forth,
        };
        let of_sender = || list.iter().filter(|other| other.sender == flight.sender);
        let before = of_sender()
            .filter(|other| other.serial < flight.serial)
            .count();
        let later = of_sender().count().max(2) - 1;
        let (first, less, all) = IN_FLIGHT;
        first - less.min(all / later as f64) * before as f64
    }
}

/// The legs of a request.
fn legs(story: &Story, layout: &Layout, flight: &Flight, ends: &Ends) -> Vec<Leg> {
    let (sender, store) = (layout.x(flight.sender), layout.store);
    let end = layout.unclipped(story.events.len()) + ROW / 2.0 - BEFORE_END;
    let at = |x: f64, step: usize| (x, layout.unclipped(step));
    let forth = |to: Point, step: Option<usize>, head: Head| Leg {
        course: Course::ToStore,
        from: at(sender, flight.asked),
        to,
        steps: (flight.asked, step),
        given_up: flight.given_up,
        head,
    };
    let Some((arrived, _)) = flight.arrived else {
        return vec![match flight.end {
            End::Lost(step) => forth(lost_at(layout, flight, step), Some(step), Head::None),
            _ => {
                let x = sender + (store - sender) * ends.part(flight);
                forth((x, end), None, Head::Onward)
            }
        }];
    };
    let mut legs = vec![forth(at(store, arrived), Some(arrived), Head::Full)];
    let back = |part: f64, y: f64, step: Option<usize>, head: Head| Leg {
        course: Course::ToSender,
        from: at(store, arrived),
        to: (store - (store - sender) * part, y),
        steps: (arrived, step),
        given_up: None,
        head,
    };
    let row = |step: usize| layout.unclipped(step);
    legs.extend(match flight.end {
        End::Answered(step) => Some(back(1.0, row(step), Some(step), Head::Open)),
        End::Dropped(step) => Some(back(DROPPED, row(step), Some(step), Head::Dropped)),
        End::InFlight => Some(back(ends.part(flight), end, None, Head::Onward)),
        End::Gone | End::Lost(_) => None,
    });
    legs
}
