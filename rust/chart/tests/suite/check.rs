//! Compares a picture with what it should show.

use std::collections::BTreeMap;

use model::numbers::{ENTRIES, PLAYERS};

use super::expected::{player, Expected, Request};
use super::picture::{expect, near, pair, read, Leg, Picture, Point, Row, Strip};
use super::xml;

/// Compares the picture of some rows of a session with what it should show; the first difference.
pub fn check(
    session: &[u8],
    expected: &Expected,
    rows: (usize, usize),
    text: &str,
) -> Result<(), String> {
    let picture = read(&xml::parse(text)?)?;
    let shown = Shown {
        session,
        expected,
        picture: &picture,
        first: rows.0,
        last: rows.1,
    };
    shown.lifelines()?;
    shown.rows()?;
    shown.legs()?;
    shown.crossed()?;
    shown.bars()?;
    shown.end()
}

/// The whole picture of a session.
pub fn check_whole(session: &[u8], text: &str) -> Result<(), String> {
    let expected = Expected::of(session);
    check(session, &expected, (1, expected.events.len()), text)
}

struct Shown<'a> {
    session: &'a [u8],
    expected: &'a Expected,
    picture: &'a Picture,
    first: usize,
    last: usize,
}

impl Shown<'_> {
    fn lifelines(&self) -> Result<(), String> {
        let names: Vec<&String> = self.picture.lifelines.keys().collect();
        let expected: Vec<&String> = self.expected.lifelines.iter().collect();
        expect("other lifelines", names == expected)?;
        let store = self.picture.lifelines["the store"];
        for x in self.picture.lifelines.values() {
            expect(
                "a lifeline beside the picture",
                *x > 0.0 && *x < self.picture.width,
            )?;
            expect("a lifeline beyond the store", *x <= store)?;
        }
        let mut places: Vec<f64> = self.picture.lifelines.values().copied().collect();
        places.sort_by(f64::total_cmp);
        let apart = places.windows(2).all(|two| two[1] - two[0] > 70.0);
        expect("two lifelines in one place", apart)
    }

    /// The height of a step's row, as if all were shown.
    fn y(&self, step: usize) -> f64 {
        self.picture.bottom - (self.last as f64 - step as f64 + 0.5) * self.pitch()
    }

    fn pitch(&self) -> f64 {
        match &self.picture.rows[..] {
            [.., one, other] => other.y - one.y,
            [one] => 2.0 * (self.picture.bottom - one.y),
            [] => 0.0,
        }
    }

    fn top(&self) -> f64 {
        self.y(self.first) - self.pitch() / 2.0
    }

    /// The height of a step's row, or the edge of the rows that is nearer.
    fn clipped(&self, step: usize) -> f64 {
        match step {
            step if step < self.first => self.top(),
            step if step > self.last => self.picture.bottom,
            step => self.y(step),
        }
    }

    fn rows(&self) -> Result<(), String> {
        let ordinals: Vec<usize> = self.picture.rows.iter().map(|row| row.ordinal).collect();
        let all: Vec<usize> = (self.first..=self.last).collect();
        expect(
            "not every record is drawn once, in its order",
            ordinals == all,
        )?;
        for row in &self.picture.rows {
            self.row(row)
                .map_err(|told| format!("row {}: {told}", row.ordinal))?;
        }
        self.shapes()
    }

    /// Each sign has one shape, which is that of the legend, and no other sign has it.
    fn shapes(&self) -> Result<(), String> {
        let mut shapes: BTreeMap<&str, &str> = BTreeMap::new();
        for row in &self.picture.rows {
            let known = shapes.insert(&row.shape, &row.sign);
            expect(
                "one shape for two signs",
                known.map_or(true, |known| known == row.sign),
            )?;
            let explained = self.picture.legend.get(&row.sign);
            expect("a sign is not explained", explained == Some(&row.shape))?;
        }
        Ok(())
    }

    fn row(&self, row: &Row) -> Result<(), String> {
        let event = &self.expected.events[row.ordinal - 1];
        expect("at another height", near(row.y, self.y(row.ordinal)))?;
        if row.reply != event.said {
            let told = format!("another reply: {}, and not {}", row.reply, event.said);
            return Err(told);
        }
        let record =
            famdrize::decode(&self.session[event.byte..]).map_err(|refusal| refusal.to_string())?;
        let words = famdrize::Step::try_from(record.fields).map(|step| step.to_string());
        let words = words.unwrap_or_else(|_| record.fields.to_string());
        expect("another step", row.step == words)?;
        expect("another sign", row.sign == event.sign)?;
        expect("another place", row.place == event.place)?;
        let (x, y) = row.point;
        expect("the sign at another height", near(y, row.y))?;
        let place = event.place.as_str();
        expect(
            "the sign elsewhere",
            match (self.picture.lifelines.get(place), place) {
                (Some(lifeline), _) => near(x, *lifeline),
                (None, "way") => {
                    let request = &self.expected.requests[&lost(event.step)];
                    self.is_between(x, request)
                }
                (None, _) => {
                    x > 0.0
                        && x < self
                            .picture
                            .lifelines
                            .values()
                            .copied()
                            .fold(f64::MAX, f64::min)
                            - 30.0
                }
            },
        )?;
        let number = event
            .reply
            .is_refusal()
            .then(|| event.reply.code.to_string());
        expect("another number", row.number == number)?;
        let serial = match event.sign {
            "asked" => Some(event.reply.a),
            "refused" | "lost" => None,
            _ => Some(calls::Fields::from(event.step).serial).filter(|serial| *serial != 0),
        };
        expect(
            "another serial",
            row.serial == serial.map(|serial| serial.to_string()),
        )?;
        self.in_strip(row)
    }

    /// What a row has in the store's strip: the entry of a read or write that arrives, and those that a guard reaches over.
    fn in_strip(&self, row: &Row) -> Result<(), String> {
        let event = &self.expected.events[row.ordinal - 1];
        let strip = self.store()?;
        let meets = ["found", "committed", "turned-back"].contains(&event.sign)
            && event.place == "the store";
        expect("an entry is met", row.met.is_some() == meets)?;
        if let Some((entry, x)) = row.met {
            let serial = calls::Fields::from(event.step).serial;
            let sent = self.expected.requests[&serial].asked;
            let asked = calls::Fields::from(self.expected.events[sent - 1].step);
            expect("another entry is met", entry == u16::from(asked.entry))?;
            let lane = strip
                .lanes
                .iter()
                .position(|(first, last)| (*first..=*last).contains(&entry));
            let lane = lane.ok_or("no lane for the entry")? as f64 + 0.5;
            expect(
                "met in another lane",
                near(x, strip.left + lane * strip.lane),
            )?;
        }
        expect("a reach", row.reach.is_some() == (event.reply.code == 9))?;
        if let Some((entries, left, right)) = &row.reach {
            let reached = format!("{}-{}", event.reply.a, event.reply.b);
            expect("another reach", *entries == reached)?;
            expect(
                "a reach over other lanes",
                self.over(strip, *left, *right)? == reached,
            )?;
        }
        Ok(())
    }

    /// The bars of the store.
    fn store(&self) -> Result<&Strip, String> {
        let strip = self.picture.strips.get("the store");
        strip.ok_or("no bars of the store".to_string())
    }

    /// The entries of the lanes between two places.
    fn over(&self, strip: &Strip, left: f64, right: f64) -> Result<String, String> {
        let lanes = strip.lanes_between(left, right)?;
        expect("no lane", !lanes.is_empty())?;
        Ok(format!(
            "{}-{}",
            strip.lanes[lanes.start].0,
            strip.lanes[lanes.end - 1].1
        ))
    }

    /// Whether a place is between a request's sender and the store, and near neither.
    fn is_between(&self, x: f64, request: &Request) -> bool {
        let (sender, store) = (
            self.picture.lifelines[&request.sender],
            self.picture.lifelines["the store"],
        );
        x > sender + 10.0 && x < store - 10.0
    }

    fn legs(&self) -> Result<(), String> {
        let mut drawn: BTreeMap<(u32, &str), &Leg> = BTreeMap::new();
        for leg in &self.picture.legs {
            let twice = drawn.insert((leg.serial, &leg.name), leg);
            expect("a leg is drawn twice", twice.is_none())?;
        }
        for (serial, request) in &self.expected.requests {
            for course in courses(request) {
                let name = course.name;
                let leg = drawn.remove(&(*serial, name));
                let begun = course.from <= self.last;
                let shown = begun && course.to.map_or(true, |to| to >= self.first);
                let told = |told: String| format!("{name} {serial}: {told}");
                expect("is drawn", leg.is_some() == shown).map_err(told)?;
                if let Some(leg) = leg {
                    self.leg(request, leg, &course).map_err(told)?;
                }
            }
        }
        expect("a leg of nothing", drawn.is_empty())
    }

    /// Tests a leg that should take a course.
    fn leg(&self, request: &Request, leg: &Leg, course: &Course) -> Result<(), String> {
        let Course {
            from,
            to,
            dashes,
            arrives,
            ..
        } = *course;
        let end = to.map_or("end".to_string(), |to| to.to_string());
        expect("joins other steps", (leg.from, &leg.to) == (from, &end))?;
        let lifeline = |name: &str| self.picture.lifelines[name];
        let (sender, store) = (lifeline(&request.sender), lifeline("the store"));
        let (begin, goal) = match leg.name.as_str() {
            "request" => (sender, store),
            _ => (store, sender),
        };
        // where it would be if all rows were shown; at the end of all, a little before it
        let whole_end = self.y(self.expected.events.len()) + self.pitch() / 2.0 - 3.0;
        let begins = (begin, self.y(from));
        let ends_at = to.map_or(whole_end, |to| self.y(to));
        expect("at another height", near(leg.begins.1, self.clipped(from)))?;
        expect(
            "at another height",
            near(leg.ends.1, ends_at.min(self.picture.bottom)),
        )?;
        if from >= self.first {
            expect("begins elsewhere", near(leg.begins.0, begin))?;
        }
        if to.map_or(true, |to| to <= self.last) && ends_at <= self.picture.bottom + 1.0 {
            match arrives {
                true => expect("ends elsewhere", near(leg.ends.0, goal))?,
                false => expect("arrives", self.is_between(leg.ends.0, request))?,
            }
        }
        if arrives {
            let straight = |point: Point| {
                let part = (point.1 - begins.1) / (ends_at - begins.1);
                (begin + (goal - begin) * part - point.0).abs() < 0.5
            };
            expect(
                "is not straight",
                straight(leg.begins) && straight(leg.ends),
            )?;
        }
        let dashes = dashes.map(|step| self.clipped(step));
        let visible = dashes.filter(|y| *y < leg.ends.1 - 0.2);
        match (visible, leg.dashes) {
            (None, None) => Ok(()),
            (Some(one), Some(other)) => {
                expect("given up elsewhere", near(one.max(leg.begins.1), other))
            }
            _ => Err("given up, or not".to_string()),
        }
    }

    fn crossed(&self) -> Result<(), String> {
        let expected = self
            .expected
            .requests
            .values()
            .filter_map(|request| request.crossed);
        let mut rows: Vec<f64> = expected
            .filter(|step| (self.first..=self.last).contains(step))
            .map(|step| self.y(step))
            .collect();
        rows.sort_by(f64::total_cmp);
        let mut drawn: Vec<f64> = self.picture.crossed.iter().map(|point| point.1).collect();
        drawn.sort_by(f64::total_cmp);
        expect("as many are crossed", rows.len() == drawn.len())?;
        let same = rows.iter().zip(&drawn);
        let mut same = same.map(|(row, drawn)| drawn - row);
        expect(
            "crossed elsewhere",
            same.all(|below| (-0.2..self.pitch() * 0.6).contains(&below)),
        )
    }

    /// Compares what the bars show at each row and entry with what they should.
    fn bars(&self) -> Result<(), String> {
        if self.picture.rows.is_empty() {
            return expect("bars without a row", self.picture.strips.is_empty());
        }
        let mut strips = vec![("the store".to_string(), None)];
        strips.extend((0..PLAYERS as u8).map(|number| (player(number), Some(number))));
        let mut known = 0;
        for (name, number) in &strips {
            let strip = self.picture.strips.get(name);
            known += usize::from(strip.is_some());
            let painted = self
                .painted(strip)
                .map_err(|told| format!("bars of {name}: {told}"))?;
            for (at, step) in (self.first - 1..=self.last).enumerate() {
                let sight = &self.expected.sights[step];
                for entry in 0..ENTRIES {
                    let should = match number {
                        Some(number) => sight.of_player(*number, entry),
                        None => sight.of_store(entry),
                    };
                    if painted[at * ENTRIES + entry] != should.as_deref() {
                        return Err(format!(
                            "bars of {name}: entry {entry} after step {step} is {:?}, and should be {should:?}",
                            painted[at * ENTRIES + entry]
                        ));
                    }
                }
            }
        }
        expect("bars of somebody else", known == self.picture.strips.len())?;
        self.boundaries()
    }

    /// What the bars of a strip show after each step, from that before the first row on, for each entry.
    fn painted<'a>(&self, strip: Option<&'a Strip>) -> Result<Vec<Option<&'a str>>, String> {
        let mut painted = vec![None; (self.last + 2 - self.first) * ENTRIES];
        let Some(strip) = strip else {
            return Ok(painted);
        };
        for bar in &strip.bars {
            let entries = self.over(strip, bar.left, bar.right)?;
            expect("a bar over other lanes", bar.entries == entries)?;
            let (first, last) = pair(&entries)?;
            for at in self.rows_between(bar.top, bar.bottom)? {
                for entry in first..=last {
                    let place = &mut painted[at * ENTRIES + usize::from(entry)];
                    expect(
                        "two bars in one place",
                        place.replace(bar.is.as_str()).is_none(),
                    )?;
                }
            }
        }
        Ok(painted)
    }

    /// The steps after which something stands that is drawn from one height to another: from a row, or the top, to a row, or the bottom.
    fn rows_between(&self, top: f64, bottom: f64) -> Result<std::ops::Range<usize>, String> {
        let steps = self.last + 1 - self.first;
        let edge = |y: f64| match y {
            y if near(y, self.top()) => Ok(0),
            y if near(y, self.picture.bottom) => Ok(steps + 1),
            y => {
                let at = ((y - self.top()) / self.pitch() + 0.5).round();
                let row = self.first + (at as usize).saturating_sub(1);
                match at >= 1.0 && row <= self.last && near(self.y(row), y) {
                    true => Ok(at as usize),
                    false => Err(format!("no row at {y}")),
                }
            }
        };
        Ok(edge(top)?..edge(bottom)?)
    }

    fn boundaries(&self) -> Result<(), String> {
        let strip = self.store()?;
        let steps = self.last + 2 - self.first;
        let mut painted = vec![false; steps * ENTRIES];
        for &(entry, x, top, bottom) in &strip.boundaries {
            let lane = strip.lanes_between(x, x)?.start;
            expect("a boundary at another lane", strip.lanes[lane].0 == entry)?;
            for at in self.rows_between(top, bottom)? {
                let place = &mut painted[at * ENTRIES + usize::from(entry)];
                expect(
                    "two boundaries in one place",
                    !std::mem::replace(place, true),
                )?;
            }
        }
        for (at, step) in (self.first - 1..=self.last).enumerate() {
            let boundaries = &self.expected.sights[step].boundaries;
            // that of entry 0 is the edge of the strip
            let drawn = &painted[at * ENTRIES + 1..(at + 1) * ENTRIES];
            if drawn != &boundaries[1..] {
                return Err(format!("other boundaries after step {step}"));
            }
        }
        Ok(())
    }

    fn end(&self) -> Result<(), String> {
        let at_end = self.last == self.expected.events.len();
        expect("an end", self.picture.end.is_some() == at_end)?;
        let Some((numbers, texts)) = &self.picture.end else {
            return Ok(());
        };
        let (why, records, place) = self.expected.end;
        expect(
            "another end",
            *numbers == format!("end {why} {records} {place}"),
        )?;
        expect(
            "the end is not said",
            texts.first().is_some_and(|text| text.starts_with(numbers)),
        )?;
        let words = famdrize::Refusal::from_number(why).map(famdrize::Refusal::words);
        let words = words.unwrap_or("at the session's end");
        expect("not said why", texts[0].contains(words))?;
        expect(
            "damage",
            texts.len() == if self.expected.is_whole() { 1 } else { 2 },
        )?;
        if let [_, bytes] = &texts[..] {
            let rest = &self.session[place as usize..];
            let shown: Vec<String> = rest
                .iter()
                .take(16)
                .map(|byte| format!("{byte:02X}"))
                .collect();
            let more = match rest.len().saturating_sub(16) {
                0 => String::new(),
                _ if self.session.len() > 16_384 => " and more".to_string(),
                more => format!(" and {more} more"),
            };
            let told = match rest {
                [] => format!("No byte stands at place {place}."),
                _ => format!("Not read, from byte {place} on: {}{more}", shown.join(" ")),
            };
            expect("other bytes", *bytes == told)?;
        }
        Ok(())
    }
}

/// The serial of a request that is lost.
fn lost(step: calls::Step) -> u32 {
    calls::Fields::from(step).serial
}

/// How a leg should run: from a step to another, none for the end; given up from a step on; and whether it arrives.
struct Course {
    name: &'static str,
    from: usize,
    to: Option<usize>,
    dashes: Option<usize>,
    arrives: bool,
}

/// The legs that a request should have.
fn courses(request: &Request) -> Vec<Course> {
    let given_up = request.given_up;
    let forth = Course {
        name: "request",
        from: request.asked,
        to: request.arrived.or(request.lost),
        dashes: given_up.filter(|step| request.arrived.map_or(true, |arrived| *step < arrived)),
        arrives: request.arrived.is_some(),
    };
    let Some(arrived) = request.arrived else {
        return vec![forth];
    };
    // one that was given up leaves when it arrives
    if forth.dashes.is_some() {
        return vec![forth];
    }
    let back = Course {
        name: "answer",
        from: arrived,
        to: request.answered.or(given_up),
        dashes: None,
        arrives: request.answered.is_some(),
    };
    vec![forth, back]
}
