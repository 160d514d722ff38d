//! What a picture shows, by where things stand in it: a lifeline is a line with a name above it, a row is where its ordinal stands, an arrow
//! joins what its ends touch, a bar is over the entries of its lanes and the rows that it runs along.

use std::collections::{BTreeMap, BTreeSet};

use super::xml::Element;

/// How far two places may be apart that are one: places have one digit after the point.
const NEAR: f64 = 0.11;

pub fn near(one: f64, other: f64) -> bool {
    (one - other).abs() <= NEAR
}

/// A point.
pub type Point = (f64, f64);

/// A picture as it was read.
#[derive(Debug)]
pub struct Picture {
    pub width: f64,
    /// The lifelines by their names.
    pub lifelines: BTreeMap<String, f64>,
    /// Where the lifelines end, which is where the rows do.
    pub bottom: f64,
    pub rows: Vec<Row>,
    pub legs: Vec<Leg>,
    /// The signs of requests that are crossed.
    pub crossed: Vec<Point>,
    pub strips: BTreeMap<String, Strip>,
    /// The numbers of the end, and what is said there.
    pub end: Option<(String, Vec<String>)>,
    /// What the legend shows, by its names: the shape.
    pub legend: BTreeMap<String, String>,
}

/// A row.
#[derive(Debug)]
pub struct Row {
    pub ordinal: usize,
    pub y: f64,
    pub step: String,
    pub reply: String,
    pub sign: String,
    /// How the sign is drawn, wherever it stands.
    pub shape: String,
    /// The name of the place at which the sign stands.
    pub place: String,
    pub point: Point,
    /// Numbers beside the sign: of a refusal, or a request's serial.
    pub number: Option<String>,
    pub serial: Option<String>,
    /// The entry that a read or write meets in the store's strip, and where.
    pub met: Option<(u16, f64)>,
    /// The entries that a guard reaches over, and from where to where.
    pub reach: Option<(String, f64, f64)>,
}

/// A leg of a request's way.
#[derive(Debug)]
pub struct Leg {
    pub serial: u32,
    pub name: String,
    pub from: usize,
    /// A step's ordinal, or `end`.
    pub to: String,
    pub begins: Point,
    pub ends: Point,
    /// Where its dashes begin.
    pub dashes: Option<f64>,
}

/// The bars of a lifeline.
#[derive(Debug)]
pub struct Strip {
    /// The first and the last entry of each lane.
    pub lanes: Vec<(u16, u16)>,
    pub left: f64,
    pub lane: f64,
    pub bars: Vec<Bar>,
    /// Boundaries: the entry, the place, and from where to where.
    pub boundaries: Vec<(u16, f64, f64, f64)>,
}

/// A bar.
#[derive(Debug)]
pub struct Bar {
    pub is: String,
    pub entries: String,
    pub left: f64,
    pub top: f64,
    pub right: f64,
    pub bottom: f64,
}

impl Strip {
    /// The lanes between two places, which must be edges of lanes.
    pub fn lanes_between(&self, left: f64, right: f64) -> Result<std::ops::Range<usize>, String> {
        let edge = |x: f64| {
            let lane = ((x - self.left) / self.lane).round();
            let there = near(self.left + lane * self.lane, x) && lane >= 0.0;
            let lane = lane as usize;
            match there && lane <= self.lanes.len() {
                true => Ok(lane),
                false => Err(format!("no lane begins or ends at {x}")),
            }
        };
        Ok(edge(left)?..edge(right)?)
    }
}

/// Reads a picture, and tests what holds of every one: nothing in it comes from elsewhere, and each thing has its parts.
pub fn read(root: &Element) -> Result<Picture, String> {
    let all = root.all();
    closed(root, &all)?;
    within(root, &all)?;
    let lines: Vec<&&Element> = with_class(&all, "lifeline");
    let mut lifelines = BTreeMap::new();
    let mut bottom = f64::NAN;
    for line in lines {
        let numbers = numbers(attribute(line, "d")?);
        let [x, _, end] = numbers[..] else {
            return Err("a lifeline is no upright line".to_string());
        };
        bottom = end;
        if lifelines
            .insert(attribute(line, "data-of")?.to_string(), x)
            .is_some()
        {
            return Err("two lifelines have one name".to_string());
        }
    }
    let heads = with_class(&all, "head").len();
    expect("as many heads as lifelines", heads == lifelines.len())?;
    let rows = with_class(&all, "row");
    let rows: Result<Vec<Row>, String> = rows.into_iter().map(|element| row(element)).collect();
    let legs = with_class(&all, "leg").into_iter();
    let legs = legs.filter(|element| element.get("data-serial").is_some());
    let legs: Result<Vec<Leg>, String> = legs.map(|element| leg(element)).collect();
    let mut strips = BTreeMap::new();
    for element in with_class(&all, "strip") {
        let name = attribute(element, "data-of")?.to_string();
        expect(
            "two strips have one name",
            strips.insert(name, strip(element)?).is_none(),
        )?;
    }
    let ends = with_class(&all, "end-of-session");
    expect("more than one end", ends.len() <= 1)?;
    let end = match ends.first() {
        Some(element) => Some(end(element)?),
        None => None,
    };
    let mut legend = BTreeMap::new();
    for sample in with_class(&all, "sample") {
        let name = attribute(sample, "data-is")?.to_string();
        let twice = legend.insert(name, shape(sample.children())?);
        expect("two lines of the legend have one name", twice.is_none())?;
    }
    explained(&all, &legend)?;
    // in the legend the same signs stand for what they mean
    let crossed: Result<Vec<Point>, String> = with_class(&all, "flight")
        .into_iter()
        .flat_map(|flight| flight.all())
        .filter(|element| element.has_class("crossed"))
        .map(anchor)
        .collect();
    Ok(Picture {
        width: number(root, "width")?,
        lifelines,
        bottom,
        rows: rows?,
        legs: legs?,
        crossed: crossed?,
        strips,
        end,
        legend,
    })
}

/// Tests that the picture is a file by itself, with a title and a description, and runs nothing.
fn closed(root: &Element, all: &[&Element]) -> Result<(), String> {
    expect("the root is no svg", root.name == "svg")?;
    expect(
        "no name of SVG",
        root.get("xmlns") == Some("http://www.w3.org/2000/svg"),
    )?;
    let mut ids = BTreeSet::new();
    for element in all {
        if let Some(id) = element.get("id") {
            expect("an id stands twice", ids.insert(id.to_string()))?;
        }
    }
    for (role, id) in [("title", "aria-labelledby"), ("desc", "aria-describedby")] {
        let name = attribute(root, id)?;
        let told = root.children().find(|child| child.get("id") == Some(name));
        let told = told.filter(|child| child.name == role && child.text().len() > 20);
        expect("no title or description", told.is_some())?;
    }
    for element in all {
        let known = [
            "svg", "title", "desc", "style", "defs", "pattern", "g", "rect", "path", "circle",
            "text",
        ];
        if !known.contains(&element.name.as_str()) {
            return Err(format!("an element {}", element.name));
        }
        for (name, value) in &element.attributes {
            expect(
                "something from elsewhere",
                !name.contains("href") && !name.starts_with("on"),
            )?;
            references(value, &ids)?;
        }
        if element.name == "style" {
            let rules = element.text().replace("@media print{", "");
            expect("something from elsewhere", !rules.contains('@'))?;
            references(&element.text(), &ids)?;
        }
    }
    Ok(())
}

/// Tests that nothing begins beside the picture, of which all is shown.
fn within(root: &Element, all: &[&Element]) -> Result<(), String> {
    let (width, height) = (number(root, "width")?, number(root, "height")?);
    let whole = format!("0 0 {width} {height}");
    expect("not all is shown", attribute(root, "viewBox")? == whole)?;
    // patterns are drawn around places of their own
    let patterns: Vec<&Element> = all
        .iter()
        .filter(|element| element.name == "pattern")
        .flat_map(|pattern| pattern.all())
        .collect();
    for element in all {
        if patterns.iter().any(|other| std::ptr::eq(*other, *element)) {
            continue;
        }
        let point = match element.name.as_str() {
            "circle" | "path" => anchor(element)?,
            "rect" | "text" if element.get("x").is_some() => {
                (number(element, "x")?, number(element, "y")?)
            }
            _ => continue,
        };
        let inside = (0.0..=width).contains(&point.0) && (0.0..=height).contains(&point.1);
        expect("something beside the picture", inside)?;
        if element.name == "text"
            && !["end", "middle", "ordinal", "number"]
                .iter()
                .any(|class| element.has_class(class))
        {
            // about the width of the letters of a common font
            let size = match element.get("class").unwrap_or("") {
                "title" => 17.0,
                "step" => 12.0,
                _ => 11.0,
            };
            let length = element.text().chars().count() as f64 * size * 0.55;
            let anchored = element.get("text-anchor") == Some("end");
            expect(
                "text beyond the picture",
                anchored || point.0 + length <= width,
            )?;
        }
    }
    Ok(())
}

/// Tests that what is referred to is there.
fn references(text: &str, ids: &BTreeSet<String>) -> Result<(), String> {
    for part in text.split("url(").skip(1) {
        let id = part
            .strip_prefix('#')
            .and_then(|part| part.split(')').next());
        expect(
            "a reference to nothing",
            id.is_some_and(|id| ids.contains(id)),
        )?;
    }
    Ok(())
}

fn row(element: &Element) -> Result<Row, String> {
    let texts = |class: &str| {
        let texts: Vec<&Element> = element
            .children()
            .filter(|child| child.has_class(class))
            .collect();
        match texts[..] {
            [text] => Ok(text),
            _ => Err(format!("a row with {} texts {class}", texts.len())),
        }
    };
    let ordinal = texts("ordinal")?;
    let sign = texts("sign-of")?;
    let drawn = sign.all();
    let class = |class: &str| drawn.iter().find(|element| element.has_class(class));
    let met = match class("met") {
        Some(met) => {
            let plate = met.children().next().ok_or("nothing is met")?;
            let x = numbers(attribute(plate, "d")?)[0] + 7.0;
            for shape in met.children().skip(1) {
                expect("what is met stands elsewhere", near(anchor(shape)?.0, x))?;
            }
            Some((parsed(attribute(met, "data-entry")?)?, x))
        }
        None => None,
    };
    let reach = match class("reach") {
        Some(reach) => {
            let ends = numbers(attribute(reach, "d")?);
            Some((
                attribute(reach, "data-entries")?.to_string(),
                ends[0],
                ends[2],
            ))
        }
        None => None,
    };
    // the sign is drawn around one point
    let shapes = sign.children().filter(|child| {
        let beside = ["met", "dots", "reach", "under"]
            .iter()
            .any(|class| child.has_class(class));
        !beside && child.name != "text"
    });
    let shapes: Vec<&Element> = shapes.collect();
    let points: Result<Vec<Point>, String> = shapes.iter().map(|shape| anchor(shape)).collect();
    let points = points?;
    let point = *points.first().ok_or("a row without a sign")?;
    let together = points
        .iter()
        .all(|other| near(other.0, point.0) && near(other.1, point.1));
    expect("a sign in two places", together)?;
    let told = |class: &str| {
        let found = sign.children().find(|child| child.has_class(class));
        found.map(Element::text)
    };
    let written: usize = parsed(&ordinal.text())?;
    expect(
        "another ordinal",
        Ok(written) == parsed(attribute(element, "data-step")?),
    )?;
    Ok(Row {
        ordinal: written,
        y: number(ordinal, "y")? - 4.0,
        step: texts("step")?.text(),
        reply: texts("reply")?.text(),
        sign: attribute(sign, "data-sign")?.to_string(),
        shape: shape(shapes.into_iter())?,
        place: attribute(sign, "data-at")?.to_string(),
        point,
        number: told("number"),
        serial: told("serial"),
        met,
        reach,
    })
}

fn leg(element: &Element) -> Result<Leg, String> {
    let lines = ["guard", "read", "write", "answer"];
    let lines = element.children().filter(|child| {
        // the head of an answer has three points
        lines.iter().any(|class| child.has_class(class))
            && numbers(child.get("d").unwrap_or("")).len() == 4
    });
    let lines: Vec<&Element> = lines.collect();
    let (first, last) = match lines[..] {
        [line] => (line, line),
        [solid, dashed] => (solid, dashed),
        _ => return Err(format!("a leg of {} lines", lines.len())),
    };
    let begins = numbers(attribute(first, "d")?);
    let ends = numbers(attribute(last, "d")?);
    if lines.len() == 2 {
        expect("a gap in a leg", begins[2..] == ends[..2])?;
        expect(
            "dashes come last",
            !first.has_class("given-up") && last.has_class("given-up"),
        )?;
    }
    Ok(Leg {
        serial: parsed(attribute(element, "data-serial")?)?,
        name: attribute(element, "data-leg")?.to_string(),
        from: parsed(attribute(element, "data-from")?)?,
        to: attribute(element, "data-to")?.to_string(),
        begins: (begins[0], begins[1]),
        ends: (ends[2], ends[3]),
        dashes: last.has_class("given-up").then_some(ends[1]),
    })
}

fn strip(element: &Element) -> Result<Strip, String> {
    let lanes: Result<Vec<(u16, u16)>, String> = attribute(element, "data-lanes")?
        .split(' ')
        .map(pair)
        .collect();
    let mut bars = Vec::new();
    let mut boundaries = Vec::new();
    for child in element.children() {
        if child.has_class("bar") {
            let (left, top) = (number(child, "x")?, number(child, "y")?);
            bars.push(Bar {
                is: attribute(child, "data-is")?.to_string(),
                entries: attribute(child, "data-entries")?.to_string(),
                left,
                top,
                right: left + number(child, "width")?,
                bottom: top + number(child, "height")?,
            });
        }
        if child.has_class("boundary") {
            let line = numbers(attribute(child, "d")?);
            let [x, top, bottom] = line[..] else {
                return Err("a boundary is no upright line".to_string());
            };
            boundaries.push((parsed(attribute(child, "data-entry")?)?, x, top, bottom));
        }
    }
    Ok(Strip {
        lanes: lanes?,
        left: number(element, "data-left")?,
        lane: number(element, "data-lane")?,
        bars,
        boundaries,
    })
}

fn end(element: &Element) -> Result<(String, Vec<String>), String> {
    let texts = element.children().filter(|child| child.name == "text");
    let texts: Vec<String> = texts.map(Element::text).collect();
    let damage = element
        .children()
        .filter(|child| child.has_class("damage"))
        .count();
    expect(
        "damage is shown as such",
        element.has_class("damaged") == (damage == 1),
    )?;
    Ok((attribute(element, "data-end")?.to_string(), texts))
}

/// How shapes are drawn, wherever they stand.
fn shape<'a>(shapes: impl Iterator<Item = &'a Element>) -> Result<String, String> {
    let mut text = String::new();
    for shape in shapes {
        let class = shape.get("class").unwrap_or("");
        let form = match shape.name.as_str() {
            "circle" => attribute(shape, "r")?.to_string(),
            // what comes after the first point
            "path" => attribute(shape, "d")?
                .splitn(3, ' ')
                .nth(2)
                .unwrap_or("")
                .to_string(),
            _ => continue,
        };
        text += &format!("{} {class} {form}; ", shape.name);
    }
    Ok(text)
}

/// Tests that the legend tells what each sort of line and bar means that is drawn.
fn explained(all: &[&Element], legend: &BTreeMap<String, String>) -> Result<(), String> {
    let drawn = ["strip", "flight"]
        .iter()
        .flat_map(|class| with_class(all, class));
    let drawn: Vec<&Element> = drawn.flat_map(|group| group.all()).collect();
    for class in [
        "guard", "read", "write", "answer", "given-up", "crossed", "owned", "open", "barred",
        "boundary",
    ] {
        let occurs = drawn.iter().any(|element| element.has_class(class));
        expect(
            "a line or bar is not explained",
            !occurs || legend.contains_key(class),
        )?;
    }
    for (strip, name) in [("the store", "set"), ("player", "guarded")] {
        let strips = with_class(all, "strip").into_iter();
        let strips = strips.filter(|element| {
            element
                .get("data-of")
                .is_some_and(|of| of.starts_with(strip))
        });
        let bars = strips.flat_map(|element| element.children());
        let mut bars = bars.filter(|child| child.has_class("bar"));
        let occurs = bars.any(|bar| {
            bar.get("data-is")
                .is_some_and(|is| is.starts_with("guard "))
        });
        expect(
            "a bar is not explained",
            !occurs || legend.contains_key(name),
        )?;
    }
    Ok(())
}

/// The point around which a shape is drawn.
fn anchor(shape: &Element) -> Result<Point, String> {
    match shape.name.as_str() {
        "circle" => Ok((number(shape, "cx")?, number(shape, "cy")?)),
        "path" => {
            let numbers = numbers(attribute(shape, "d")?);
            Ok((numbers[0], numbers[1]))
        }
        "g" => anchor(shape.children().next().ok_or("an empty group")?),
        name => Err(format!("a sign of {name}")),
    }
}

fn with_class<'a, 'b>(all: &'b [&'a Element], class: &str) -> Vec<&'b &'a Element> {
    all.iter()
        .filter(|element| element.has_class(class))
        .collect()
}

pub fn expect(message: &str, holds: bool) -> Result<(), String> {
    match holds {
        true => Ok(()),
        false => Err(message.to_string()),
    }
}

fn attribute<'a>(element: &'a Element, name: &str) -> Result<&'a str, String> {
    let found = element.get(name);
    found.ok_or_else(|| format!("no {name} in {}", element.name))
}

fn number(element: &Element, name: &str) -> Result<f64, String> {
    parsed(attribute(element, name)?)
}

fn parsed<T: std::str::FromStr>(text: &str) -> Result<T, String> {
    text.parse().map_err(|_| format!("no number: {text}"))
}

/// Two entries, as `40-59`.
pub fn pair(text: &str) -> Result<(u16, u16), String> {
    let (first, last) = text
        .split_once('-')
        .ok_or_else(|| format!("no entries: {text}"))?;
    Ok((parsed(first)?, parsed(last)?))
}

/// The numbers of a path.
fn numbers(path: &str) -> Vec<f64> {
    let parts = path.split(|c: char| !(c.is_ascii_digit() || c == '.' || c == '-'));
    parts.filter_map(|part| part.parse().ok()).collect()
}
