//! Pictures that are wrong in one point: each must be seen.

use chart::Chart;

use super::check::check_whole;
use super::drawn::{bytes, sessions};
use super::xml::{parse, Element, Node};

/// A session in which everything occurs that a picture can get wrong: owners and guards that change, messages that cross, a request that is
/// given up and lost, one whose answer is dropped, one in flight at the end, boundaries, a restart, loads, refused steps.
const EVENTFUL: &str = "52534C31
    0F0100283C00 0F0300283C00 210602000000 210702000000   # 1: player 0 owns 40 to 59, guard 2
    0704002D 210603000000 210703000000 0704002D           # 5: read 3, remembered, then from memory
    1705002D07000000 1705002D08000000 210605000000        # 9: writes 4 and 5 cross, 5 arrives
    0F0101283200 0F0301283200 210607000000 210707000000   # 12: player 1 owns 40 to 49, guard 7
    210604000000 210704000000 210805000000                # 16: 4 is turned back, 5 given up after it arrived
    150F0A09000000 150F0B09000000 210808000000 210908000000 210609000000 210709000000 # 19: load 8 is lost, 9 commits
    050A80 050E2D 050C80 050B80 0D02283200 0F0309283200   # 25: split, reach, restart, merge, release, a player 9
    1705012D07000000 07040109 210701000000                # 31: 29, a read that stays in flight, 32
    07040203 21080C000000 07040203                        # 34: given up, and in flight at the end";

fn picture() -> (Vec<u8>, Element) {
    let session = bytes(EVENTFUL);
    let text = Chart::of(&session).draw();
    assert_eq!(check_whole(&session, &text), Ok(()));
    (session, parse(&text).expect("well-formed"))
}

/// An element that has this class and, if it is not empty, this attribute and value.
fn is(element: &Element, class: &str, attribute: &str, value: &str) -> bool {
    element.has_class(class) && (attribute.is_empty() || element.get(attribute) == Some(value))
}

/// The first such element, for changing it.
fn of<'a>(root: &'a mut Element, class: &str, attribute: &str, value: &str) -> &'a mut Element {
    let found = root.find_mut(&|element| is(element, class, attribute, value));
    found.unwrap_or_else(|| panic!("no {class} with {attribute} {value}"))
}

/// The element in which the first element stands for which a test holds, and its place there.
fn around<'a>(root: &'a mut Element, test: &dyn Fn(&Element) -> bool) -> (&'a mut Element, usize) {
    let test = |node: &Node| matches!(node, Node::Element(child) if test(child));
    let parent = root.find_mut(&|element| element.inside.iter().any(test));
    let parent = parent.expect("it is there");
    let at = parent.inside.iter().position(test).expect("it is there");
    (parent, at)
}

/// Removes the first such element.
fn remove(root: &mut Element, class: &str, attribute: &str, value: &str) {
    let (parent, at) = around(root, &|element| is(element, class, attribute, value));
    parent.inside.remove(at);
}

/// Puts a second one before the first such element.
fn repeat(root: &mut Element, class: &str, attribute: &str, value: &str) {
    let (parent, at) = around(root, &|element| is(element, class, attribute, value));
    parent.inside.insert(at, parent.inside[at].clone());
}

/// The row of a step.
fn row(root: &mut Element, step: usize) -> &mut Element {
    of(root, "row", "data-step", &step.to_string())
}

/// The sign of a step.
fn sign(root: &mut Element, step: usize) -> &mut Element {
    of(row(root, step), "sign-of", "", "")
}

/// A leg of a request.
fn leg<'a>(root: &'a mut Element, name: &str, serial: u32) -> &'a mut Element {
    let test = |element: &Element| {
        is(element, "leg", "data-leg", name)
            && element.get("data-serial") == Some(&serial.to_string())
    };
    root.find_mut(&test)
        .unwrap_or_else(|| panic!("no {name} {serial}"))
}

/// Changes the text of the first such element.
fn say(root: &mut Element, class: &str, text: &str) {
    of(root, class, "", "").inside = vec![Node::Text(text.to_string())];
}

/// Moves what an attribute says by so much.
fn shift(element: &mut Element, attribute: &str, by: f64) {
    let number: f64 = element
        .get(attribute)
        .expect("it is there")
        .parse()
        .expect("a number");
    element.set(attribute, &(number + by).to_string());
}

/// Adds so much to one of the numbers of a path, counted from 0.
fn bend(element: &mut Element, class: &str, at: usize, by: f64) {
    let line = element
        .find_mut(&|element| element.has_class(class))
        .expect("a line");
    let path = line.get("d").expect("a path").to_string();
    let mut count = 0;
    let parts = path.split_inclusive(' ').map(|part| {
        let letters = part.find(|c: char| c.is_ascii_digit()).unwrap_or(0);
        let (letter, number) = part.split_at(letters);
        let Ok(number) = number.trim().parse::<f64>() else {
            return part.to_string();
        };
        count += 1;
        let moved = if count - 1 == at { number + by } else { number };
        format!("{letter}{moved} ")
    });
    let path: String = parts.collect();
    line.set("d", path.trim_end());
}

/// A change of a picture.
type Change = fn(&mut Element);

/// Every change, with what it makes wrong.
const CHANGES: &[(&str, Change)] = &[
    ("a record is not drawn", |root| {
        remove(root, "row", "data-step", "7")
    }),
    ("a record is drawn twice", |root| {
        repeat(root, "row", "data-step", "7")
    }),
    ("the last record is not drawn", |root| {
        remove(root, "row", "data-step", "36")
    }),
    ("a row has another ordinal", |root| {
        say(row(root, 7), "ordinal", "8")
    }),
    ("a row stands at another height", |root| {
        shift(of(row(root, 7), "ordinal", "", ""), "y", 5.0);
    }),
    ("a row has another reply", |root| {
        say(row(root, 7), "reply", "3 0 1 · read from the store")
    }),
    ("a row says another guard", |root| {
        say(
            row(root, 16),
            "reply",
            "0 0 0 · turned back: carries guard 2, entry 45 has guard 2",
        );
    }),
    ("a row says that it is not remembered", |root| {
        say(
            row(root, 7),
            "reply",
            "3 0 0 · read from the store: version 0, value 0; not remembered",
        );
    }),
    ("a row has no words", |root| {
        say(row(root, 7), "reply", "3 0 0 · ")
    }),
    ("a row has another step", |root| {
        say(row(root, 7), "step", "request 4 is answered")
    }),
    ("a row has no sign", |root| sign(root, 7).inside.clear()),
    ("a row has another sign", |root| {
        sign(root, 7).set("data-sign", "not-remembered")
    }),
    ("a sign is drawn as another", |root| {
        of(sign(root, 8), "sign", "", "").set("r", "3.8");
    }),
    ("a sign is not explained", |root| {
        remove(root, "sample", "data-is", "from-memory");
    }),
    ("a line is not explained", |root| {
        remove(root, "sample", "data-is", "given-up")
    }),
    ("a guard of the store is not explained", |root| {
        remove(root, "sample", "data-is", "set")
    }),
    ("a bar is not explained", |root| {
        remove(root, "sample", "data-is", "guarded")
    }),
    ("a sign stands elsewhere", |root| {
        shift(of(sign(root, 8), "sign", "", ""), "cx", 84.0)
    }),
    ("a sign stands in another row", |root| {
        shift(of(sign(root, 8), "sign", "", ""), "cy", 32.0)
    }),
    ("a sign is said to stand elsewhere", |root| {
        sign(root, 8).set("data-at", "player 1")
    }),
    ("a refusal has another number", |root| {
        say(row(root, 31), "number", "30")
    }),
    ("a refusal has no number", |root| {
        remove(row(root, 31), "number", "", "")
    }),
    ("an answer has another serial", |root| {
        say(row(root, 7), "serial", "4")
    }),
    ("a read meets another lane", |root| {
        let met = of(row(root, 6), "met", "", "");
        bend(met, "plate", 0, 26.0);
        shift(of(met, "sign", "", ""), "cx", 26.0);
    }),
    ("a read meets no lane", |root| {
        remove(row(root, 6), "met", "", "")
    }),
    ("a write meets another entry", |root| {
        of(row(root, 16), "met", "", "").set("data-entry", "50")
    }),
    ("a guard reaches farther", |root| {
        bend(row(root, 26), "reach", 2, 26.0)
    }),
    ("a guard reaches over other entries", |root| {
        of(row(root, 26), "reach", "", "").set("data-entries", "40-50")
    }),
    ("a lifeline is not drawn", |root| {
        remove(root, "lifeline", "data-of", "player 2")
    }),
    ("a lifeline has no head", |root| {
        remove(root, "head", "", "")
    }),
    ("a lifeline of nobody", |root| {
        of(root, "lifeline", "data-of", "player 2").set("data-of", "player 3")
    }),
    ("a lifeline is elsewhere", |root| {
        bend(
            of(root, "lifeline", "data-of", "player 1"),
            "lifeline",
            0,
            40.0,
        )
    }),
    ("a request is not drawn", |root| {
        remove(root, "leg", "data-leg", "request")
    }),
    ("an answer is not drawn", |root| {
        remove(root, "leg", "data-leg", "answer")
    }),
    ("an answer is drawn twice", |root| {
        repeat(root, "leg", "data-leg", "answer")
    }),
    ("an arrow joins another record", |root| {
        leg(root, "request", 3).set("data-to", "7")
    }),
    ("an arrow is another request's", |root| {
        leg(root, "request", 3).set("data-serial", "2")
    }),
    ("an arrow ends at another row", |root| {
        bend(leg(root, "request", 3), "read", 3, 32.0)
    }),
    ("an arrow begins at another row", |root| {
        bend(leg(root, "request", 3), "read", 1, -32.0)
    }),
    ("an arrow begins at another lifeline", |root| {
        bend(leg(root, "request", 3), "read", 0, 84.0)
    }),
    ("an arrow does not arrive", |root| {
        bend(leg(root, "request", 3), "read", 2, -60.0)
    }),
    ("an answer ends at another row", |root| {
        bend(leg(root, "answer", 3), "answer", 3, 32.0)
    }),
    ("an answer reaches another player", |root| {
        bend(leg(root, "answer", 3), "answer", 2, 84.0)
    }),
    ("a lost request arrives", |root| {
        bend(leg(root, "request", 8), "given-up", 2, 76.0)
    }),
    ("a request given up has no dashes", |root| {
        of(leg(root, "request", 8), "given-up", "", "").set("class", "write");
    }),
    ("a request given up is so from another row on", |root| {
        let leg = leg(root, "request", 8);
        bend(leg, "write", 3, 5.0);
        bend(leg, "given-up", 1, 5.0);
    }),
    ("an answer that is taken has dashes", |root| {
        of(leg(root, "answer", 3), "answer", "", "").set("class", "answer given-up");
    }),
    ("a dropped answer has dashes", |root| {
        of(leg(root, "answer", 5), "answer", "", "").set("class", "answer given-up");
    }),
    ("a dropped answer reaches its player", |root| {
        bend(leg(root, "answer", 5), "answer", 2, -60.0)
    }),
    ("a request in flight arrives", |root| {
        bend(leg(root, "request", 11), "read", 2, 200.0)
    }),
    ("a crossing is not drawn", |root| {
        remove(root, "crossed", "", "")
    }),
    ("a crossing is drawn at another row", |root| {
        let crossed = of(root, "crossed", "", "");
        shift(of(crossed, "sign", "", ""), "cy", 64.0);
    }),
    ("a bar is not drawn", |root| {
        remove(root, "bar", "data-is", "guard 7")
    }),
    ("a bar is drawn twice", |root| {
        repeat(root, "bar", "data-is", "guard 7")
    }),
    ("a bar is another guard's", |root| {
        of(root, "bar", "data-is", "guard 7").set("data-is", "guard 2")
    }),
    ("an owner has its guard too early", |root| {
        let bar = of(root, "bar", "data-is", "guard 2");
        shift(bar, "y", -32.0);
        shift(bar, "height", 32.0);
    }),
    ("an owner has its guard too long", |root| {
        shift(of(root, "bar", "data-is", "guard 2"), "height", 32.0);
    }),
    ("a bar begins between two rows", |root| {
        let bar = of(root, "bar", "data-is", "guard 2");
        shift(bar, "y", 9.0);
        shift(bar, "height", -9.0);
    }),
    ("a bar is over another lane", |root| {
        shift(of(root, "bar", "data-is", "guard 7"), "x", 26.0)
    }),
    ("a bar is wider", |root| {
        shift(of(root, "bar", "data-is", "guard 7"), "width", 26.0)
    }),
    ("lanes have other entries", |root| {
        let strip = of(root, "strip", "data-of", "player 1");
        strip.set("data-lanes", "41-49");
    }),
    ("no guard of the store is drawn", |root| {
        remove(root, "strip", "data-of", "the store")
    }),
    ("bars of another player", |root| {
        of(root, "strip", "data-of", "player 1").set("data-of", "player 2")
    }),
    ("a boundary is not drawn", |root| {
        remove(root, "boundary", "data-entry", "128")
    }),
    ("a boundary is longer", |root| {
        bend(root, "boundary", 2, 32.0)
    }),
    ("a boundary is at another entry", |root| {
        bend(root, "boundary", 0, -26.0)
    }),
    ("the end is not drawn", |root| {
        remove(root, "end-of-session", "", "")
    }),
    ("the end has other numbers", |root| {
        of(root, "end-of-session", "", "").set("data-end", "end 0 36 1")
    }),
    ("the end says something else", |root| {
        say(of(root, "end-of-session", "", ""), "step", "end")
    }),
    ("the end is damaged", |root| {
        of(root, "end-of-session", "", "").set("class", "end-of-session damaged")
    }),
    ("no title", |root| remove_named(root, "title")),
    ("no description", |root| remove_named(root, "desc")),
    ("a description of nothing", |root| {
        named(root, "desc").inside.clear()
    }),
    ("an id stands twice", |root| {
        named(root, "desc").set("id", "title")
    }),
    ("a pattern is missing", |root| remove_named(root, "pattern")),
    ("a script", |root| {
        named(root, "path").name = "script".to_string()
    }),
    ("a picture from elsewhere", |root| {
        let path = named(root, "path");
        path.attributes
            .push(("href".to_string(), "other.svg".to_string()));
    }),
    ("something runs", |root| {
        let path = named(root, "path");
        path.attributes
            .push(("onclick".to_string(), "1".to_string()));
    }),
];

/// The first element of this name.
fn named<'a>(root: &'a mut Element, name: &str) -> &'a mut Element {
    root.find_mut(&|element| element.name == name)
        .expect("it is there")
}

/// Removes the first element of this name.
fn remove_named(root: &mut Element, name: &str) {
    let (parent, at) = around(root, &|element| element.name == name);
    parent.inside.remove(at);
}

#[test]
fn every_wrong_picture_is_seen() {
    let (session, right) = picture();
    for (name, change) in CHANGES {
        let mut wrong = right.clone();
        change(&mut wrong);
        assert_ne!(wrong, right, "{name}: nothing is changed");
        let told = check_whole(&session, &wrong.written());
        assert!(told.is_err(), "{name}: not seen");
        println!("{name}: {}", told.unwrap_err());
    }
}

#[test]
fn the_picture_of_another_session_is_seen() {
    let sessions = sessions();
    for (name, session) in &sessions {
        let text = Chart::of(session).draw();
        for (other, others) in &sessions {
            let same = session == others;
            assert_eq!(
                check_whole(others, &text).is_ok(),
                same,
                "{name} for {other}"
            );
        }
    }
}
