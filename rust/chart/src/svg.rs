//! Text of an SVG file: elements that are closed where they should be, attributes and text in which nothing is taken for markup.

use std::fmt::{self, Display, Write};

/// Attributes of an element, in the order in which they are written.
pub type Attributes<'a> = &'a [(&'a str, &'a dyn Display)];

/// An SVG file that is being written.
#[derive(Default)]
pub struct Svg {
    text: String,
}

impl Svg {
    /// The file's text.
    pub fn into_text(self) -> String {
        self.text
    }

    /// The elements of another text.
    pub fn splice(&mut self, other: Svg) {
        self.put(&other.text);
    }

    /// An element with nothing inside.
    pub fn leaf(&mut self, name: &str, attributes: Attributes) {
        self.tag(name, attributes);
        self.put("/>\n");
    }

    /// An element with others inside.
    pub fn group(&mut self, name: &str, attributes: Attributes, inside: impl FnOnce(&mut Svg)) {
        self.tag(name, attributes);
        self.put(">\n");
        inside(self);
        self.close(name);
    }

    /// An element with text inside.
    pub fn text(&mut self, name: &str, attributes: Attributes, text: &str) {
        self.tag(name, attributes);
        self.put(">");
        self.escaped(&text);
        self.close(name);
    }

    /// An element's tag, but for the last character.
    fn tag(&mut self, name: &str, attributes: Attributes) {
        self.put("<");
        self.put(name);
        for (attribute, value) in attributes {
            self.put(" ");
            self.put(attribute);
            self.put("=\"");
            self.escaped(value);
            self.put("\"");
        }
    }

    fn close(&mut self, name: &str) {
        self.put("</");
        self.put(name);
        self.put(">\n");
    }

    fn put(&mut self, text: &str) {
        self.text.push_str(text);
    }

    fn escaped(&mut self, value: &dyn Display) {
        write!(Escaping(&mut self.text), "{value}").expect("text can always be added");
    }
}

/// Writes text so that no character of it is taken for markup.
struct Escaping<'a>(&'a mut String);

impl Write for Escaping<'_> {
    fn write_str(&mut self, text: &str) -> fmt::Result {
        for character in text.chars() {
            match character {
                '&' => self.0.push_str("&amp;"),
                '<' => self.0.push_str("&lt;"),
                '>' => self.0.push_str("&gt;"),
                '"' => self.0.push_str("&quot;"),
                other => self.0.push(other),
            }
        }
        Ok(())
    }
}

/// A length or place in the picture: with one digit after the point at most.
#[derive(Clone, Copy, Debug, PartialEq)]
pub struct N(pub f64);

impl Display for N {
    fn fmt(&self, f: &mut fmt::Formatter<'_>) -> fmt::Result {
        let tenths = (self.0 * 10.0).round() as i64;
        let (sign, size) = (if tenths < 0 { "-" } else { "" }, tenths.unsigned_abs());
        match size % 10 {
            0 => write!(f, "{sign}{}", size / 10),
            tenth => write!(f, "{sign}{}.{tenth}", size / 10),
        }
    }
}

#[cfg(test)]
mod tests {
    use super::*;

    #[test]
    fn elements_are_closed_and_text_is_escaped() {
        let mut svg = Svg::default();
        svg.group("g", &[("a", &"1 < 2"), ("b", &N(3.0))], |svg| {
            svg.text("text", &[], "\"x\" & <y>");
            svg.leaf("path", &[("d", &"M0 0")]);
        });
        let expected = "<g a=\"1 &lt; 2\" b=\"3\">\n<text>&quot;x&quot; &amp; &lt;y&gt;</text>\n<path d=\"M0 0\"/>\n</g>\n";
        assert_eq!(svg.into_text(), expected);
    }

    #[test]
    fn lengths_have_one_digit_after_the_point_at_most() {
        for (length, text) in [
            (0.0, "0"),
            (-0.04, "0"),
            (7.0, "7"),
            (7.25, "7.3"),
            (7.04, "7"),
            (-1.5, "-1.5"),
            (100.0, "100"),
            (99.96, "100"),
        ] {
            assert_eq!(N(length).to_string(), text);
        }
    }
}
