//! A small reader of XML that takes nothing but well-formed text, as far as a picture needs it: elements, attributes, text, and the four
//! characters that are written as references. And the way back, for pictures that are changed on purpose.

/// An element.
#[derive(Clone, Debug, PartialEq, Eq)]
pub struct Element {
    pub name: String,
    pub attributes: Vec<(String, String)>,
    pub inside: Vec<Node>,
}

/// What stands inside an element.
#[derive(Clone, Debug, PartialEq, Eq)]
pub enum Node {
    Element(Element),
    Text(String),
}

impl Element {
    /// An attribute's value; none where it is not there.
    pub fn get(&self, name: &str) -> Option<&str> {
        let mut attributes = self.attributes.iter();
        let found = attributes.find(|(other, _)| other == name)?;
        Some(&found.1)
    }

    /// Whether one of its classes is this one.
    pub fn has_class(&self, class: &str) -> bool {
        let classes = self.get("class").unwrap_or("");
        classes.split(' ').any(|other| other == class)
    }

    /// The elements inside it.
    pub fn children(&self) -> impl Iterator<Item = &Element> {
        self.inside.iter().filter_map(|node| match node {
            Node::Element(element) => Some(element),
            Node::Text(_) => None,
        })
    }

    /// It and all elements within it, in the order of the text.
    pub fn all(&self) -> Vec<&Element> {
        let mut all = vec![self];
        for child in self.children() {
            all.extend(child.all());
        }
        all
    }

    /// The text inside it, without that of elements in it.
    pub fn text(&self) -> String {
        let texts = self.inside.iter().filter_map(|node| match node {
            Node::Text(text) => Some(text.as_str()),
            Node::Element(_) => None,
        });
        texts.collect()
    }

    /// The first element, it or within it, for which a test holds; for changing it.
    pub fn find_mut(&mut self, test: &dyn Fn(&Element) -> bool) -> Option<&mut Element> {
        if test(self) {
            return Some(self);
        }
        self.inside.iter_mut().find_map(|node| match node {
            Node::Element(element) => element.find_mut(test),
            Node::Text(_) => None,
        })
    }

    /// Changes an attribute that is there.
    pub fn set(&mut self, name: &str, value: &str) {
        let mut attributes = self.attributes.iter_mut();
        let found = attributes.find(|(other, _)| other == name);
        found.unwrap_or_else(|| panic!("no attribute {name}")).1 = value.to_string();
    }

    /// Its text.
    pub fn written(&self) -> String {
        let escaped = |text: &str| {
            let text = text.replace('&', "&amp;").replace('<', "&lt;");
            text.replace('>', "&gt;").replace('"', "&quot;")
        };
        let mut text = format!("<{}", self.name);
        for (name, value) in &self.attributes {
            text += &format!(" {name}=\"{}\"", escaped(value));
        }
        text += ">";
        for node in &self.inside {
            match node {
                Node::Element(element) => text += &element.written(),
                Node::Text(inside) => text += &escaped(inside),
            }
        }
        text + &format!("</{}>", self.name)
    }
}

/// Reads a text that is one element.
pub fn parse(text: &str) -> Result<Element, String> {
    let mut reader = Reader { text, at: 0 };
    let root = reader.element()?;
    reader.skip_space();
    match reader.rest() {
        "" => Ok(root),
        rest => Err(format!("after the last element: {:.40}", rest)),
    }
}

struct Reader<'a> {
    text: &'a str,
    at: usize,
}

impl<'a> Reader<'a> {
    fn rest(&self) -> &'a str {
        &self.text[self.at..]
    }

    /// Takes a text that must come next.
    fn take(&mut self, expected: &str) -> Result<(), String> {
        if !self.rest().starts_with(expected) {
            return Err(format!("{expected:?} expected: {:.40}", self.rest()));
        }
        self.at += expected.len();
        Ok(())
    }

    /// Takes characters as long as a test holds.
    fn take_while(&mut self, test: impl Fn(char) -> bool) -> &'a str {
        let rest = self.rest();
        let end = rest.find(|c| !test(c)).unwrap_or(rest.len());
        self.at += end;
        &rest[..end]
    }

    fn skip_space(&mut self) -> bool {
        !self.take_while(|c| " \t\r\n".contains(c)).is_empty()
    }

    fn name(&mut self) -> Result<String, String> {
        let name = self.take_while(|c| c.is_ascii_alphanumeric() || ":-_".contains(c));
        match name.starts_with(|c: char| c.is_ascii_alphabetic()) {
            true => Ok(name.to_string()),
            false => Err(format!("a name expected: {:.40}", self.rest())),
        }
    }

    fn element(&mut self) -> Result<Element, String> {
        self.take("<")?;
        let name = self.name()?;
        let mut element = Element {
            name,
            attributes: Vec::new(),
            inside: Vec::new(),
        };
        loop {
            let spaced = self.skip_space();
            if self.rest().starts_with("/>") {
                self.take("/>")?;
                return Ok(element);
            }
            if self.rest().starts_with('>') {
                break;
            }
            if !spaced {
                return Err(format!("a space expected: {:.40}", self.rest()));
            }
            let attribute = self.attribute()?;
            if element.get(&attribute.0).is_some() {
                return Err(format!("{} stands twice in {}", attribute.0, element.name));
            }
            element.attributes.push(attribute);
        }
        self.take(">")?;
        while !self.rest().starts_with("</") {
            let node = match self.rest().starts_with('<') {
                true => Node::Element(self.element()?),
                false => Node::Text(self.characters('<')?),
            };
            element.inside.push(node);
        }
        self.take("</")?;
        self.take(&element.name)?;
        self.skip_space();
        self.take(">")?;
        Ok(element)
    }

    fn attribute(&mut self) -> Result<(String, String), String> {
        let name = self.name()?;
        self.take("=\"")?;
        let value = self.characters('"')?;
        self.take("\"")?;
        Ok((name, value))
    }

    /// Characters up to this one, at least one of which is left: none that XML has not, no `<`, and `&` of a reference alone.
    fn characters(&mut self, end: char) -> Result<String, String> {
        let raw = self.take_while(|c| c != end);
        if self.rest().is_empty() {
            return Err(format!("no {end} after: {:.40}", raw));
        }
        let mut text = String::new();
        let mut rest = raw;
        while let Some(character) = rest.chars().next() {
            let legal = matches!(character, '\t' | '\n' | '\r' | ' '..='\u{D7FF}' | '\u{E000}'..='\u{FFFD}' | '\u{10000}'..);
            if !legal || character == '<' {
                return Err(format!("{character:?} stands in: {:.40}", raw));
            }
            let (read, length) = match character {
                '&' => reference(rest)?,
                other => (other, other.len_utf8()),
            };
            text.push(read);
            rest = &rest[length..];
        }
        Ok(text)
    }
}

/// The character of a reference, and the length of that.
fn reference(text: &str) -> Result<(char, usize), String> {
    for (reference, character) in [
        ("&amp;", '&'),
        ("&lt;", '<'),
        ("&gt;", '>'),
        ("&quot;", '"'),
    ] {
        if text.starts_with(reference) {
            return Ok((character, reference.len()));
        }
    }
    Err(format!("no reference: {:.20}", text))
}

#[test]
fn well_formed_text_is_read() {
    let text = "<a b=\"1 &lt; 2\" c=\"\"><d/>x &amp; y<e>z</e></a>\n";
    let read = parse(text).unwrap();
    assert_eq!(read.get("b"), Some("1 < 2"));
    assert_eq!(read.text(), "x & y");
    assert_eq!(read.all().len(), 3);
    assert_eq!(parse(&read.written()), Ok(read));
}

#[test]
fn other_text_is_not_read() {
    for text in [
        "",
        "a",
        "<a>",
        "<a></b>",
        "<a/><b/>",
        "<a/>b",
        "<a b=\"1\" b=\"2\"/>",
        "<a b=1/>",
        "<a b=\"1\"c=\"2\"/>",
        "<a b=\"<\"/>",
        "<a b=\"1/>",
        "<a>&</a>",
        "<a>&x;</a>",
        "<a>\u{1}</a>",
        "<a>\u{FFFF}</a>",
        "<1/>",
        "<a><b></a></b>",
        "<a>]]<",
    ] {
        assert!(parse(text).is_err(), "{text}");
    }
}
