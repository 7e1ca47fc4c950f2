//! Reads XML, as far as pictures have it, for tests.

use std::collections::BTreeMap;

/// An element of XML, with the text that stands directly in it.
#[derive(Debug, Default)]
pub struct Element {
    pub name: String,
    attributes: BTreeMap<String, String>,
    pub children: Vec<Element>,
    pub text: String,
}

impl Element {
    pub fn attribute(&self, name: &str) -> &str {
        self.attributes.get(name).map_or("", String::as_str)
    }

    pub fn number(&self, name: &str) -> f64 {
        self.attribute(name).parse().unwrap_or_else(|_| panic!("{name} of {self:?}"))
    }

    pub fn child(&self, name: &str) -> &Element {
        let mut named = self.children.iter().filter(|child| child.name == name);
        let child = named.next().unwrap_or_else(|| panic!("no {name} in {self:?}"));
        assert!(named.next().is_none(), "a second {name} in {self:?}");
        child
    }

    /// The elements in this one, at any depth, whose class has that word.
    pub fn of_class(&self, class: &str) -> Vec<&Element> {
        let mut found = Vec::new();
        for child in &self.children {
            if child.attribute("class").split(' ').any(|word| word == class) {
                found.push(child);
            }
            found.extend(child.of_class(class));
        }
        found
    }
}

/// Reads a text in well-formed XML, and fails on any other.
pub fn parse(text: &str) -> Element {
    let mut open = vec![Element::default()];
    let mut unread = text;
    while let Some((before, tag)) = unread.split_once('<') {
        let (tag, behind) = tag.split_once('>').expect("a tag ends");
        unread = behind;
        let last = open.len() - 1;
        open[last].text.push_str(&unescaped(before));
        if let Some(name) = tag.strip_prefix('/') {
            let element = open.pop().expect("an open element");
            assert_eq!(element.name, name, "tags balance");
            open.last_mut().expect("an element around it").children.push(element);
        } else if let Some(tag) = tag.strip_suffix('/') {
            open[last].children.push(parse_tag(tag));
        } else {
            open.push(parse_tag(tag));
        }
    }
    assert!(open.len() == 1 && unread.trim().is_empty(), "all elements are closed");
    let mut document = open.remove(0);
    assert!(document.children.len() == 1 && document.text.trim().is_empty(), "one element holds all");
    document.children.remove(0)
}

/// Reads the name and the attributes of a tag.
fn parse_tag(tag: &str) -> Element {
    let (name, mut unread) = tag.split_once(' ').unwrap_or((tag, ""));
    assert!(!name.is_empty() && name.chars().all(|letter| letter.is_ascii_alphabetic()), "the name of {tag:?}");
    let mut element = Element { name: name.to_string(), ..Element::default() };
    while !unread.is_empty() {
        let (name, value) = unread.split_once("=\"").expect("a quote behind the name of an attribute");
        assert!(name.chars().all(|letter| letter.is_ascii_alphanumeric() || letter == '-'), "attribute {name:?}");
        let (value, behind) = value.split_once('"').expect("a quote behind the value of an attribute");
        assert!(behind.is_empty() || behind.starts_with(' '), "a space between attributes: {tag:?}");
        unread = behind.trim_start();
        let before = element.attributes.insert(name.to_string(), unescaped(value));
        assert!(before.is_none(), "each attribute once: {tag:?}");
    }
    element
}

/// A text without escapes; fails where one is missing.
fn unescaped(text: &str) -> String {
    for part in text.split('&').skip(1) {
        let escapes = ["amp;", "lt;", "gt;", "quot;"];
        assert!(escapes.iter().any(|escape| part.starts_with(escape)), "a bare & in {text:?}");
    }
    let allowed = |letter: char| letter == '\n' || !(letter.is_control() || ['\u{fffe}', '\u{ffff}'].contains(&letter));
    assert!(text.chars().all(allowed), "a character that XML does not allow: {text:?}");
    text.replace("&lt;", "<").replace("&gt;", ">").replace("&quot;", "\"").replace("&amp;", "&")
}
