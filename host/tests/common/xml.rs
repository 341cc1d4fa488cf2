//! As much of an XML reader as a test needs: elements, attributes, text and the five entities; it panics at what is not well-formed.

use std::collections::HashMap;

#[derive(Clone, Debug, Default)]
pub struct Element {
    pub name: String,
    pub attributes: HashMap<String, String>,
    pub text: String,
    pub children: Vec<Element>,
}

impl Element {
    /// Every element below this one, in order.
    pub fn all(&self) -> Vec<&Element> {
        self.children.iter().flat_map(|child| [child].into_iter().chain(child.all())).collect()
    }

    pub fn get(&self, name: &str) -> &str {
        self.attributes.get(name).map_or("", String::as_str)
    }

    pub fn number(&self, name: &str) -> usize {
        self.get(name).parse().unwrap_or_else(|_| panic!("{} has no number {name}", self.name))
    }

    pub fn of_class(&self, class: &str) -> Vec<&Element> {
        self.all().into_iter().filter(|element| element.get("class") == class).collect()
    }
}

pub fn parsed(text: &str) -> Element {
    let rest = text.strip_prefix("<?xml version=\"1.0\" encoding=\"UTF-8\"?>\n").expect("the declaration");
    let mut open = vec![Element::default()];
    let mut rest = rest.trim_end();
    while !rest.is_empty() {
        let at = rest.find('<').expect("text after the last element");
        open.last_mut().unwrap().text += &plain(&rest[..at]);
        let (tag, behind) = rest[at + 1..].split_once('>').expect("a tag ends");
        rest = behind;
        if let Some(name) = tag.strip_prefix('/') {
            let element = open.pop().unwrap();
            assert_eq!(element.name, name);
            open.last_mut().expect("one more end than begins").children.push(element);
            continue;
        }
        let element = begun(tag.trim_end_matches('/'));
        if tag.ends_with('/') { open.last_mut().unwrap().children.push(element) } else { open.push(element) }
    }
    assert_eq!(open.len(), 1, "an element does not end");
    let top = open.pop().unwrap();
    assert_eq!((top.children.len(), top.text.trim()), (1, ""));
    top.children.into_iter().next().unwrap()
}

fn begun(tag: &str) -> Element {
    let (name, mut rest) = tag.split_once(' ').unwrap_or((tag, ""));
    assert!(!name.is_empty() && name.chars().all(|c| c.is_ascii_alphanumeric()), "a name: {name}");
    let mut element = Element { name: name.to_string(), ..Element::default() };
    while !rest.trim().is_empty() {
        let (name, behind) = rest.split_once("=\"").expect("an attribute");
        let (value, behind) = behind.split_once('"').expect("a value ends");
        assert!(element.attributes.insert(name.trim().to_string(), plain(value)).is_none(), "{name} stands twice");
        rest = behind;
    }
    element
}

fn plain(text: &str) -> String {
    let mut parts = text.split('&');
    let mut plain = parts.next().unwrap().to_string();
    for part in parts {
        let (name, behind) = part.split_once(';').expect("an entity ends");
        let entities = [("amp", '&'), ("lt", '<'), ("gt", '>'), ("quot", '"'), ("apos", '\'')];
        plain.push(entities.iter().find(|(entity, _)| *entity == name).expect("an entity").1);
        plain += behind;
    }
    assert!(!plain.contains(|c: char| c < ' ' && c != '\n'), "a control character");
    plain
}
