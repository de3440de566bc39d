//! A small reader of pages that are well-formed XML: stricter than a browser, so that what it takes
//! is read by all.

/// An element with its attributes and what is in it.
#[derive(Debug, Default)]
pub struct Node {
    pub name: String,
    attributes: Vec<(String, String)>,
    children: Vec<Child>,
}

#[derive(Debug)]
enum Child {
    Node(Node),
    Text(String),
}

impl Node {
    pub fn attribute(&self, name: &str) -> Option<&str> {
        let found = self.attributes.iter().find(|attribute| attribute.0 == name);
        found.map(|attribute| attribute.1.as_str())
    }

    /// The elements that are right in it.
    pub fn elements(&self) -> impl Iterator<Item = &Node> {
        self.children.iter().filter_map(|child| match child {
            Child::Node(node) => Some(node),
            Child::Text(_) => None,
        })
    }

    /// All elements in it, at whatever depth, in their order.
    fn within(&self) -> Vec<&Node> {
        let with_its_own = |node| [vec![node], Node::within(node)].concat();
        self.elements().flat_map(with_its_own).collect()
    }

    /// All of a name.
    pub fn all(&self, name: &str) -> Vec<&Node> {
        self.within().into_iter().filter(|node| node.name == name).collect()
    }

    /// The first of a name, which must be there.
    pub fn first(&self, name: &str) -> &Node {
        self.all(name).first().unwrap_or_else(|| panic!("no {name} in {}", self.name))
    }

    /// Its text, with that of all in it.
    pub fn text(&self) -> String {
        let text = |child: &Child| match child {
            Child::Node(node) => node.text(),
            Child::Text(text) => text.clone(),
        };
        self.children.iter().map(text).collect()
    }
}

/// Text without its entities; any other `&` or `<` is a fault.
fn plain(text: &str) -> String {
    let mut out = String::new();
    let mut rest = text;
    while let Some(at) = rest.find(['&', '<', '>']) {
        out.push_str(&rest[..at]);
        let known =
            [("&amp;", '&'), ("&lt;", '<'), ("&gt;", '>'), ("&quot;", '"'), ("&#39;", '\'')];
        let entity = known.into_iter().find(|(entity, _)| rest[at..].starts_with(entity));
        let (entity, c) = entity.unwrap_or_else(|| panic!("not escaped: {text}"));
        out.push(c);
        rest = &rest[at + entity.len()..];
    }
    out + rest
}

/// The name and the attributes of a tag. Each attribute is quoted, and there once.
fn tag(text: &str) -> Node {
    let name_end = text.find(' ').unwrap_or(text.len());
    let mut node = Node { name: text[..name_end].into(), ..Node::default() };
    assert!(
        !node.name.is_empty() && node.name.bytes().all(|byte| byte.is_ascii_alphanumeric()),
        "{text}"
    );
    let mut rest = &text[name_end..];
    while !rest.is_empty() {
        let attribute = rest.strip_prefix(' ').unwrap_or_else(|| panic!("no blank: {text}"));
        let (name, value) =
            attribute.split_once("='").unwrap_or_else(|| panic!("no value: {text}"));
        let (value, after) = value.split_once('\'').unwrap_or_else(|| panic!("no quote: {text}"));
        assert!(name.bytes().all(|byte| byte.is_ascii_alphanumeric() || byte == b'-'), "{text}");
        assert!(node.attribute(name).is_none(), "{name} twice: {text}");
        node.attributes.push((name.into(), plain(value)));
        rest = after;
    }
    node
}

/// The elements of a text; each tag is closed where it must be.
fn read(text: &str) -> Node {
    let mut open = vec![Node::default()];
    let mut rest = text;
    while let Some(at) = rest.find('<') {
        let add = |open: &mut Vec<Node>, child: Child| {
            open.last_mut().expect("one is open").children.push(child);
        };
        if at > 0 {
            add(&mut open, Child::Text(plain(&rest[..at])));
        }
        let (inside, after) = rest[at + 1..].split_once('>').expect("a tag ends");
        assert!(!inside.contains('<'), "{inside}");
        rest = after;
        if let Some(name) = inside.strip_prefix('/') {
            let closed = open.pop().expect("one is open");
            assert_eq!(closed.name, name, "closed out of order");
            assert!(!open.is_empty(), "{name} was not open");
            add(&mut open, Child::Node(closed));
        } else if let Some(inside) = inside.strip_suffix(" /") {
            let node = tag(inside);
            // A browser closes others of itself only where they are of a picture.
            let is_empty = ["meta", "rect", "line"].contains(&node.name.as_str());
            assert!(is_empty, "{} is closed", node.name);
            add(&mut open, Child::Node(node));
        } else {
            open.push(tag(inside));
        }
    }
    assert_eq!(rest.trim(), "");
    assert_eq!(open.len(), 1, "{} is not closed", open.last().unwrap().name);
    open.pop().expect("one is open")
}

/// Reads a page and holds it to what every page must be: whole, and of this file alone.
pub fn page(text: &str) -> Node {
    let rest = text.strip_prefix("<!DOCTYPE html>\n").expect("a page begins so");
    // Between these two nothing is markup.
    let (before, style) = rest.split_once("<style>").expect("a style");
    let (style, after) = style.split_once("</style>").expect("its end");
    assert!(!style.contains(['<', '&']));
    let page = read(&format!("{before}<style></style>{after}"));
    for other in ["http", "//", "url(", "@import", "<script", "javascript", " src=", " on"] {
        let is_there = match other {
            // An attribute that begins so would be a handler; words may.
            " on" => page
                .within()
                .iter()
                .any(|node| node.attributes.iter().any(|(name, _)| name.starts_with("on"))),
            _ => text.contains(other),
        };
        assert!(!is_there, "the page has {other}");
    }
    let nodes = page.within();
    let mut ids: Vec<&str> = nodes.iter().filter_map(|node| node.attribute("id")).collect();
    let count = ids.len();
    ids.sort();
    ids.dedup();
    assert_eq!(ids.len(), count, "an id is there twice");
    for node in nodes {
        let links =
            node.attribute("href").map(|link| link.strip_prefix('#').expect("within the page"));
        let named = node.attribute("aria-labelledby").unwrap_or("").split_whitespace();
        for id in links.into_iter().chain(named) {
            assert!(ids.binary_search(&id).is_ok(), "nothing is {id}");
        }
    }
    assert_eq!(page.first("html").attribute("lang"), Some("en"));
    assert_eq!(page.first("head").first("meta").attribute("charset"), Some("utf-8"));
    page
}
