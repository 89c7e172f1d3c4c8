//! The items of a text, read line by line and not by tokens: what the rules drop is seen here.

use crate::Wrong;

/// The keyword and the name of an item, which are the same in Rattle and in Rust, and its line.
struct Item<'a> {
    line: usize,
    keyword: &'a str,
    name: &'a str,
}

const KEYWORDS: [&str; 9] = ["const", "enum", "fn", "impl", "mod", "static", "struct", "trait", "type"];

/// Refuses a translation that does not have each item of the source, in its order, and no other. A model has only ghosts.
pub fn compared(source: &str, made: &str) -> Result<(), Wrong> {
    let mut found = items(made);
    for item in items(source).filter(|it| (it.keyword, it.name) != ("impl", "Model")) {
        let (wanted, other) = ((item.keyword, item.name), found.next());
        if other.as_ref().map(|it| (it.keyword, it.name)) != Some(wanted) {
            let other = other.map_or("nothing".into(), |it| format!("'{} {}'", it.keyword, it.name));
            return Err(Wrong::at(item.line, format!("'{} {}' is lost: the translation has {other} there", wanted.0, wanted.1)));
        }
    }
    let more = found.next().map(|it| Wrong::at(0, format!("the translation has one more '{} {}'", it.keyword, it.name)));
    more.map_or(Ok(()), Err)
}

fn items(text: &str) -> impl Iterator<Item = Item<'_>> {
    text.lines().enumerate().filter_map(|(at, line)| item(at + 1, line.trim_start()))
}

fn item(line: usize, text: &str) -> Option<Item<'_>> {
    let head = without_prefix(text);
    let (keyword, rest) = split(head);
    let name = if keyword == "impl" { implemented(rest) } else { split(rest.trim_start()).0 };
    KEYWORDS.contains(&keyword).then_some(Item { line, keyword, name })
}

/// A word, and what is after it.
fn split(text: &str) -> (&str, &str) {
    text.split_at(text.find(|c: char| !c.is_alphanumeric() && c != '_').unwrap_or(text.len()))
}

/// A line without the words before its keyword.
fn without_prefix(text: &str) -> &str {
    let text = text
        .strip_prefix("pub")
        .map_or(text, |it| it.strip_prefix('(').and_then(|it| it.split_once(')')).map_or(it, |it| it.1).trim_start());
    let text = text.strip_prefix("unsafe ").unwrap_or(text);
    let text = text.strip_prefix("extern \"C\" ").unwrap_or(text);
    text.strip_prefix("const ").filter(|it| it.starts_with("fn ")).unwrap_or(text)
}

/// The trait of an implementation, or the type of one without a trait.
fn implemented(rest: &str) -> &str {
    let head = rest.split('{').next().unwrap_or("");
    let name = head.split(" for ").next().unwrap_or("");
    let name = if name.starts_with('<') { name.split_once("> ").map_or(name, |it| it.1) } else { name };
    split(name.trim_start()).0
}
