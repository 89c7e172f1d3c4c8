//! The text of a file as tokens, and what is around one.

use crate::Wrong;

/// What a token is.
#[derive(Clone, Copy, Debug, PartialEq, Eq)]
pub enum Kind {
    Space,
    /// From `//` to the end of its line.
    Comment,
    /// A string or a character.
    Quoted,
    Lifetime,
    /// A name, a keyword or a number.
    Word,
    /// Any other character, alone.
    Mark,
    /// Rust that a rule wrote. No other rule reads it.
    Made,
}

/// A token, and its line, counted from 1.
#[derive(Clone, Copy, Debug, PartialEq, Eq)]
pub struct Token<'a> {
    pub kind: Kind,
    pub text: &'a str,
    pub line: usize,
}

impl<'a> Token<'a> {
    pub fn made(text: &'a str, line: usize) -> Token<'a> {
        let kind = Kind::Made;
        Token { kind, text, line }
    }

    pub fn is(&self, text: &str) -> bool {
        self.text == text && matches!(self.kind, Kind::Word | Kind::Mark)
    }

    /// Whether it is neither a space nor a comment.
    pub fn is_code(&self) -> bool {
        !matches!(self.kind, Kind::Space | Kind::Comment)
    }

    pub fn wrong(&self, what: impl Into<String>) -> Wrong {
        Wrong::at(self.line, what)
    }
}

/// The tokens of a text. Its brackets are in pairs.
pub fn tokens(text: &str) -> Result<Vec<Token<'_>>, Wrong> {
    let mut found: Vec<Token> = Vec::new();
    let (mut at, mut line) = (0, 1);
    while at < text.len() {
        let prefix = found.last().filter(|it| it.kind == Kind::Word).map_or("", |it| it.text);
        let (kind, len) = first(&text[at..], prefix).map_err(|what| Wrong::at(line, what))?;
        let text = &text[at..at + len];
        found.push(Token { kind, text, line });
        line += text.matches('\n').count();
        at += len;
    }
    paired(&found)?;
    Ok(found)
}

/// The kind and the length of the first token of a text that is not empty. The prefix is the word that it follows directly.
fn first(text: &str, prefix: &str) -> Result<(Kind, usize), String> {
    let first = text.chars().next().unwrap_or_default();
    match first {
        _ if text.starts_with("//") => Ok((Kind::Comment, text.find('\n').unwrap_or(text.len()))),
        _ if text.starts_with("/*") => Err("no rule for a block comment".into()),
        '"' | '\'' if !matches!(prefix, "" | "b") => Err(format!("no rule for a quote directly after '{prefix}'")),
        '#' if matches!(prefix, "r" | "br" | "cr") => Err("no rule for raw strings and raw names".into()),
        '"' => Ok((Kind::Quoted, string_len(text).ok_or("a string without an end")?)),
        '\'' => tick(text).ok_or("no rule for this quote".into()),
        _ if first.is_whitespace() => Ok((Kind::Space, len_while(text, char::is_whitespace))),
        _ if is_word(first) => Ok((Kind::Word, len_while(text, is_word))),
        _ => Ok((Kind::Mark, first.len_utf8())),
    }
}

fn is_word(c: char) -> bool {
    c.is_alphanumeric() || c == '_'
}

fn len_while(text: &str, holds: impl Fn(char) -> bool) -> usize {
    text.find(|c| !holds(c)).unwrap_or(text.len())
}

fn string_len(text: &str) -> Option<usize> {
    let mut escaped = false;
    for (at, c) in text.char_indices().skip(1) {
        match c {
            _ if escaped => escaped = false,
            '\\' => escaped = true,
            '"' => return Some(at + 1),
            _ => {}
        }
    }
    None
}

/// A character or a lifetime, and its length.
fn tick(text: &str) -> Option<(Kind, usize)> {
    let mut chars = text.chars().skip(1);
    let (first, second) = (chars.next()?, chars.next()?);
    let after = 1 + first.len_utf8();
    if first == '\\' {
        let end = after + second.len_utf8();
        return Some((Kind::Quoted, end + text[end..].find('\'')? + 1));
    }
    if second == '\'' && first != '\'' {
        return Some((Kind::Quoted, after + 1));
    }
    is_word(first).then(|| (Kind::Lifetime, 1 + len_while(&text[1..], is_word)))
}

/// The bracket that closes one.
fn closing(open: &str) -> Option<&'static str> {
    Some(match open {
        "(" => ")",
        "[" => "]",
        "{" => "}",
        _ => return None,
    })
}

fn paired(tokens: &[Token]) -> Result<(), Wrong> {
    let mut open: Vec<Token> = Vec::new();
    for token in tokens.iter().filter(|it| it.kind == Kind::Mark) {
        if closing(token.text).is_some() {
            open.push(*token);
        } else if matches!(token.text, ")" | "]" | "}") {
            let before = open.pop().ok_or_else(|| token.wrong(format!("'{}' closes nothing", token.text)))?;
            if closing(before.text) != Some(token.text) {
                return Err(token.wrong(format!("'{}' closes the '{}' of line {}", token.text, before.text, before.line)));
            }
        }
    }
    let left = open.pop().map(|it| it.wrong(format!("nothing closes this '{}'", it.text)));
    left.map_or(Ok(()), Err)
}

/// The index of the bracket that closes the one at an index.
pub fn close(tokens: &[Token], open: usize) -> usize {
    let mut depth = 0;
    for (at, token) in tokens.iter().enumerate().skip(open).filter(|it| it.1.kind == Kind::Mark) {
        match token.text {
            "(" | "[" | "{" => depth += 1,
            ")" | "]" | "}" => depth -= 1,
            _ => {}
        }
        if depth == 0 {
            return at;
        }
    }
    tokens.len() - 1
}

/// The index of the first token from `at` on that is no space.
pub fn after_space(tokens: &[Token], at: usize) -> usize {
    at + tokens[at..].iter().take_while(|it| it.kind == Kind::Space).count()
}

/// The index of the first token from `at` on that is code.
pub fn code_from(tokens: &[Token], at: usize) -> usize {
    at + tokens[at..].iter().take_while(|it| !it.is_code()).count()
}

/// The last token of code.
pub fn last_code<'a>(tokens: &[Token<'a>]) -> Option<Token<'a>> {
    tokens.iter().rev().find(|it| it.is_code()).copied()
}

/// The index after a phrase, if it begins at `at`: its tokens, each after a space, where `$` is any word. Between them are spaces or nothing.
pub fn phrase(tokens: &[Token], at: usize, wanted: &str) -> Option<usize> {
    let first = tokens.get(at)?;
    // Most phrases differ in their first byte.
    let (found, begin) = (first.text.as_bytes().first(), wanted.as_bytes().first());
    if begin != found && !(begin == Some(&b'$') && first.kind == Kind::Word) {
        return None;
    }
    let mut next = at;
    for (number, part) in wanted.split(' ').enumerate() {
        next = if number == 0 { next } else { after_space(tokens, next) };
        let token = tokens.get(next)?;
        if token.text != part && !(part == "$" && token.kind == Kind::Word) {
            return None;
        }
        next += 1;
    }
    Some(next)
}
