//! Refuses what no rule is for. It reads a file without its ghosts, before the other rules.

use crate::Wrong;
use crate::tokens::{Kind, Token, after_space, close, code_from, last_code, phrase};

/// Words that have no rule, wherever they are.
const UNKNOWN: [&str; 14] = [
    "async",
    "await",
    "decreases",
    "dyn",
    "final",
    "ghost",
    "invariant",
    "law",
    "macro",
    "macro_rules",
    "syntax",
    "union",
    "unsafe",
    "yield",
];
/// Methods of vectors and slices that take memory, and so have another result in Rattle. Those with a rule are not here.
const ALLOCATING: [&str; 13] = [
    "append",
    "clone",
    "collect",
    "extend_from_within",
    "insert",
    "into_boxed_slice",
    "reserve_exact",
    "resize_with",
    "shrink_to_fit",
    "split_off",
    "splice",
    "to_owned",
    "to_vec",
];
const DERIVES: [&str; 6] = ["Clone", "Copy", "Debug", "Drop", "Eq", "PartialEq"];
const MACROS: [&str; 2] = ["prove", "write"];
/// Attributes that mean the same in Rust.
const ATTRIBUTES: [&str; 6] =
    ["inline", "inline ( always )", "inline ( never )", "must_use", "repr ( C )", "unsafe ( no_mangle )"];

/// Refuses the first token that has no rule.
pub fn checked(tokens: &[Token]) -> Result<(), Wrong> {
    let mut at = 0;
    while at < tokens.len() {
        let token = tokens[at];
        if token.is("#") {
            at = after_attribute(tokens, at)?;
            continue;
        }
        if token.kind == Kind::Word {
            word(tokens, at)?;
            item(tokens, at)?;
        }
        at += 1;
    }
    Ok(())
}

fn word(tokens: &[Token], at: usize) -> Result<(), Wrong> {
    let token = tokens[at];
    if UNKNOWN.contains(&token.text) {
        return Err(token.wrong(format!("no rule for '{}'", token.text)));
    }
    let is_macro = || ["$ ! (", "$ ! [", "$ ! {"].iter().any(|it| phrase(tokens, at, it).is_some());
    if tokens.get(at + 1).is_some_and(|it| it.is("!")) && is_macro() && !MACROS.contains(&token.text) {
        return Err(token.wrong(format!("no rule for the macro '{}!'", token.text)));
    }
    if token.text == "prove" && !follows(tokens, at, "const _ : ( ) =") {
        return Err(token.wrong("no rule for 'prove!' outside of a constant"));
    }
    let called = || phrase(tokens, at, "$ (").or(phrase(tokens, at, "$ : : <")).is_some();
    if ALLOCATING.contains(&token.text) && called() && last_code(&tokens[..at]).is_some_and(|it| it.is(".") || it.is(":")) {
        return Err(token.wrong(format!("no rule for the call '{}()'", token.text)));
    }
    if phrase(tokens, at, "Vec : :").is_some() && phrase(tokens, at, "Vec : : new ( alloc )").is_none() {
        return Err(token.wrong("no rule for a vector of another form than 'Vec::new(alloc)'"));
    }
    Ok(())
}

/// Whether a phrase is directly before a token.
fn follows(tokens: &[Token], at: usize, wanted: &str) -> bool {
    (0..at).rev().take(2 * wanted.len()).any(|it| phrase(tokens, it, wanted).is_some_and(|end| after_space(tokens, end) == at))
}

/// The index after an attribute.
fn after_attribute(tokens: &[Token], at: usize) -> Result<usize, Wrong> {
    let open = phrase(tokens, at, "# [").ok_or_else(|| tokens[at].wrong("no rule for this attribute"))? - 1;
    let end = close(tokens, open);
    if let Some(derived) = phrase(tokens, open + 1, "derive (") {
        let names: Vec<&str> = tokens[derived..end - 1].iter().filter(|it| it.kind == Kind::Word).map(|it| it.text).collect();
        if let Some(other) = names.iter().find(|it| !DERIVES.contains(it)) {
            return Err(tokens[at].wrong(format!("no rule for deriving {other}")));
        }
        if names.contains(&"Clone") && !names.contains(&"Copy") {
            return Err(tokens[at].wrong("no rule for a derived clone that can fail"));
        }
        return Ok(end + 1);
    }
    if ATTRIBUTES.iter().any(|it| phrase(tokens, open + 1, it).is_some_and(|after| after == end)) {
        return Ok(end + 1);
    }
    let text: String = tokens[at..=end].iter().map(|it| it.text).collect();
    Err(tokens[at].wrong(format!("no rule for the attribute {text}")))
}

/// Refuses the head of an item that has no rule.
fn item(tokens: &[Token], at: usize) -> Result<(), Wrong> {
    let token = tokens[at];
    let follow: &[&str] = match token.text {
        "fn" => &["<", "("],
        "trait" => &["<", ":", "{"],
        "struct" => &["<", "(", "{", ";"],
        "enum" => &["<", "{"],
        "mod" => &[";"],
        "static" => &[":"],
        _ => return Ok(()),
    };
    let named = phrase(tokens, at, &format!("{} $", token.text)).map(|it| after_space(tokens, it));
    let after = named.and_then(|it| tokens.get(it)).filter(|it| follow.contains(&it.text));
    if after.is_none() {
        return Err(token.wrong(format!("no rule for this form of '{}'", token.text)));
    }
    begins(tokens, at)?;
    if token.text == "fn" { bodied(tokens, at) } else { Ok(()) }
}

/// Refuses a word before an item that is not known there.
fn begins(tokens: &[Token], at: usize) -> Result<(), Wrong> {
    let is_fn = tokens[at].is("fn");
    let mut before = &tokens[..at];
    while let Some(token) = last_code(before) {
        let last = before.iter().rposition(Token::is_code).unwrap_or(0);
        let known = match token.text {
            ";" | "{" | "}" | "]" => return Ok(()),
            "pub" => true,
            ")" | "(" | "crate" | "super" => true,
            "const" | "extern" | "\"C\"" => is_fn,
            _ => false,
        };
        if !known {
            return Err(token.wrong(format!("no rule for '{}' before '{}'", token.text, tokens[at].text)));
        }
        before = &before[..last];
    }
    Ok(())
}

/// Refuses a function that has neither a body nor a semicolon.
fn bodied(tokens: &[Token], at: usize) -> Result<(), Wrong> {
    let none = || tokens[at].wrong("this function has no body");
    let mut next = at + 1;
    loop {
        next = code_from(tokens, next);
        let token = tokens.get(next).ok_or_else(none)?;
        match token.text {
            "{" | ";" => return Ok(()),
            "(" | "[" => next = close(tokens, next) + 1,
            "}" | "#" | "fn" | "pub" | "struct" | "enum" | "trait" | "mod" | "use" | "static" | "type" | "let" => {
                return Err(none());
            }
            _ => next += 1,
        }
    }
}
