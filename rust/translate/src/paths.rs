//! Paths: each crate is a module of the one crate.

use std::collections::BTreeSet;

use crate::Wrong;
use crate::rules::{Change, applied};
use crate::tokens::{Kind, Token, last_code, phrase};

/// A crate, and its module.
macro_rules! module {
    ($of:literal, $name:literal, is_for_c: $is_for_c:literal) => {
        Module {
            of: $of,
            name: $name,
            path: concat!("crate::", $name),
            within: concat!("pub(in crate::", $name, ")"),
            is_for_c: $is_for_c,
        }
    };
}

/// The crates, the lowest first, with their modules.
pub const CRATES: [Module; 12] = [
    module!("bitpacking_register", "register", is_for_c: false),
    module!("bitpacking", "bitpacking", is_for_c: false),
    module!("bitpack_groups", "groups", is_for_c: false),
    module!("bitpack_slices", "slices", is_for_c: false),
    module!("bitpack_sets", "sets", is_for_c: false),
    module!("bitpack_queries", "queries", is_for_c: false),
    module!("bitpack_roaring", "roaring", is_for_c: false),
    module!("bitpack_columns", "columns", is_for_c: false),
    module!("bitpack_ranked", "ranking", is_for_c: false),
    module!("bitpack_wide", "wide", is_for_c: false),
    module!("bitpack_lists", "lists", is_for_c: false),
    module!("bitpacking_c", "c", is_for_c: true),
];

/// A crate, and what it is in the one crate.
#[derive(Clone, Copy)]
pub struct Module {
    pub of: &'static str,
    pub name: &'static str,
    path: &'static str,
    within: &'static str,
    /// Whether only the functions for C call it.
    pub is_for_c: bool,
}

/// The tokens of a file of a crate with the paths of the one crate.
pub fn in_one_crate<'a>(tokens: &[Token<'a>], module: Module) -> Result<Vec<Token<'a>>, Wrong> {
    let declared = names_after(tokens, "mod");
    let used = names_in_uses(tokens);
    for at in (0..tokens.len()).filter(|it| begins_path(tokens, *it)) {
        let (token, name) = (tokens[at], tokens[at].text);
        let in_use = last_code(&tokens[..at]).is_some_and(|it| it.is("use"));
        let is_known =
            declared.contains(name) || matches!(name, "crate" | "self" | "super") || CRATES.iter().any(|it| it.of == name);
        if !is_known && (in_use || !used.contains(name) && !is_type(name)) {
            return Err(token.wrong(format!("no rule for the crate or module '{name}'")));
        }
    }
    applied(tokens, &[&|tokens, at| moved(tokens, at, module)])
}

fn moved<'a>(tokens: &[Token<'a>], at: usize, module: Module) -> Change<'a> {
    let token = tokens[at];
    if let Some(end) = phrase(tokens, at, "pub ( crate )") {
        return Ok(Some((vec![Token::made(module.within, token.line)], end)));
    }
    if token.is("crate") {
        let path = phrase(tokens, at, "crate : :").ok_or_else(|| token.wrong("no rule for 'crate' here"))?;
        return Ok(Some((vec![Token::made(module.path, token.line)], path - 2)));
    }
    let below = CRATES.iter().find(|it| it.of == token.text && begins_path(tokens, at));
    Ok(below.map(|it| (vec![Token::made(it.path, token.line)], at + 1)))
}

/// Whether the token is the first name of a path of several.
fn begins_path(tokens: &[Token], at: usize) -> bool {
    if tokens[at].kind != Kind::Word || !tokens.get(at + 1).is_some_and(|it| it.is(":")) {
        return false;
    }
    let path = phrase(tokens, at, "$ : :").filter(|it| !tokens.get(*it).is_some_and(|it| it.is("<")));
    path.is_some()
        && !last_code(&tokens[..at]).is_some_and(|it| it.is(":") && phrase(tokens, at.saturating_sub(2), ": :").is_some())
}

fn names_after<'a>(tokens: &[Token<'a>], keyword: &str) -> BTreeSet<&'a str> {
    let named = |at: usize| tokens[at].is(keyword).then(|| phrase(tokens, at, &format!("{keyword} $"))).flatten();
    (0..tokens.len()).filter_map(named).map(|it| tokens[it - 1].text).collect()
}

/// Whether a name is a type's: `Kind`, `usize`, `u32`, `u32x8`.
fn is_type(name: &str) -> bool {
    let number =
        name.strip_prefix(['u', 'i']).is_some_and(|it| it == "size" || it.chars().all(|c| c == 'x' || c.is_ascii_digit()));
    number || name.starts_with(char::is_uppercase)
}

/// Each name in a `use`.
fn names_in_uses<'a>(tokens: &[Token<'a>]) -> BTreeSet<&'a str> {
    let mut names = BTreeSet::new();
    let mut inside = false;
    for token in tokens {
        inside = (inside || token.is("use")) && !token.is(";");
        if inside {
            names.extend(token.text.split(|c: char| !c.is_alphanumeric() && c != '_'));
        } else if token.kind == Kind::Made && token.text.starts_with("use ") {
            names.extend(token.text.split([':', ';']));
        }
    }
    names
}
