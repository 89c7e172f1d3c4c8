//! What has no meaning in Rust, or another one, becomes what means the same.

use crate::Wrong;
use crate::tokens::{Kind, Token, after_space, close, code_from, last_code, phrase};

/// What is in the place of the tokens from an index on, and the index after them.
pub type Change<'a> = Result<Option<(Vec<Token<'a>>, usize)>, Wrong>;

/// What changes the tokens from an index on, if it is for them.
pub type Rule<'a, 'r> = &'r dyn Fn(&[Token<'a>], usize) -> Change<'a>;

/// Phrases, and what they become.
const PHRASES: [(&str, &str); 16] = [
    ("use std : : alloc : : Global ;", ""),
    ("use std : : alloc : : AllocError ;", "use crate::growing::AllocError;"),
    ("use std : : simd : : prelude : : * ;", "use crate::simd::*;"),
    ("use std : : marker : : { Model , PhantomData } ;", "use core::marker::PhantomData;"),
    ("use std : : marker : : PhantomData ;", "use core::marker::PhantomData;"),
    ("use std : : error : : Error ;", "use core::error::Error;"),
    ("use std : : mem : : size_of ;", "use core::mem::size_of;"),
    ("use std : : fmt ;", "use core::fmt;"),
    ("fn fmt < W : fmt : : Write > ( & self , f : & mut fmt : : Formatter < W > )", "fn fmt(&self, f: &mut fmt::Formatter<'_>)"),
    ("prove ! (", "assert!("),
    ("Vec : : new ( alloc )", "Vec::new()"),
    ("# [ inline ( always ) ] fn add_group", APART),
    // A builder pushes a value by few instructions if they are compiled into its caller.
    ("pub fn test_pushed (", "#[inline]\npub fn test_pushed("),
    ("pub ( crate ) fn test_more (", "#[inline]\npub(crate) fn test_more("),
    ("pub fn first_unsorted (", "#[inline]\npub fn first_unsorted("),
    ("fn last_of ( ids :", "#[inline]\nfn last_of(ids:"),
];
/// If it is inlined, LLVM 22 compares the sums of a group by an instruction that SIMD128 lacks, and fails.
const APART: &str = "#[cfg_attr(target_feature = \"simd128\", inline(never))]
#[cfg_attr(not(target_feature = \"simd128\"), inline(always))]
fn add_group";
/// Calls of a vector that say whether there is memory.
const GROWING: [&str; 4] = ["push", "extend_from_slice", "reserve", "resize"];
/// Enums of errors, to which a later version may add one.
const ERRORS: [&str; 2] = ["SetError", "ColumnError"];
/// Words that only the phrases above may have.
const LEFT: [&str; 6] = ["Drop", "Global", "Model", "alloc", "prove", "std"];

/// The tokens with each rule applied.
pub fn in_rust<'a>(tokens: &[Token<'a>]) -> Result<Vec<Token<'a>>, Wrong> {
    let tokens = applied(tokens, &[&chains])?;
    let tokens = applied(&tokens, &[&drops, &models, &errors, &allocators, &phrases, &clones])?;
    let tokens = applied(&tokens, &[&growing, &pushes, &slices, &shifts, &shuffles])?;
    match tokens.iter().find(|it| it.kind == Kind::Word && LEFT.contains(&it.text)) {
        Some(left) => Err(left.wrong(format!("no rule for '{}' here", left.text))),
        None => tokens.into_iter().map(example).collect(),
    }
}

/// An example in a comment is one of Rattle, which is not to be run as a test.
fn example(token: Token) -> Result<Token, Wrong> {
    let opened = token.kind == Kind::Comment && token.text.contains("```rust");
    match token.text {
        _ if !opened => Ok(token),
        "/// ```rust" => Ok(Token { text: "/// ```text", ..token }),
        "//! ```rust" => Ok(Token { text: "//! ```text", ..token }),
        _ => Err(token.wrong("no rule for an example here")),
    }
}

/// The tokens with the first of the rules that changes something, from each index on.
pub fn applied<'a>(tokens: &[Token<'a>], rules: &[Rule<'a, '_>]) -> Result<Vec<Token<'a>>, Wrong> {
    let mut made = Vec::with_capacity(tokens.len());
    let mut at = 0;
    while at < tokens.len() {
        match changed(tokens, at, rules)? {
            Some((new, next)) => {
                made.extend(new);
                at = next;
            }
            None => {
                made.push(tokens[at]);
                at += 1;
            }
        }
    }
    Ok(made)
}

/// What the first of the rules that is for the tokens from an index on puts in their place.
fn changed<'a>(tokens: &[Token<'a>], at: usize, rules: &[Rule<'a, '_>]) -> Change<'a> {
    if tokens[at].is_code() {
        for rule in rules {
            let change = rule(tokens, at)?;
            if change.is_some() {
                return Ok(change);
            }
        }
    }
    Ok(None)
}

fn phrases<'a>(tokens: &[Token<'a>], at: usize) -> Change<'a> {
    let found = PHRASES.iter().find_map(|(from, to)| phrase(tokens, at, from).map(|end| (*to, end)));
    Ok(found.map(|(to, end)| (vec![Token::made(to, tokens[at].line)], end)))
}

/// A condition and a pattern in one `if`, which Rust has from 1.88 on: an `if` inside another.
fn chains<'a>(tokens: &[Token<'a>], at: usize) -> Change<'a> {
    let Some(pattern) = phrase(tokens, at, "& & let") else {
        return Ok(None);
    };
    let other = || tokens[at].wrong("no rule for '&& let' other than one in an 'if' without 'else'");
    let first = tokens[..at].iter().rposition(is_end).map_or(0, |it| it + 1);
    let body = (at..tokens.len()).find(|it| is_end(&tokens[*it])).ok_or_else(other)?;
    let end = if tokens[body].is("{") { close(tokens, body) + 1 } else { return Err(other()) };
    let is_one = (pattern..end).all(|it| phrase(tokens, it, "& & let").is_none());
    if !is_one || !tokens[code_from(tokens, first)].is("if") || phrase(tokens, code_from(tokens, end), "else").is_some() {
        return Err(other());
    }
    let mut made = vec![Token::made("{ if let", tokens[at].line)];
    made.extend(&tokens[pattern..end]);
    made.push(Token::made(" }", tokens[end - 1].line));
    Ok(Some((made, end)))
}

/// What may be let go: anything in Rust.
fn drops<'a>(tokens: &[Token<'a>], at: usize) -> Change<'a> {
    if let Some(end) = phrase(tokens, at, "# [ derive ( Drop ) ]") {
        return Ok(Some((vec![], after_space(tokens, end))));
    }
    if let Some(end) = phrase(tokens, at, "derive ( Drop ,") {
        return Ok(Some((vec![Token::made("derive(", tokens[at].line)], after_space(tokens, end))));
    }
    let bound = phrase(tokens, at, ": Drop {")
        .filter(|_| tokens[..at].iter().rev().take_while(|it| !is_end(it)).any(|it| it.is("trait")));
    Ok(bound.map(|end| (vec![Token::made(" ", tokens[at].line)], end - 1)))
}

fn is_end(token: &Token) -> bool {
    token.is(";") || token.is("{") || token.is("}")
}

/// The implementation of a model, which has only ghosts.
fn models<'a>(tokens: &[Token<'a>], at: usize) -> Change<'a> {
    let Some(head) = phrase(tokens, at, "impl Model for $") else {
        return Ok(None);
    };
    match phrase(tokens, after_space(tokens, head), "{ }") {
        Some(end) => Ok(Some((vec![], end))),
        None => Err(tokens[at].wrong("no rule for a model with more than ghosts")),
    }
}

/// An enum of errors that users cannot match without an arm for others.
fn errors<'a>(tokens: &[Token<'a>], at: usize) -> Change<'a> {
    let named = phrase(tokens, at, "pub enum $").filter(|end| ERRORS.contains(&tokens[end - 1].text));
    Ok(named.map(|end| {
        let mut made = vec![Token::made("#[non_exhaustive]\n", tokens[at].line)];
        made.extend(&tokens[at..end]);
        (made, end)
    }))
}

/// A parameter for the allocator, of which Rust has one.
fn allocators<'a>(tokens: &[Token<'a>], at: usize) -> Change<'a> {
    if phrase(tokens, at, "alloc : Global )").is_some() {
        return Ok(phrase(tokens, at, "alloc : Global").map(|it| (vec![], it)));
    }
    let end = phrase(tokens, at, "alloc : Global ,");
    Ok(end.map(|it| (vec![], after_space(tokens, it))))
}

/// A clone that cannot fail.
fn clones<'a>(tokens: &[Token<'a>], at: usize) -> Change<'a> {
    if !tokens[at].is("fn") || phrase(tokens, at, "fn clone").is_none() {
        return Ok(None);
    }
    let other = || tokens[at].wrong("no rule for a clone of another form than 'Ok(VALUE)'");
    let opened = phrase(tokens, at, "fn clone ( & self ) - > Result < Self , AllocError > { Ok (");
    let open = opened.ok_or_else(other)? - 1;
    let end = close(tokens, open);
    let body = phrase(tokens, after_space(tokens, end + 1), "}").ok_or_else(other)?;
    let value = &tokens[open + 1..end];
    if value.iter().any(|it| it.is("?") || it.is("return")) {
        return Err(other());
    }
    let mut made = vec![Token::made("fn clone(&self) -> Self {\n        ", tokens[at].line)];
    made.extend(value);
    made.extend(&tokens[end + 1..body]);
    Ok(Some((made, body)))
}

fn is_called(tokens: &[Token], at: usize) -> bool {
    tokens[at].kind == Kind::Word && phrase(tokens, at, "$ (").is_some() && last_code(&tokens[..at]).is_some_and(|it| it.is("."))
}

fn growing<'a>(tokens: &[Token<'a>], at: usize) -> Change<'a> {
    let grows = GROWING.contains(&tokens[at].text) && is_called(tokens, at);
    Ok(grows.then(|| (vec![Token::made("try_", tokens[at].line), tokens[at]], at + 1)))
}

/// A push where there is room.
fn pushes<'a>(tokens: &[Token<'a>], at: usize) -> Change<'a> {
    let pushes = tokens[at].is("push_reserved") && is_called(tokens, at);
    Ok(pushes.then(|| (vec![Token::made("push", tokens[at].line)], at + 1)))
}

/// A part of a vector as a slice.
fn slices<'a>(tokens: &[Token<'a>], at: usize) -> Change<'a> {
    let Some(open) = phrase(tokens, at, "$ . slice_mut (") else {
        return Ok(None);
    };
    let (open, line) = (open - 1, tokens[at].line);
    let end = close(tokens, open);
    let before = last_code(&tokens[..at]).map_or("", |it| it.text);
    let after = tokens.get(after_space(tokens, end + 1)).map_or("", |it| it.text);
    if !matches!(before, "(" | "," | "=") || !matches!(after, ")" | "," | ";") {
        return Err(tokens[at].wrong("no rule for 'slice_mut' inside an expression"));
    }
    let mut made = vec![Token::made("&mut ", line), tokens[at], Token::made("[", line)];
    made.extend(&tokens[open + 1..end]);
    made.push(Token::made("]", line));
    Ok(Some((made, end + 1)))
}

/// Lanes that are shifted by as many vectors as lanes: `crate::simd` has one count for all.
fn shifts<'a>(tokens: &[Token<'a>], at: usize) -> Change<'a> {
    if !tokens[at].is("<") && !tokens[at].is(">") {
        return Ok(None);
    }
    for (vector, shift) in
        [("< < u32x4", "<< "), ("> > u32x4", ">> "), ("< < u32x8", "<< "), ("> > u32x8", ">> "), ("> > u8x16", ">> ")]
    {
        let Some(name) = phrase(tokens, at, &format!("{vector} : : splat (")) else {
            continue;
        };
        let end = phrase(tokens, name, "$ )").ok_or_else(|| tokens[at].wrong("no rule for a shift by more than a name"))?;
        return Ok(Some((vec![Token::made(shift, tokens[at].line), tokens[name]], end)));
    }
    Ok(None)
}

/// A shuffle gets the name of its lanes: one that `crate::simd` does not have does not compile.
fn shuffles<'a>(tokens: &[Token<'a>], at: usize) -> Change<'a> {
    let Some(generic) = phrase(tokens, at, "shuffle : : <").or(phrase(tokens, at, "swizzle : : <")) else {
        return Ok(None);
    };
    let other = || tokens[at].wrong("no rule for this form of a shuffle");
    let first = phrase(tokens, generic, "$ > (").ok_or_else(other)?;
    let (lanes, given) = match phrase(tokens, first, "$ , [") {
        Some(lanes) if tokens[at].is("shuffle") => (lanes, Some(tokens[first])),
        None if tokens[at].is("swizzle") => (phrase(tokens, first, "[").ok_or_else(other)?, None),
        _ => return Err(other()),
    };
    let end = close(tokens, lanes - 1);
    let after = phrase(tokens, end, "] )").ok_or_else(other)?;
    if !tokens[lanes..end].iter().all(|it| it.text.parse::<u8>().is_ok() || it.is(",") || it.kind == Kind::Space) {
        return Err(other());
    }
    let mut made = vec![tokens[at]];
    for lane in tokens[lanes..end].iter().filter(|it| it.kind == Kind::Word) {
        made.extend([Token::made("_", lane.line), *lane]);
    }
    made.push(Token::made("(", tokens[at].line));
    made.extend(given);
    made.push(Token::made(")", tokens[at].line));
    Ok(Some((made, after)))
}
