//! Indexes that are not tested, since they are proved to be within their slices: `values[i]` calls `crate::index`.

use std::path::Path;

use crate::Wrong;
use crate::paths::Module;
use crate::rules::{Change, applied};
use crate::tokens::{Kind, Token, after_space, close, code_from, last_code, phrase};

/// The files and folders, by module: those that are faster without the tests.
pub const FILES: [(&str, &[&str]); 8] = [
    ("register", &["arrays.rt", "word.rt"]),
    ("bitpacking", &["memory.rt"]),
    ("groups", &["group.rt", "groups.rt", "integers.rt", "numbers.rt", "widths.rt"]),
    ("slices", &["bitmap", "blocks.rt", "blocks", "body/mixing.rt", "chunk", "integers.rt", "listed.rt", "slice.rt", "slice"]),
    ("sets", &["array.rt", "chunks.rt", "directory.rt", "few.rt", "searching.rt", "sought.rt", "window.rt"]),
    ("queries", &["combining_all.rt", "folding.rt", "in_place.rt"]),
    ("columns", &["code.rt", "column", "encoding/bodies.rt", "encoding/measuring.rt", "entries.rt", "opening"]),
    ("wide", &["combining/merging.rt", "directory.rt", "encoding/order.rt", "encoding/words.rt", "spread.rt", "unpacking.rt"]),
];

/// Methods that write what they are called of. One that is not here and does so does not compile.
const WRITING: [&str; 4] = ["copy_from_slice", "copy_within", "fill", "iter_mut"];

/// Words after which a bracket begins an array, a type or a pattern.
const KEYWORDS: [&str; 11] = ["as", "else", "for", "if", "in", "let", "match", "mut", "ref", "return", "while"];

/// Whether a file of a module is among them.
pub fn names(module: Module, path: &Path) -> bool {
    FILES.iter().any(|it| it.0 == module.name && it.1.iter().any(|it| path.starts_with(it)))
}

/// The tokens with a call for each index of a variable, a field, or an item of them. Any other index, as of a call's result, is still tested.
pub fn in_calls<'a>(tokens: &[Token<'a>]) -> Result<Vec<Token<'a>>, Wrong> {
    applied(tokens, &[&integers, &indexes])
}

/// An integer of bytes that follow each other, `from_le_bytes([bytes[at], bytes[at + 1]])`, is loaded at once: the compiler may load it byte by byte.
fn integers<'a>(tokens: &[Token<'a>], at: usize) -> Change<'a> {
    let Some(list) = phrase(tokens, at, "from_le_bytes ( [").map(|end| end - 1) else {
        return Ok(None);
    };
    let Some(open) = phrase(tokens, after_space(tokens, list + 1), "$ [").map(|end| end - 1) else {
        return Ok(None);
    };
    let code = |part: &[Token]| part.iter().filter(|it| it.is_code()).map(|it| it.text).collect::<String>();
    let (name, index) = (tokens[open - 1], &tokens[open + 1..close(tokens, open)]);
    let (all, first) = (code(&tokens[list + 1..close(tokens, list)]), code(index));
    let follows = |(number, item): (usize, &str)| match (number, first.parse::<usize>()) {
        (_, Ok(first)) => item == format!("{}[{}]", name.text, first + number),
        (0, _) => item == format!("{}[{first}]", name.text),
        _ => item == format!("{}[{first}+{number}]", name.text),
    };
    if !all.trim_end_matches(',').split(',').enumerate().all(follows) {
        return Ok(None);
    }
    let mut made = vec![tokens[at], Token::made("(*unsafe { ", name.line), name, Token::made(".proved_items(", name.line)];
    made.extend(in_calls(index)?);
    made.push(Token::made(") })", name.line));
    Ok(Some((made, code_from(tokens, close(tokens, list) + 1) + 1)))
}

/// What follows a name.
#[derive(PartialEq, Eq)]
enum Of {
    /// `.len`
    Field,
    /// `[i]`
    Item,
    /// `(i)`, or `?`: what is after it is of a value that no name has.
    Call,
}

/// A name with its fields and items, and what is called of them: `self.rows[i].len()`, from its first token on.
fn indexes<'a>(tokens: &[Token<'a>], at: usize) -> Change<'a> {
    if tokens[at].kind != Kind::Word || is_later_name(&tokens[..at]) {
        return Ok(None);
    }
    if KEYWORDS.contains(&tokens[at].text) {
        let bracket = tokens.get(at + 1).filter(|it| it.is("["));
        return bracket.map_or(Ok(None), |it| Err(it.wrong(format!("no rule for '[' directly after '{}'", tokens[at].text))));
    }
    let parts = parts(tokens, at + 1);
    let of_name = parts.iter().position(|it| it.0 == Of::Call).unwrap_or(parts.len());
    let end = parts.last().map_or(at + 1, |it| it.2);
    let is_written = if of_name < parts.len() {
        of_name > 0 && last_code(&tokens[..parts[of_name].1]).is_some_and(|it| WRITING.contains(&it.text))
    } else {
        is_borrowed_to_write(tokens, at) || is_assigned(&tokens[end..])
    };
    let call = if is_written { ".proved_at_mut(" } else { ".proved_at(" };
    let mut made = vec![tokens[at]];
    for (number, (of, from, to)) in parts.iter().enumerate() {
        if *of == Of::Item && number < of_name {
            made.insert(0, Token::made("(*unsafe { ", tokens[at].line));
            made.push(Token::made(call, tokens[*from].line));
            made.extend(in_calls(&tokens[from + 1..to - 1])?);
            made.push(Token::made(") })", tokens[to - 1].line));
        } else {
            made.extend(in_calls(&tokens[*from..*to])?);
        }
    }
    Ok(Some((made, end)))
}

/// Whether a name after these tokens is a field or the later part of a path. After `..` it is not.
fn is_later_name(before: &[Token]) -> bool {
    let twice = |mark: &str| before.len() > 1 && before[before.len() - 2..].iter().all(|it| it.is(mark));
    last_code(before).is_some_and(|it| it.is(".") && !twice(".")) || twice(":")
}

/// What follows a name, each part with its tokens: from and to.
fn parts(tokens: &[Token], mut at: usize) -> Vec<(Of, usize, usize)> {
    let mut found = Vec::new();
    loop {
        let (of, end) = if let Some(end) = phrase(tokens, after_space(tokens, at), ". $") {
            (Of::Field, end)
        } else {
            match tokens.get(at).map_or("", |it| if it.kind == Kind::Mark { it.text } else { "" }) {
                "[" => (Of::Item, close(tokens, at) + 1),
                "(" => (Of::Call, close(tokens, at) + 1),
                "?" => (Of::Call, at + 1),
                _ => return found,
            }
        };
        found.push((of, at, end));
        at = end;
    }
}

/// Whether `&mut` is before a name.
fn is_borrowed_to_write(tokens: &[Token], at: usize) -> bool {
    (0..at).rev().take(4).any(|it| phrase(tokens, it, "& mut").is_some_and(|end| after_space(tokens, end) == at))
}

/// Whether the tokens begin with `=`, or an operator and `=`.
fn is_assigned(after: &[Token]) -> bool {
    let from = after_space(after, 0);
    let marks: String = after[from..].iter().take_while(|it| it.kind == Kind::Mark).map(|it| it.text).collect();
    let rest =
        ["<<", ">>", "+", "-", "*", "/", "%", "&", "|", "^"].iter().find_map(|it| marks.strip_prefix(it)).unwrap_or(&marks);
    rest.starts_with('=') && !rest.starts_with("==") && !rest.starts_with("=>")
}
