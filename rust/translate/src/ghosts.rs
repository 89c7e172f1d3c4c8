//! Drops what only the proofs read: clauses, ghost items and tactics.

use crate::Wrong;
use crate::tokens::{Kind, Token, after_space, close, code_from, last_code, phrase};

/// The tokens without clauses, ghost items and tactics.
pub fn without_ghosts<'a>(tokens: &[Token<'a>]) -> Result<Vec<Token<'a>>, Wrong> {
    let mut kept = Vec::with_capacity(tokens.len());
    let mut at = 0;
    while at < tokens.len() {
        let token = tokens[at];
        if let Some(open) = clause(tokens, at)? {
            drop_spaces(&mut kept);
            at = after_clause(tokens, at, open, &mut kept)?;
        } else if token.is("ghost") {
            drop_head(&mut kept, token)?;
            at = after_ghost(tokens, at)?;
        } else if let Some(end) = after_tactic(tokens, at) {
            drop_spaces(&mut kept);
            at = end;
        } else {
            kept.push(token);
            at += 1;
        }
    }
    Ok(kept)
}

/// The index of the block of the clause that begins at an index: a word, perhaps a name, and a block; or a ghost parameter.
fn clause(tokens: &[Token], at: usize) -> Result<Option<usize>, Wrong> {
    let token = tokens[at];
    if token.is("ghost") {
        let open = phrase(tokens, at, "ghost $ : {").map(|it| it - 1);
        return Ok(open.filter(|it| matches!(after_block(tokens, *it), "requires" | "ensures" | "ghost" | "{")));
    }
    if !token.is("requires") && !token.is("ensures") {
        return Ok(None);
    }
    let opened = phrase(tokens, at, "$ {").or(phrase(tokens, at, "$ $ {"));
    opened.map(|it| Some(it - 1)).ok_or_else(|| token.wrong(format!("no block after '{}'", token.text)))
}

/// The code after the block that is opened at an index.
fn after_block<'a>(tokens: &[Token<'a>], open: usize) -> &'a str {
    tokens.get(code_from(tokens, close(tokens, open) + 1)).map_or("", |it| it.text)
}

/// The index after a clause. What follows is another one, or a body or a semicolon, which moves up to what the clauses followed.
fn after_clause<'a>(tokens: &[Token<'a>], at: usize, open: usize, kept: &mut Vec<Token<'a>>) -> Result<usize, Wrong> {
    let end = close(tokens, open) + 1;
    match after_block(tokens, open) {
        "requires" | "ensures" | "ghost" => Ok(end),
        "{" | ";" => Ok(joined(tokens, end, code_from(tokens, end), kept)),
        other => Err(tokens[at].wrong(format!("no rule for a clause before '{other}'"))),
    }
}

/// The index from which the tokens after the last clause are kept.
fn joined<'a>(tokens: &[Token<'a>], end: usize, next: usize, kept: &mut Vec<Token<'a>>) -> usize {
    let comments = kept.last().is_some_and(|it| it.kind == Kind::Comment) || after_space(tokens, end) < next;
    if comments {
        return end;
    }
    if tokens[next].is("{") {
        kept.push(Token::made(" ", tokens[next].line));
    }
    next
}

/// The index after a ghost item: `ghost use`, or a name with its type or its value, perhaps with a proof.
fn after_ghost(tokens: &[Token], at: usize) -> Result<usize, Wrong> {
    if let Some(path) = phrase(tokens, at, "ghost use") {
        return semicolon(tokens, path).ok_or_else(|| tokens[at].wrong("'ghost use' without a semicolon"));
    }
    let opened = phrase(tokens, at, "ghost $ : {").or(phrase(tokens, at, "ghost $ = {"));
    let open = opened.ok_or_else(|| tokens[at].wrong("no rule for this form of 'ghost'"))? - 1;
    let mut end = after_space(tokens, close(tokens, open) + 1);
    if let Some(proof) = phrase(tokens, end, "by {") {
        end = after_space(tokens, close(tokens, proof - 1) + 1);
    }
    match tokens.get(end) {
        Some(it) if it.is(";") || it.is(",") => Ok(end + 1),
        _ => Err(tokens[at].wrong("neither a comma nor a semicolon after this ghost item")),
    }
}

/// The index after the next semicolon outside brackets, if a path is before it.
fn semicolon(tokens: &[Token], from: usize) -> Option<usize> {
    let mut at = from;
    loop {
        let token = tokens.get(at)?;
        match token.text {
            ";" => return Some(at + 1),
            "{" => at = close(tokens, at) + 1,
            "}" | "fn" | "use" | "ghost" => return None,
            _ => at += 1,
        }
    }
}

fn after_tactic(tokens: &[Token], at: usize) -> Option<usize> {
    let inner = phrase(tokens, at, "# [ tactic (").or(phrase(tokens, at, "# ! [ tactic ("))?;
    phrase(tokens, close(tokens, inner - 1), ") ]")
}

fn drop_spaces(kept: &mut Vec<Token>) -> usize {
    let code = kept.iter().rposition(|it| it.kind != Kind::Space).map_or(0, |it| it + 1);
    kept.drain(code..).map(|it| it.text.matches('\n').count()).sum()
}

/// Drops what belongs to a ghost item and is before it: who sees it, and the comment directly above.
fn drop_head(kept: &mut Vec<Token>, ghost: Token) -> Result<(), Wrong> {
    let mut lines = drop_spaces(kept);
    for visible in ["pub", "pub ( crate )", "pub ( super )"] {
        let parts = visible.split(' ').count();
        if kept.len() >= parts && phrase(kept, kept.len() - parts, visible).is_some() {
            kept.truncate(kept.len() - parts);
            lines = drop_spaces(kept);
        }
    }
    if last_code(kept).is_some_and(|it| it.is("]")) {
        return Err(ghost.wrong("no rule for an attribute of a ghost item"));
    }
    while lines == 1 && is_own_comment(kept) {
        kept.pop();
        lines = drop_spaces(kept);
    }
    Ok(())
}

/// Whether the last token is a comment alone on its line, and not that of the file.
fn is_own_comment(kept: &[Token]) -> bool {
    match kept {
        [.., before, comment] => {
            let alone = before.kind == Kind::Space && before.text.contains('\n');
            comment.kind == Kind::Comment && !comment.text.starts_with("//!") && alone
        }
        _ => false,
    }
}
