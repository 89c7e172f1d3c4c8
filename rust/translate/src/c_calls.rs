//! The slices of functions for C become pointers and lengths.

use crate::Wrong;
use crate::rules::Change;
use crate::tokens::{Kind, Token, after_space, close, phrase};

/// A parameter that is a slice.
struct Slice<'a> {
    name: &'a str,
    lifetime: Option<&'a str>,
    is_mutable: bool,
    /// What it has.
    item: Vec<Token<'a>>,
    line: usize,
}

/// A function for C, from `extern` to the beginning of its body.
pub fn calls<'a>(tokens: &[Token<'a>], at: usize) -> Change<'a> {
    let Some(named) = phrase(tokens, at, "extern \"C\" fn $") else {
        return Ok(None);
    };
    let open = parameters(tokens, named)?;
    let end = close(tokens, open);
    let (given, slices) = by_pointers(&tokens[open + 1..end]);
    if slices.is_empty() {
        return Ok(None);
    }
    let body = tokens[end..].iter().position(|it| it.is("{") || it.is(";")).map_or(end, |it| end + it);
    if !tokens[body].is("{") {
        return Err(tokens[at].wrong("no rule for a function for C without a body"));
    }
    let mut made = vec![Token::made("unsafe ", tokens[at].line)];
    made.extend(&tokens[at..=open]);
    made.extend(given);
    made.extend(&tokens[end..=body]);
    slices.iter().for_each(|it| it.bind(&mut made));
    Ok(Some((made, body + 1)))
}

/// The index of the parenthesis that opens the parameters, after those of types.
fn parameters(tokens: &[Token], named: usize) -> Result<usize, Wrong> {
    let mut depth = 0;
    for (at, token) in tokens.iter().enumerate().skip(named).filter(|it| it.1.is_code()) {
        match token.text {
            "<" => depth += 1,
            ">" => depth -= 1,
            "(" if depth == 0 => return Ok(at),
            _ if depth == 0 => break,
            _ => {}
        }
    }
    Err(tokens[named].wrong("no rule for the head of this function for C"))
}

/// Parameters with a pointer and a length for each slice, and those slices.
fn by_pointers<'a>(given: &[Token<'a>]) -> (Vec<Token<'a>>, Vec<Slice<'a>>) {
    let (mut made, mut slices) = (Vec::new(), Vec::new());
    let mut at = 0;
    while at < given.len() {
        match slice(given, at) {
            Some((slice, end)) => {
                slice.declare(&mut made);
                slices.push(slice);
                at = end;
            }
            None => {
                made.push(given[at]);
                at += 1;
            }
        }
    }
    (made, slices)
}

/// The slice that begins at an index, and the index after it.
fn slice<'a>(given: &[Token<'a>], at: usize) -> Option<(Slice<'a>, usize)> {
    let (name, line) = (given[at].text, given[at].line);
    let mut next = after_space(given, phrase(given, at, "$ : &")?);
    let lifetime = given.get(next).filter(|it| it.kind == Kind::Lifetime).map(|it| it.text);
    next = after_space(given, next + lifetime.map_or(0, |_| 1));
    let is_mutable = given.get(next)?.is("mut");
    next = after_space(given, next + usize::from(is_mutable));
    if !given.get(next)?.is("[") {
        return None;
    }
    let end = close(given, next);
    let item = given[next + 1..end].to_vec();
    Some((Slice { name, lifetime, is_mutable, item, line }, end + 1))
}

impl<'a> Slice<'a> {
    fn put(&self, made: &mut Vec<Token<'a>>, texts: &[&'a str]) {
        made.extend(texts.iter().map(|it| Token::made(it, self.line)));
    }

    /// `values: *const u32, values_len: usize`
    fn declare(&self, made: &mut Vec<Token<'a>>) {
        self.put(made, &[self.name, if self.is_mutable { ": *mut " } else { ": *const " }]);
        made.extend(&self.item);
        self.put(made, &[", ", self.name, "_len: usize"]);
    }

    /// `let values: &[u32] = unsafe { crate::c_slices::slice(values, values_len) };`
    fn bind(&self, made: &mut Vec<Token<'a>>) {
        self.put(made, &["\n    let ", self.name, ": &"]);
        self.put(made, &self.lifetime.map_or(vec![], |it| vec![it, " "]));
        self.put(made, if self.is_mutable { &["mut ["] } else { &["["] });
        made.extend(&self.item);
        let call = if self.is_mutable { "slice_mut(" } else { "slice(" };
        self.put(made, &["] = unsafe { crate::c_slices::", call, self.name, ", ", self.name, "_len) };"]);
    }
}
