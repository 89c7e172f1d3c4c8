//! The two copies of a file: the functions of the second one have the features of its level, and some of the first one call it.
//!
//! Rust gives features to a free function or an inherent method, which is `unsafe` then, and to no function of a trait. Such a one is always inlined,
//! into functions with the features, or has a function with them inside.

use std::fmt::Write;

use crate::Wrong;
use crate::levels::{CALLED, COPIED, CROSSING, ENTRIES, Entries, FEATURES, MANY, OF_MANY, SHARED};
use crate::tokens::{Kind, Token, close, code_from, phrase, tokens};

/// A file of the first copy. Its functions that are entries call the second one.
pub fn first(text: &str, module: &str, file: &str) -> Result<String, Wrong> {
    let tokens = tokens(text)?;
    let mut changes = crossing(&tokens, module, file)?;
    let functions = functions(&tokens);
    for entries in ENTRIES.iter().filter(|it| it.file == (module, file)) {
        for name in entries.functions {
            let function = functions.iter().find(|it| it.name == *name);
            let function = function.ok_or_else(|| Wrong::at(0, format!("no function '{name}' to go over to the second copy")))?;
            changes.push((function.body + 1, 0, over(&tokens, function, entries)));
        }
    }
    if SHARED.iter().any(|it| it.0 == (module, file)) {
        changes.extend((0..tokens.len()).filter_map(|at| seen_by_both(&tokens, at)));
    }
    Ok(changed(&tokens, changes))
}

/// A file of the second copy.
pub fn second(text: &str, module: &str, file: &str) -> Result<String, Wrong> {
    let shared: Vec<&str> = SHARED.iter().filter(|it| it.0 == (module, file)).map(|it| it.1).collect();
    if let [name] = shared[..] {
        return Ok(format!("pub use crate::{module}::{name};\n"));
    }
    let tokens = tokens(text)?;
    let mut changes = crossing(&tokens, module, file)?;
    for function in functions(&tokens) {
        let end = close(&tokens, function.body);
        let is_called = CALLED.contains(&((module, file), function.name));
        let is_method = tokens[function.given..end].iter().any(|it| it.is("self") || it.is("Self"));
        if function.of_trait && !function.is_always_inlined && !is_method {
            apart(&tokens, &function, &mut changes);
            continue;
        }
        if !function.of_trait && (!function.is_always_inlined || is_called) {
            changes.push((function.from, 0, format!("#[target_feature(enable = \"{FEATURES}\")]\n")));
            if is_called {
                let inlined =
                    (function.from..function.keyword).find(|it| phrase(&tokens, *it, "# [ inline ( always ) ]").is_some());
                let inlined = inlined.ok_or_else(|| tokens[function.keyword].wrong("it is not always inlined"))?;
                changes.push((inlined, close(&tokens, inlined + 1) + 1 - inlined, "#[inline]".into()));
            }
            changes.push((function.keyword, 0, "unsafe ".into()));
        }
        changes.push((function.body + 1, 0, " unsafe {".into()));
        changes.push((end, 0, "} ".into()));
    }
    changes.extend((0..tokens.len()).filter_map(|at| moved(&tokens, at)));
    Ok(changed(&tokens, changes))
}

/// Tokens that are left out at an index, and what is put there.
type Change = (usize, usize, String);

/// Returns the text of the tokens with the changes made. Changes at one index are made in turn; a change inside tokens that are left out is skipped.
fn changed(tokens: &[Token], mut changes: Vec<Change>) -> String {
    changes.sort_by_key(|it| it.0);
    let (mut text, mut left_out) = (String::new(), 0);
    let mut changes = changes.into_iter().peekable();
    for (at, token) in tokens.iter().enumerate() {
        let is_left_out = at < left_out;
        while let Some((_, count, made)) = changes.next_if(|it| it.0 == at) {
            if !is_left_out {
                text += &made;
                left_out = left_out.max(at + count);
            }
        }
        if at >= left_out {
            text += token.text;
        }
    }
    text
}

/// The layout of C for the types of a file that cross.
fn crossing(tokens: &[Token], module: &str, file: &str) -> Result<Vec<Change>, Wrong> {
    let types = CROSSING.iter().filter(|it| it.0 == (module, file)).map(|it| it.1);
    let declared = |name: &str| {
        let at = |keyword: &str| {
            let phrase = |at: &usize| phrase(tokens, *at, &format!("{keyword} {name}")).is_some();
            (0..tokens.len()).find(phrase)
        };
        let found = at("struct").map(|at| (at, "C")).or(at("enum").map(|at| (at, "u8")));
        let (at, layout) = found.ok_or_else(|| Wrong::at(0, format!("no type '{name}' to cross")))?;
        Ok((item_start(tokens, at), 0, format!("#[repr({layout})]\n")))
    };
    types.map(declared).collect()
}

/// What a module shows to itself alone, for both copies of it.
fn seen_by_both(tokens: &[Token], at: usize) -> Option<Change> {
    let end = phrase(tokens, at, "pub ( in crate : : $ )").or(phrase(tokens, at, "pub ( super )"));
    end.map(|end| (at, end - at, "pub(crate)".into()))
}

/// A path into a module that has a second copy, and what the first copy has to see of the second.
fn moved(tokens: &[Token], at: usize) -> Option<Change> {
    if let Some(change) = seen_by_both(tokens, at) {
        return Some(change);
    }
    if tokens[at].is("mod") && phrase(tokens, at, "mod $ ;").is_some() && item_start(tokens, at) == at {
        return Some((at, 0, "pub(crate) ".into()));
    }
    let end = phrase(tokens, at, "crate : : $")?;
    let name = tokens[end - 1].text;
    let path = if name == "simd" { "crate::simd::v3".into() } else { format!("crate::v3::{name}") };
    (name == "simd" || COPIED.contains(&name)).then_some((at, end - at, path))
}

/// A function with a body: where its item begins, where `fn` and its parameters and its body begin, and what is known of it.
struct Function<'a> {
    name: &'a str,
    from: usize,
    keyword: usize,
    given: usize,
    body: usize,
    of_trait: bool,
    is_always_inlined: bool,
    is_never_inlined: bool,
}

/// The functions of a file, in order. None is in another.
fn functions<'a>(tokens: &[Token<'a>]) -> Vec<Function<'a>> {
    let traits: Vec<(usize, usize)> = (0..tokens.len()).filter_map(|at| of_trait(tokens, at)).collect();
    let mut found: Vec<Function> = Vec::new();
    for keyword in (0..tokens.len()).filter(|it| phrase(tokens, *it, "fn $").is_some()) {
        let name = tokens[code_from(tokens, keyword + 1)].text;
        let given = (keyword..tokens.len()).find(|it| tokens[*it].is("(")).unwrap_or(keyword);
        let body = body_after(tokens, close(tokens, given));
        if !tokens[body].is("{") {
            continue;
        }
        let from = item_start(tokens, keyword);
        let has = |word: &str| tokens[from..keyword].windows(3).any(|it| it[0].is("inline") && it[2].is(word));
        let of_trait = traits.iter().any(|it| it.0 < keyword && keyword < it.1);
        let (is_always_inlined, is_never_inlined) = (has("always"), has("never") && !has("always"));
        found.push(Function { name, from, keyword, given, body, of_trait, is_always_inlined, is_never_inlined });
    }
    found
}

/// The first `{` or `;` from an index on that is in no brackets.
fn body_after(tokens: &[Token], mut at: usize) -> usize {
    while !tokens[at].is("{") && !tokens[at].is(";") {
        at = if tokens[at].is("[") || tokens[at].is("(") { close(tokens, at) + 1 } else { at + 1 };
    }
    at
}

/// Where the body of a trait, or of an impl of one, begins and ends.
fn of_trait(tokens: &[Token], at: usize) -> Option<(usize, usize)> {
    if !tokens[at].is("impl") && !tokens[at].is("trait") {
        return None;
    }
    let open = (at..tokens.len()).find(|it| tokens[*it].is("{"))?;
    let is_of_trait = tokens[at].is("trait") || tokens[at..open].iter().any(|it| it.is("for"));
    is_of_trait.then(|| (open, close(tokens, open)))
}

/// Where the item of a keyword begins: at its attributes, or its visibility.
fn item_start(tokens: &[Token], keyword: usize) -> usize {
    let before = tokens[..keyword].iter().rposition(|it| it.is(";") || it.is("{") || it.is("}"));
    code_from(tokens, before.map_or(0, |it| it + 1))
}

/// A function of a trait that may be compiled by itself calls one with the features, which has its body and is inside it.
fn apart(tokens: &[Token], function: &Function, changes: &mut Vec<Change>) {
    let Function { name, from, keyword, given, body, is_never_inlined, .. } = *function;
    let head: String = tokens[keyword..body].iter().map(|it| it.text).collect();
    let head = head.replacen(name, "apart", 1);
    let (types, names) = (types(tokens, function), names(tokens, given).join(", "));
    if is_never_inlined {
        changes.push((from, close(tokens, from + 1) + 1 - from, "#[inline(always)]".into()));
    } else {
        changes.push((from, 0, "#[inline(always)]\n".into()));
    }
    let never = if is_never_inlined { "#[inline(never)]\n" } else { "" };
    changes.push((body + 1, 0, format!("\n{never}#[target_feature(enable = \"{FEATURES}\")]\nunsafe {head}{{ unsafe {{")));
    changes.push((close(tokens, body), 0, format!("}} }}\nunsafe {{ apart{types}({names}) }}\n")));
}

/// The call from a function of the first copy into the second one.
fn over(tokens: &[Token], function: &Function, Entries { file, of, .. }: &Entries) -> String {
    let (types, name, module) = (types(tokens, function), function.name, file.0);
    let many = OF_MANY.iter().find(|it| (it.0, it.1) == (*file, name));
    let many = many.map(|it| format!("{}.len() >= {MANY} && ", it.2)).unwrap_or_default();
    let names: Vec<String> = names(tokens, function.given).iter().map(|it| format!("cross({it})")).collect();
    let mut text = format!("\n#[cfg(level_v3)]\nif {many}crate::level::is_v3() {{\nuse crate::level::cross;\n");
    if module == "bitpacking" {
        text += "use crate::v3::bitpacking::{Counted as _, Unmeasured as _};\n";
    }
    let names = names.join(", ");
    writeln!(text, "return cross(unsafe {{ crate::v3::{module}::{of}::{name}{types}({names}) }});\n}}")
        .expect("a string has room");
    text
}

/// `::<A, B>`, the types of a function.
fn types(tokens: &[Token], function: &Function) -> String {
    let name = code_from(tokens, function.keyword + 1);
    if !tokens[name + 1].is("<") {
        return String::new();
    }
    let names: Vec<&str> = parts(&tokens[name + 2..]).iter().filter_map(|it| first_word(it)).collect();
    if names.is_empty() { String::new() } else { format!("::<{}>", names.join(", ")) }
}

/// The names of the parameters.
fn names<'a>(tokens: &[Token<'a>], given: usize) -> Vec<&'a str> {
    parts(&tokens[given + 1..]).iter().filter_map(|it| first_word(it)).collect()
}

/// The name of a parameter or a type, which a lifetime is not.
fn first_word<'a>(part: &[Token<'a>]) -> Option<&'a str> {
    let is_lifetime = part.iter().find(|it| it.is_code()).is_some_and(|it| it.kind == Kind::Lifetime);
    let word = part.iter().find(|it| it.kind == Kind::Word && !matches!(it.text, "mut" | "const"));
    word.filter(|_| !is_lifetime).map(|it| it.text)
}

/// What is between commas, up to the bracket that closes all of it.
fn parts<'a, 't>(tokens: &'t [Token<'a>]) -> Vec<&'t [Token<'a>]> {
    let (mut found, mut from, mut depth) = (Vec::new(), 0, 0);
    for (at, token) in tokens.iter().enumerate() {
        let closes = token.is(")") || token.is("]") || token.is(">") && !tokens[at.saturating_sub(1)].is("-");
        if depth == 0 && (closes || token.is(",")) {
            found.push(&tokens[from..at]);
            from = at + 1;
        }
        match closes {
            true if depth == 0 => return found,
            true => depth -= 1,
            false => depth += usize::from(token.is("<") || token.is("(") || token.is("[")),
        }
    }
    found
}
