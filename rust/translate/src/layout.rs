//! The text of a file: what it uses beside its own imports, and its empty lines.

use crate::tokens::{Kind, Token};

/// A text that grows, and the spaces after it, which are not yet in it.
#[derive(Default)]
struct Layout {
    text: String,
    spaces: String,
    after_comment: bool,
}

/// The text of the tokens.
pub fn text(tokens: &[Token]) -> String {
    let tokens: Vec<Token> = tokens.iter().copied().filter(|it| !it.text.is_empty()).collect();
    let head = tokens.iter().take_while(|it| it.kind == Kind::Space || it.text.starts_with("//!")).count();
    let mut made = Layout::default();
    for (at, token) in tokens.iter().enumerate() {
        if at == head {
            made.import(&tokens);
        }
        made.add(token);
    }
    made.text + "\n"
}

impl Layout {
    fn add(&mut self, token: &Token) {
        if token.kind == Kind::Space {
            self.spaces += token.text;
            return;
        }
        self.put_spaces(token.text.starts_with('}'));
        self.text += token.text;
        self.after_comment = token.kind == Kind::Comment;
    }

    /// Puts the spaces before what comes next: at most one empty line, and none at the beginning or the end of a block.
    fn put_spaces(&mut self, ends: bool) {
        let spaces = std::mem::take(&mut self.spaces);
        let lines = spaces.matches('\n').count().max(usize::from(self.after_comment));
        let most = if ends || self.text.ends_with('{') { 1 } else { 2 };
        if self.text.is_empty() {
            return;
        }
        if lines > 0 {
            self.text += &"\n\n"[..lines.min(most)];
            self.text += spaces.rsplit('\n').next().unwrap_or("");
        } else if !spaces.is_empty() {
            self.text += " ";
        }
    }

    /// Puts the imports that Rattle does not need, before the first item.
    fn import(&mut self, tokens: &[Token]) {
        let first = tokens.iter().filter(|it| it.is_code()).find(|it| !it.is("pub")).map_or("", |it| it.text);
        let vectors = tokens.iter().any(|it| it.is("Vec") || it.kind == Kind::Made && it.text.starts_with("Vec::"));
        let grows = tokens.windows(2).any(|it| it[0].kind == Kind::Made && it[0].text == "try_" && !it[1].is("reserve"));
        let indexes = tokens.iter().any(|it| it.kind == Kind::Made && it.text.starts_with(".proved_"));
        let imports =
            [(vectors, "use alloc::vec::Vec;"), (grows, "use crate::growing::Growing;"), (indexes, "use crate::index::Proved;")];
        for (_, name) in imports.iter().filter(|it| it.0) {
            self.add(&Token::made(name, 0));
            self.spaces += "\n";
        }
        if (vectors || grows || indexes) && !first.starts_with("use") {
            self.spaces += "\n";
        }
    }
}
