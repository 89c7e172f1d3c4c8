//! Indexes that are not tested.

use std::path::Path;

use super::module;
use crate::{in_rust, unchecked};

/// The body of a function whose indexes are not tested.
fn body(source: &str) -> String {
    let made = in_rust(&format!("fn one() {{\n    {source}\n}}\n"), module("register"), false);
    let made = made.unwrap_or_else(|it| panic!("{it}: {source}"));
    let made = made.strip_prefix("use crate::index::Proved;\n\n").unwrap_or(&made);
    let inside = made.strip_prefix("fn one() {\n    ").and_then(|it| it.strip_suffix("\n}\n"));
    inside.unwrap_or_else(|| panic!("{made}")).into()
}

/// Tests what becomes of a statement.
#[track_caller]
fn becomes(source: &str, made: &str) {
    assert_eq!(body(source), made, "{source}");
}

#[track_caller]
fn is_as_it_was(source: &str) {
    becomes(source, source);
}

#[test]
fn an_item_is_read() {
    becomes("let a = values[i];", "let a = (*unsafe { values.proved_at(i) });");
    becomes("two(&self.words[8 * i + 1]);", "two(&(*unsafe { self.words.proved_at(8 * i + 1) }));");
    becomes("if values[i] >> 16 <= a[0] {}", "if (*unsafe { values.proved_at(i) }) >> 16 <= (*unsafe { a.proved_at(0) }) {}");
    becomes(
        "a == values[i] && values[i] == a;",
        "a == (*unsafe { values.proved_at(i) }) && (*unsafe { values.proved_at(i) }) == a;",
    );
    becomes(
        "match values[i] { _ if values[0] => 1 }",
        "match (*unsafe { values.proved_at(i) }) { _ if (*unsafe { values.proved_at(0) }) => 1 }",
    );
    becomes("for i in 0..ends[0] {}", "for i in 0..(*unsafe { ends.proved_at(0) }) {}");
    becomes("let a = Some { at: values[i] };", "let a = Some { at: (*unsafe { values.proved_at(i) }) };");
}

#[test]
fn an_item_is_written() {
    becomes("values[i] = 1;", "(*unsafe { values.proved_at_mut(i) }) = 1;");
    for operator in ["+=", "-=", "*=", "/=", "%=", "|=", "&=", "^=", "<<=", ">>="] {
        becomes(&format!("values[i] {operator} 1;"), &format!("(*unsafe {{ values.proved_at_mut(i) }}) {operator} 1;"));
    }
    becomes("rows[i].len += 1;", "(*unsafe { rows.proved_at_mut(i) }).len += 1;");
    becomes(
        "two(&mut rows[i], &mut  self.rows[i].len);",
        "two(&mut (*unsafe { rows.proved_at_mut(i) }), &mut (*unsafe { self.rows.proved_at_mut(i) }).len);",
    );
    becomes("out[i] = out[i - 1] + 1;", "(*unsafe { out.proved_at_mut(i) }) = (*unsafe { out.proved_at(i - 1) }) + 1;");
}

#[test]
fn a_part() {
    becomes("two(&values[a..a + 4]);", "two(&(*unsafe { values.proved_at(a..a + 4) }));");
    becomes("two(&mut values[..4]);", "two(&mut (*unsafe { values.proved_at_mut(..4) }));");
    becomes(
        "values[a..].copy_from_slice(&rows[..4]);",
        "(*unsafe { values.proved_at_mut(a..) }).copy_from_slice(&(*unsafe { rows.proved_at(..4) }));",
    );
    becomes("&mut values[..4].len()", "&mut (*unsafe { values.proved_at(..4) }).len()");
    becomes(
        "values[..4]\n        .iter_mut()\n        .rev()",
        "(*unsafe { values.proved_at_mut(..4) })\n        .iter_mut()\n        .rev()",
    );
}

#[test]
fn an_index_in_an_index() {
    becomes(
        "a[b[i]] = c[d[i] + 1];",
        "(*unsafe { a.proved_at_mut((*unsafe { b.proved_at(i) })) }) = (*unsafe { c.proved_at((*unsafe { d.proved_at(i) }) + 1) });",
    );
    becomes("a[i][j] = 1;", "(*unsafe { (*unsafe { a.proved_at_mut(i) }).proved_at_mut(j) }) = 1;");
    becomes("&a[i].rows[j..]", "&(*unsafe { (*unsafe { a.proved_at(i) }).rows.proved_at(j..) })");
    becomes("two(a[i].len(b[i]));", "two((*unsafe { a.proved_at(i) }).len((*unsafe { b.proved_at(i) })));");
    becomes("a[two(&mut b[..4])]", "(*unsafe { a.proved_at(two(&mut (*unsafe { b.proved_at_mut(..4) }))) })");
}

#[test]
fn integers_of_bytes() {
    becomes("u16::from_le_bytes([a[0], a[1]])", "u16::from_le_bytes(*unsafe { a.proved_items(0) })");
    becomes(
        "u32::from_le_bytes([\n    a[b[i]],\n    a[b[i] + 1],\n    a[b[i] + 2],\n    a[b[i] + 3],\n])",
        "u32::from_le_bytes(*unsafe { a.proved_items((*unsafe { b.proved_at(i) })) })",
    );
    // Other bytes.
    is_as_it_was("u16::from_le_bytes([0, 1]) + u16::from_le_bytes(a)");
    for [first, second] in [["a[1]", "a[0]"], ["a[0]", "b[1]"], ["a[i]", "a[i + 2]"], ["a[i]", "a[i]"], ["a[0]", "1"]] {
        let made = body(&format!("u16::from_le_bytes([{first}, {second}])"));
        assert!(made.contains(".proved_at(") && !made.contains("proved_items"), "{made}");
    }
}

#[test]
fn what_has_no_name_is_tested() {
    is_as_it_was("rows()[i] + a.rows()[j] + a?[i] + (a)[i] + (a).b[i];");
    is_as_it_was("two::<[u32; 4]>()[i] + self::a::ROWS[i] + super::ROWS[i];");
    becomes("rows(a[i])[i]", "rows((*unsafe { a.proved_at(i) }))[i]");
    becomes("(a[i])[j]", "((*unsafe { a.proved_at(i) }))[j]");
}

#[test]
fn other_brackets() {
    is_as_it_was("let [a, b]: [u32; 2] = [0; 2];");
    is_as_it_was("let a: &mut [[u8; 4]] = &mut [[1; 4]];");
    is_as_it_was("for a in [1, 2] { return [a] }");
    is_as_it_was("two(\"a[i]\", 'a', b'['); // a[i]\n    1.5 + a.0 + 1 .. 2");
    let source = "#[inline(always)]\nfn one<'a>(a: &'a [u32], b: [u8; 4]) -> &'a mut [u32] {}\n";
    assert_eq!(in_rust(source, module("register"), false), Ok(source.into()));
}

#[test]
fn a_bracket_after_a_keyword_is_refused() {
    for word in ["as", "else", "for", "if", "in", "let", "match", "mut", "ref", "return", "while"] {
        let found = in_rust(&format!("fn one() {{\n    two({word}[i]);\n}}\n"), module("register"), false);
        assert!(found.as_ref().is_err_and(|it| it.line == 2 && it.what.contains("directly after")), "{word}: {found:?}");
    }
}

/// How many calls of an unchecked index the sources of a file or a folder get.
fn calls_in(path: &Path) -> usize {
    if path.is_dir() {
        return std::fs::read_dir(path).unwrap().map(|it| calls_in(&it.unwrap().path())).sum();
    }
    let source = std::fs::read_to_string(path).unwrap_or_else(|it| panic!("{}: {it}", path.display()));
    in_rust(&source, module("register"), false).unwrap().matches(".proved_").count()
}

#[test]
fn each_named_file_has_an_index() {
    let crates = Path::new(env!("CARGO_MANIFEST_DIR")).join("../../../crates");
    for (name, paths) in unchecked::FILES {
        for path in paths {
            let path = crates.join(module(name).of).join("src").join(path);
            assert!(calls_in(&path) > 0, "{}", path.display());
        }
    }
}

#[test]
fn only_named_files() {
    assert!(unchecked::names(module("bitpacking"), Path::new("memory.rt")));
    assert!(unchecked::names(module("columns"), Path::new("column/getting.rt")));
    assert!(!unchecked::names(module("columns"), Path::new("column.rt")));
    assert!(!unchecked::names(module("bitpacking"), Path::new("kinds.rt")));
    assert!(!unchecked::names(module("lists"), Path::new("memory.rt")));
    let source = "fn one(a: &[u32]) -> u32 {\n    a[0]\n}\n";
    assert_eq!(in_rust(source, module("bitpacking"), true), Ok(source.into()));
}
