//! Clauses go, and what they could hide stays.

use super::{becomes, refused, rust};

const BODY: &str = "fn last(values: &[u8]) -> u8 {\n    values[values.len() - 1]\n}\n";

/// The function with clauses between its head and its body.
fn with(clauses: &str) -> String {
    BODY.replace(" {\n", &format!("\n{clauses}{{\n"))
}

#[test]
fn a_function_keeps_its_body() {
    becomes(&with("    requires { 1 ≤ length values.now }\n"), BODY);
    becomes(
        &with("    requires some { 1 ≤ length values.now }\n    ensures { result ≡ 0 }\n    ensures few { result ≤ 8 }\n"),
        BODY,
    );
    becomes(&with("    requires { 1 ≤ 2 } "), BODY);
    becomes(&with("    ghost count: { ℕ }\n    requires { count ≡ 1 }\n"), BODY);
    becomes(&with("    ensures over {\n        (k : ℕ) → k < 3\n            → { k }\n    }\n"), BODY);
}

#[test]
fn the_text_of_a_clause_hides_no_body() {
    for text in [
        "\"}\"",
        "\"{\"",
        "\"\\\"}\"",
        "'{'",
        "'}'",
        "'\\''",
        "b'}'",
        "// }\n",
        "// { \" '\n",
        "{ { } {} }",
        "{ \"}\" // {\n }",
        "'\\u{7b}'",
    ] {
        becomes(&with(&format!("    requires {{ {text} }}\n    ensures small {{ {text} }}\n")), BODY);
    }
    let two = format!("{}\n{}", with("    requires { '{' }\n"), with("    ensures { \"}\" }\n"));
    becomes(&two, &format!("{BODY}\n{BODY}"));
}

#[test]
fn a_body_is_no_clause() {
    refused(&with("    requires\n"), 2, "a clause before ''");
    refused(&with("    requires few\n"), 2, "a clause before ''");
    refused(&with("    requires { 1 ≤ 2 }\n    ensures few\n"), 3, "a clause before ''");
    refused("trait Some {\n    fn one()\n        requires few\n    { 1 }\n\n    fn other();\n}\n", 3, "a clause before 'fn'");
    refused("impl Some {\n    fn one()\n        requires few\n    { 1 }\n}\n", 3, "a clause before '}'");
    refused("fn last()\n    requires { 1 ≤ 2 }\n\nfn next() {}\n", 2, "a clause before 'fn'");
}

#[test]
fn a_clause_has_one_form() {
    refused(&with("    requires 1 ≤ 2\n"), 2, "no block after 'requires'");
    refused(&with("    ensures* { 1 ≤ 2 }\n"), 2, "no block after 'ensures'");
    refused(&with("    requires few: { 1 ≤ 2 }\n"), 2, "no block after 'requires'");
    refused(&with("    requires { 1 ≤ 2 } by { refl }\n"), 2, "a clause before 'by'");
    refused(&with("    decreases { 1 }\n"), 2, "decreases");
    refused("fn some() {\n    while true\n        invariant { 1 }\n    {}\n}\n", 3, "invariant");
}

#[test]
fn a_method_without_a_body_keeps_its_semicolon() {
    let source =
        "trait Some {\n    /// One.\n    fn one()\n        requires { 1 ≤ 2 }\n        ensures { 1 ≤ 2 };\n\n    fn two();\n}\n";
    becomes(source, "trait Some {\n    /// One.\n    fn one();\n\n    fn two();\n}\n");
}

#[test]
fn comments_stay_and_hide_nothing() {
    let source = with("    // It is not empty.\n    requires { 1 ≤ 2 }\n    // It is small.\n    ensures { 1 ≤ 2 }\n");
    let made = BODY.replace(" {\n", "\n    // It is not empty.\n    // It is small.\n{\n");
    becomes(&source, &made);
    becomes(
        "trait Some {\n    fn one()\n        // One.\n        ensures { 1 ≤ 2 };\n}\n",
        "trait Some {\n    fn one()\n        // One.\n;\n}\n",
    );
    assert!(
        rust("fn one() {\n    // requires { 1 }\n    two(\"ensures { 2 }\");\n}\n")
            .contains("// requires { 1 }\n    two(\"ensures { 2 }\");")
    );
}

#[test]
fn a_loop_and_a_closure_keep_their_bodies() {
    becomes(
        "fn one() {\n    'rows: for i in 0..8 {\n        two(i);\n    }\n}\n",
        "fn one() {\n    'rows: for i in 0..8 {\n        two(i);\n    }\n}\n",
    );
    becomes(
        "fn one() {\n    let f = |x: u8| -> u8 requires { x < 8 } { x };\n}\n",
        "fn one() {\n    let f = |x: u8| -> u8 { x };\n}\n",
    );
}
