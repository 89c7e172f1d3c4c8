//! What a change of the sources could bring, and has no rule.

use super::refused;

#[test]
fn brackets_in_pairs() {
    refused("fn one() {\n    two(;\n}\n", 3, "'}' closes the '(' of line 2");
    refused("fn one() {\n    \"}\"\n", 1, "nothing closes this '{'");
    refused("fn one() {}\n}\n", 2, "'}' closes nothing");
    refused("fn one()\n    requires { { 1 }\n{\n    2\n}\n", 2, "nothing closes this '{'");
}

#[test]
fn tokens() {
    refused("\n/* a { */\n", 2, "a block comment");
    refused("fn one() {\n    r\"}\"\n}\n", 2, "a quote directly after 'r'");
    refused("fn one() {\n    r#\"}\"#\n}\n", 2, "raw strings");
    refused("fn one()\n    requires { a' }\n{}\n", 2, "a quote directly after 'a'");
    refused("fn one() {\n    \"a\n}\n", 2, "a string without an end");
    refused("fn one() {\n    ' '\n    '\n}\n", 3, "this quote");
}

#[test]
fn attributes() {
    for attribute in [
        "#[test]",
        "#[cfg(test)]",
        "#[allow(unused)]",
        "#![no_std]",
        "#[repr(u8)]",
        "#[derive(Hash)]",
        "#[derive(Clone)]",
        "#[derive(Clone, Drop)]",
    ] {
        refused(&format!("\n{attribute}\nstruct A;\n"), 2, "no rule for");
    }
}

#[test]
fn heads_of_items() {
    for (head, why) in [
        ("final fn one() {}", "'final'"),
        ("unsafe fn one() {}", "'unsafe'"),
        ("async fn one() {}", "'async'"),
        ("pure fn one() {}", "'pure' before 'fn'"),
        ("trait law A {}", "this form of 'trait'"),
        ("law trait A {}", "'law'"),
        ("sealed trait A {}", "'sealed' before 'trait'"),
        ("struct A = B;", "this form of 'struct'"),
        ("enum A: u8 {}", "this form of 'enum'"),
        ("mod a { fn one() {} }", "this form of 'mod'"),
        ("static mut A: u8 = 1;", "this form of 'static'"),
        ("macro_rules! a { () => {} }", "'macro_rules'"),
        ("fn one(a: fn(u8)) {}", "this form of 'fn'"),
        ("fn one(a: &dyn A) {}", "'dyn'"),
    ] {
        refused(&format!("\n{head}\n"), 2, why);
    }
}

#[test]
fn bodies() {
    refused("fn one() {\n    vec![1]\n}\n", 2, "the macro 'vec!'");
    refused("fn one() {\n    assert!(a)\n}\n", 2, "the macro 'assert!'");
    refused("fn one() {\n    a.clone()\n}\n", 2, "the call 'clone()'");
    refused("fn one() {\n    Clone::clone(&a)\n}\n", 2, "the call 'clone()'");
    refused("fn one() {\n    unsafe { a }\n}\n", 2, "'unsafe'");
    refused("fn one()\nfn two() {}\n", 1, "no body");
}
