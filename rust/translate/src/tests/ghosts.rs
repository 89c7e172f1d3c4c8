//! Ghost items, tactics and models go.

use super::{becomes, refused};

#[test]
fn imports_go() {
    becomes(
        "//! What it is.\n\nghost use Rattle.std.specs.{◌≡◌, ◌∷◌, []};\nghost use a.{\n  b,\n};\n\nmod one;\n",
        "//! What it is.\n\nmod one;\n",
    );
    becomes("impl One {\n    ghost use Rattle.{b};\n\n    fn two() {}\n}\n", "impl One {\n    fn two() {}\n}\n");
    refused("ghost use Rattle.{b}\nfn one() {}\n", 1, "without a semicolon");
}

#[test]
fn fields_go_with_their_comments() {
    let source = "struct One {\n    // Real.\n    pub a: u8,\n    // Not real.\n    // Nor this.\n    pub ghost b: { ℕ },\n    pub(crate) ghost c: { b ≤ 2 } by { refl },\n    ghost d: { ℕ },\n    // Real, too.\n    e: u8,\n}\n";
    becomes(source, "struct One {\n    // Real.\n    pub a: u8,\n    // Real, too.\n    e: u8,\n}\n");
    becomes("struct One {\n    a: u8, // Real.\n    ghost b: { ℕ },\n}\n", "struct One {\n    a: u8, // Real.\n}\n");
    becomes(
        "struct One {\n    // Apart.\n\n    ghost b: { ℕ },\n    a: u8,\n}\n",
        "struct One {\n    // Apart.\n    a: u8,\n}\n",
    );
}

#[test]
fn members_go() {
    let source = "trait One {\n    ghost LANES: { ℕ };\n\n    fn two();\n\n    /// Not real.\n    ghost few: { LANES ≤ 8 };\n\n    fn three();\n}\n";
    becomes(source, "trait One {\n    fn two();\n\n    fn three();\n}\n");
    becomes(
        "impl One for Two {\n    const LANES: usize = 8;\n\n    ghost LANES = { 8 };\n}\n",
        "impl One for Two {\n    const LANES: usize = 8;\n}\n",
    );
    becomes(
        "impl One for Two {\n    ghost a = { \"}\" } by { '{' };\n\n    fn three() {}\n}\n",
        "impl One for Two {\n    fn three() {}\n}\n",
    );
}

#[test]
fn other_ghosts_are_refused() {
    refused("ghost fn one() {}\n", 1, "this form of 'ghost'");
    refused("fn one() {\n    ghost let a = { 1 };\n}\n", 2, "this form of 'ghost'");
    refused("fn one() {\n    ghost { a }\n}\n", 2, "this form of 'ghost'");
    refused("struct One {\n    ghost a: ℕ,\n}\n", 2, "this form of 'ghost'");
    refused("impl One {\n    ghost a = { 1 }\n    fn two() {}\n}\n", 2, "neither a comma nor a semicolon");
    refused("impl One {\n    ghost a = { 1 } with { 2 };\n}\n", 2, "neither a comma nor a semicolon");
    refused("trait One {\n    fn two()\n        ghost a: { ℕ };\n}\n", 2, "no body");
    refused("#[inline]\nghost a = { 1 };\n", 2, "an attribute of a ghost");
}

#[test]
fn tactics_go() {
    becomes("//! What it is.\n#![tactic(auto, using(crate::a::b))]\n\nmod one;\n", "//! What it is.\n\nmod one;\n");
    becomes("/// One.\n#[tactic(auto, unfolding(a::b, c::d))]\n#[inline]\nfn one() {}\n", "/// One.\n#[inline]\nfn one() {}\n");
    becomes(
        "impl A {\n    #[inline]\n    #[tactic(auto)]\n    fn one() {}\n}\n",
        "impl A {\n    #[inline]\n    fn one() {}\n}\n",
    );
}

#[test]
fn a_model_of_ghosts_goes() {
    becomes("struct A;\n\nimpl Model for A {\n    ghost view = { λ a. a };\n}\n\nfn one() {}\n", "struct A;\n\nfn one() {}\n");
    refused("impl Model for A {\n    ghost view = { λ a. a };\n\n    fn one() {}\n}\n", 1, "a model with more than ghosts");
    refused("impl<T> Model for A<T> {\n    ghost view = { λ a. a };\n}\n", 1, "'Model' here");
}
