//! What means another thing in Rust, or nothing.

use super::{becomes, refused, rust};

#[test]
fn names_of_std() {
    becomes(
        "use std::fmt;\nuse std::mem::size_of;\nuse std::simd::prelude::*;\n",
        "use core::fmt;\nuse core::mem::size_of;\nuse crate::simd::*;\n",
    );
    becomes(
        "use std::marker::{Model, PhantomData};\nuse std::error::Error;\n",
        "use core::marker::PhantomData;\nuse core::error::Error;\n",
    );
    becomes(
        "use std::alloc::Global;\nuse std::alloc::AllocError;\n\nfn one() {}\n",
        "use crate::growing::AllocError;\n\nfn one() {}\n",
    );
    refused("use std::rc::Rc;\n", 1, "'std' here");
    refused("use std::alloc::{AllocError, Global};\n", 1, "'std' here");
    refused("fn one() -> std::fmt::Result {}\n", 1, "'std' here");
}

#[test]
fn what_may_be_let_go() {
    becomes(
        "/// A.\n#[derive(Drop)]\nstruct A;\n\n#[derive(Drop, Debug)]\nstruct B;\n",
        "/// A.\nstruct A;\n\n#[derive(Debug)]\nstruct B;\n",
    );
    becomes("pub trait A<R: B>: Drop {\n    fn one();\n}\n", "pub trait A<R: B> {\n    fn one();\n}\n");
    refused("fn one<T: Drop>(t: T) {}\n", 1, "'Drop' here");
    refused("impl Drop for A {\n    fn drop(&mut self) {}\n}\n", 1, "'Drop' here");
    refused("trait A: B + Drop {}\n", 1, "'Drop' here");
}

#[test]
fn shown_text() {
    let source = "impl fmt::Display for A {\n    fn fmt<W: fmt::Write>(&self, f: &mut fmt::Formatter<W>) -> fmt::Result {\n        write!(f, \"{}\", 1)\n    }\n}\n\nuse std::fmt;\n";
    assert!(
        rust(source).contains("    fn fmt(&self, f: &mut fmt::Formatter<'_>) -> fmt::Result {\n        write!(f, \"{}\", 1)\n")
    );
}

#[test]
fn errors_that_may_be_more() {
    for name in ["SetError", "ColumnError"] {
        let source = format!("#[derive(Clone, Copy)]\npub enum {name} {{\n    A,\n}}\n");
        becomes(&source, &source.replace("pub enum", "#[non_exhaustive]\npub enum"));
    }
    for other in ["pub enum ColumnKind {\n    A,\n}\n", "pub struct SetError;\n", "impl SetError {}\n"] {
        becomes(other, other);
    }
}

#[test]
fn tests_of_what_is_pushed() {
    becomes("pub fn test_pushed(a: &[u32]) {}\n", "#[inline]\npub fn test_pushed(a: &[u32]) {}\n");
    becomes("fn last_of(values: &[u32]) {}\n", "fn last_of(values: &[u32]) {}\n");
}

#[test]
fn a_condition_and_a_pattern() {
    becomes(
        "fn one() {\n    two();\n    if three && let Some(a) = four(b) {\n        five(a);\n    }\n    six();\n}\n",
        "fn one() {\n    two();\n    if three { if let Some(a) = four(b) {\n        five(a);\n    } }\n    six();\n}\n",
    );
    for body in [
        "while a && let Some(b) = c {}",
        "if a && let Some(b) = c {} else {}",
        "if a {} else if b && let Some(c) = d {}",
        "if a && let Some(b) = c && let Some(d) = b {}",
        "if a && let Some(b) = c { if b && let Some(d) = e {} }",
        "let a = b && let Some(c) = d;",
    ] {
        refused(&format!("fn one() {{\n    {body}\n}}\n"), 2, "no rule for '&& let'");
    }
}

#[test]
fn constants_that_are_proved() {
    becomes("const _: () = prove!(A == 1);\n", "const _: () = assert!(A == 1);\n");
    refused("fn one() {\n    prove!(1 == 1);\n}\n", 2, "'prove!' outside");
}

#[test]
fn a_clone_cannot_fail() {
    let clone = |body: &str| {
        format!("impl Clone for A {{\n    fn clone(&self) -> Result<Self, AllocError> {{\n        {body}\n    }}\n}}\n")
    };
    becomes(
        &clone("Ok(A { a: (self.a) })"),
        "impl Clone for A {\n    fn clone(&self) -> Self {\n        A { a: (self.a) }\n    }\n}\n",
    );
    refused(&clone("Ok(A { a: self.a.one()? })"), 2, "a clone of another form");
    refused(&clone("let a = self.a;\n        Ok(A { a })"), 2, "a clone of another form");
    refused(&clone("Ok(A { a }).two()"), 2, "a clone of another form");
    refused("impl Clone for A {\n    fn clone(&self) -> Self {\n        *self\n    }\n}\n", 2, "a clone of another form");
}

#[test]
fn vectors_that_grow() {
    let head = "use alloc::vec::Vec;\nuse crate::growing::Growing;\n\n";
    let source = "fn one(out: &mut Vec<u8>) {\n    out.push(1)?;\n    self.values\n        .resize(1, 2)?;\n    out.extend_from_slice(&[1]).unwrap();\n}\n";
    becomes(
        source,
        &format!("{head}{}", source.replace("push", "try_push").replace("resize", "try_resize").replace("extend", "try_extend")),
    );
    becomes("fn one() {\n    a.reserve(1).is_err();\n}\n", "fn one() {\n    a.try_reserve(1).is_err();\n}\n");
    becomes("fn one() {\n    a.push_reserved(1);\n}\n\nfn push() {}\n", "fn one() {\n    a.push(1);\n}\n\nfn push() {}\n");
    let made = "use alloc::vec::Vec;\n\nfn one(\n    a: u8,\n) {\n    let b = Vec::new();\n}\n";
    becomes("fn one(\n    alloc: Global,\n    a: u8,\n) {\n    let b = Vec::new(alloc);\n}\n", made);
    let made = "use alloc::vec::Vec;\n\nfn one() {\n    let b = Vec::new();\n}\n";
    becomes("fn one(alloc: Global) {\n    let b = Vec::new(alloc);\n}\n", made);
    refused("fn one(alloc: Global, a: u8) {\n    two(alloc, a);\n}\n", 2, "'alloc' here");
    refused("fn one() {\n    Vec::with_capacity(1);\n}\n", 2, "a vector of another form");
    refused("fn one() {\n    a.to_vec();\n}\n", 2, "the call 'to_vec()'");
}

#[test]
fn a_part_of_a_vector() {
    becomes(
        "fn one() {\n    let b = out.slice_mut(from..);\n    two(1, out.slice_mut(a[0]..));\n}\n",
        "fn one() {\n    let b = &mut out[from..];\n    two(1, &mut out[a[0]..]);\n}\n",
    );
    refused("fn one() {\n    out.slice_mut(from..).fill(0);\n}\n", 2, "'slice_mut' inside");
    refused("fn one() {\n    two(self.out.slice_mut(from..));\n}\n", 2, "'slice_mut' inside");
}

#[test]
fn vectors_of_lanes() {
    becomes("fn one() {\n    self << u32x4::splat(shift) >> u32x8::splat(by)\n}\n", "fn one() {\n    self << shift >> by\n}\n");
    becomes("fn one() {\n    bytes >> u8x16::splat(3) & some\n}\n", "fn one() {\n    bytes >> 3 & some\n}\n");
    becomes(
        "fn one() {\n    a.shuffle::<4>(b, [3, 4, 5, 6]) + c.swizzle::<2>([1, 0])\n}\n",
        "fn one() {\n    a.shuffle_3_4_5_6(b) + c.swizzle_1_0()\n}\n",
    );
    refused("fn one() {\n    self << u32x4::splat(a + 1)\n}\n", 2, "a shift by more than a name");
    refused("fn one() {\n    a.shuffle::<4>(b, LANES)\n}\n", 2, "this form of a shuffle");
    refused("fn one() {\n    a.shuffle::<4>(b.c(), [0, 1])\n}\n", 2, "this form of a shuffle");
    refused("fn one() {\n    a.swizzle::<2>([1, N])\n}\n", 2, "this form of a shuffle");
}

#[test]
fn paths() {
    let source = "use bitpacking::{BitPacker, Kind};\nuse crate::a::b;\n\npub(crate) fn one() {\n    b::two(bitpacking::laws::three);\n}\n";
    let made = "use crate::bitpacking::{BitPacker, Kind};\nuse crate::lists::a::b;\n\npub(in crate::lists) fn one() {\n    b::two(crate::bitpacking::laws::three);\n}\n";
    becomes(source, made);
    becomes("mod a;\n\npub use a::{b, c};\nuse super::d;\n", "mod a;\n\npub use a::{b, c};\nuse super::d;\n");
    becomes(
        "fn one() {\n    A::two::<8>(u32::MAX, u32x8::of());\n}\n",
        "fn one() {\n    A::two::<8>(u32::MAX, u32x8::of());\n}\n",
    );
    becomes(
        "/// `bitpacking::Kind` of crate::a\nfn one() {\n    \"crate::a\"\n}\n",
        "/// `bitpacking::Kind` of crate::a\nfn one() {\n    \"crate::a\"\n}\n",
    );
    refused("use hex::digits;\n", 1, "the crate or module 'hex'");
    refused("mod a;\n\nfn one() {\n    hex::digits();\n}\n", 4, "the crate or module 'hex'");
    refused("pub(in crate) fn one() {}\n", 1, "'in' before 'fn'");
}

#[test]
fn examples_in_comments() {
    becomes(
        "/// Adds.\n///\n/// ```rust\n/// add(1);\n/// ```\nfn add() {}\n",
        "/// Adds.\n///\n/// ```text\n/// add(1);\n/// ```\nfn add() {}\n",
    );
    becomes("//! Adds.\n//! ```rust\n//! ```\n", "//! Adds.\n//! ```text\n//! ```\n");
    refused("fn add() {\n    // ```rust\n}\n", 2, "no rule for an example here");
}

#[test]
fn a_function_is_apart_for_simd128() {
    becomes(
        "#[inline(always)]\nfn add_group(count: usize) {}\n",
        "#[cfg_attr(target_feature = \"simd128\", inline(never))]\n#[cfg_attr(not(target_feature = \"simd128\"), inline(always))]\n\
         fn add_group(count: usize) {}\n",
    );
    let source = "#[inline(always)]\nfn add_groups(count: usize) {}\n";
    becomes(source, source);
}
