//! Functions for C.

use super::{Wrong, in_rust, module, rust};

fn c(source: &str) -> Result<String, Wrong> {
    in_rust(source, module("c"), true)
}

#[test]
fn slices_are_pointers_and_lengths() {
    let source = "#[unsafe(no_mangle)]\npub extern \"C\" fn one<'a>(a: &'a [View<'_>], b: &mut [u32], c: &mut View<'a>, d: u8) -> isize\n    ensures { 1 }\n{\n    0\n}\n";
    let made = "#[unsafe(no_mangle)]
pub unsafe extern \"C\" fn one<'a>(a: *const View<'_>, a_len: usize, b: *mut u32, b_len: usize, c: &mut View<'a>, d: u8) -> isize {
    let a: &'a [View<'_>] = unsafe { crate::c_slices::slice(a, a_len) };
    let b: &mut [u32] = unsafe { crate::c_slices::slice_mut(b, b_len) };
    0
}
";
    assert_eq!(c(source), Ok(made.into()));
}

#[test]
fn other_functions_are_as_they_were() {
    for source in
        ["pub extern \"C\" fn one(a: &View<'_>, b: [u8; 4]) -> u32 {\n    0\n}\n", "fn one(a: &[u8], b: &mut [u32]) {}\n"]
    {
        assert_eq!(c(source), Ok(source.into()));
    }
    let source = "pub extern \"C\" fn one(a: &[u8]) {}\n";
    assert_eq!(rust(source), source, "a function of a crate that is not for C");
}

#[test]
fn a_declaration_is_refused() {
    assert_eq!(c("fn two() {\n    1\n}\n\npub extern \"C\" fn one(a: &[u8]);\n").map_err(|it| it.line), Err(5));
}
