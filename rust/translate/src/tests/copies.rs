//! The two copies of a file.

use crate::Wrong;
use crate::copies::{first, second};
use crate::levels::{ENTRIES, OF_MANY};

/// The second copy of a file of `sets` that has nothing else of a rule's.
#[track_caller]
fn becomes(source: &str, made: &str) {
    assert_eq!(second(source, "sets", "other.rt").as_deref(), Ok(made), "{source}");
}

#[test]
fn free_functions_and_inherent_methods_have_the_features() {
    becomes(
        "/// One.\n#[inline]\nfn one(a: [u32; 2]) -> u32 {\n    a[0]\n}\n",
        "/// One.\n#[target_feature(enable = \"avx2,bmi1,bmi2,lzcnt,popcnt\")]\n#[inline]\nunsafe fn one(a: [u32; 2]) -> u32 { unsafe {\n    a[0]\n} }\n",
    );
    becomes(
        "impl One {\n    pub fn two(&self) {}\n}\n",
        "impl One {\n    #[target_feature(enable = \"avx2,bmi1,bmi2,lzcnt,popcnt\")]\npub unsafe fn two(&self) { unsafe {} }\n}\n",
    );
}

#[test]
fn what_is_always_inlined_and_methods_of_traits_have_none() {
    becomes("#[inline(always)]\nfn one() { two() }\n", "#[inline(always)]\nfn one() { unsafe { two() } }\n");
    becomes("impl Two for One {\n    fn two(&self) {}\n}\n", "impl Two for One {\n    fn two(&self) { unsafe {} }\n}\n");
    becomes(
        "trait Two {\n    fn two();\n    fn three(self) {}\n}\n",
        "trait Two {\n    fn two();\n    fn three(self) { unsafe {} }\n}\n",
    );
}

#[test]
fn a_function_of_a_trait_has_one_inside() {
    let features = "#[target_feature(enable = \"avx2,bmi1,bmi2,lzcnt,popcnt\")]\n";
    becomes(
        "impl Two for One {\n    fn two(a: u8) {}\n}\n",
        &format!(
            "impl Two for One {{\n    #[inline(always)]\nfn two(a: u8) {{\n{features}unsafe fn apart(a: u8) {{ unsafe {{}} }}\n\
             unsafe {{ apart(a) }}\n}}\n}}\n"
        ),
    );
    becomes(
        "impl Two for One {\n    #[inline(never)]\n    fn two<'a, A: B<u8>>(a: &'a A, mut b: [u8; 2]) -> u8 {\n        b[0]\n    }\n}\n",
        "impl Two for One {\n    #[inline(always)]\n    fn two<'a, A: B<u8>>(a: &'a A, mut b: [u8; 2]) -> u8 {\n#[inline(never)]\n\
         #[target_feature(enable = \"avx2,bmi1,bmi2,lzcnt,popcnt\")]\n\
         unsafe fn apart<'a, A: B<u8>>(a: &'a A, mut b: [u8; 2]) -> u8 { unsafe {\n        b[0]\n    } }\nunsafe { apart::<A>(a, b) }\n}\n}\n",
    );
}

#[test]
fn paths_lead_to_the_second_copy() {
    becomes("use crate::groups::one;\nuse crate::simd::*;\n", "use crate::v3::groups::one;\nuse crate::simd::v3::*;\n");
    becomes("use crate::index::Proved;\n", "use crate::index::Proved;\n");
    becomes("mod one;\npub mod two;\n", "pub(crate) mod one;\npub mod two;\n");
    becomes("pub(in crate::sets) struct One;\npub(super) fn one();\n", "pub(crate) struct One;\npub(crate) fn one();\n");
}

#[test]
fn both_copies_share_some_types() {
    let source = "pub enum Step {}\n\nimpl Step {\n    pub(in crate::queries) fn one() {}\n}\n";
    assert_eq!(second(source, "queries", "step.rt"), Ok("pub use crate::queries::Step;\n".into()));
    assert_eq!(first(source, "queries", "step.rt"), Ok(source.replace("in crate::queries", "crate")));
}

#[test]
fn types_that_cross_have_the_layout_of_c() {
    let struct_of = |before| format!("/// One.\n{before}#[derive(Clone)]\npub struct IdSet<'a>(&'a u8);\n");
    for copy in [first, second] {
        let made = copy(&struct_of(""), "sets", "id_set.rt");
        assert!(made == Ok(struct_of("#[repr(C)]\n")) || is_missing(&made), "{made:?}");
    }
    let made = second("enum InstructionSet {\n    One,\n}\n", "bitpacking", "instruction_set.rt");
    assert_eq!(made, Ok("#[repr(u8)]\nenum InstructionSet {\n    One,\n}\n".into()));
}

/// Whether a file lacks the functions that go over.
fn is_missing(made: &Result<String, Wrong>) -> bool {
    made.as_ref().is_err_and(|it| it.what.starts_with("no function"))
}

#[test]
fn entries_go_over() {
    let source = "pub fn best_bounded<T: AsTerm>(terms: &[T], mut len: usize) -> usize {\n    len\n}\n";
    let made = first(source, "ranking", "ranking.rt").unwrap();
    let call = "return cross(unsafe { crate::v3::ranking::ranking::best_bounded::<T>(cross(terms), cross(len)) });";
    assert!(made.contains("#[cfg(level_v3)]\nif crate::level::is_v3() {"), "{made}");
    assert!(made.contains(call) && made.ends_with("    len\n}\n"), "{made}");
    assert_eq!(first("fn one() {}\n", "sets", "other.rt"), Ok("fn one() {}\n".into()));
}

#[test]
fn few_values_do_not_go_over() {
    let source = "pub fn first_unsorted(ids: &[u32]) -> Option<usize> {\n    None\n}\n";
    let made = first(source, "sets", "encoding/order.rt").unwrap();
    assert!(made.contains("#[cfg(level_v3)]\nif ids.len() >= 64 && crate::level::is_v3() {"), "{made}");
    let entries = || ENTRIES.iter().flat_map(|it| it.functions.iter().map(|name| (it.file, *name)));
    assert!(OF_MANY.iter().all(|it| entries().any(|entry| entry == (it.0, it.1))));
}

#[test]
fn what_a_list_names_is_there() {
    assert!(is_missing(&first("fn one() {}\n", "ranking", "ranking.rt")));
    let made = second("struct One;\n", "sets", "id_set.rt");
    assert!(made.is_err_and(|it| it.what == "no type 'IdSet' to cross"));
    let made = second("fn width() {}\n", "bitpacking", "kernel/least_width.rt");
    assert!(made.is_err_and(|it| it.what == "it is not always inlined"));
}

#[test]
fn a_function_of_the_second_copy_is_called_with_its_features() {
    let made = second("#[inline(always)]\nfn width() {}\n", "bitpacking", "kernel/least_width.rt");
    let features = "#[target_feature(enable = \"avx2,bmi1,bmi2,lzcnt,popcnt\")]\n";
    assert_eq!(made, Ok(format!("{features}#[inline]\nunsafe fn width() {{ unsafe {{}} }}\n")));
}
