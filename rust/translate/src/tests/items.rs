//! The items of a translation are compared with those of its source.

use crate::items::compared;

const SOURCE: &str = "mod a;
pub(crate) mod b;
const A: u8 = 1;
pub static B: u8 = 2;
type C = u8;

pub struct D {
    pub e: u8,
}

pub(crate) enum E {}

pub trait F<T: G>: H {
    fn one();
}

impl<T: G<'_>> F<T> for D {
    fn one() {}
}

impl D {
    #[unsafe(no_mangle)]
    pub unsafe extern \"C\" fn two() {}

    pub const fn three() {}
}
";

#[test]
fn the_same_items() {
    assert_eq!(compared(SOURCE, SOURCE), Ok(()));
    assert_eq!(compared(SOURCE, &SOURCE.replace("pub(crate)", "pub(in crate::a)").replace("unsafe extern", "extern")), Ok(()));
    assert_eq!(compared("impl Model for A {}\nfn one() {}\n", "fn one() {}\n"), Ok(()));
}

#[test]
fn no_item_is_dropped() {
    let lines: Vec<&str> = SOURCE.lines().collect();
    let items = ["mod", "const", "static", "type", "struct", "enum", "trait", "impl", "fn"];
    let mut tried = 0;
    for (at, line) in lines.iter().enumerate().filter(|it| it.1.split([' ', '<']).any(|word| items.contains(&word))) {
        let rest: Vec<&str> = lines.iter().copied().filter(|it| it != line).collect();
        let wrong = compared(SOURCE, &rest.join("\n")).expect_err(line);
        assert!(wrong.line == at + 1 && wrong.what.contains("is lost"), "{line}: {wrong:?}");
        tried += 1;
    }
    assert_eq!(tried, 14);
}

#[test]
fn no_item_is_added_or_moved() {
    assert!(compared(SOURCE, &format!("{SOURCE}fn four() {{}}\n")).is_err());
    assert!(compared("fn one() {}\nfn two() {}\n", "fn two() {}\nfn one() {}\n").is_err());
    assert!(compared("fn one() {}\n", "fn one_more() {}\n").is_err());
}

#[test]
fn comments_and_strings_are_no_items() {
    assert_eq!(compared("/// fn one() {}\n// struct A;\nlet a = \"fn two\";\n", "\n"), Ok(()));
}
