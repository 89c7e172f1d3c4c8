//! The files of the one crate.

use std::path::{Path, PathBuf};
use std::{env, fs, process};

use crate::paths::CRATES;
use crate::translate;

/// A folder that is removed at the end.
struct Folder(PathBuf);

impl Folder {
    fn new(name: &str) -> Folder {
        let folder = env::temp_dir().join(format!("translate-{name}-{}", process::id()));
        let _ = fs::remove_dir_all(&folder);
        for module in CRATES {
            fs::create_dir_all(folder.join("crates").join(module.of).join("src/inner")).unwrap();
        }
        Folder(folder)
    }

    /// Writes a source of `bitpack_lists`.
    fn write(&self, path: &str, text: &str) {
        fs::write(self.0.join("crates/bitpack_lists/src").join(path), text).unwrap();
    }

    fn made(&self, path: &str) -> PathBuf {
        self.0.join("made").join(path)
    }

    fn translate(&self) -> Result<usize, String> {
        translate(&self.0.join("crates"), &self.0.join("made"), false).map_err(|it| it.to_string())
    }
}

impl Drop for Folder {
    fn drop(&mut self) {
        let _ = fs::remove_dir_all(&self.0);
    }
}

#[test]
fn each_file_has_its_place() {
    let folder = Folder::new("places");
    folder.write("lib.rt", "mod one;\nmod inner;\n");
    folder.write("one.rt", "fn one() {}\n");
    folder.write("inner/two.rt", "fn two() {}\n");
    folder.write("notes.txt", "fn three() {}\n");
    let made = folder.translate().unwrap();
    assert_eq!(fs::read_to_string(folder.made("lists.rs")).unwrap(), "mod one;\nmod inner;\n");
    assert_eq!(fs::read_to_string(folder.made("lists/inner/two.rs")).unwrap(), "fn two() {}\n");
    assert!(!folder.made("lists/notes.rs").exists());
    fs::remove_file(folder.0.join("crates/bitpack_lists/src/one.rt")).unwrap();
    assert_eq!(folder.translate(), Ok(made - 1));
    assert!(!folder.made("lists/one.rs").exists());
}

#[test]
fn each_crate_is_a_module() {
    let folder = Folder::new("modules");
    let source = "use bitpack_groups::GroupError;\n\npub(crate) fn one() {\n    crate::two::three();\n}\n";
    fs::write(folder.0.join("crates/bitpack_sets/src/one.rt"), source).unwrap();
    folder.translate().unwrap();
    let made = "use crate::groups::GroupError;\n\npub(in crate::sets) fn one() {\n    crate::sets::two::three();\n}\n";
    assert_eq!(fs::read_to_string(folder.made("sets/one.rs")).unwrap(), made);
    let declared = fs::read_to_string(folder.made("modules.rs")).unwrap();
    for module in CRATES {
        assert_eq!(declared.lines().filter(|it| *it == format!("mod {};", module.name)).count(), 1, "{}", module.name);
        assert_eq!(declared.lines().filter(|it| *it == format!("pub mod {};", module.name)).count(), 1, "{}", module.name);
    }
}

#[test]
fn modules_are_private_to_users() {
    let folder = Folder::new("private");
    folder.translate().unwrap();
    let declared = fs::read_to_string(folder.made("modules.rs")).unwrap();
    let lines: Vec<&str> = declared.lines().collect();
    for at in (0..lines.len()).filter(|it| lines[*it].starts_with("pub mod")) {
        assert!(lines[at - 3].starts_with("#[cfg(all(") && lines[at - 3].ends_with("feature = \"__source\"))]"), "{}", lines[at]);
        assert!(!lines[at - 3].contains("not("), "{}", lines[at]);
    }
}

#[test]
fn only_what_changes_is_written() {
    let folder = Folder::new("changes");
    folder.write("one.rt", "fn one() {}\n");
    folder.write("two.rt", "fn two() {}\n");
    folder.translate().unwrap();
    let time = |path: &str| fs::metadata(folder.made(path)).unwrap().modified().unwrap();
    let before = ["lists/one.rs", "lists/two.rs", "modules.rs"].map(time);
    folder.write("two.rt", "fn two() {\n    1\n}\n");
    folder.translate().unwrap();
    assert_eq!([before[0], before[2]], ["lists/one.rs", "modules.rs"].map(time));
    assert_eq!(fs::read_to_string(folder.made("lists/two.rs")).unwrap(), "fn two() {\n    1\n}\n");
}

#[test]
fn a_refusal_names_its_file_and_writes_nothing() {
    let folder = Folder::new("refusal");
    folder.write("one.rt", "fn one() {}\n");
    folder.write("two.rt", "\nghost fn two() {}\n");
    let why = folder.translate().unwrap_err();
    assert!(why.ends_with("bitpack_lists/src/two.rt:2: no rule for this form of 'ghost'"), "{why}");
    assert!(!folder.made("").exists());
}

#[test]
fn a_crate_that_is_not_there_is_named() {
    let folder = Folder::new("missing");
    fs::remove_dir_all(folder.0.join("crates/bitpack_sets")).unwrap();
    assert!(folder.translate().unwrap_err().contains("bitpack_sets/src: "));
}

#[test]
fn two_translations_are_the_same() {
    let crates = Path::new(env!("CARGO_MANIFEST_DIR")).join("../../../crates");
    let (one, other) = (Folder::new("one"), Folder::new("other"));
    let made = translate(&crates, &one.made(""), true).unwrap();
    assert_eq!(translate(&crates, &other.made(""), true), Ok(made));
    let same = process::Command::new("diff").arg("-r").args([one.made(""), other.made("")]).status().unwrap();
    assert!(same.success() && made > 100);
}
