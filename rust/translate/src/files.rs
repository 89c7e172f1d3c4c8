//! From the folders of the crates to the folder of the one crate.

use std::collections::BTreeMap;
use std::fmt::Write;
use std::fs;
use std::io;
use std::path::{Path, PathBuf};
use std::thread;

use crate::levels::{self, COPIED};
use crate::paths::{CRATES, Module};
use crate::{Wrong, copies, in_rust, unchecked};

/// The file that declares the modules.
const MODULES: &str = "modules.rs";
/// Lints that speak of how the sources are written, which is Rattle's matter.
const ALLOWED: &str = "#[allow(unused, clippy::all, improper_ctypes_definitions)]";

/// The files of a folder, by their paths in it.
type Files = BTreeMap<PathBuf, String>;

/// Translates the crates of a folder into modules in the folder `out`, which has nothing else, with or without a second copy of those that have one.
/// Only files that change are written, and those that are no longer made are removed. Returns how many files it has.
pub fn translate(crates: &Path, out: &Path, twice: bool) -> Result<usize, Wrong> {
    // Side by side, since all else of a build waits for it.
    let parts = thread::scope(|threads| {
        CRATES.map(|module| threads.spawn(move || of_crate(crates, module, twice))).map(|it| it.join().expect("no rule panics"))
    });
    let mut made = Files::from([(MODULES.into(), declared(twice))]);
    for part in parts {
        made.append(&mut part?);
    }
    if let Some((module, file)) = levels::files().find(|it| twice && !made.contains_key(&second(it))) {
        return Err(failed(Path::new(file), format!("no such file of '{module}', which levels.rs names")));
    }
    write_all(out, &made)?;
    Ok(made.len())
}

/// The files of the module of a crate.
fn of_crate(crates: &Path, module: Module, twice: bool) -> Result<Files, Wrong> {
    let folder = crates.join(module.of).join("src");
    let mut made = Files::new();
    for path in paths_in(&folder)? {
        let source = read(&folder.join(&path))?;
        let named = |it: Wrong| Wrong { file: folder.join(&path).display().to_string(), ..it };
        let text = in_rust(&source, module, !unchecked::names(module, &path)).map_err(named)?;
        let (place, file) = (place(module.name, &path), path.to_string_lossy());
        if !twice || !COPIED.contains(&module.name) {
            made.insert(place, text);
            continue;
        }
        made.insert(second(&(module.name, &file)), copies::second(&text, module.name, &file).map_err(named)?);
        made.insert(place, copies::first(&text, module.name, &file).map_err(named)?);
    }
    Ok(made)
}

/// The declarations of the modules. What only the functions for C call is there with the feature `c`, and a user can name the modules with the
/// feature `__source`.
fn declared(twice: bool) -> String {
    let mut text = String::new();
    for module in CRATES {
        let condition = if module.is_for_c { "feature = \"c\", " } else { "" };
        for (source, visible) in [("feature = \"__source\"", "#[doc(hidden)]\npub "), ("not(feature = \"__source\")", "")] {
            let name = module.name;
            writeln!(text, "#[cfg(all({condition}{source}))]\n{ALLOWED}\n{visible}mod {name};").expect("a string has room");
        }
    }
    if twice {
        let modules: Vec<String> = COPIED.iter().map(|name| format!("    pub(crate) mod {name};\n")).collect();
        writeln!(text, "{ALLOWED}\nmod v3 {{\n{}}}", modules.concat()).expect("a string has room");
    }
    text
}

fn failed(path: &Path, why: impl ToString) -> Wrong {
    Wrong { file: path.display().to_string(), line: 0, what: why.to_string() }
}

/// The path of a translated file of a crate.
fn place(module: &str, path: &Path) -> PathBuf {
    let folder = Path::new(module);
    if path == Path::new("lib.rt") { folder.with_extension("rs") } else { folder.join(path).with_extension("rs") }
}

/// The path of a file of the second copy of a module.
fn second((module, file): &(&str, &str)) -> PathBuf {
    Path::new("v3").join(place(module, Path::new(file)))
}

fn read(path: &Path) -> Result<String, Wrong> {
    fs::read_to_string(path).map_err(|why| failed(path, why))
}

/// The sources below a folder, in order.
fn paths_in(folder: &Path) -> Result<Vec<PathBuf>, Wrong> {
    let mut found = Vec::new();
    list(folder, &mut found).map_err(|why| failed(folder, why))?;
    found.retain(|it| it.extension().is_some_and(|it| it == "rt"));
    found.sort();
    let paths = found.iter().filter_map(|it| it.strip_prefix(folder).ok());
    Ok(paths.map(Path::to_path_buf).collect())
}

/// Adds each file below a folder.
fn list(folder: &Path, found: &mut Vec<PathBuf>) -> io::Result<()> {
    for entry in fs::read_dir(folder)? {
        let path = entry?.path();
        if path.is_dir() {
            list(&path, found)?;
        } else {
            found.push(path);
        }
    }
    Ok(())
}

fn write_all(out: &Path, made: &Files) -> Result<(), Wrong> {
    for (path, text) in made {
        let path = out.join(path);
        if fs::read(&path).is_ok_and(|it| it == text.as_bytes()) {
            continue;
        }
        let folder = path.parent().unwrap_or(out);
        fs::create_dir_all(folder).and_then(|()| fs::write(&path, text)).map_err(|why| failed(&path, why))?;
    }
    let mut found = Vec::new();
    list(out, &mut found).map_err(|why| failed(out, why))?;
    for path in found.iter().filter(|it| it.strip_prefix(out).is_ok_and(|it| !made.contains_key(it))) {
        fs::remove_file(path).map_err(|why| failed(path, why))?;
    }
    Ok(())
}
