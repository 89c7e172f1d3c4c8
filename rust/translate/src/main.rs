//! Translates the Rattle sources of the packers into modules of stable Rust, with the comments, and without what only the proofs read. What it has
//! no rule for is refused, with its file and line.
//!
//! It is the build script of the crate `bitpacking`, and so has no other crate. `translate CRATES OUT` writes the modules into a folder.

mod c_calls;
mod checks;
mod copies;
mod files;
mod ghosts;
mod items;
mod layout;
mod levels;
mod paths;
mod rules;
#[cfg(test)]
mod tests;
mod tokens;
mod unchecked;

use std::path::Path;
use std::process::ExitCode;
use std::{env, fmt};

use files::translate;
use paths::Module;

/// Why there is no translation: what is wrong, the file, and the line, counted from 1, or 0 for all of the file.
#[derive(Debug, PartialEq, Eq)]
struct Wrong {
    file: String,
    line: usize,
    what: String,
}

impl Wrong {
    fn at(line: usize, what: impl Into<String>) -> Wrong {
        let (file, what) = (String::new(), what.into());
        Wrong { file, line, what }
    }
}

impl fmt::Display for Wrong {
    fn fmt(&self, f: &mut fmt::Formatter<'_>) -> fmt::Result {
        match self.line {
            0 => write!(f, "{}: {}", self.file, self.what),
            line => write!(f, "{}:{line}: {}", self.file, self.what),
        }
    }
}

impl std::error::Error for Wrong {}

/// The Rust of a source of a crate, with or without tests of its indexes.
fn in_rust(source: &str, module: Module, tests_indexes: bool) -> Result<String, Wrong> {
    let tokens = tokens::tokens(source)?;
    let tokens = ghosts::without_ghosts(&tokens)?;
    checks::checked(&tokens)?;
    let tokens = rules::in_rust(&tokens)?;
    let tokens = if tests_indexes { tokens } else { unchecked::in_calls(&tokens)? };
    let tokens = paths::in_one_crate(&tokens, module)?;
    let tokens = if module.name == "c" { rules::applied(&tokens, &[&c_calls::calls])? } else { tokens };
    let made = layout::text(&tokens);
    items::compared(source, &made)?;
    Ok(made)
}

/// Whether the build has a second copy: processors of the target may have features of that copy that the target lacks, and no
/// `--cfg bitpacking_one_copy` was given, for a library that chooses a level itself.
fn has_two_copies() -> bool {
    let has = |name: &str, value: &str| env::var(name).is_ok_and(|it| it.split(',').any(|it| it == value));
    let features = "CARGO_CFG_TARGET_FEATURE";
    let lacks_some = !levels::FEATURES.split(',').all(|it| has(features, it));
    has("CARGO_CFG_TARGET_ARCH", "x86_64")
        && has(features, "sse2")
        && lacks_some
        && env::var("CARGO_CFG_BITPACKING_ONE_COPY").is_err()
}

fn main() -> ExitCode {
    let given: Vec<String> = env::args().skip(1).collect();
    let made = match (given.as_slice(), env::var("CARGO_MANIFEST_DIR"), env::var("OUT_DIR")) {
        ([crates, out], _, _) => translate(Path::new(crates), Path::new(out), false),
        ([], Ok(package), Ok(out)) => {
            let crates = Path::new(&package).join("crates");
            println!("cargo::rerun-if-changed={}", crates.display());
            println!("cargo::rerun-if-changed={}", Path::new(&package).join("rust/translate/src").display());
            println!("cargo::rustc-check-cfg=cfg(level_v3)");
            let twice = has_two_copies();
            if twice {
                println!("cargo::rustc-cfg=level_v3");
            }
            translate(&crates, Path::new(&out), twice)
        }
        _ => {
            eprintln!("translate CRATES OUT");
            return ExitCode::FAILURE;
        }
    };
    match made {
        Ok(files) => {
            println!("{files} files");
            ExitCode::SUCCESS
        }
        Err(wrong) => {
            eprintln!("{wrong}");
            ExitCode::FAILURE
        }
    }
}
