//! Finds the original's files, checks each one's SHA-256, and writes into OUT_DIR the unchanged text of
//! each, followed by the lines of extra/ that let a driver set and read every state.
//!
//! The folder is named by the environment variable VRD_ORIGINAL: the one that has src/random.rs,
//! src/xoshiro.rs, src/pcg.rs and src/mersenne_twister.rs of sebastienrousseau/vrd at commit 0add2bed80
//! (a relative path counts from the root of this repository). Where the variable is not set and the
//! folder ../shared/docs/src stands beside the root, that one serves. Nothing of the original is kept
//! in this repository.

mod sha256;

use std::path::{Path, PathBuf};
use std::{env, fs};

/// The variable that names the folder.
const VARIABLE: &str = "VRD_ORIGINAL";

/// The folder that serves where the variable is not set, from the root of this repository.
const BESIDE: &str = "../shared/docs/src";

/// The table of expected digests, from this package's folder.
const TABLE: &str = "original.sha256";

fn main() {
    println!("cargo::rerun-if-env-changed={VARIABLE}");
    println!("cargo::rerun-if-changed=build");
    println!("cargo::rerun-if-changed=extra");
    println!("cargo::rerun-if-changed={TABLE}");
    if let Err(message) = build() {
        // Cargo shows this as one error and stops.
        println!("cargo::error={message}");
    }
}

/// Writes every file of the table and the list of modules, or says what is wrong.
fn build() -> Result<(), String> {
    let folder = original_folder()?;
    let out = PathBuf::from(env::var("OUT_DIR").map_err(|e| format!("OUT_DIR: {e}"))?);
    let mut modules = String::new();
    for (expected, name) in table()? {
        let text = checked_text(&folder, &name, &expected)?;
        let file = name.rsplit('/').next().unwrap_or(&name);
        write(&out.join(file), &(text + &extra_lines(file)?))?;
        let module = file.trim_end_matches(".rs");
        let path = out.join(file);
        modules += &format!("#[path = {path:?}]\n#[allow(clippy::all)]\npub mod {module};\n");
    }
    write(&out.join("modules.rs"), &modules)
}

/// The folder with the original's src/.
fn original_folder() -> Result<PathBuf, String> {
    let root = Path::new(env!("CARGO_MANIFEST_DIR")).join("../..");
    match env::var_os(VARIABLE) {
        Some(named) => {
            let folder = root.join(&named);
            if folder.join("src").is_dir() {
                return Ok(folder);
            }
            Err(format!(
                "the original is not where {VARIABLE} points: {named:?} has no folder 'src'. Set {VARIABLE} to the \
                 folder of the crate vrd (repository sebastienrousseau/vrd, commit 0add2bed80) that has \
                 src/random.rs; a relative path counts from the root of this repository."
            ))
        }
        None => {
            let folder = root.join(BESIDE);
            println!("cargo::rerun-if-changed={}", folder.display());
            if folder.join("src").is_dir() {
                return Ok(folder);
            }
            Err(format!(
                "the original is not at hand: the variable {VARIABLE} is not set, and there is no {BESIDE} beside \
                 the root of this repository. Set {VARIABLE} to the folder of the crate vrd (repository \
                 sebastienrousseau/vrd, commit 0add2bed80) that has src/random.rs; its files are not kept here."
            ))
        }
    }
}

/// The rows of the table: the expected digest and the file's name.
fn table() -> Result<Vec<(String, String)>, String> {
    let path = Path::new(env!("CARGO_MANIFEST_DIR")).join(TABLE);
    let text = fs::read_to_string(&path).map_err(|e| format!("{TABLE}: {e}"))?;
    let rows = text.lines().filter(|line| !line.starts_with('#'));
    rows.map(|line| match line.split_once("  ") {
        Some((digest, name)) => Ok((digest.to_string(), name.to_string())),
        None => Err(format!("{TABLE}: '{line}' is not a digest, two spaces and a name")),
    })
    .collect()
}

/// The text of the original's file, once its digest is the expected one.
fn checked_text(folder: &Path, name: &str, expected: &str) -> Result<String, String> {
    let path = folder.join(name);
    println!("cargo::rerun-if-changed={}", path.display());
    let shown = path.display();
    let bytes = fs::read(&path).map_err(|e| {
        format!(
            "the original's {name} cannot be read at {shown} ({e}). Set {VARIABLE} to the folder of the crate vrd \
             (repository sebastienrousseau/vrd, commit 0add2bed80) that has src/random.rs."
        )
    })?;
    let found = sha256::digest(&bytes);
    if found != expected {
        return Err(format!(
            "the original's {name} at {shown} is not the file of commit 0add2bed80: its SHA-256 is {found}, expected \
             {expected} (rust/vrd_original/{TABLE}). Set {VARIABLE} to a folder with the unchanged files."
        ));
    }
    String::from_utf8(bytes).map_err(|e| format!("the original's {name} at {shown} is not UTF-8 ({e})"))
}

/// Our own lines for this file, or none.
fn extra_lines(file: &str) -> Result<String, String> {
    let path = Path::new(env!("CARGO_MANIFEST_DIR")).join("extra").join(file);
    if !path.exists() {
        return Ok(String::new());
    }
    fs::read_to_string(&path).map_err(|e| format!("rust/vrd_original/extra/{file}: {e}"))
}

/// Writes one file of OUT_DIR.
fn write(path: &Path, text: &str) -> Result<(), String> {
    fs::write(path, text).map_err(|e| format!("{} cannot be written ({e})", path.display()))
}
