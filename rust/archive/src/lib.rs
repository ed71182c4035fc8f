//! For build scripts: has the Rattle kit prove and compile a crate of exports, once for all of cargo's targets and profiles, and tells
//! cargo to link the archive, which it copies to cargo's own folder.

use std::fs::{self, File};
use std::io::{self, BufRead, BufReader, ErrorKind, PipeReader, Write};
use std::path::{Path, PathBuf};
use std::process::{Child, Command};
use std::time::SystemTime;

/// What an archive is made of, from the repository's root.
const SOURCES: [&str; 2] = ["crates", "crates.txt"];

/// The folder in a crate that the kit writes, and no part of what an archive is made of.
const WRITTEN: &str = "out";

/// The script that has the kit make an archive, from the repository's root.
const MAKER: &str = "tools/archive";

/// How many of the kit's last lines an error tells.
const TOLD: usize = 3;

/// Links the archive of the Rattle crate of this name; to be called from a build script's `main`.
pub fn link(name: &str) {
    let root = Path::new(env!("CARGO_MANIFEST_DIR")).join("../..");
    for watched in sources(&root) {
        println!("cargo::rerun-if-changed={}", watched.display());
    }
    match linked(&root, name) {
        Ok(folder) => {
            println!("cargo::rustc-link-search=native={}", folder.display());
            println!("cargo::rustc-link-lib=static={name}");
        }
        // Cargo shows this as one error and stops.
        Err(message) => println!("cargo::error={message}"),
    }
}

/// The folder of cargo's that the archive was copied to.
fn linked(root: &Path, name: &str) -> Result<PathBuf, String> {
    let file = format!("lib{name}.a");
    let archive = root.join("target/staticlib").join(&file);
    if !is_current(root, &archive).unwrap_or(false) {
        let began = SystemTime::now();
        proved(root, name)?;
        // What changed while the kit worked is newer than its archive.
        let dated = File::options().append(true).open(&archive).and_then(|file| file.set_modified(began));
        dated.map_err(|e| format!("{} cannot be dated ({e})", archive.display()))?;
    }
    let folder = PathBuf::from(std::env::var("OUT_DIR").map_err(|e| format!("OUT_DIR: {e}"))?);
    fs::copy(&archive, folder.join(&file)).map_err(|e| format!("{} cannot be copied ({e})", archive.display()))?;
    Ok(folder)
}

/// What the archives are made of: `crates.txt`, and of each crate all but what the kit writes.
fn sources(root: &Path) -> Vec<PathBuf> {
    let [crates, list] = SOURCES.map(|source| root.join(source));
    let folders = fs::read_dir(crates).into_iter().flatten().flatten();
    let parts = folders.flat_map(|folder| fs::read_dir(folder.path()).into_iter().flatten().flatten());
    let read = parts.filter(|part| part.file_name() != WRITTEN).map(|part| part.path());
    read.chain([list]).collect()
}

/// Whether the archive is newer than every file and folder that it is made of.
fn is_current(root: &Path, archive: &Path) -> io::Result<bool> {
    let made = fs::metadata(archive)?.modified()?;
    sources(root).iter().try_fold(true, |all, source| Ok(all && is_older(source, made)?))
}

/// Whether the path, and what is in it if it is a folder, was last changed before this time.
fn is_older(path: &Path, than: SystemTime) -> io::Result<bool> {
    let about = fs::metadata(path)?;
    if about.modified()? >= than {
        return Ok(false);
    }
    if about.is_file() {
        return Ok(true);
    }
    fs::read_dir(path)?.try_fold(true, |all, entry| Ok(all && is_older(&entry?.path(), than)?))
}

/// Runs the script in the repository's root, or says why there is no archive.
fn proved(root: &Path, name: &str) -> Result<(), String> {
    let (mut kit, lines) = started(root, name).map_err(|e| match e.kind() {
        ErrorKind::NotFound => format!("{MAKER} is not in this checkout, and only it can make the archive {name} that this program links."),
        _ => format!("'{MAKER} {name}' could not be started: {e}"),
    })?;
    let last = passed_on(name, lines);
    match kit.wait() {
        Ok(status) if status.success() => Ok(()),
        Ok(status) => Err(format!("'{MAKER} {name}' in the root of this repository failed ({status}): {last}")),
        Err(e) => Err(format!("'{MAKER} {name}' cannot be waited for: {e}")),
    }
}

/// The kit at work, and what it writes to standard output and error.
fn started(root: &Path, name: &str) -> io::Result<(Child, PipeReader)> {
    let (reader, writer) = io::pipe()?;
    let mut command = Command::new(root.join(MAKER));
    command.arg(name).current_dir(root).stdout(writer.try_clone()?).stderr(writer);
    Ok((command.spawn()?, reader))
}

/// Hands the kit's lines to cargo, which shows them with -vv, and those that name a crate also to the terminal, if there is one: cargo
/// shows nothing of a build script while it runs. The last lines are the answer.
fn passed_on(name: &str, lines: PipeReader) -> String {
    let mut terminal = File::options().write(true).open("/dev/tty").ok();
    let mut show = |line: &str| {
        eprintln!("{line}");
        // A terminal that takes no line is no reason to stop.
        let _ = terminal.as_mut().map(|terminal| writeln!(terminal, "{line}"));
    };
    show(&format!("{MAKER} {name}: a line for each crate that is proved"));
    let mut last = Vec::new();
    for line in BufReader::new(lines).lines().map_while(Result::ok) {
        if line.starts_with("crate ") {
            show(&line);
        } else {
            eprintln!("{line}");
        }
        last.push(line);
        last.drain(..last.len().saturating_sub(TOLD));
    }
    last.join(" / ")
}
